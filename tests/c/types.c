/* Several payload types under one SSRC: datagrams octet by octet, what is refused, and a whole session with losses. */
#include "checks.h"

enum { ROOM = 64, PACKETS = 1500 };

/* A codec, events of a telephone and comfort noise, each with its retransmissions. */
static const uint8_t TYPES[] = {96, 97, 101, 102, 13, 103};
enum { PAIRS = sizeof TYPES / 2 };

#define HEAD(first, type) first, type, 0, 7, 0, 0, 0, 160, 0x11, 0x11, 0x11, 0x11

/* On the network, and as a session of the first pair has them. */
static const struct {
    size_t length, entered;
    uint8_t network[20], session[20];
} ROWS[] = {
    {13, 14, {HEAD(0x80, 96), 'x'}, {HEAD(0x80, 96), 'x', 96}},
    {14, 15, {HEAD(0x80, 0x80 + 101), 1, 2}, {HEAD(0x80, 0x80 + 96), 1, 2, 101}},
    {12, 13, {HEAD(0x80, 13)}, {HEAD(0x80, 96), 13}},
    {15, 16, {HEAD(0x80, 102), 0, 9, 5}, {HEAD(0x80, 97), 0, 9, 5, 101}},
    {14, 15, {HEAD(0x80, 103), 0, 9}, {HEAD(0x80, 97), 0, 9, 13}},
};

/* What stays as it is: a type of none, a NACK, a retransmission without its original's number, what is no packet. */
static const struct {
    size_t length;
    uint8_t octets[20];
} OTHERS[] = {
    {13, {HEAD(0x80, 98), 'x'}},
    {16, {0x81, 205, 0, 3, 0x33, 0x33, 0x33, 0x33, 0x11, 0x11, 0x11, 0x11, 0, 7, 0, 0}},
    {13, {HEAD(0x80, 102), 0}},
    {11, {0x80, 96, 0, 7}},
    {0, {0}},
};

/* A call in a room that has a pattern behind the datagram. */
typedef int32_t call(const uint8_t *, size_t, uint8_t *, size_t, size_t, size_t *);

static void becomes(call *changes, const uint8_t *from, size_t length, const uint8_t *to, size_t whole) {
    uint8_t room[ROOM];
    size_t told = 0;
    memset(room, PATTERN, sizeof room);
    memcpy(room, from, length);
    ANSWERS(GOZDRIT_OK, changes(TYPES, sizeof TYPES, room, sizeof room, length, &told));
    CHECK(told == whole && memcmp(room, to, whole) == 0);
    whole = length > whole ? length : whole;
    CHECK(is_pattern(room + whole, sizeof room - whole));
}

static void test_octets(void) {
    static const uint8_t padded[] = {HEAD(0xa0, 101), 5, 0, 0, 3}, plain[] = {HEAD(0x80, 96), 5, 101};
    static const uint8_t probe[] = {HEAD(0xa0, 101), 0, 0, 0, 4}, empty[] = {HEAD(0x80, 96), 101};
    for (size_t i = 0; i < sizeof ROWS / sizeof *ROWS; i++) {
        becomes(gozdrit_types_enter, ROWS[i].network, ROWS[i].length, ROWS[i].session, ROWS[i].entered);
        becomes(gozdrit_types_leave, ROWS[i].session, ROWS[i].entered, ROWS[i].network, ROWS[i].length);
    }
    for (size_t i = 0; i < sizeof OTHERS / sizeof *OTHERS; i++) {
        becomes(gozdrit_types_enter, OTHERS[i].octets, OTHERS[i].length, OTHERS[i].octets, OTHERS[i].length);
        becomes(gozdrit_types_leave, OTHERS[i].octets, OTHERS[i].length, OTHERS[i].octets, OTHERS[i].length);
    }
    becomes(gozdrit_types_enter, padded, sizeof padded, plain, sizeof plain);
    becomes(gozdrit_types_enter, probe, sizeof probe, empty, sizeof empty);
}

/* A refusal leaves all as it was. */
static void refuses(int32_t number, call *changes, const uint8_t *types, size_t count, const uint8_t *from, size_t room, size_t length) {
    static uint8_t lent[GOZDRIT_MAX_DATAGRAM], before[GOZDRIT_MAX_DATAGRAM];
    size_t told;
    FILL(told);
    memset(lent, PATTERN, sizeof lent);
    memcpy(lent, from, length);
    memcpy(before, lent, sizeof lent);
    ANSWERS(number, changes(types, count, lent, room, length, &told));
    CHECK(UNTOUCHED(told) && memcmp(lent, before, sizeof lent) == 0);
}

static void test_refusals(call *changes) {
    static const uint8_t many[34] = {0}, odd[] = {96, 97, 98}, control[] = {64, 97}, fixed[] = {96, 95}, twice[] = {96, 97, 97, 98};
    static const uint8_t both[] = {96, 97, 96, 97, 64, 99}, packet[] = {HEAD(0x80, 96), 'x', 96};
    const size_t length = sizeof packet;
    refuses(GOZDRIT_TYPES_COUNT, changes, TYPES, 0, packet, ROOM, length);
    refuses(GOZDRIT_TYPES_COUNT, changes, NULL, 0, packet, ROOM, length);
    refuses(GOZDRIT_TYPES_COUNT, changes, odd, sizeof odd, packet, ROOM, length);
    refuses(GOZDRIT_TYPES_COUNT, changes, many, sizeof many, packet, ROOM, length);
    refuses(GOZDRIT_TYPES_RANGE, changes, control, sizeof control, packet, ROOM, length);
    refuses(GOZDRIT_TYPES_RANGE, changes, fixed, sizeof fixed, packet, ROOM, length);
    refuses(GOZDRIT_TYPES_TWICE, changes, twice, sizeof twice, packet, ROOM, length);
    refuses(GOZDRIT_TYPES_RANGE, changes, both, sizeof both, packet, ROOM, length);
    /* The types come before the room. */
    refuses(GOZDRIT_TYPES_TWICE, changes, twice, sizeof twice, packet, length - 1, length);
    refuses(GOZDRIT_NO_ROOM, changes, TYPES, sizeof TYPES, packet, length - 1, length);
}

static void test_limits(void) {
    static uint8_t packet[GOZDRIT_MAX_DATAGRAM] = {HEAD(0x80, 101)};
    static const uint8_t none[] = {HEAD(0x80, 96)}, strange[] = {HEAD(0x80, 96), 'x', 98}, repair[] = {HEAD(0x80, 97), 0, 9};
    static const uint8_t small[] = {HEAD(0x80, 101), 'x'};
    size_t told = 0;
    refuses(GOZDRIT_TOO_LONG, gozdrit_types_enter, TYPES, sizeof TYPES, packet, sizeof packet, 12 + GOZDRIT_MAX_PAYLOAD);
    refuses(GOZDRIT_NO_ROOM, gozdrit_types_enter, TYPES, sizeof TYPES, small, sizeof small, sizeof small);
    refuses(GOZDRIT_NO_TYPE, gozdrit_types_leave, TYPES, sizeof TYPES, none, ROOM, sizeof none);
    refuses(GOZDRIT_NO_TYPE, gozdrit_types_leave, TYPES, sizeof TYPES, strange, ROOM, sizeof strange);
    refuses(GOZDRIT_NO_TYPE, gozdrit_types_leave, TYPES, sizeof TYPES, repair, ROOM, sizeof repair);
    ANSWERS(GOZDRIT_OK, gozdrit_types_enter(TYPES, sizeof TYPES, packet, sizeof packet, 12 + GOZDRIT_MAX_PAYLOAD - 1, &told));
    CHECK(told == 12 + GOZDRIT_MAX_PAYLOAD && packet[1] == 96 && packet[told - 1] == 101);
}

static void test_null_pointers(call *changes) {
    uint8_t room[ROOM] = {0};
    size_t told;
    FILL(told);
    ANSWERS(GOZDRIT_NULL, changes(NULL, 2, room, sizeof room, 12, &told));
    ANSWERS(GOZDRIT_NULL, changes(TYPES, sizeof TYPES, NULL, sizeof room, 12, &told));
    ANSWERS(GOZDRIT_NULL, changes(TYPES, sizeof TYPES, room, sizeof room, 12, NULL));
    CHECK(UNTOUCHED(told));
    ANSWERS(GOZDRIT_OK, changes(TYPES, sizeof TYPES, NULL, 0, 0, &told));
    CHECK(told == 0);
}

/* ---- drawn packets: each enters as a packet of the first pair, and leaves as it came, but for padding */

enum { DRAWN = 200000 };

static uint32_t draw(uint32_t *state, uint32_t below) {
    *state = *state * 1664525 + 1013904223;
    return (*state >> 8) % below;
}

/* A packet of any shape, and of a type of the pairs as often as not. */
static gozdrit_packet drawn_packet(uint32_t *state, uint8_t *payload) {
    gozdrit_packet p = {.header = {.timestamp = draw(state, 1 << 24), .marker = (uint8_t)draw(state, 2)}, .ssrc = draw(state, 1 << 24)};
    p.payload_type = draw(state, 2) ? TYPES[draw(state, sizeof TYPES)] : (uint8_t)draw(state, 128);
    p.sequence = (uint16_t)draw(state, 65536);
    p.header.csrc_count = (uint8_t)draw(state, 3);
    p.header.has_extension = draw(state, 3) == 0;
    p.header.extension_words = (uint8_t)(p.header.has_extension ? draw(state, 4) : 0);
    p.length = draw(state, 60);
    p.padding = (uint8_t)(p.length > 0 && draw(state, 4) == 0 ? 1 + draw(state, 40) : 0);
    for (size_t i = 0; i < p.length; i++) payload[i] = (uint8_t)draw(state, 256);
    return p;
}

/* The type of the media that a packet is or repeats; none: -1. */
static int media_type_of(const gozdrit_packet *p) {
    for (size_t i = 0; i < sizeof TYPES; i += 2)
        if (p->payload_type == TYPES[i] || (p->payload_type == TYPES[i + 1] && p->length >= 2)) return TYPES[i];
    return -1;
}

static void test_drawn(void) {
    uint32_t state = 1, entered = 0;
    for (int i = 0; i < DRAWN; i++) {
        uint8_t payload[64], octets[512], bare[512];
        gozdrit_packet p = drawn_packet(&state, payload), q;
        const int media = media_type_of(&p);
        size_t length, plain, there, back;
        ANSWERS(GOZDRIT_OK, gozdrit_rtp_write(&p, payload, p.length, &length, octets, sizeof octets));
        p.padding = 0;
        ANSWERS(GOZDRIT_OK, gozdrit_rtp_write(&p, payload, p.length, &plain, bare, sizeof bare));
        ANSWERS(GOZDRIT_OK, gozdrit_types_enter(TYPES, sizeof TYPES, octets, sizeof octets, length, &there));
        if (media < 0) {
            CHECK(there == length);
            continue;
        }
        entered++;
        ANSWERS(GOZDRIT_OK, gozdrit_rtp_read(octets, there, &q));
        CHECK(there == plain + 1 && octets[there - 1] == media && q.length == p.length + 1 && q.padding == 0);
        CHECK(q.payload_type == (p.payload_type == media ? 96 : 97) && q.ssrc == p.ssrc && q.sequence == p.sequence);
        ANSWERS(GOZDRIT_OK, gozdrit_types_leave(TYPES, sizeof TYPES, octets, sizeof octets, there, &back));
        CHECK(back == plain && memcmp(octets, bare, plain) == 0);
    }
    CHECK(entered > DRAWN / 3);
}

/* Octets that need be no packet: what is neither refused as too long nor a packet of the pairs stays as it was, and nothing behind it changes. */
static void test_octets_at_random(call *changes) {
    uint32_t state = 7;
    for (int i = 0; i < DRAWN; i++) {
        uint8_t octets[96], before[96];
        const size_t length = draw(&state, 80);
        size_t told = 0;
        memset(octets, PATTERN, sizeof octets);
        for (size_t at = 0; at < length; at++) octets[at] = (uint8_t)draw(&state, 256);
        if (length > 1 && draw(&state, 2)) octets[0] = (uint8_t)(0x80 | draw(&state, 64)), octets[1] = TYPES[draw(&state, sizeof TYPES)];
        memcpy(before, octets, sizeof octets);
        const int32_t number = changes(TYPES, sizeof TYPES, octets, sizeof octets, length, &told);
        CHECK(number == GOZDRIT_OK || ((number == GOZDRIT_TOO_LONG || number == GOZDRIT_NO_TYPE) && memcmp(octets, before, sizeof octets) == 0));
        CHECK(number != GOZDRIT_OK || told <= length + 1);
        CHECK(is_pattern(octets + length + 1, sizeof octets - length - 1));
    }
}

/* ---- a session in which one in four datagrams is lost */

typedef struct ends {
    gozdrit_sender sender;
    gozdrit_receiver receiver;
    uint32_t drawn, played, repaired;
} ends;

static bool is_lost(ends *e) {
    e->drawn = e->drawn * 1664525 + 1013904223;
    return (e->drawn >> 16) % 4 == 0;
}

static uint8_t media_of(uint32_t at) { return TYPES[at * 7 % PAIRS * 2]; }

static uint8_t rtx_of(uint32_t at) { return TYPES[at * 7 % PAIRS * 2 + 1]; }

static size_t length_of(uint32_t at) { return at * 37 % GOZDRIT_MAX_PAYLOAD; }

/* What is on the network has the type that is wanted, and enters the session. */
static void hears_it(ends *e, uint8_t *out, size_t length, uint8_t type, uint64_t now) {
    gozdrit_received received;
    size_t whole = 0, entered = 0;
    ANSWERS(GOZDRIT_OK, gozdrit_types_leave(TYPES, sizeof TYPES, out, GOZDRIT_MAX_DATAGRAM, length, &whole));
    CHECK(whole == length - 1 && (out[1] & 127) == type);
    if (e->drawn && is_lost(e)) return;
    ANSWERS(GOZDRIT_OK, gozdrit_types_enter(TYPES, sizeof TYPES, out, GOZDRIT_MAX_DATAGRAM, whole, &entered));
    FILL_SIZED(received);
    ANSWERS(GOZDRIT_OK, gozdrit_receive(&e->receiver, out, entered, now, &received));
}

static void sends(ends *e, uint32_t at) {
    const gozdrit_header header = {.timestamp = at * 160, .marker = at % 3 == 0};
    gozdrit_sent sent = GOZDRIT_SENT_INIT;
    uint8_t payload[GOZDRIT_MAX_PAYLOAD], out[GOZDRIT_MAX_DATAGRAM];
    const size_t length = length_of(at);
    memset(payload, (uint8_t)at, length);
    payload[length] = media_of(at);
    ANSWERS(GOZDRIT_OK, gozdrit_send(&e->sender, &header, payload, length + 1, 0, &sent, out, sizeof out));
    hears_it(e, out, sent.length, media_of(at), at);
}

static void repairs(ends *e, uint64_t now) {
    uint8_t out[GOZDRIT_MAX_DATAGRAM];
    size_t length;
    for (;;) {
        gozdrit_outcome outcome = GOZDRIT_OUTCOME_INIT;
        ANSWERS(GOZDRIT_OK, gozdrit_nack(&e->receiver, now, 16, &length, out, GOZDRIT_MAX_NACK_DATAGRAM));
        if (length == 0) break;
        ANSWERS(GOZDRIT_OK, gozdrit_feedback(&e->sender, out, length, &outcome));
    }
    for (;;) {
        gozdrit_sent sent = GOZDRIT_SENT_INIT;
        ANSWERS(GOZDRIT_OK, gozdrit_retransmit(&e->sender, &sent, out, sizeof out));
        if (sent.length == 0) break;
        e->repaired++;
        hears_it(e, out, sent.length, rtx_of((uint32_t)(sent.sequence - 65536 - 1)), now);
    }
}

static void plays_all(ends *e, uint64_t now) {
    uint8_t payload[GOZDRIT_MAX_PAYLOAD], wanted[GOZDRIT_MAX_PAYLOAD];
    for (;;) {
        gozdrit_played played = GOZDRIT_PLAYED_INIT;
        ANSWERS(GOZDRIT_OK, gozdrit_play(&e->receiver, now, &played, payload, sizeof payload));
        if (played.kind != GOZDRIT_PACKET) break;
        const uint32_t at = (uint32_t)(played.sequence - 65536 - 1);
        const size_t length = length_of(at);
        memset(wanted, (uint8_t)at, length);
        CHECK(at == e->played && played.length == length + 1);
        CHECK(payload[length] == media_of(at) && memcmp(payload, wanted, length) == 0);
        e->played++;
    }
}

static void test_session(void) {
    ends e = {{NULL, 0}, {NULL, 0}, 0, 0, 0};
    gozdrit_sender_config sending;
    gozdrit_receiver_config receiving;
    const gozdrit_session session = SESSION;
    ANSWERS(GOZDRIT_OK, gozdrit_sender_defaults(&sending, sizeof sending));
    ANSWERS(GOZDRIT_OK, gozdrit_receiver_defaults(&receiving, sizeof receiving));
    sending.session = session, sending.first_sequence = 1, sending.max_retransmissions = 255;
    receiving.session = session, receiving.latency = 1000000, receiving.window = 1024, receiving.max_nacks = 255;
    receiving.nack_interval = 3, receiving.reorder_delay = 2;
    ANSWERS(GOZDRIT_OK, gozdrit_sender_new(&sending, &e.sender));
    ANSWERS(GOZDRIT_OK, gozdrit_receiver_new(&receiving, &e.receiver));
    for (uint32_t at = 0; at < PACKETS; at++) {
        sends(&e, at);
        e.drawn = at == PACKETS - 2 ? 0 : e.drawn | 1; /* the first and the last one come */
        if (at % 8 == 7) repairs(&e, at);
        plays_all(&e, at);
    }
    for (uint64_t now = PACKETS; now < PACKETS + 400; now += 10) {
        repairs(&e, now);
        plays_all(&e, now);
    }
    CHECK(e.played == PACKETS && e.repaired > PACKETS / 8);
    ANSWERS(GOZDRIT_OK, gozdrit_sender_free(&e.sender));
    ANSWERS(GOZDRIT_OK, gozdrit_receiver_free(&e.receiver));
}

void test_types(void) {
    test_octets();
    test_refusals(gozdrit_types_enter);
    test_refusals(gozdrit_types_leave);
    test_limits();
    test_null_pointers(gozdrit_types_enter);
    test_null_pointers(gozdrit_types_leave);
    test_drawn();
    test_octets_at_random(gozdrit_types_enter);
    test_octets_at_random(gozdrit_types_leave);
    test_session();
}
