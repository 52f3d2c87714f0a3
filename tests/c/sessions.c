/* Whole sessions: packets of every shape, of which many are lost on their way, as is feedback, until all is played. */
#include "checks.h"

enum { PACKETS = 2000, ROUND = 8 };

typedef struct session {
    gozdrit_sender sender;
    gozdrit_receiver receiver;
    uint64_t first;   /* the extended sequence number of the first packet */
    uint32_t drawn;   /* the state of the generator of losses */
    uint32_t loss;    /* of 1000 datagrams so many are lost */
    bool is_last_lost;
    uint64_t now, octets;
    uint32_t played, repairs, nacks, nacked;
} session;

static bool is_lost(session *s) {
    s->drawn = s->drawn * 1664525 + 1013904223;
    return (s->drawn >> 16) % 1000 < s->loss;
}

/* What the packet of this index carries. Its payload's length is answered. */
static size_t content(uint32_t index, gozdrit_header *header, uint8_t *payload) {
    const size_t length = index * 37 % (GOZDRIT_MAX_PAYLOAD + 1);
    memset(header, 0, sizeof *header);
    header->timestamp = index * 3000 + 5;
    header->marker = index % 3 == 0;
    header->csrc_count = (uint8_t)(index % (GOZDRIT_MAX_CSRCS + 1));
    header->has_extension = index % 2;
    for (uint32_t i = 0; i < header->csrc_count; i++) header->csrcs[i] = index * 7 + i;
    if (header->has_extension) {
        header->extension_profile = (uint16_t)(index * 5);
        header->extension_words = (uint8_t)(index % (GOZDRIT_MAX_EXTENSION_WORDS + 1));
        for (uint32_t i = 0; i < header->extension_words; i++) header->extension[i] = index * 11 + i;
    }
    for (size_t i = 0; i < length; i++) payload[i] = (uint8_t)(index + i * 13);
    return length;
}

/* Sends the packet of an index; the first one is never lost, and the last one is or is not. */
static void send_packet(session *s, uint32_t index) {
    gozdrit_header header;
    gozdrit_sent sent = GOZDRIT_SENT_INIT;
    uint8_t payload[GOZDRIT_MAX_PAYLOAD], out[GOZDRIT_MAX_DATAGRAM];
    const size_t length = content(index, &header, payload);
    const uint8_t padding = length > 0 && index % 5 == 0 ? (uint8_t)(index % 256) : 0;
    ANSWERS(GOZDRIT_OK, gozdrit_send(&s->sender, &header, payload, length, padding, &sent, out, sizeof out));
    CHECK(sent.sequence == s->first + index);
    s->octets += length;
    if (index == PACKETS - 1 ? s->is_last_lost : is_lost(s) && index > 0) return;
    HEARS(&s->receiver, out, sent.length, s->now, MEDIA(sent.sequence));
}

/* The receiver names what it misses, and the sender hears it. */
static void ask(session *s) {
    uint8_t out[GOZDRIT_MAX_NACK_DATAGRAM];
    size_t length;
    gozdrit_outcome outcome;
    for (;;) {
        FILL_SIZED(outcome);
        ANSWERS(GOZDRIT_OK, gozdrit_nack(&s->receiver, s->now, 100, &length, out, sizeof out));
        if (length == 0) return;
        if (is_lost(s)) continue;
        ANSWERS(GOZDRIT_OK, gozdrit_feedback(&s->sender, out, length, &outcome));
        CHECK(outcome.kind == GOZDRIT_FEEDBACK && outcome.nacks == 1 && outcome.other_nacks == 0 && outcome.nacked <= 100);
        CHECK(outcome.queued > 0 && outcome.queued <= outcome.nacked && outcome.not_in_history == 0
              && outcome.exhausted == 0);
        s->nacks++;
        s->nacked += outcome.nacked;
    }
}

/* The sender retransmits, and the receiver takes it, once each. */
static void repair(session *s) {
    uint8_t out[GOZDRIT_MAX_DATAGRAM];
    for (;;) {
        gozdrit_sent sent;
        gozdrit_received received;
        FILL_SIZED(sent);
        FILL_SIZED(received);
        ANSWERS(GOZDRIT_OK, gozdrit_retransmit(&s->sender, &sent, out, sizeof out));
        if (sent.length == 0) return;
        s->repairs++;
        CHECK((out[0] & 0x20) == 0); /* it has no padding, whether the original had or not */
        if (is_lost(s)) continue;
        ANSWERS(GOZDRIT_OK, gozdrit_receive(&s->receiver, out, sent.length, s->now, &received));
        CHECK(received.kind == GOZDRIT_RETRANSMISSION && received.sequence == sent.sequence && received.overrun == 0);
    }
}

/* Plays what can be played, and compares each packet with what was sent. */
static void play(session *s) {
    for (;;) {
        gozdrit_played played;
        gozdrit_header sent, *came = &played.header;
        uint8_t payload[GOZDRIT_MAX_PAYLOAD], expected[GOZDRIT_MAX_PAYLOAD];
        FILL_SIZED(played);
        ANSWERS(GOZDRIT_OK, gozdrit_play(&s->receiver, s->now, &played, payload, sizeof payload));
        if (played.kind == GOZDRIT_WAIT) return;
        const size_t length = content(s->played, &sent, expected);
        CHECK(played.kind == GOZDRIT_PACKET && played.sequence == s->first + s->played);
        CHECK(played.length == length && memcmp(payload, expected, length) == 0);
        CHECK(came->timestamp == sent.timestamp && came->marker == sent.marker);
        CHECK(came->csrc_count == sent.csrc_count);
        CHECK(memcmp(came->csrcs, sent.csrcs, sent.csrc_count * sizeof *sent.csrcs) == 0);
        CHECK(came->has_extension == sent.has_extension && came->extension_words == sent.extension_words);
        CHECK(!sent.has_extension || came->extension_profile == sent.extension_profile);
        CHECK(memcmp(came->extension, sent.extension, sent.extension_words * sizeof *sent.extension) == 0);
        s->played++;
    }
}

/* The time to go on at, where nothing comes until then: all that could be done now was done. */
static uint64_t next_time(const session *s) {
    gozdrit_timeout timeout;
    ANSWERS(GOZDRIT_OK, gozdrit_next_timeout(&s->receiver, &timeout));
    if (!timeout.known) return s->now + 1;
    CHECK(timeout.time > s->now);
    return timeout.time;
}

/* A sender that falls silent probes with its last packet, as long as the receiver does not know of it. */
static void probe(session *s) {
    gozdrit_sequence highest;
    uint32_t queued;
    ANSWERS(GOZDRIT_OK, gozdrit_highest_sequence(&s->receiver, &highest));
    if (highest.sequence == s->first + PACKETS - 1) return;
    ANSWERS(GOZDRIT_OK, gozdrit_tail_loss_probe(&s->sender, &queued));
    CHECK(queued == 1);
}

/* All packets are sent, and then all that is lost is repaired, to the last one. */
static void run_to_end(session *s) {
    for (uint32_t i = 0; i < PACKETS; i++, s->now++) {
        send_packet(s, i);
        if (i % ROUND == 0) ask(s), repair(s);
        play(s);
    }
    for (int i = 0; i < 1000 && s->played < PACKETS; i++) {
        ask(s);
        probe(s);
        play(s);
        s->now = next_time(s);
        repair(s);
        play(s);
    }
    CHECK(s->played == PACKETS);
}

static void is_all_counted(const session *s) {
    gozdrit_receive_counts c;
    gozdrit_send_counts sent;
    FILL_SIZED(c);
    FILL_SIZED(sent);
    ANSWERS(GOZDRIT_OK, gozdrit_receiver_counts(&s->receiver, &c));
    ANSWERS(GOZDRIT_OK, gozdrit_sender_counts(&s->sender, &sent));
    CHECK(c.media + c.retransmissions == PACKETS && c.played == PACKETS && c.gaps == 0);
    CHECK(c.duplicate + c.late + c.too_far + c.refused + c.rtcp + c.held_back + c.restarts + c.overrun + c.abandoned == 0);
    CHECK(c.nacks >= s->nacks && c.nacked >= s->nacked);
    CHECK(sent.sent == PACKETS && sent.octets == s->octets && sent.retransmissions == s->repairs);
    CHECK(sent.nacks == s->nacks && sent.nacked == s->nacked);
    CHECK(sent.other_nacks + sent.not_in_history + sent.exhausted + sent.media + sent.reports + sent.refused == 0);
}

/* A run with so many of 1000 datagrams lost, a receiver that learns or does not, and this type of the media. */
static void run(uint32_t loss, uint8_t learn_rtx_ssrc, uint32_t seed, uint8_t type) {
    gozdrit_sender_config sending;
    gozdrit_receiver_config receiving;
    session s = {.first = 65536 + 65000, .drawn = seed, .loss = loss, .is_last_lost = loss > 0 && !learn_rtx_ssrc};
    const gozdrit_session streams = {0x11111111, 0x22222222, 0x33333333, type, 97, type < 96};
    ANSWERS(GOZDRIT_OK, gozdrit_sender_defaults(&sending, sizeof sending));
    ANSWERS(GOZDRIT_OK, gozdrit_receiver_defaults(&receiving, sizeof receiving));
    sending.session = streams, sending.first_sequence = 65000, sending.rtx_first_sequence = 65500;
    sending.max_retransmissions = 255;
    receiving.session = streams, receiving.latency = 1000000, receiving.window = 1024, receiving.max_nacks = 255;
    receiving.nack_interval = 3, receiving.reorder_delay = 2, receiving.learn_rtx_ssrc = learn_rtx_ssrc;
    ANSWERS(GOZDRIT_OK, gozdrit_sender_new(&sending, &s.sender));
    ANSWERS(GOZDRIT_OK, gozdrit_receiver_new(&receiving, &s.receiver));
    run_to_end(&s);
    CHECK((s.repairs > 0) == (loss > 0));
    TELLS(&s.receiver, s.first + PACKETS, s.first + PACKETS - 1, 0);
    is_all_counted(&s);
    ANSWERS(GOZDRIT_OK, gozdrit_sender_free(&s.sender));
    ANSWERS(GOZDRIT_OK, gozdrit_receiver_free(&s.receiver));
}

void test_sessions(void) {
    run(0, 0, 1, 96);
    run(100, 0, 2, 33);
    run(300, 1, 3, 127);
    run(500, 0, 4, 96);
}
