/* The calls that make a receiver, and what it plays, each with good and with bad arguments. Refused datagrams are in
 * refused_media.c, times in times.c, and jumps of the sequence number in jumps.c. */
#include "checks.h"

/* It keeps 4 packets, waits for 100 ms, and names a packet twice, 20 ms apart, at once where it notices it. */
static const gozdrit_receiver_config CONFIG = {
    .size = sizeof(gozdrit_receiver_config), .session = SESSION, .latency = 100, .nack_interval = 20, .window = 4,
    .max_nacks = 2};
static const gozdrit_receiver NONE = {NULL, 0};

typedef struct lent {
    gozdrit_received received;
    gozdrit_played played;
    gozdrit_ssrc ssrc;
    gozdrit_sequence sequence;
    gozdrit_timeout timeout;
    gozdrit_receive_counts counts;
    gozdrit_probe_counts probes;
    size_t length;
    uint8_t payload[GOZDRIT_MAX_PAYLOAD];
    uint8_t out[GOZDRIT_MAX_NACK_DATAGRAM];
} lent;

/* What the calls are lent: a pattern, and the sizes of the structs that begin with theirs. */
static void fill(lent *l) {
    FILL(*l);
    l->received.size = sizeof l->received;
    l->played.size = sizeof l->played;
    l->counts.size = sizeof l->counts;
    l->probes.size = sizeof l->probes;
}

/* Whether all of it is as it was filled. */
static bool is_filled(const lent *l) {
    lent before;
    fill(&before);
    return memcmp(&before, l, sizeof before) == 0;
}

static void test_defaults(void) {
    gozdrit_receiver_config config;
    gozdrit_receiver receiver = NONE;
    FILL(config);
    ANSWERS(GOZDRIT_OK, gozdrit_receiver_defaults(&config, sizeof config));
    CHECK(config.session.media_ssrc == 0 && config.session.rtx_ssrc == 0 && config.session.receiver_ssrc == 0);
    CHECK(config.session.media_payload_type == 0 && config.session.rtx_payload_type == 0);
    CHECK(config.size == sizeof config && config.session.any_media_payload_type == 0);
    CHECK(config.window == 512 && config.latency == 200 && config.reorder_delay == 20 && config.nack_interval == 0);
    CHECK(config.max_nacks == 16 && config.learn_rtx_ssrc == 0 && config.idle_after == 200 && config.adaptive == 0);
    CHECK(config.max_dropout == 0 && config.max_misorder == 100);
    CHECK(config.min_sequential_ahead == 2 && config.min_sequential_behind == 256);
    /* the session is still to be set */
    ANSWERS(GOZDRIT_BAD_PAYLOAD_TYPE, gozdrit_receiver_new(&config, &receiver));
    config.session = CONFIG.session;
    ANSWERS(GOZDRIT_OK, gozdrit_receiver_new(&config, &receiver));
    ANSWERS(GOZDRIT_OK, gozdrit_receiver_free(&receiver));
}

static void test_no_end(void) {
    gozdrit_receiver none = NONE;
    uint8_t packet[16];
    lent l;
    size_t length = write_rtp(packet, 96, 1, 0x11111111, "a", 1);
    fill(&l);
    ANSWERS(GOZDRIT_EMPTY_HANDLE, gozdrit_receive(&none, packet, length, 0, &l.received));
    ANSWERS(GOZDRIT_EMPTY_HANDLE, gozdrit_receive(&none, packet, 3, 0, &l.received));
    ANSWERS(GOZDRIT_EMPTY_HANDLE, gozdrit_play(&none, 0, &l.played, l.payload, sizeof l.payload));
    ANSWERS(GOZDRIT_EMPTY_HANDLE, gozdrit_play(&none, 0, &l.played, l.payload, 0));
    ANSWERS(GOZDRIT_EMPTY_HANDLE, gozdrit_nack(&none, 0, GOZDRIT_MAX_NACKED, &l.length, l.out, sizeof l.out));
    ANSWERS(GOZDRIT_EMPTY_HANDLE, gozdrit_nack(&none, 0, 0, &l.length, l.out, 0));
    ANSWERS(GOZDRIT_EMPTY_HANDLE, gozdrit_begin(&none, 1));
    ANSWERS(GOZDRIT_EMPTY_HANDLE, gozdrit_reset(&none));
    ANSWERS(GOZDRIT_EMPTY_HANDLE, gozdrit_set_times(&none, 1, 1, 1));
    ANSWERS(GOZDRIT_EMPTY_HANDLE, gozdrit_set_times(&none, 1, 1, 0));
    ANSWERS(GOZDRIT_EMPTY_HANDLE, gozdrit_missing(&none, &l.length));
    ANSWERS(GOZDRIT_EMPTY_HANDLE, gozdrit_rtx_ssrc(&none, &l.ssrc));
    ANSWERS(GOZDRIT_EMPTY_HANDLE, gozdrit_next_sequence(&none, &l.sequence));
    ANSWERS(GOZDRIT_EMPTY_HANDLE, gozdrit_highest_sequence(&none, &l.sequence));
    ANSWERS(GOZDRIT_EMPTY_HANDLE, gozdrit_next_timeout(&none, &l.timeout));
    ANSWERS(GOZDRIT_EMPTY_HANDLE, gozdrit_receiver_counts(&none, &l.counts));
    ANSWERS(GOZDRIT_EMPTY_HANDLE, gozdrit_receiver_probe_counts(&none, &l.probes));
    ANSWERS(GOZDRIT_EMPTY_HANDLE, gozdrit_receiver_free(&none));
    CHECK(is_filled(&l));
    CHECK(none.at == NULL && none.held == 0);
}

enum { SIZE = sizeof(gozdrit_receiver_config) };
#define JUMPS 0, 0, 0, 0 /* the usual numbers of a jump */

static void test_configs(void) {
    static const struct {
        gozdrit_receiver_config config;
        int32_t number;
    } rows[] = {
        {{SIZE, {1, 2, 3, 95, 97, 0}, 0, 1, 4, 1, 0, JUMPS, 0, 0, 0}, GOZDRIT_BAD_PAYLOAD_TYPE},
        {{SIZE, {1, 2, 3, 96, 128, 0}, 0, 1, 4, 1, 1, JUMPS, 0, 0, 0}, GOZDRIT_BAD_PAYLOAD_TYPE},
        {{SIZE, {1, 2, 3, 64, 97, 1}, 0, 1, 4, 1, 1, JUMPS, 0, 0, 0}, GOZDRIT_BAD_PAYLOAD_TYPE},
        {{SIZE, {1, 2, 3, 33, 34, 1}, 0, 1, 4, 1, 1, JUMPS, 0, 0, 0}, GOZDRIT_BAD_PAYLOAD_TYPE},
        /* the first check decides */
        {{SIZE, {1, 1, 3, 96, 96, 0}, 0, 0, 0, 0, 0, JUMPS, 0, 1, 0}, GOZDRIT_BAD_PAYLOAD_TYPE},
        {{SIZE, {1, 1, 3, 96, 97, 0}, 0, 1, 4, 1, 0, JUMPS, 0, 0, 0}, GOZDRIT_SAME_SSRC},
        {{SIZE, {1, 2, 1, 96, 97, 0}, 0, 1, 4, 1, 1, JUMPS, 0, 0, 0}, GOZDRIT_SAME_SSRC},
        {{SIZE, {1, 2, 2, 96, 97, 0}, 0, 0, 0, 0, 0, JUMPS, 0, 1, 0}, GOZDRIT_SAME_SSRC},
        {{SIZE, {1, 2, 3, 96, 97, 0}, 0, 1, 0, 1, 0, JUMPS, 0, 0, 0}, GOZDRIT_BAD_LIMIT},
        {{SIZE, {1, 2, 3, 96, 97, 0}, 0, 1, GOZDRIT_MAX_STORE + 1, 1, 0, JUMPS, 0, 0, 0}, GOZDRIT_BAD_LIMIT},
        {{SIZE, {1, 2, 3, 96, 97, 0}, 0, 1, UINT32_MAX, 1, 0, JUMPS, 0, 0, 0}, GOZDRIT_BAD_LIMIT},
        {{SIZE, {1, 2, 3, 96, 97, 0}, 0, 0, 4, 1, 0, JUMPS, 0, 0, 0}, GOZDRIT_OK}, /* it follows the path */
        {{SIZE, {1, 2, 3, 96, 97, 0}, 0, 0, 4, 1, 0, JUMPS, 0, 0, 3}, GOZDRIT_BAD_LIMIT},
        {{SIZE, {1, 2, 3, 96, 97, 0}, 0, 1, 4, 0, 1, JUMPS, 0, 0, 0}, GOZDRIT_BAD_LIMIT},
        {{SIZE, {1, 2, 3, 96, 97, 0}, 0, 1, 4, 1, 0, JUMPS, 0, 1, 2}, GOZDRIT_OK},
        {{SIZE, {1, 2, 3, 96, 97, 0}, 0, 1, 4, 1, 0, JUMPS, 0, 1, 3}, GOZDRIT_BAD_LIMIT},
        {{SIZE, {1, 2, 3, 96, 97, 0}, 0, 1, 4, 1, 0, JUMPS, 0, 1, 255}, GOZDRIT_BAD_LIMIT},
        {{SIZE, {1, 2, 3, 96, 97, 0}, 0, 1, 4, 1, 0, JUMPS, 0, UINT64_MAX, 0}, GOZDRIT_OK},
        {{SIZE, {1, 2, 3, 96, 97, 0}, 0, 1, 1, 1, 255, JUMPS, 0, 0, 0}, GOZDRIT_OK},
        {{SIZE, {1, 2, 3, 0, 97, 255}, 0, 1, 1, 1, 0, 1, 1, 1, 1, 0, 0, 0}, GOZDRIT_OK},
        {{SIZE, {0, 1, UINT32_MAX, 127, 96, 0}, UINT64_MAX, UINT64_MAX, GOZDRIT_MAX_STORE, 255, 0, 65535, 65535, 65535,
          65535, UINT64_MAX, 0, 0}, GOZDRIT_OK},
    };
    for (size_t i = 0; i < sizeof rows / sizeof *rows; i++) {
        gozdrit_receiver receiver = NONE;
        ANSWERS(rows[i].number, gozdrit_receiver_new(&rows[i].config, &receiver));
        const bool made = rows[i].number == GOZDRIT_OK;
        CHECK(receiver.held == made && (receiver.at != NULL) == made);
        ANSWERS(made ? GOZDRIT_OK : GOZDRIT_EMPTY_HANDLE, gozdrit_receiver_free(&receiver));
    }
}

static void test_new_twice(void) {
    gozdrit_receiver_config bad = CONFIG;
    gozdrit_receiver receiver = NONE, before;
    size_t count = 9;
    ANSWERS(GOZDRIT_OK, gozdrit_receiver_new(&CONFIG, &receiver));
    before = receiver;
    bad.session.media_payload_type = 0, bad.max_nacks = 0;
    ANSWERS(GOZDRIT_HANDLE_IN_USE, gozdrit_receiver_new(&CONFIG, &receiver));
    ANSWERS(GOZDRIT_HANDLE_IN_USE, gozdrit_receiver_new(&bad, &receiver));
    CHECK(before.at == receiver.at && before.held == receiver.held);
    HEARS_MEDIA(&receiver, 100, 0, MEDIA(65636));
    ANSWERS(GOZDRIT_OK, gozdrit_receiver_free(&receiver));
    /* from here on there is none, until one is made anew */
    CHECK(receiver.held == 0 && receiver.at == NULL);
    ANSWERS(GOZDRIT_EMPTY_HANDLE, gozdrit_receiver_free(&receiver));
    ANSWERS(GOZDRIT_EMPTY_HANDLE, gozdrit_missing(&receiver, &count));
    CHECK(count == 9);
    ANSWERS(GOZDRIT_OK, gozdrit_receiver_new(&CONFIG, &receiver));
    TELLS(&receiver, 0, 0, 0);
    CHECK(is_counted(&receiver, (gozdrit_receive_counts){.media = 0}));
    ANSWERS(GOZDRIT_OK, gozdrit_receiver_free(&receiver));
}

/* Losses, NACKs, the latency and an overrun. */
static void test_window(void) {
    gozdrit_receiver r = NONE;
    ANSWERS(GOZDRIT_OK, gozdrit_receiver_new(&CONFIG, &r));
    TELLS(&r, 0, 0, 0);
    PLAYS(&r, 0, GOZDRIT_WAIT, 0, 0);
    NACKS(&r, 0, GOZDRIT_MAX_NACKED, NO_PAIR);
    HEARS_MEDIA(&r, 100, 5, MEDIA(65636));
    TELLS(&r, 65636, 65636, 0);
    HEARS_MEDIA(&r, 102, 10, MEDIA(65638));
    TELLS(&r, 65636, 65638, 1);
    NACKS(&r, 10, GOZDRIT_MAX_NACKED, PAIR(101, 0));
    NACKS(&r, 10, GOZDRIT_MAX_NACKED, NO_PAIR);
    NACKS(&r, 29, GOZDRIT_MAX_NACKED, NO_PAIR);
    NACKS(&r, 9, GOZDRIT_MAX_NACKED, NO_PAIR); /* a time before the last NACK is not long enough after it */
    NACKS(&r, 30, GOZDRIT_MAX_NACKED, PAIR(101, 0));
    NACKS(&r, 1000, GOZDRIT_MAX_NACKED, NO_PAIR); /* it was named twice */
    PLAYS(&r, 10, GOZDRIT_PACKET, 65636, 100);
    PLAYS(&r, 109, GOZDRIT_WAIT, 0, 0);
    PLAYS(&r, 9, GOZDRIT_WAIT, 0, 0);
    PLAYS(&r, 110, GOZDRIT_GAP, 65637, 0);
    PLAYS(&r, 110, GOZDRIT_PACKET, 65638, 102);
    TELLS(&r, 65639, 65638, 0);
    PLAYS(&r, UINT64_MAX, GOZDRIT_WAIT, 0, 0);
    /* 110 leaves room for 107 to 109 below it, so 103 to 106 are overrun */
    HEARS_MEDIA(&r, 110, 200, OVERRUNS(65646, 4));
    TELLS(&r, 65643, 65646, 3);
    HEARS_MEDIA(&r, 114, 300, OVERRUNS(65650, 4));
    TELLS(&r, 65647, 65650, 3);
    NACKS(&r, 300, GOZDRIT_MAX_NACKED, PAIR(111, 3));
    CHECK(is_counted(&r, (gozdrit_receive_counts){.media = 4, .overrun = 8, .played = 2, .gaps = 1, .nacks = 3,
                                                  .nacked = 5}));
    ANSWERS(GOZDRIT_OK, gozdrit_receiver_free(&r));
}

/* A packet with everything is played with everything, and nothing behind its counts is written. */
static void test_header(void) {
    static const uint8_t packet[] = {0xb2, 0xe0, 0,    100,  1,    2,    3,    4,    0x11, 0x11, 0x11, 0x11,
                                     0xa1, 0xa2, 0xa3, 0xa4, 0xb1, 0xb2, 0xb3, 0xb4, 0xbe, 0xde, 0,    1,
                                     0xc1, 0xc2, 0xc3, 0xc4, 0xd1, 0xd2, 0xd3, 0,    0,    0,    4};
    gozdrit_receiver r = NONE;
    lent l;
    const gozdrit_header *h = &l.played.header;
    fill(&l);
    ANSWERS(GOZDRIT_OK, gozdrit_receiver_new(&CONFIG, &r));
    HEARS(&r, packet, sizeof packet, 0, MEDIA(65636));
    ANSWERS(GOZDRIT_NO_ROOM, gozdrit_play(&r, 0, &l.played, l.payload, 2));
    CHECK(is_filled(&l));
    ANSWERS(GOZDRIT_OK, gozdrit_play(&r, 0, &l.played, l.payload, sizeof l.payload));
    CHECK(l.played.kind == GOZDRIT_PACKET && l.played.sequence == 65636 && l.played.length == 3);
    CHECK(memcmp(l.payload, packet + 28, 3) == 0 && is_pattern(l.payload + 3, sizeof l.payload - 3));
    CHECK(h->timestamp == 0x01020304 && h->marker == 1 && h->csrc_count == 2);
    CHECK(h->csrcs[0] == 0xa1a2a3a4 && h->csrcs[1] == 0xb1b2b3b4 && is_pattern(h->csrcs + 2, 13 * 4));
    CHECK(h->has_extension == 1 && h->extension_profile == 0xbede && h->extension_words == 1);
    CHECK(h->extension[0] == 0xc1c2c3c4 && is_pattern(h->extension + 1, 15 * 4));
    ANSWERS(GOZDRIT_OK, gozdrit_receiver_free(&r));
}

/* An empty payload needs no room, and the longest one just its length. */
static void test_lengths(void) {
    static const uint8_t payload[GOZDRIT_MAX_PAYLOAD] = {7};
    uint8_t packet[12 + sizeof payload];
    gozdrit_receiver r = NONE;
    lent l;
    fill(&l);
    ANSWERS(GOZDRIT_OK, gozdrit_receiver_new(&CONFIG, &r));
    HEARS(&r, packet, write_rtp(packet, 96, 100, 0x11111111, payload, 0), 0, MEDIA(65636));
    HEARS(&r, packet, write_rtp(packet, 96, 101, 0x11111111, payload, sizeof payload), 0, MEDIA(65637));
    ANSWERS(GOZDRIT_OK, gozdrit_play(&r, 0, &l.played, NULL, 0));
    CHECK(l.played.kind == GOZDRIT_PACKET && l.played.sequence == 65636 && l.played.length == 0);
    fill(&l);
    ANSWERS(GOZDRIT_NO_ROOM, gozdrit_play(&r, 0, &l.played, l.payload, sizeof payload - 1));
    CHECK(is_filled(&l));
    ANSWERS(GOZDRIT_OK, gozdrit_play(&r, 0, &l.played, l.payload, sizeof payload));
    CHECK(l.played.sequence == 65637 && l.played.length == sizeof payload);
    CHECK(memcmp(l.payload, payload, sizeof payload) == 0);
    ANSWERS(GOZDRIT_OK, gozdrit_receiver_free(&r));
}

void test_receiver(void) {
    test_defaults();
    test_no_end();
    test_configs();
    test_new_twice();
    test_window();
    test_header();
    test_lengths();
}
