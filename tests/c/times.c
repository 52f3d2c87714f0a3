/* When a receiver names what it misses, when it gives it up, and when it is to be called; and how much one NACK names. */
#include "checks.h"

/* It waits for 100 ms, and names a packet twice, 30 ms after its notice and 20 ms after that. */
static const gozdrit_receiver_config CONFIG = {
    .size = sizeof(gozdrit_receiver_config), .session = SESSION, .latency = 100, .nack_interval = 20, .window = 16,
    .max_nacks = 2, .reorder_delay = 30};

/* A receiver that took 100 at 0 and 103 at 10, and so misses 101 and 102. */
static gozdrit_receiver missing_two(void) {
    gozdrit_receiver r = {NULL, 0};
    ANSWERS(GOZDRIT_OK, gozdrit_receiver_new(&CONFIG, &r));
    CALLS_AT(&r, false, 0);
    HEARS_MEDIA(&r, 100, 0, MEDIA(65636));
    HEARS_MEDIA(&r, 103, 10, MEDIA(65639));
    CALLS_AT(&r, true, 0); /* one is held, and can be played at any time */
    PLAYS(&r, 0, GOZDRIT_PACKET, 65636, 100);
    return r;
}

static void test_delay(void) {
    gozdrit_receiver r = missing_two();
    CALLS_AT(&r, true, 40);
    NACKS(&r, 9, GOZDRIT_MAX_NACKED, NO_PAIR);
    NACKS(&r, 39, GOZDRIT_MAX_NACKED, NO_PAIR);
    NACKS(&r, 40, GOZDRIT_MAX_NACKED, PAIR(101, 1));
    CALLS_AT(&r, true, 60);
    NACKS(&r, 59, GOZDRIT_MAX_NACKED, NO_PAIR);
    NACKS(&r, 60, 0, NO_PAIR);
    NACKS(&r, 60, 1, PAIR(101, 0));
    CALLS_AT(&r, true, 60); /* 102 is due still */
    NACKS(&r, 61, SIZE_MAX, PAIR(102, 0));
    CALLS_AT(&r, true, 110); /* both were named twice, so the latency is what is left */
    PLAYS(&r, 109, GOZDRIT_WAIT, 0, 0);
    PLAYS(&r, 110, GOZDRIT_GAP, 65637, 0);
    CALLS_AT(&r, true, 110);
    PLAYS(&r, 110, GOZDRIT_GAP, 65638, 0);
    CALLS_AT(&r, true, 0);
    PLAYS(&r, 0, GOZDRIT_PACKET, 65639, 103);
    CALLS_AT(&r, false, 0);
    CHECK(is_counted(&r, (gozdrit_receive_counts){.media = 2, .played = 2, .gaps = 2, .nacks = 3, .nacked = 4}));
    ANSWERS(GOZDRIT_OK, gozdrit_receiver_free(&r));
}

/* A NACK that has more room than it needs leaves the rest of it, and a packet that is given up needs none. */
static void test_room(void) {
    gozdrit_receiver r = missing_two();
    gozdrit_played played = GOZDRIT_PLAYED_INIT;
    uint8_t out[GOZDRIT_MAX_NACK_DATAGRAM], nack[NACK_LENGTH];
    size_t length;
    FILL(out);
    write_nack(nack, 0x33333333, 0x11111111, 101, 1);
    ANSWERS(GOZDRIT_OK, gozdrit_nack(&r, 40, GOZDRIT_MAX_NACKED, &length, out, sizeof out));
    CHECK(length == sizeof nack && memcmp(out, nack, sizeof nack) == 0);
    CHECK(is_pattern(out + sizeof nack, sizeof out - sizeof nack));
    ANSWERS(GOZDRIT_OK, gozdrit_play(&r, 110, &played, NULL, 0));
    CHECK(played.kind == GOZDRIT_GAP && played.sequence == 65637);
    ANSWERS(GOZDRIT_OK, gozdrit_receiver_free(&r));
}

/* New times hold of what was noticed and named before. */
static void test_set_times(void) {
    gozdrit_receiver r = missing_two();
    const state before = state_of(&r);
    ANSWERS(GOZDRIT_BAD_LIMIT, gozdrit_set_times(&r, 1, 1, 0));
    const state after = state_of(&r);
    CHECK(is_same_state(&before, &after));
    NACKS(&r, 39, GOZDRIT_MAX_NACKED, NO_PAIR);
    ANSWERS(GOZDRIT_OK, gozdrit_set_times(&r, 50, 5, 7));
    CALLS_AT(&r, true, 15);
    NACKS(&r, 14, GOZDRIT_MAX_NACKED, NO_PAIR);
    NACKS(&r, 15, 1, PAIR(101, 0));
    NACKS(&r, 20, GOZDRIT_MAX_NACKED, PAIR(102, 0));
    CALLS_AT(&r, true, 22);
    ANSWERS(GOZDRIT_OK, gozdrit_set_times(&r, 50, 5, 1));
    CALLS_AT(&r, true, 16);
    ANSWERS(GOZDRIT_OK, gozdrit_set_times(&r, 3, 5, 7));
    CALLS_AT(&r, true, 13); /* in the past: the latency has passed */
    PLAYS(&r, 13, GOZDRIT_GAP, 65637, 0);
    ANSWERS(GOZDRIT_OK, gozdrit_set_times(&r, 0, 0, UINT64_MAX));
    PLAYS(&r, 10, GOZDRIT_GAP, 65638, 0); /* no latency at all */
    PLAYS(&r, 10, GOZDRIT_PACKET, 65639, 103);
    ANSWERS(GOZDRIT_OK, gozdrit_receiver_free(&r));
}

/* A time that is 2^64 or later never comes. */
static void test_never(void) {
    gozdrit_receiver r = missing_two();
    ANSWERS(GOZDRIT_OK, gozdrit_set_times(&r, UINT64_MAX, UINT64_MAX, UINT64_MAX));
    CALLS_AT(&r, false, 0);
    NACKS(&r, UINT64_MAX, GOZDRIT_MAX_NACKED, NO_PAIR);
    PLAYS(&r, UINT64_MAX, GOZDRIT_WAIT, 0, 0);
    ANSWERS(GOZDRIT_OK, gozdrit_set_times(&r, UINT64_MAX - 10, UINT64_MAX, UINT64_MAX));
    CALLS_AT(&r, true, UINT64_MAX);
    PLAYS(&r, UINT64_MAX - 1, GOZDRIT_WAIT, 0, 0);
    PLAYS(&r, UINT64_MAX, GOZDRIT_GAP, 65637, 0);
    ANSWERS(GOZDRIT_OK, gozdrit_receiver_free(&r));
}

/* A receiver with the widest window that names at once, and once. */
static gozdrit_receiver wide(void) {
    gozdrit_receiver r = {NULL, 0};
    gozdrit_receiver_config config = CONFIG;
    config.window = GOZDRIT_MAX_STORE, config.reorder_delay = 0, config.max_nacks = 1;
    ANSWERS(GOZDRIT_OK, gozdrit_receiver_new(&config, &r));
    return r;
}

/* So many pairs of 17 numbers each, from a number on. */
static void fill_pairs(uint16_t *pairs, uint16_t from, size_t count) {
    for (size_t i = 0; i < count; i++) {
        pairs[2 * i] = (uint16_t)(from + 17 * i);
        pairs[2 * i + 1] = 0xffff;
    }
}

/* One NACK names as many as 64 pairs of 17 can, and no more than are wanted. */
static void test_most(void) {
    uint16_t pairs[128];
    gozdrit_receiver r = wide();
    HEARS_MEDIA(&r, 0, 0, MEDIA(65536));
    HEARS_MEDIA(&r, 2000, 0, MEDIA(67536));
    TELLS(&r, 65536, 67536, 1999);
    NACKS(&r, 0, 3, PAIR(1, 3));
    fill_pairs(pairs, 4, 1);
    NACKS(&r, 0, 17, pairs, 1);
    fill_pairs(pairs, 21, 2);
    pairs[3] = 0;
    NACKS(&r, 0, 18, pairs, 2);
    fill_pairs(pairs, 39, 64);
    NACKS(&r, 0, SIZE_MAX, pairs, 64); /* 39 to 1126: GOZDRIT_MAX_NACKED of them, in GOZDRIT_MAX_NACK_DATAGRAM octets */
    fill_pairs(pairs, 1127, 52);
    pairs[103] = 0x001f; /* 51 pairs name 1127 to 1993, and the last one 1994 to 1999 */
    NACKS(&r, 0, GOZDRIT_MAX_NACKED, pairs, 52);
    NACKS(&r, 0, GOZDRIT_MAX_NACKED, NO_PAIR);
    CHECK(is_counted(&r, (gozdrit_receive_counts){.media = 2, .nacks = 5, .nacked = 1999}));
    ANSWERS(GOZDRIT_OK, gozdrit_receiver_free(&r));
}

/* Where each missing packet needs a pair of its own, 64 pairs name 64, and what they leave stays due. */
static void test_pairs(void) {
    uint16_t pairs[128];
    gozdrit_receiver r = wide();
    for (uint16_t seq = 0; seq <= 70 * 17 + 1; seq++) {
        if (seq == 0 || seq % 17 != 0) HEARS_MEDIA(&r, seq, 0, MEDIA(65536 + (uint64_t)seq));
    }
    for (size_t i = 0; i < 64; i++) pairs[2 * i] = (uint16_t)(17 * (i + 1)), pairs[2 * i + 1] = 0;
    TELLS(&r, 65536, 65536 + 70 * 17 + 1, 70);
    NACKS(&r, 0, GOZDRIT_MAX_NACKED, pairs, 64);
    for (size_t i = 0; i < 6; i++) pairs[2 * i] = (uint16_t)(17 * (i + 65)), pairs[2 * i + 1] = 0;
    NACKS(&r, 0, GOZDRIT_MAX_NACKED, pairs, 6);
    NACKS(&r, 0, GOZDRIT_MAX_NACKED, NO_PAIR);
    CHECK(is_counted(&r, (gozdrit_receive_counts){.media = 1122, .nacks = 2, .nacked = 70}));
    ANSWERS(GOZDRIT_OK, gozdrit_receiver_free(&r));
}

void test_times(void) {
    test_delay();
    test_room();
    test_set_times();
    test_never();
    test_most();
    test_pairs();
}
