/* A receiver that begins at a number that was signalled, and one that is reset. */
#include "checks.h"

static const gozdrit_receiver_config CONFIG = {
    .size = sizeof(gozdrit_receiver_config), .session = SESSION, .latency = 100, .nack_interval = 20, .window = 16,
    .max_nacks = 2};

static gozdrit_receiver receiver_of(const gozdrit_receiver_config *config) {
    gozdrit_receiver r = {NULL, 0};
    ANSWERS(GOZDRIT_OK, gozdrit_receiver_new(config, &r));
    return r;
}

/* A number, and the sequence number that it begins at: what is lost from there on is missing as any other. */
static void begins(uint16_t first, uint64_t sequence) {
    gozdrit_receiver r = receiver_of(&CONFIG);
    ANSWERS(GOZDRIT_OK, gozdrit_begin(&r, first));
    TELLS(&r, sequence, sequence - 1, 0);
    CALLS_AT(&r, false, 0);
    PLAYS(&r, 1000, GOZDRIT_WAIT, 0, 0);
    NACKS(&r, 0, GOZDRIT_MAX_NACKED, NO_PAIR);
    CHECK(is_counted(&r, (gozdrit_receive_counts){.media = 0}));
    ANSWERS(GOZDRIT_HAS_STARTED, gozdrit_begin(&r, first));
    ANSWERS(GOZDRIT_HAS_STARTED, gozdrit_begin(&r, (uint16_t)(first + 1)));
    TELLS(&r, sequence, sequence - 1, 0);
    HEARS_MEDIA(&r, (uint16_t)(first - 1), 4, NOT_HEARD(GOZDRIT_LATE));
    HEARS_MEDIA(&r, (uint16_t)(first + 2), 5, MEDIA(sequence + 2));
    TELLS(&r, sequence, sequence + 2, 2);
    NACKS(&r, 5, GOZDRIT_MAX_NACKED, PAIR(first, 1));
    ANSWERS(GOZDRIT_HAS_STARTED, gozdrit_begin(&r, first));
    HEARS_RTX(&r, 0x22222222, (uint16_t)(first + 1), 6, RETRANSMITTED(sequence + 1));
    TELLS(&r, sequence, sequence + 2, 1);
    PLAYS(&r, 104, GOZDRIT_WAIT, 0, 0);
    PLAYS(&r, 105, GOZDRIT_GAP, sequence, 0);
    PLAYS(&r, 105, GOZDRIT_PACKET, sequence + 1, (uint8_t)(first + 1));
    PLAYS(&r, 105, GOZDRIT_PACKET, sequence + 2, (uint8_t)(first + 2));
    ANSWERS(GOZDRIT_OK, gozdrit_receiver_free(&r));
}

/* The first packet itself may come first. From then on beginning is over. */
static void test_first(void) {
    gozdrit_receiver r = receiver_of(&CONFIG);
    ANSWERS(GOZDRIT_OK, gozdrit_begin(&r, 100));
    HEARS_MEDIA(&r, 100, 0, MEDIA(65636));
    TELLS(&r, 65636, 65636, 0);
    ANSWERS(GOZDRIT_OK, gozdrit_receiver_free(&r));
    r = receiver_of(&CONFIG);
    HEARS_MEDIA(&r, 100, 0, MEDIA(65636));
    const state before = state_of(&r);
    ANSWERS(GOZDRIT_HAS_STARTED, gozdrit_begin(&r, 99));
    const state after = state_of(&r);
    CHECK(is_same_state(&before, &after));
    HEARS_MEDIA(&r, 99, 0, NOT_HEARD(GOZDRIT_LATE));
    ANSWERS(GOZDRIT_OK, gozdrit_receiver_free(&r));
}

/* A reset leaves all that was taken and learnt, and what was held back; the counts and the times go on. */
static void test_reset(void) {
    gozdrit_receiver_config config = CONFIG;
    config.learn_rtx_ssrc = 1;
    gozdrit_receiver r = receiver_of(&config);
    gozdrit_ssrc ssrc;
    ANSWERS(GOZDRIT_OK, gozdrit_reset(&r)); /* there is nothing to leave */
    HEARS_MEDIA(&r, 100, 0, MEDIA(65636));
    HEARS_MEDIA(&r, 103, 0, MEDIA(65639));
    NACKS(&r, 0, GOZDRIT_MAX_NACKED, PAIR(101, 1));
    HEARS_RTX(&r, 0x55555555, 101, 1, RETRANSMITTED(65637));
    HEARS_MEDIA(&r, 10000, 1, HELD_BACK(1));
    ANSWERS(GOZDRIT_OK, gozdrit_set_times(&r, 100, 7, 20));
    const state before = state_of(&r);
    ANSWERS(GOZDRIT_OK, gozdrit_reset(&r));
    TELLS(&r, 0, 0, 0);
    CALLS_AT(&r, false, 0);
    FILL(ssrc);
    ANSWERS(GOZDRIT_OK, gozdrit_rtx_ssrc(&r, &ssrc));
    CHECK(ssrc.known == 0 && UNTOUCHED(ssrc.ssrc));
    CHECK(is_counted(&r, before.counts));
    PLAYS(&r, 1000, GOZDRIT_WAIT, 0, 0);
    HEARS_RTX(&r, 0x55555555, 102, 1, NOT_HEARD(GOZDRIT_NOT_STARTED));
    ANSWERS(GOZDRIT_OK, gozdrit_begin(&r, 10001));
    HEARS_MEDIA(&r, 10002, 2, MEDIA(75538)); /* the number after the one that was held back is no run any more */
    TELLS(&r, 75537, 75538, 1);
    NACKS(&r, 8, GOZDRIT_MAX_NACKED, NO_PAIR);
    NACKS(&r, 9, GOZDRIT_MAX_NACKED, PAIR(10001, 0));
    CHECK(is_counted(&r, (gozdrit_receive_counts){.media = 3, .retransmissions = 1, .held_back = 1, .refused = 1,
                                                  .nacks = 2, .nacked = 3}));
    ANSWERS(GOZDRIT_OK, gozdrit_receiver_free(&r));
}

/* One packet of a run that is held back, a reset, and the next of it: it is the first packet of a new stream. */
static void test_reset_of_a_run(void) {
    gozdrit_receiver r = receiver_of(&CONFIG);
    HEARS_MEDIA(&r, 100, 0, MEDIA(65636));
    HEARS_MEDIA(&r, 10000, 0, HELD_BACK(1));
    ANSWERS(GOZDRIT_OK, gozdrit_reset(&r));
    HEARS_MEDIA(&r, 7000, 0, MEDIA(72536));
    HEARS_MEDIA(&r, 10001, 0, HELD_BACK(1));
    HEARS_MEDIA(&r, 10002, 0, RESTARTED(75538, 2, 1));
    ANSWERS(GOZDRIT_OK, gozdrit_receiver_free(&r));
}

/* A session's own SSRC of the retransmissions is not forgotten. */
static void test_reset_of_ssrc(void) {
    gozdrit_receiver r = receiver_of(&CONFIG);
    gozdrit_ssrc ssrc;
    ANSWERS(GOZDRIT_OK, gozdrit_reset(&r));
    ANSWERS(GOZDRIT_OK, gozdrit_rtx_ssrc(&r, &ssrc));
    CHECK(ssrc.known == 1 && ssrc.ssrc == 0x22222222);
    ANSWERS(GOZDRIT_OK, gozdrit_receiver_free(&r));
}

void test_begin(void) {
    begins(0, 65536);
    begins(100, 65636);
    begins(65534, 131070);
    begins(65535, 131071);
    test_first();
    test_reset();
    test_reset_of_a_run();
    test_reset_of_ssrc();
}
