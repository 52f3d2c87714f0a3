/* A receiver whose NACKs leave twice, and the configuration by which they do: that of the defaults. */
#include "checks.h"

static const gozdrit_receiver_config CONFIG = {
    .size = sizeof(gozdrit_receiver_config), .session = SESSION, .latency = 200, .nack_interval = 40, .window = 64,
    .max_nacks = 9, .reorder_delay = 20};

/* 101 and 103 are missing from 5 on. */
static gozdrit_receiver receiver_of(uint64_t nack_interval, uint8_t adaptive) {
    gozdrit_receiver_config config = CONFIG;
    gozdrit_receiver r = {NULL, 0};
    config.nack_interval = nack_interval;
    config.adaptive = adaptive;
    ANSWERS(GOZDRIT_OK, gozdrit_receiver_new(&config, &r));
    HEARS_MEDIA(&r, 100, 0, MEDIA(65636));
    HEARS_MEDIA(&r, 102, 5, MEDIA(65638));
    HEARS_MEDIA(&r, 104, 5, MEDIA(65640));
    PLAYS(&r, 5, GOZDRIT_PACKET, 65636, 100);
    return r;
}

/* Whether a NACK leaves twice. */
static void leaves(gozdrit_receiver *r, bool twice) {
    CALLS_AT(r, true, 25);
    NACKS(r, 25, 1, PAIR(101, 0));
    if (twice) {
        CALLS_AT(r, true, 0);
        NACKS(r, 25, 1, PAIR(101, 0));
    }
    NACKS(r, 25, 1, PAIR(103, 0));
    if (twice) NACKS(r, 25, 1, PAIR(103, 0));
    CALLS_AT(r, true, 65);
    NACKS(r, 25, GOZDRIT_MAX_NACKED, NO_PAIR);
    CHECK(is_counted(r, (gozdrit_receive_counts){.media = 3, .played = 1, .nacks = 2, .nacked = 2}));
    ANSWERS(GOZDRIT_OK, gozdrit_receiver_free(r));
}

/* By default where it follows the path, which it does where no time between two NACKs is said. */
static void test_by_default(void) {
    static const struct {
        uint64_t nack_interval;
        uint8_t adaptive;
        bool twice;
    } CASES[] = {{40, 0, false}, {40, 1, true}, {40, 2, true}, {0, 0, true}, {0, 1, true}, {0, 2, true}};
    for (size_t i = 0; i < sizeof CASES / sizeof *CASES; i++) {
        gozdrit_receiver r = receiver_of(CASES[i].nack_interval, CASES[i].adaptive);
        leaves(&r, CASES[i].twice);
    }
}

/* By what is set, in the place of that, and as by default again. */
static void test_set(void) {
    for (uint8_t adaptive = 0; adaptive <= 2; adaptive++) {
        for (uint8_t copies = 0; copies <= 2; copies++) {
            gozdrit_receiver r = receiver_of(40, adaptive);
            ANSWERS(GOZDRIT_OK, gozdrit_set_nack_copies(&r, (uint8_t)(2 - copies)));
            ANSWERS(GOZDRIT_OK, gozdrit_set_nack_copies(&r, copies));
            ANSWERS(GOZDRIT_BAD_LIMIT, gozdrit_set_nack_copies(&r, 3));
            ANSWERS(GOZDRIT_BAD_LIMIT, gozdrit_set_nack_copies(&r, 255));
            leaves(&r, copies == 2 || (copies == 0 && adaptive > 0));
        }
    }
}

/* What is to leave once more does so with the same octets, however late, and also where they name more than is wanted; what is due comes
 * behind it. It leaves though it is to leave once from now on. */
static void test_late(void) {
    gozdrit_receiver r = receiver_of(40, GOZDRIT_ADAPTIVE_OFF);
    ANSWERS(GOZDRIT_OK, gozdrit_set_nack_copies(&r, 2));
    NACKS(&r, 25, GOZDRIT_MAX_NACKED, PAIR(101, 2));
    HEARS_RTX(&r, 0x22222222, 101, 50, ((gozdrit_received){.kind = GOZDRIT_RETRANSMISSION, .sequence = 65637}));
    CALLS_AT(&r, true, 0);
    PLAYS(&r, 50, GOZDRIT_PACKET, 65637, 101);
    ANSWERS(GOZDRIT_OK, gozdrit_set_nack_copies(&r, 1));
    NACKS(&r, 65, 0, PAIR(101, 2));
    NACKS(&r, 65, GOZDRIT_MAX_NACKED, PAIR(103, 0));
    NACKS(&r, 65, GOZDRIT_MAX_NACKED, NO_PAIR);
    ANSWERS(GOZDRIT_OK, gozdrit_receiver_free(&r));
}

/* A packet is lost, its NACK leaves as often as it does, and is answered as often, or once. Whether it left twice. */
static bool is_asked_twice(gozdrit_receiver *r, unsigned turn, bool answers_both) {
    const uint64_t now = 100 * (uint64_t)turn;
    const uint16_t lost = (uint16_t)(102 + 2 * turn);
    uint8_t out[GOZDRIT_MAX_NACK_DATAGRAM];
    size_t length = 0;
    HEARS_MEDIA(r, (uint16_t)(lost + 1), now, MEDIA(65537 + (uint64_t)lost));
    NACKS(r, now + 20, GOZDRIT_MAX_NACKED, PAIR(lost, 0));
    ANSWERS(GOZDRIT_OK, gozdrit_nack(r, now + 20, GOZDRIT_MAX_NACKED, &length, out, sizeof out));
    HEARS_RTX(r, 0x22222222, lost, now + 60, RETRANSMITTED(65536 + (uint64_t)lost));
    PLAYS(r, now + 60, GOZDRIT_PACKET, 65536 + (uint64_t)lost, (uint8_t)lost);
    PLAYS(r, now + 60, GOZDRIT_PACKET, 65537 + (uint64_t)lost, (uint8_t)(lost + 1));
    if (length > 0 && answers_both) HEARS_RTX(r, 0x22222222, lost, now + 60, NOT_HEARD(GOZDRIT_LATE));
    return length > 0;
}

static gozdrit_receiver begun(void) {
    gozdrit_receiver r = receiver_of(0, GOZDRIT_ADAPTIVE_OFF);
    ANSWERS(GOZDRIT_OK, gozdrit_reset(&r));
    HEARS_MEDIA(&r, 101, 0, MEDIA(65637));
    PLAYS(&r, 0, GOZDRIT_PACKET, 65637, 101);
    return r;
}

/* A sender that answers both copies gets both of seventeen NACKs, and of no other one, whatever it answers later. */
static void test_answers_both(void) {
    gozdrit_receiver r = begun();
    for (unsigned turn = 0; turn < 120; turn++) CHECK(is_asked_twice(&r, turn, turn < 60) == (turn < 17));
    ANSWERS(GOZDRIT_OK, gozdrit_receiver_free(&r));
}

/* One that answers both of each second NACK, as where copies come apart by jitter, gets each twice. */
static void test_answers_some_twice(void) {
    gozdrit_receiver r = begun();
    for (unsigned turn = 0; turn < 120; turn++) CHECK(is_asked_twice(&r, turn, turn % 2 == 1));
    ANSWERS(GOZDRIT_OK, gozdrit_receiver_free(&r));
}

/* A receiver that is reset has nothing to ask for. */
static void test_reset(void) {
    gozdrit_receiver r = receiver_of(0, GOZDRIT_ADAPTIVE_OFF);
    NACKS(&r, 25, GOZDRIT_MAX_NACKED, PAIR(101, 2));
    ANSWERS(GOZDRIT_OK, gozdrit_reset(&r));
    CALLS_AT(&r, false, 0);
    NACKS(&r, 25, GOZDRIT_MAX_NACKED, NO_PAIR);
    ANSWERS(GOZDRIT_OK, gozdrit_receiver_free(&r));
}

/* Until a round trip was measured, 40 ms lie between two NACKs. Its measurement is 40 ms, and its variation half of that: an answer
 * takes 40 + 4 * 20 ms at most (RFC 6298, section 2), in which two more have room behind the first. */
static void test_defaults_follow(void) {
    gozdrit_receiver r = receiver_of(0, GOZDRIT_ADAPTIVE_OFF);
    gozdrit_times times = GOZDRIT_TIMES_INIT;
    ANSWERS(GOZDRIT_OK, gozdrit_receiver_times(&r, &times));
    CHECK(times.nack_interval == 40 && times.reorder_delay == 20 && !times.known);
    NACKS(&r, 25, GOZDRIT_MAX_NACKED, PAIR(101, 2));
    NACKS(&r, 26, GOZDRIT_MAX_NACKED, PAIR(101, 2));
    HEARS_RTX(&r, 0x22222222, 101, 65, ((gozdrit_received){.kind = GOZDRIT_RETRANSMISSION, .sequence = 65637}));
    ANSWERS(GOZDRIT_OK, gozdrit_receiver_times(&r, &times));
    CHECK(times.known && times.round_trip == 40 && times.variation == 20 && times.reorder_delay == 0 && times.nack_interval == 67);
    ANSWERS(GOZDRIT_OK, gozdrit_receiver_free(&r));
}

void test_copies(void) {
    gozdrit_receiver none = {NULL, 0};
    ANSWERS(GOZDRIT_EMPTY_HANDLE, gozdrit_set_nack_copies(&none, 1));
    test_by_default();
    test_set();
    test_late();
    test_answers_both();
    test_answers_some_twice();
    test_reset();
    test_defaults_follow();
}
