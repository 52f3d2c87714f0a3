/* A receiver whose NACKs follow the path: its round trip, and how far packets come behind later ones. */
#include "checks.h"

static const gozdrit_receiver_config CONFIG = {
    .size = sizeof(gozdrit_receiver_config), .session = SESSION, .latency = 200, .nack_interval = 40, .window = 64,
    .max_nacks = 9, .reorder_delay = 20, .adaptive = GOZDRIT_ADAPTIVE_NACKS};

static gozdrit_receiver receiver_of(const gozdrit_receiver_config *config) {
    gozdrit_receiver r = {NULL, 0};
    ANSWERS(GOZDRIT_OK, gozdrit_receiver_new(config, &r));
    ANSWERS(GOZDRIT_OK, gozdrit_set_nack_copies(&r, 1));
    return r;
}

/* The times in force, and a round trip with its variation, or none. */
static void times(const gozdrit_receiver *r, uint64_t reorder_delay, uint64_t nack_interval, uint64_t round_trip,
                  uint64_t variation) {
    const bool known = round_trip > 0;
    gozdrit_times came;
    FILL_SIZED(came);
    ANSWERS(GOZDRIT_OK, gozdrit_receiver_times(r, &came));
    CHECK(came.reorder_delay == reorder_delay && came.nack_interval == nack_interval && came.known == known);
    CHECK(came.size == sizeof came
          && (known ? came.round_trip == round_trip && came.variation == variation
                    : UNTOUCHED(came.round_trip) && UNTOUCHED(came.variation)));
}

/* 101 is asked for at 25, and its answer comes at 65. The first measurement is 40 ms, with half of it as its variation (RFC
 * 6298, section 2.2): a NACK then comes at once, an answer takes 40 + 20 + 5 ms, and NACKs lie no closer. Two fit behind the
 * first, the last of them 200 - 65 ms after it, at most. */
static void measures_forty(gozdrit_receiver *r, uint64_t start, uint16_t number) {
    HEARS_MEDIA(r, number, start, MEDIA(65536 + (uint64_t)number));
    HEARS_MEDIA(r, (uint16_t)(number + 2), start + 5, MEDIA(65538 + (uint64_t)number));
    NACKS(r, start + 25, GOZDRIT_MAX_NACKED, PAIR((uint16_t)(number + 1), 0));
    times(r, 20, 40, 0, 0);
    HEARS_RTX(r, 0x22222222, (uint16_t)(number + 1), start + 65,
              ((gozdrit_received){.kind = GOZDRIT_RETRANSMISSION, .sequence = 65537 + (uint64_t)number}));
    times(r, 0, 67, 40, 20);
}

static void test_round_trip(void) {
    gozdrit_receiver r = receiver_of(&CONFIG);
    times(&r, 20, 40, 0, 0);
    measures_forty(&r, 0, 100);
    /* 103 is asked for at its notice, and 67 ms later: that is in doubt then (RFC 6298, section 3), and measures nothing */
    HEARS_MEDIA(&r, 104, 100, MEDIA(65640));
    CALLS_AT(&r, true, 0);
    NACKS(&r, 100, GOZDRIT_MAX_NACKED, PAIR(103, 0));
    NACKS(&r, 166, GOZDRIT_MAX_NACKED, NO_PAIR);
    NACKS(&r, 167, GOZDRIT_MAX_NACKED, PAIR(103, 0));
    HEARS_RTX(&r, 0x22222222, 103, 168, ((gozdrit_received){.kind = GOZDRIT_RETRANSMISSION, .sequence = 65639}));
    times(&r, 0, 67, 40, 20);
    ANSWERS(GOZDRIT_OK, gozdrit_receiver_free(&r));
}

/* 104 comes 8 ms after it was noticed to be missing: the first NACK waits for a quarter more from then on. One packet of six is late, and one was lost:
 * an answer then takes 40 + 10 + 5, and two fit into 200 - 55 - 10. */
static void test_reordering(void) {
    gozdrit_receiver r = receiver_of(&CONFIG);
    measures_forty(&r, 0, 100);
    HEARS_MEDIA(&r, 103, 70, MEDIA(65639));
    HEARS_MEDIA(&r, 105, 72, MEDIA(65641));
    HEARS_MEDIA(&r, 104, 80, MEDIA(65640));
    times(&r, 10, 67, 40, 20);
    ANSWERS(GOZDRIT_OK, gozdrit_receiver_free(&r));
}

/* Other times hold until the next datagram; a reset leaves the round trip, and no place of before is measured. */
static void test_set_and_reset(void) {
    gozdrit_receiver r = receiver_of(&CONFIG);
    measures_forty(&r, 0, 100);
    ANSWERS(GOZDRIT_OK, gozdrit_set_times(&r, 400, 7, 9));
    times(&r, 7, 9, 40, 20);
    HEARS_MEDIA(&r, 103, 70, MEDIA(65639));
    times(&r, 0, 67, 40, 20); /* 400 - 65 ms have room for five more, 65 ms apart or farther */
    HEARS_MEDIA(&r, 105, 80, MEDIA(65641));
    NACKS(&r, 80, GOZDRIT_MAX_NACKED, PAIR(104, 0));
    ANSWERS(GOZDRIT_OK, gozdrit_reset(&r));
    times(&r, 0, 67, 40, 20);
    HEARS_MEDIA(&r, 103, 90, MEDIA(65639));
    HEARS_RTX(&r, 0x22222222, 104, 91, ((gozdrit_received){.kind = GOZDRIT_RETRANSMISSION, .sequence = 65640}));
    times(&r, 0, 67, 40, 20);
    ANSWERS(GOZDRIT_OK, gozdrit_receiver_free(&r));
}

/* One that is adaptive no more keeps the times that it has, and the round trip that it measured, and follows that again once
 * it is. */
static void test_switched(void) {
    gozdrit_receiver r = receiver_of(&CONFIG);
    measures_forty(&r, 0, 100);
    ANSWERS(GOZDRIT_OK, gozdrit_set_adaptive(&r, GOZDRIT_ADAPTIVE_OFF));
    ANSWERS(GOZDRIT_OK, gozdrit_set_times(&r, 200, 30, 50));
    HEARS_MEDIA(&r, 103, 70, MEDIA(65639));
    times(&r, 30, 50, 40, 20);
    ANSWERS(GOZDRIT_BAD_LIMIT, gozdrit_set_adaptive(&r, 3));
    HEARS_MEDIA(&r, 104, 72, MEDIA(65640));
    times(&r, 30, 50, 40, 20);
    ANSWERS(GOZDRIT_OK, gozdrit_set_adaptive(&r, GOZDRIT_ADAPTIVE_SEND_TIME));
    times(&r, 30, 50, 40, 20);
    HEARS_MEDIA(&r, 105, 75, MEDIA(65641));
    times(&r, 0, 67, 40, 20);
    ANSWERS(GOZDRIT_OK, gozdrit_receiver_free(&r));
}

/* One that is not adaptive keeps its times, and measures nothing. */
static void test_without(void) {
    gozdrit_receiver_config config = CONFIG;
    gozdrit_receiver r;
    config.adaptive = GOZDRIT_ADAPTIVE_OFF;
    r = receiver_of(&config);
    HEARS_MEDIA(&r, 100, 0, MEDIA(65636));
    HEARS_MEDIA(&r, 102, 5, MEDIA(65638));
    NACKS(&r, 25, GOZDRIT_MAX_NACKED, PAIR(101, 0));
    HEARS_RTX(&r, 0x22222222, 101, 65, ((gozdrit_received){.kind = GOZDRIT_RETRANSMISSION, .sequence = 65637}));
    times(&r, 20, 40, 0, 0);
    ANSWERS(GOZDRIT_OK, gozdrit_receiver_free(&r));
}

/* Ten packets a second, then a silence of 1100 ms in which ten are lost: the last of them was sent 100 ms before it ends,
 * the one before it 200, and so on. */
static void hears_silence(gozdrit_receiver *r) {
    uint16_t number;
    for (number = 100; number <= 110; number++) {
        HEARS_MEDIA(r, number, (uint64_t)(number - 100) * 100, MEDIA(65536 + (uint64_t)number));
        PLAYS(r, (uint64_t)(number - 100) * 100, GOZDRIT_PACKET, 65536 + (uint64_t)number, (uint8_t)number);
    }
    HEARS_MEDIA(r, 121, 2100, MEDIA(65657));
}

/* Of a latency of 200 ms nothing is left for the first nine, and 100 for the last one, which alone is asked for. */
static void test_sent(void) {
    gozdrit_receiver_config config = CONFIG;
    gozdrit_receiver r;
    uint64_t sequence;
    config.adaptive = GOZDRIT_ADAPTIVE_SEND_TIME;
    r = receiver_of(&config);
    hears_silence(&r);
    CALLS_AT(&r, true, 2100);
    for (sequence = 65647; sequence <= 65655; sequence++) PLAYS(&r, 2100, GOZDRIT_GAP, sequence, 0);
    PLAYS(&r, 2199, GOZDRIT_WAIT, 0, 0);
    CALLS_AT(&r, true, 2120);
    NACKS(&r, 2120, GOZDRIT_MAX_NACKED, PAIR(120, 0));
    NACKS(&r, 2160, GOZDRIT_MAX_NACKED, PAIR(120, 0));
    CALLS_AT(&r, true, 2200);
    PLAYS(&r, 2200, GOZDRIT_GAP, 65656, 0);
    PLAYS(&r, 2200, GOZDRIT_PACKET, 65657, 121);
    ANSWERS(GOZDRIT_OK, gozdrit_receiver_free(&r));
}

/* By the notice all are waited for as long, and are asked for; and each that is left is waited for less as soon as it is by
 * when it was sent. */
static void test_noticed(void) {
    gozdrit_receiver r = receiver_of(&CONFIG);
    hears_silence(&r);
    CALLS_AT(&r, true, 2120);
    PLAYS(&r, 2299, GOZDRIT_WAIT, 0, 0);
    PLAYS(&r, 2300, GOZDRIT_GAP, 65647, 0);
    ANSWERS(GOZDRIT_OK, gozdrit_set_adaptive(&r, GOZDRIT_ADAPTIVE_SEND_TIME));
    PLAYS(&r, 2199, GOZDRIT_GAP, 65648, 0);
    ANSWERS(GOZDRIT_OK, gozdrit_receiver_free(&r));
}

/* There are three kinds of it. */
static void test_unknown(void) {
    gozdrit_receiver_config config = CONFIG;
    gozdrit_receiver r = {NULL, 0};
    config.adaptive = 3;
    ANSWERS(GOZDRIT_BAD_LIMIT, gozdrit_receiver_new(&config, &r));
    config.adaptive = 255;
    ANSWERS(GOZDRIT_BAD_LIMIT, gozdrit_receiver_new(&config, &r));
    CHECK(!r.held);
}

void test_follows(void) {
    gozdrit_receiver none = {NULL, 0};
    gozdrit_times came;
    FILL_SIZED(came);
    ANSWERS(GOZDRIT_EMPTY_HANDLE, gozdrit_receiver_times(&none, &came));
    ANSWERS(GOZDRIT_EMPTY_HANDLE, gozdrit_set_adaptive(&none, 1));
    CHECK(UNTOUCHED_SIZED(came));
    test_round_trip();
    test_reordering();
    test_set_and_reset();
    test_switched();
    test_without();
    test_sent();
    test_noticed();
    test_unknown();
}
