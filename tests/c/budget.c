/* A receiver whose NACKs are earned by what comes. */
#include "checks.h"

static const gozdrit_receiver_config CONFIG = {
    .size = sizeof(gozdrit_receiver_config), .session = SESSION, .latency = 200, .nack_interval = 40, .window = 512,
    .max_nacks = 9, .reorder_delay = 0};

static gozdrit_receiver receiver_of(uint8_t earned) {
    gozdrit_receiver r = {NULL, 0};
    ANSWERS(GOZDRIT_OK, gozdrit_receiver_new(&CONFIG, &r));
    ANSWERS(GOZDRIT_OK, gozdrit_set_nack_budget(&r, earned));
    return r;
}

/* A packet of media that has so many octets. */
static void comes(gozdrit_receiver *r, uint16_t number, uint64_t now, size_t octets) {
    uint8_t datagram[1212] = {0x80, 96, (uint8_t)(number >> 8), (uint8_t)number, 0, 0, 0, 1, 0x11, 0x11, 0x11, 0x11};
    gozdrit_received received = GOZDRIT_RECEIVED_INIT;
    ANSWERS(GOZDRIT_OK, gozdrit_receive(r, datagram, octets, now, &received));
    CHECK(received.kind == GOZDRIT_MEDIA);
}

/* How many octets the next NACK has. */
static size_t nack_of(gozdrit_receiver *r, uint64_t now) {
    uint8_t out[GOZDRIT_MAX_NACK_DATAGRAM];
    size_t length = 999;
    ANSWERS(GOZDRIT_OK, gozdrit_nack(r, now, GOZDRIT_MAX_NACKED, &length, out, sizeof out));
    return length;
}

/* All that leaves at a moment. */
static size_t nacks_at(gozdrit_receiver *r, uint64_t now, size_t *datagrams) {
    size_t all = 0, length;
    while ((length = nack_of(r, now)) > 0 && *datagrams < 10000) {
        all += length;
        ++*datagrams;
    }
    return all;
}

/* Two small packets 400 apart, of which the second shows 399 to be missing. What they earn has room for a NACK of one pair, or for two. Without a
 * budget each has 24 pairs, and leaves each 40 ms. */
static void test_flood(void) {
    static const struct {
        size_t octets, nacks;
    } CASES[] = {{25, 2}, {17, 2}, {16, 2}, {15, 1}, {13, 1}};
    gozdrit_receiver r;
    size_t datagrams = 0, all = 0;
    for (size_t i = 0; i < sizeof CASES / sizeof *CASES; i++) {
        datagrams = all = 0;
        r = receiver_of(1);
        comes(&r, 100, 0, CASES[i].octets);
        comes(&r, 500, 0, CASES[i].octets);
        for (uint64_t now = 0; now < 200; now++) all += nacks_at(&r, now, &datagrams);
        CHECK(datagrams == CASES[i].nacks && all == 16 * datagrams);
        ANSWERS(GOZDRIT_OK, gozdrit_receiver_free(&r));
    }
    datagrams = all = 0;
    r = receiver_of(0);
    comes(&r, 100, 0, 25);
    comes(&r, 500, 0, 25);
    for (uint64_t now = 0; now < 200; now++) all += nacks_at(&r, now, &datagrams);
    CHECK(datagrams == 5 && all == 5 * (12 + 4 * 24));
    ANSWERS(GOZDRIT_OK, gozdrit_receiver_free(&r));
}

/* In any span no more leaves than a twentieth of what came and what is saved up, and in all no more datagrams than came: a stream of 50 packets a
 * second that is 1200 octets long or 60, half of which is lost. */
static void test_share(void) {
    static const size_t OCTETS[] = {1200, 60};
    for (size_t i = 0; i < sizeof OCTETS / sizeof *OCTETS; i++) {
        gozdrit_receiver r = receiver_of(1);
        const size_t worth = OCTETS[i] / 20 > 24 ? OCTETS[i] / 20 : 24;
        size_t datagrams = 0, all = 0, came = 0;
        ANSWERS(GOZDRIT_OK, gozdrit_set_nack_copies(&r, 2));
        for (uint16_t n = 0; n < 2000; n++) {
            const uint64_t now = 20 * (uint64_t)n;
            if (n % 2 == 0 || n % 7 == 0) {
                comes(&r, n, now, OCTETS[i]);
                came++;
            }
            all += nacks_at(&r, now, &datagrams);
            CHECK(all <= worth * came && datagrams <= came);
        }
        CHECK(datagrams == came); /* which is the tighter of both here */
        ANSWERS(GOZDRIT_OK, gozdrit_receiver_free(&r));
    }
}

/* Where there is no room for a NACK the next moment is that of a play: here the packet that is missing is given up at 200. */
static void test_waits(void) {
    gozdrit_receiver r = receiver_of(1);
    gozdrit_played played = GOZDRIT_PLAYED_INIT;
    uint8_t payload[GOZDRIT_MAX_PAYLOAD];
    comes(&r, 100, 0, 14);
    ANSWERS(GOZDRIT_OK, gozdrit_play(&r, 0, &played, payload, sizeof payload));
    CALLS_AT(&r, false, 0);
    ANSWERS(GOZDRIT_OK, gozdrit_set_nack_budget(&r, 1));
    comes(&r, 102, 0, 14);
    CALLS_AT(&r, true, 200);
    CHECK(nack_of(&r, 150) == 0);
    comes(&r, 103, 5, 14);
    CALLS_AT(&r, true, 0);
    CHECK(nack_of(&r, 150) == 16 && nack_of(&r, 150) == 0);
    CALLS_AT(&r, true, 200);
    ANSWERS(GOZDRIT_OK, gozdrit_receiver_free(&r));
}

/* A copy is earned as its first is, or does not leave. */
static void test_twice(void) {
    for (size_t earned = 1; earned <= 2; earned++) {
        gozdrit_receiver r = receiver_of(1);
        ANSWERS(GOZDRIT_OK, gozdrit_set_nack_copies(&r, 2));
        comes(&r, 100, 0, 16);
        if (earned == 2) comes(&r, 101, 0, 16);
        comes(&r, 103, 0, 14);
        CHECK(nack_of(&r, 0) == 16);
        CHECK(nack_of(&r, 0) == (earned == 2 ? 16 : 0));
        CHECK(nack_of(&r, 0) == 0);
        ANSWERS(GOZDRIT_OK, gozdrit_receiver_free(&r));
    }
}

/* 40 is missing, and was asked for once; its NACK is to leave once more. Nothing but 0 and 1 says anything. */
static gozdrit_receiver asked_of(uint8_t earned) {
    gozdrit_receiver r = receiver_of(earned);
    ANSWERS(GOZDRIT_OK, gozdrit_set_nack_copies(&r, 2));
    for (uint16_t n = 0; n < 40; n++) comes(&r, n, 0, 1200);
    comes(&r, 41, 0, 1200);
    CHECK(nack_of(&r, 0) == 16);
    ANSWERS(GOZDRIT_BAD_LIMIT, gozdrit_set_nack_budget(&r, 2));
    ANSWERS(GOZDRIT_BAD_LIMIT, gozdrit_set_nack_budget(&r, 255));
    CALLS_AT(&r, true, 0);
    return r;
}

/* It begins anew with each call, by which what was to leave once more does not, and with a reset. */
static void test_anew(void) {
    gozdrit_receiver r;
    for (uint8_t before = 0; before <= 1; before++) {
        for (uint8_t earned = 0; earned <= 1; earned++) {
            r = asked_of(before);
            ANSWERS(GOZDRIT_OK, gozdrit_set_nack_budget(&r, earned));
            CHECK(nack_of(&r, 0) == 0);
            comes(&r, 43, 40, 13);
            CHECK(nack_of(&r, 40) == (earned ? 0 : 16));
            ANSWERS(GOZDRIT_OK, gozdrit_receiver_free(&r));
        }
        r = asked_of(before);
        ANSWERS(GOZDRIT_OK, gozdrit_reset(&r));
        comes(&r, 43, 40, 12);
        comes(&r, 45, 40, 12);
        CHECK(nack_of(&r, 40) == 16 && nack_of(&r, 40) == (before ? 0 : 16));
        ANSWERS(GOZDRIT_OK, gozdrit_receiver_free(&r));
    }
}

void test_budget(void) {
    gozdrit_receiver none = {NULL, 0};
    ANSWERS(GOZDRIT_EMPTY_HANDLE, gozdrit_set_nack_budget(&none, 1));
    test_flood();
    test_share();
    test_waits();
    test_twice();
    test_anew();
}
