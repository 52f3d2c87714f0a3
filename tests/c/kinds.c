/* What a sender sends that no NACK asked for is told apart: padding, and retransmissions that probe for bandwidth. */
#include "checks.h"

static const gozdrit_receiver_config CONFIG = {
    .size = sizeof(gozdrit_receiver_config), .session = SESSION, .latency = 100, .nack_interval = 20, .window = 4,
    .max_nacks = 2};

static gozdrit_receiver receiver_of(void) {
    gozdrit_receiver r = {NULL, 0};
    ANSWERS(GOZDRIT_OK, gozdrit_receiver_new(&CONFIG, &r));
    CHECK(is_told_apart(&r, (gozdrit_probe_counts){.padding = 0}));
    return r;
}

/* Padding alone under the SSRC of the retransmissions, with an octet before it, and under no SSRC of the session. */
static void test_padding(void) {
    const uint8_t probe[] = {0xa0, 97, 0, 5, 0, 0, 0, 0, 0x22, 0x22, 0x22, 0x22, 0, 0, 0, 4};
    const uint8_t cut[] = {0xa0, 97, 0, 6, 0, 0, 0, 0, 0x22, 0x22, 0x22, 0x22, 9, 0, 0, 0, 4};
    const uint8_t strange[] = {0xa0, 97, 0, 5, 0, 0, 0, 0, 0x99, 0x99, 0x99, 0x99, 0, 0, 0, 4};
    gozdrit_receiver r = receiver_of();
    HEARS_MEDIA(&r, 100, 0, MEDIA(65636));
    HEARS(&r, probe, sizeof probe, 0, NOT_HEARD(GOZDRIT_NO_OSN));
    HEARS(&r, probe, sizeof probe, 0, NOT_HEARD(GOZDRIT_NO_OSN));
    HEARS(&r, cut, sizeof cut, 0, NOT_HEARD(GOZDRIT_NO_OSN));
    HEARS(&r, strange, sizeof strange, 0, NOT_HEARD(GOZDRIT_UNKNOWN_SSRC));
    CHECK(is_told_apart(&r, (gozdrit_probe_counts){.padding = 2, .refused = 2}));
    CHECK(is_counted(&r, (gozdrit_receive_counts){.media = 1, .refused = 4}));
    ANSWERS(GOZDRIT_OK, gozdrit_receiver_free(&r));
}

/* 101 is asked for, given up, and answered then; 100 and 102 were not asked for. A reset leaves what was asked for. */
static void test_asked(void) {
    gozdrit_receiver r = receiver_of();
    HEARS_MEDIA(&r, 100, 0, MEDIA(65636));
    HEARS_MEDIA(&r, 102, 0, MEDIA(65638));
    NACKS(&r, 0, GOZDRIT_MAX_NACKED, PAIR(101, 0));
    HEARS_RTX(&r, 0x22222222, 102, 1, NOT_HEARD(GOZDRIT_DUPLICATE));
    HEARS_MEDIA(&r, 102, 1, NOT_HEARD(GOZDRIT_DUPLICATE));
    PLAYS(&r, 100, GOZDRIT_PACKET, 65636, 100);
    PLAYS(&r, 100, GOZDRIT_GAP, 65637, 0);
    HEARS_RTX(&r, 0x22222222, 101, 101, NOT_HEARD(GOZDRIT_LATE));
    HEARS_RTX(&r, 0x22222222, 100, 101, NOT_HEARD(GOZDRIT_LATE));
    CHECK(is_told_apart(&r, (gozdrit_probe_counts){.unrequested = 2, .duplicate = 1, .late = 1}));
    CHECK(is_counted(&r, (gozdrit_receive_counts){.media = 2, .duplicate = 2, .late = 2, .played = 1, .gaps = 1, .nacks = 1,
                                                  .nacked = 1}));
    ANSWERS(GOZDRIT_OK, gozdrit_reset(&r));
    HEARS_MEDIA(&r, 101, 200, MEDIA(65637));
    HEARS_RTX(&r, 0x22222222, 101, 200, NOT_HEARD(GOZDRIT_DUPLICATE));
    CHECK(is_told_apart(&r, (gozdrit_probe_counts){.unrequested = 3, .duplicate = 1, .late = 1}));
    ANSWERS(GOZDRIT_OK, gozdrit_receiver_free(&r));
}

/* Of places with one cell the last is remembered: 101 and 105 lie a window of 4 apart. */
static void test_forgotten(void) {
    gozdrit_receiver r = receiver_of();
    HEARS_MEDIA(&r, 100, 0, MEDIA(65636));
    HEARS_MEDIA(&r, 102, 0, MEDIA(65638));
    NACKS(&r, 0, GOZDRIT_MAX_NACKED, PAIR(101, 0));
    PLAYS(&r, 100, GOZDRIT_PACKET, 65636, 100);
    PLAYS(&r, 100, GOZDRIT_GAP, 65637, 0);
    PLAYS(&r, 100, GOZDRIT_PACKET, 65638, 102);
    HEARS_MEDIA(&r, 103, 100, MEDIA(65639));
    HEARS_MEDIA(&r, 104, 100, MEDIA(65640));
    HEARS_MEDIA(&r, 106, 100, MEDIA(65642));
    HEARS_RTX(&r, 0x22222222, 101, 100, NOT_HEARD(GOZDRIT_LATE));
    NACKS(&r, 100, GOZDRIT_MAX_NACKED, PAIR(105, 0));
    HEARS_RTX(&r, 0x22222222, 101, 101, NOT_HEARD(GOZDRIT_LATE));
    HEARS_RTX(&r, 0x22222222, 105, 101, RETRANSMITTED(65641));
    HEARS_RTX(&r, 0x22222222, 105, 101, NOT_HEARD(GOZDRIT_DUPLICATE));
    CHECK(is_told_apart(&r, (gozdrit_probe_counts){.unrequested = 1, .duplicate = 1, .late = 1}));
    ANSWERS(GOZDRIT_OK, gozdrit_receiver_free(&r));
}

void test_kinds(void) {
    test_padding();
    test_asked();
    test_forgotten();
}
