/* Datagrams that a receiver refuses, each by its number, and a receiver that learns. */
#include "checks.h"

/* No media packet jumps far enough to be held back, so that those far away are refused. */
static const gozdrit_receiver_config CONFIG = {
    .size = sizeof(gozdrit_receiver_config), .session = SESSION, .latency = 100, .nack_interval = 20, .window = 4,
    .max_nacks = 2, .max_dropout = 65535, .max_misorder = 65535};
static const gozdrit_receiver NONE = {NULL, 0};

/* Whether one more datagram was counted, where this number is. */
static bool is_one_more(const gozdrit_receive_counts *before, const gozdrit_receive_counts *after, uint8_t number) {
    gozdrit_receive_counts expected = *before;
    if (number == GOZDRIT_DUPLICATE) expected.duplicate++;
    else if (number == GOZDRIT_LATE) expected.late++;
    else if (number == GOZDRIT_TOO_FAR) expected.too_far++;
    else expected.refused++;
    return memcmp(&expected, after, sizeof expected) == 0;
}

/* The datagram is refused by this number, and nothing has changed but one count. */
static void refuses(gozdrit_receiver *r, uint8_t number, const uint8_t *octets, size_t length) {
    const state before = state_of(r);
    HEARS(r, octets, length, 50, NOT_HEARD(number));
    const state after = state_of(r);
    CHECK(is_same_state(&before, &after));
    CHECK(is_one_more(&before.counts, &after.counts, number));
}

/* The same of an RTP packet with this payload. */
static void refuses_rtp(gozdrit_receiver *r, uint8_t number, uint8_t type, uint16_t seq, uint32_t ssrc, size_t length) {
    static const uint8_t zeros[GOZDRIT_MAX_PAYLOAD + 3];
    uint8_t packet[12 + sizeof zeros];
    refuses(r, number, packet, write_rtp(packet, type, seq, ssrc, zeros, length));
}

/* Octets that are no RTP packet are refused by a receiver that was started and by one that was not. */
static void test_malformed(gozdrit_receiver *r) {
    static const struct {
        uint8_t octets[16];
        uint8_t length;
        uint8_t number;
    } rows[] = {
        {{0}, 0, GOZDRIT_RTP_SHORT},
        {{0x80, 96, 0, 101, 0, 0, 0, 0, 0x11, 0x11, 0x11}, 11, GOZDRIT_RTP_SHORT},
        {{0x40, 96, 0, 101, 0, 0, 0, 0, 0x11, 0x11, 0x11, 0x11}, 12, GOZDRIT_RTP_VERSION},
        {{0xc0, 96, 0, 101, 0, 0, 0, 0, 0x11, 0x11, 0x11, 0x11}, 12, GOZDRIT_RTP_VERSION},
        {{0x81, 96, 0, 101, 0, 0, 0, 0, 0x11, 0x11, 0x11, 0x11, 1, 2, 3}, 15, GOZDRIT_RTP_CSRC_LIST},
        {{0x90, 96, 0, 101, 0, 0, 0, 0, 0x11, 0x11, 0x11, 0x11, 1, 2, 0}, 15, GOZDRIT_RTP_EXTENSION},
        {{0x90, 96, 0, 101, 0, 0, 0, 0, 0x11, 0x11, 0x11, 0x11, 1, 2, 0, 1}, 16, GOZDRIT_RTP_EXTENSION},
        {{0xa0, 96, 0, 101, 0, 0, 0, 0, 0x11, 0x11, 0x11, 0x11, 1, 0}, 14, GOZDRIT_RTP_PADDING},
        {{0xa0, 96, 0, 101, 0, 0, 0, 0, 0x11, 0x11, 0x11, 0x11, 1, 3}, 14, GOZDRIT_RTP_PADDING},
        {{0xa0, 96, 0, 101, 0, 0, 0, 0, 0x11, 0x11, 0x11, 0x11}, 12, GOZDRIT_RTP_PADDING},
    };
    for (size_t i = 0; i < sizeof rows / sizeof *rows; i++) refuses(r, rows[i].number, rows[i].octets, rows[i].length);
}

/* An extension of one word more than there may be, in a media packet. */
static void test_long_extension(gozdrit_receiver *r) {
    uint8_t packet[12 + 4 + (GOZDRIT_MAX_EXTENSION_WORDS + 1) * 4] = {
        0x90, 96, 0, 101, 0, 0, 0, 0, 0x11, 0x11, 0x11, 0x11, 1, 2, 0, GOZDRIT_MAX_EXTENSION_WORDS + 1};
    refuses(r, GOZDRIT_TOO_LONG, packet, sizeof packet);
}

/* Of what could be refused for more than one reason, the first of the header's list is told. */
static void test_order(gozdrit_receiver *r) {
    refuses_rtp(r, GOZDRIT_UNKNOWN_SSRC, 98, 100, 0x33333333, GOZDRIT_MAX_PAYLOAD + 1);
    refuses_rtp(r, GOZDRIT_UNKNOWN_PAYLOAD_TYPE, 98, 20000, 0x11111111, GOZDRIT_MAX_PAYLOAD + 1);
    refuses_rtp(r, GOZDRIT_UNKNOWN_PAYLOAD_TYPE, 96, 100, 0x22222222, 0);
    refuses_rtp(r, GOZDRIT_NO_OSN, 97, 1, 0x22222222, 1);
    refuses_rtp(r, GOZDRIT_TOO_LONG, 97, 1, 0x22222222, GOZDRIT_MAX_PAYLOAD + 3);
}

static void test_far(gozdrit_receiver *r) {
    refuses_rtp(r, GOZDRIT_TOO_FAR, 96, 102 + 16384, 0x11111111, 1);
    refuses_rtp(r, GOZDRIT_TOO_FAR, 96, 102 + 32768, 0x11111111, 1);
    refuses_rtp(r, GOZDRIT_TOO_FAR, 96, 49254, 0x11111111, 1); /* 16384 below 102 */
    refuses_rtp(r, GOZDRIT_LATE, 96, 49255, 0x11111111, 1);
    refuses_rtp(r, GOZDRIT_LATE, 96, 99, 0x11111111, 1);
    refuses_rtp(r, GOZDRIT_LATE, 97, 1, 0x22222222, 2); /* its original number is 0 */
}

/* A packet from before the first one has an extended sequence number too, also where that lies below 65536. */
static void test_before_first(void) {
    gozdrit_receiver r = NONE;
    ANSWERS(GOZDRIT_OK, gozdrit_receiver_new(&CONFIG, &r));
    HEARS_MEDIA(&r, 5, 50, MEDIA(65541));
    refuses_rtp(&r, GOZDRIT_LATE, 96, 65535, 0x11111111, 1);
    refuses_rtp(&r, GOZDRIT_LATE, 97, 1, 0x22222222, 2); /* its original number is 0 */
    ANSWERS(GOZDRIT_OK, gozdrit_receiver_free(&r));
}

void test_refused_media(void) {
    gozdrit_receiver r = NONE;
    test_before_first();
    ANSWERS(GOZDRIT_OK, gozdrit_receiver_new(&CONFIG, &r));
    test_malformed(&r);
    test_order(&r);
    refuses_rtp(&r, GOZDRIT_TOO_LONG, 96, 100, 0x11111111, GOZDRIT_MAX_PAYLOAD + 1);
    refuses_rtp(&r, GOZDRIT_NOT_STARTED, 97, 1, 0x22222222, 2);
    HEARS_MEDIA(&r, 100, 50, MEDIA(65636));
    HEARS_MEDIA(&r, 102, 50, MEDIA(65638));
    test_malformed(&r);
    test_order(&r);
    test_long_extension(&r);
    refuses_rtp(&r, GOZDRIT_UNKNOWN_SSRC, 96, 101, 0x12345678, 1);
    refuses_rtp(&r, GOZDRIT_UNKNOWN_SSRC, 97, 101, 0x33333333, 3);
    refuses_rtp(&r, GOZDRIT_UNKNOWN_PAYLOAD_TYPE, 97, 101, 0x11111111, 1);
    refuses_rtp(&r, GOZDRIT_UNKNOWN_PAYLOAD_TYPE, 96, 1, 0x22222222, 3);
    refuses_rtp(&r, GOZDRIT_NO_OSN, 97, 1, 0x22222222, 0);
    refuses_rtp(&r, GOZDRIT_TOO_LONG, 96, 101, 0x11111111, GOZDRIT_MAX_PAYLOAD + 1);
    test_far(&r);
    refuses_rtp(&r, GOZDRIT_DUPLICATE, 96, 102, 0x11111111, 1);
    PLAYS(&r, 50, GOZDRIT_PACKET, 65636, 100);
    refuses_rtp(&r, GOZDRIT_LATE, 96, 100, 0x11111111, 1);
    HEARS_RTX(&r, 0x22222222, 101, 50, RETRANSMITTED(65637));
    refuses_rtp(&r, GOZDRIT_DUPLICATE, 96, 101, 0x11111111, 1);
    HEARS_MEDIA(&r, 102 + 16383, 50, OVERRUNS(65536 + 102 + 16383, 16381)); /* just near enough: 101 to 16481 are dropped */
    refuses_rtp(&r, GOZDRIT_LATE, 96, 103, 0x11111111, 1);
    ANSWERS(GOZDRIT_OK, gozdrit_receiver_free(&r));
}

/* What was learnt is gone once the stream restarts. */
static void test_learning_anew(void) {
    gozdrit_receiver_config config = CONFIG;
    gozdrit_receiver r = NONE;
    gozdrit_ssrc ssrc;
    config.learn_rtx_ssrc = 1, config.max_dropout = 1000, config.max_misorder = 1000;
    ANSWERS(GOZDRIT_OK, gozdrit_receiver_new(&config, &r));
    HEARS_MEDIA(&r, 100, 0, MEDIA(65636));
    HEARS_MEDIA(&r, 102, 0, MEDIA(65638));
    NACKS(&r, 0, GOZDRIT_MAX_NACKED, PAIR(101, 0));
    HEARS_RTX(&r, 0x55555555, 101, 0, RETRANSMITTED(65637));
    HEARS_MEDIA(&r, 1102, 0, HELD_BACK(1));
    ANSWERS(GOZDRIT_OK, gozdrit_rtx_ssrc(&r, &ssrc));
    CHECK(ssrc.known == 1 && ssrc.ssrc == 0x55555555);
    HEARS_MEDIA(&r, 1103, 0, RESTARTED(66639, 2, 3));
    FILL(ssrc);
    ANSWERS(GOZDRIT_OK, gozdrit_rtx_ssrc(&r, &ssrc));
    CHECK(ssrc.known == 0 && UNTOUCHED(ssrc.ssrc));
    HEARS_MEDIA(&r, 1105, 0, MEDIA(66641));
    NACKS(&r, 0, GOZDRIT_MAX_NACKED, PAIR(1104, 0));
    HEARS_RTX(&r, 0x66666666, 1104, 0, RETRANSMITTED(66640));
    ANSWERS(GOZDRIT_OK, gozdrit_rtx_ssrc(&r, &ssrc));
    CHECK(ssrc.known == 1 && ssrc.ssrc == 0x66666666);
    ANSWERS(GOZDRIT_OK, gozdrit_receiver_free(&r));
}

/* A receiver that learns the SSRC of the retransmissions from the first one that it asked for. */
void test_learning(void) {
    gozdrit_receiver_config config = CONFIG;
    gozdrit_receiver r = NONE;
    gozdrit_ssrc ssrc;
    uint8_t unasked[16];
    const size_t unasked_length = write_rtp(unasked, 97, 1, 0x55555555, "\0\145b", 3);
    config.learn_rtx_ssrc = 1;
    ANSWERS(GOZDRIT_OK, gozdrit_receiver_new(&config, &r));
    FILL(ssrc);
    ANSWERS(GOZDRIT_OK, gozdrit_rtx_ssrc(&r, &ssrc));
    CHECK(ssrc.known == 0 && UNTOUCHED(ssrc.ssrc));
    refuses(&r, GOZDRIT_NOT_STARTED, unasked, unasked_length);
    HEARS_MEDIA(&r, 100, 50, MEDIA(65636));
    HEARS_MEDIA(&r, 102, 50, MEDIA(65638));
    refuses(&r, GOZDRIT_UNASKED, unasked, unasked_length);
    NACKS(&r, 50, GOZDRIT_MAX_NACKED, PAIR(101, 0));
    refuses_rtp(&r, GOZDRIT_UNASKED, 97, 1, 0x55555555, 2); /* its original number is 0 */
    refuses_rtp(&r, GOZDRIT_UNKNOWN_SSRC, 97, 1, 0x33333333, 3);
    refuses_rtp(&r, GOZDRIT_UNKNOWN_PAYLOAD_TYPE, 96, 1, 0x55555555, 3);
    HEARS_RTX(&r, 0x55555555, 102, 50, NOT_HEARD(GOZDRIT_UNASKED)); /* it is held */
    HEARS(&r, unasked, unasked_length, 50, RETRANSMITTED(65637));
    ANSWERS(GOZDRIT_OK, gozdrit_rtx_ssrc(&r, &ssrc));
    CHECK(ssrc.known == 1 && ssrc.ssrc == 0x55555555);
    refuses_rtp(&r, GOZDRIT_UNKNOWN_SSRC, 97, 1, 0x22222222, 3);
    refuses(&r, GOZDRIT_DUPLICATE, unasked, unasked_length);
    ANSWERS(GOZDRIT_OK, gozdrit_receiver_free(&r));
    test_learning_anew();
}
