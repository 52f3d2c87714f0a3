/* Media packets whose number has jumped, what a receiver passes over, and what it counts. */
#include "checks.h"

static const gozdrit_receiver_config CONFIG = {
    .size = sizeof(gozdrit_receiver_config), .session = SESSION, .latency = 100, .nack_interval = 20, .window = 16,
    .max_nacks = 2};

/* A receiver that took the packet with this number. */
static gozdrit_receiver started(const gozdrit_receiver_config *config, uint16_t seq) {
    gozdrit_receiver r = {NULL, 0};
    ANSWERS(GOZDRIT_OK, gozdrit_receiver_new(config, &r));
    HEARS_MEDIA(&r, seq, 0, MEDIA(65536 + (uint64_t)seq));
    return r;
}

/* The usual jump ahead: 3000 or more, of which two in sequence are believed. */
static void test_ahead(void) {
    gozdrit_receiver r = started(&CONFIG, 100);
    HEARS_MEDIA(&r, 3100, 1, HELD_BACK(1));
    TELLS(&r, 65636, 65636, 0);
    PLAYS(&r, 1, GOZDRIT_PACKET, 65636, 100);
    HEARS_MEDIA(&r, 3099, 2, OVERRUNS(68635, 2983)); /* one less is no jump, and leaves 15 missing below it */
    TELLS(&r, 68620, 68635, 15);
    HEARS_MEDIA(&r, 6099, 3, HELD_BACK(1));
    NACKS(&r, 3, 1, PAIR(3084, 0)); /* the stream goes on meanwhile */
    TELLS(&r, 68620, 68635, 15);
    HEARS_MEDIA(&r, 6100, 4, RESTARTED(71636, 2, 16));
    TELLS(&r, 71635, 71636, 0);
    NACKS(&r, 4, GOZDRIT_MAX_NACKED, NO_PAIR);
    PLAYS(&r, 4, GOZDRIT_PACKET, 71635, (uint8_t)6099);
    PLAYS(&r, 4, GOZDRIT_PACKET, 71636, (uint8_t)6100);
    HEARS_MEDIA(&r, 101, 5, HELD_BACK(1)); /* the numbers of before have jumped now */
    HEARS_MEDIA(&r, 100, 5, NOT_HEARD(GOZDRIT_LATE)); /* what was taken before begins nothing */
    CHECK(is_counted(&r, (gozdrit_receive_counts){.media = 2, .held_back = 3, .restarts = 1, .late = 1, .overrun = 2983,
                                                  .abandoned = 16, .played = 3, .nacks = 1, .nacked = 1, .skipped = 2999}));
    ANSWERS(GOZDRIT_OK, gozdrit_receiver_free(&r));
}

/* The usual jump ahead over a window of more than 3000: as many as it keeps. */
static void test_wide(void) {
    gozdrit_receiver_config config = CONFIG;
    config.window = 8192;
    gozdrit_receiver r = started(&config, 100);
    HEARS_MEDIA(&r, 8291, 1, MEDIA(73827));
    HEARS_MEDIA(&r, 16483, 2, HELD_BACK(1));
    ANSWERS(GOZDRIT_OK, gozdrit_receiver_free(&r));
}

/* The usual jump behind: 100 or more, of which 256 in sequence are believed. */
static void test_behind(void) {
    gozdrit_receiver_config config = CONFIG;
    config.window = 512;
    gozdrit_receiver r = started(&config, 1000);
    HEARS_MEDIA(&r, 900, 1, HELD_BACK(1));
    HEARS_MEDIA(&r, 901, 1, NOT_HEARD(GOZDRIT_LATE)); /* one less is no jump */
    for (uint16_t i = 0; i < 255; i++) HEARS_MEDIA(&r, (uint16_t)(500 + i), 2, HELD_BACK(i + 1u));
    TELLS(&r, 66536, 66536, 0);
    HEARS_MEDIA(&r, 755, 2, RESTARTED(66291, 256, 1));
    TELLS(&r, 66036, 66291, 0);
    for (uint16_t i = 0; i < 256; i++) PLAYS(&r, 2, GOZDRIT_PACKET, 66036 + (uint64_t)i, (uint8_t)(500 + i));
    PLAYS(&r, 2, GOZDRIT_WAIT, 0, 0);
    CHECK(is_counted(&r, (gozdrit_receive_counts){.media = 1, .held_back = 256, .restarts = 1, .late = 1, .abandoned = 1,
                                                  .played = 256}));
    ANSWERS(GOZDRIT_OK, gozdrit_receiver_free(&r));
}

/* A configuration's own numbers, each at its bound, and where ahead ends and behind begins. */
static void test_numbers(void) {
    gozdrit_receiver_config config = CONFIG;
    config.max_dropout = 10, config.max_misorder = 5, config.min_sequential_ahead = 1, config.min_sequential_behind = 3;
    gozdrit_receiver r = started(&config, 100);
    HEARS_MEDIA(&r, 109, 0, MEDIA(65645));
    HEARS_MEDIA(&r, 104, 0, MEDIA(65640)); /* it is missing, however far behind */
    HEARS_MEDIA(&r, 104, 0, NOT_HEARD(GOZDRIT_LATE)); /* and is so no longer */
    HEARS_MEDIA(&r, 105, 0, MEDIA(65641));
    HEARS_MEDIA(&r, 119, 0, RESTARTED(65655, 1, 10));
    HEARS_MEDIA(&r, 119 + 32767, 0, RESTARTED(98422, 1, 1));
    HEARS_MEDIA(&r, 119 + 32767 + 100, 0, RESTARTED(98522, 1, 1));
    HEARS_MEDIA(&r, (uint16_t)(119 + 32867 + 32768), 0, HELD_BACK(1));
    HEARS_MEDIA(&r, (uint16_t)(119 + 32867 + 32769), 0, HELD_BACK(2));
    HEARS_MEDIA(&r, (uint16_t)(119 + 32867 + 32770), 0, RESTARTED(65536 + 220, 3, 1));
    TELLS(&r, 65536 + 218, 65536 + 220, 0);
    ANSWERS(GOZDRIT_OK, gozdrit_receiver_free(&r));
}

/* A run of three that one more packet ends or leaves: at the end it is believed, or not. */
static void goes_on(const uint8_t *octets, size_t length, gozdrit_received expected, bool ends) {
    gozdrit_receiver_config config = CONFIG;
    config.min_sequential_ahead = 3;
    gozdrit_receiver r = started(&config, 100);
    HEARS_MEDIA(&r, 102, 0, MEDIA(65638));
    HEARS_MEDIA(&r, 5000, 0, HELD_BACK(1));
    HEARS_MEDIA(&r, 5001, 0, HELD_BACK(2));
    HEARS(&r, octets, length, 0, expected);
    if (ends) HEARS_MEDIA(&r, 5002, 0, HELD_BACK(1));
    else HEARS_MEDIA(&r, 5002, 0, RESTARTED(70538, 3, 3));
    ANSWERS(GOZDRIT_OK, gozdrit_receiver_free(&r));
}

static void test_runs(void) {
    static const uint8_t zeros[GOZDRIT_MAX_PAYLOAD + 1];
    static const uint8_t rtcp[8] = {0x80, 200, 0, 1};
    uint8_t packet[12 + sizeof zeros];
    goes_on(packet, write_rtp(packet, 96, 103, 0x11111111, "a", 1), MEDIA(65639), true);
    goes_on(packet, write_rtp(packet, 96, 102, 0x11111111, "a", 1), NOT_HEARD(GOZDRIT_DUPLICATE), true);
    goes_on(packet, write_rtp(packet, 96, 99, 0x11111111, "a", 1), NOT_HEARD(GOZDRIT_LATE), true);
    goes_on(packet, write_rtp(packet, 96, 5003, 0x11111111, "a", 1), HELD_BACK(1), true);
    goes_on(packet, write_rtp(packet, 96, 5002, 0x11111111, zeros, sizeof zeros), NOT_HEARD(GOZDRIT_TOO_LONG), true);
    goes_on(packet, write_rtp(packet, 97, 5002, 0x22222222, "\0\145b", 3), RETRANSMITTED(65637), false);
    goes_on(packet, write_rtp(packet, 97, 5002, 0x22222222, "\0\1b", 3), NOT_HEARD(GOZDRIT_LATE), false);
    goes_on(packet, write_rtp(packet, 96, 5002, 0x44444444, "a", 1), NOT_HEARD(GOZDRIT_UNKNOWN_SSRC), false);
    goes_on(packet, write_rtp(packet, 98, 5002, 0x11111111, "a", 1), NOT_HEARD(GOZDRIT_UNKNOWN_PAYLOAD_TYPE), false);
    goes_on(packet, 11, NOT_HEARD(GOZDRIT_RTP_SHORT), false);
    goes_on(rtcp, sizeof rtcp, (gozdrit_received){.kind = GOZDRIT_RTCP}, false);
}

/* A packet that comes twice begins the run anew, and is in it once. */
static void test_twice(void) {
    gozdrit_receiver r = started(&CONFIG, 100);
    HEARS_MEDIA(&r, 5000, 0, HELD_BACK(1));
    HEARS_MEDIA(&r, 5000, 0, HELD_BACK(1));
    HEARS_MEDIA(&r, 5001, 0, RESTARTED(70537, 2, 1));
    TELLS(&r, 70536, 70537, 0);
    ANSWERS(GOZDRIT_OK, gozdrit_receiver_free(&r));
}

/* A run of more than the window keeps: its last packets are what is left of it. What it dropped before is passed over with the jump: 101 to
 * 5002. */
static void test_long_run(void) {
    gozdrit_receiver_config config = CONFIG;
    config.min_sequential_ahead = 20;
    gozdrit_receiver r = started(&config, 100);
    for (uint16_t i = 0; i < 19; i++) HEARS_MEDIA(&r, (uint16_t)(5000 + i), 0, HELD_BACK(i + 1u));
    HEARS_MEDIA(&r, 5019, 0,
                (gozdrit_received){
                    .kind = GOZDRIT_RESTARTED, .sequence = 70555, .overrun = 1, .abandoned = 1, .held_back = 20});
    TELLS(&r, 70540, 70555, 0);
    CHECK(is_counted(&r, (gozdrit_receive_counts){.media = 1, .held_back = 19, .restarts = 1, .overrun = 1,
                                                  .abandoned = 1, .skipped = 4902}));
    ANSWERS(GOZDRIT_OK, gozdrit_receiver_free(&r));
}

/* What is held back comes with the times at which it came; the latency and the times of NACKs are those of now. */
static void test_held_times(void) {
    gozdrit_receiver_config config = CONFIG;
    config.min_sequential_ahead = 2;
    gozdrit_receiver r = started(&config, 100);
    ANSWERS(GOZDRIT_OK, gozdrit_set_times(&r, 50, 9, 20));
    HEARS_MEDIA(&r, 5000, 10, HELD_BACK(1));
    HEARS_MEDIA(&r, 5001, 20, RESTARTED(70537, 2, 1));
    HEARS_MEDIA(&r, 5003, 30, MEDIA(70539));
    NACKS(&r, 38, GOZDRIT_MAX_NACKED, NO_PAIR);
    NACKS(&r, 39, GOZDRIT_MAX_NACKED, PAIR(5002, 0));
    PLAYS(&r, 39, GOZDRIT_PACKET, 70536, (uint8_t)5000);
    PLAYS(&r, 39, GOZDRIT_PACKET, 70537, (uint8_t)5001);
    PLAYS(&r, 79, GOZDRIT_WAIT, 0, 0);
    PLAYS(&r, 80, GOZDRIT_GAP, 70538, 0);
    ANSWERS(GOZDRIT_OK, gozdrit_receiver_free(&r));
}

/* RTCP is told apart by its second octet, whatever else it has, and before a receiver has started too. */
static void test_rtcp(void) {
    static const uint8_t octets[4][4] = {{0x80, 192, 0, 0}, {0x80, 223}, {0, 200}, {0xff, 205, 0xff, 0xff}};
    static const uint8_t rtp[12] = {0x80, 224, 0, 1, 0, 0, 0, 0, 0x11, 0x11, 0x11, 0x11};
    static const uint8_t low[12] = {0x80, 191, 0, 1, 0, 0, 0, 0, 0x11, 0x11, 0x11, 0x11};
    gozdrit_receiver r = {NULL, 0};
    ANSWERS(GOZDRIT_OK, gozdrit_receiver_new(&CONFIG, &r));
    for (size_t i = 0; i < 4; i++) HEARS(&r, octets[i], 4, 0, (gozdrit_received){.kind = GOZDRIT_RTCP});
    HEARS(&r, octets[1], 2, 0, (gozdrit_received){.kind = GOZDRIT_RTCP});
    HEARS(&r, octets[1], 1, 0, NOT_HEARD(GOZDRIT_RTP_SHORT));
    HEARS(&r, low, sizeof low, 0, NOT_HEARD(GOZDRIT_UNKNOWN_PAYLOAD_TYPE));
    HEARS(&r, rtp, sizeof rtp, 0, MEDIA(65537));
    CHECK(is_counted(&r, (gozdrit_receive_counts){.media = 1, .rtcp = 5, .refused = 2}));
    ANSWERS(GOZDRIT_OK, gozdrit_receiver_free(&r));
}

/* A packet that is all padding, as browsers probe with, is one with an empty payload. */
static void test_all_padding(void) {
    static const uint8_t packet[15] = {0xa0, 96, 0, 100, 0, 0, 0, 0, 0x11, 0x11, 0x11, 0x11, 0, 0, 3};
    static const uint8_t more[15] = {0xa0, 96, 0, 101, 0, 0, 0, 0, 0x11, 0x11, 0x11, 0x11, 0, 0, 4};
    static const uint8_t repair[15] = {0xa0, 97, 0, 1, 0, 0, 0, 0, 0x22, 0x22, 0x22, 0x22, 0, 0, 3};
    gozdrit_receiver r = {NULL, 0};
    gozdrit_played played;
    FILL_SIZED(played);
    ANSWERS(GOZDRIT_OK, gozdrit_receiver_new(&CONFIG, &r));
    HEARS(&r, packet, sizeof packet, 0, MEDIA(65636));
    HEARS(&r, more, sizeof more, 0, NOT_HEARD(GOZDRIT_RTP_PADDING));
    HEARS(&r, repair, sizeof repair, 0, NOT_HEARD(GOZDRIT_NO_OSN));
    ANSWERS(GOZDRIT_OK, gozdrit_play(&r, 0, &played, NULL, 0));
    CHECK(played.kind == GOZDRIT_PACKET && played.sequence == 65636 && played.length == 0);
    ANSWERS(GOZDRIT_OK, gozdrit_receiver_free(&r));
}

/* Each datagram is in one of the first nine counts. */
static void test_counts(void) {
    gozdrit_receiver_config config = CONFIG;
    config.max_dropout = 20000, config.max_misorder = 20000;
    gozdrit_receiver r = started(&config, 100);
    HEARS_MEDIA(&r, 103, 0, MEDIA(65639));
    HEARS_RTX(&r, 0x22222222, 101, 0, RETRANSMITTED(65637));
    HEARS_RTX(&r, 0x22222222, 101, 0, NOT_HEARD(GOZDRIT_DUPLICATE));
    HEARS_MEDIA(&r, 103, 0, NOT_HEARD(GOZDRIT_DUPLICATE));
    HEARS_MEDIA(&r, 90, 0, NOT_HEARD(GOZDRIT_LATE));
    HEARS_MEDIA(&r, 19000, 0, NOT_HEARD(GOZDRIT_TOO_FAR));
    HEARS_RTX(&r, 0x22222222, 19000, 0, NOT_HEARD(GOZDRIT_TOO_FAR));
    HEARS_RTX(&r, 0x44444444, 102, 0, NOT_HEARD(GOZDRIT_UNKNOWN_SSRC));
    NACKS(&r, 0, GOZDRIT_MAX_NACKED, PAIR(102, 0));
    NACKS(&r, 20, GOZDRIT_MAX_NACKED, PAIR(102, 0));
    PLAYS(&r, 0, GOZDRIT_PACKET, 65636, 100);
    PLAYS(&r, 0, GOZDRIT_PACKET, 65637, 101);
    PLAYS(&r, 0, GOZDRIT_WAIT, 0, 0);
    PLAYS(&r, 100, GOZDRIT_GAP, 65638, 0);
    HEARS_MEDIA(&r, 120, 100, OVERRUNS(65656, 2)); /* 103 was held, and 104 is missing */
    HEARS_RTX(&r, 0x22222222, 140, 100,
              (gozdrit_received){.kind = GOZDRIT_RETRANSMISSION, .sequence = 65676, .overrun = 20});
    HEARS_MEDIA(&r, 30000, 100, HELD_BACK(1));
    HEARS_MEDIA(&r, 30001, 100, RESTARTED(95537, 2, 16));
    CHECK(is_counted(&r, (gozdrit_receive_counts){.media = 3, .retransmissions = 2, .held_back = 1, .restarts = 1,
                                                  .duplicate = 2, .late = 1, .too_far = 2, .refused = 1, .overrun = 22,
                                                  .abandoned = 16, .played = 2, .gaps = 1, .nacks = 2, .nacked = 2,
                                                  .skipped = 29859}));
    ANSWERS(GOZDRIT_OK, gozdrit_receiver_free(&r));
}

/* With a time after which the stream is idle neither losses nor reordering end what is held back, a packet of the living
 * stream does, and two are enough once none of it was taken for so long. Else four are, ahead and behind alike. */
static void test_idle(void) {
    gozdrit_receiver_config config = CONFIG;
    config.max_dropout = 10, config.max_misorder = 5, config.idle_after = 200;
    config.min_sequential_ahead = 2, config.min_sequential_behind = 4;
    gozdrit_receiver r = started(&config, 100);
    HEARS_MEDIA(&r, 50000, 10, HELD_BACK(1));
    HEARS_MEDIA(&r, 50002, 20, HELD_BACK(2));
    HEARS_MEDIA(&r, 101, 30, MEDIA(65637));
    HEARS_MEDIA(&r, 50003, 40, HELD_BACK(1));
    HEARS_MEDIA(&r, 101, 50, NOT_HEARD(GOZDRIT_DUPLICATE)); /* it ends nothing, and is no sign of life */
    HEARS_MEDIA(&r, 50005, 229, HELD_BACK(2));
    HEARS_MEDIA(&r, 50005, 229, NOT_HEARD(GOZDRIT_DUPLICATE));
    HEARS_MEDIA(&r, 50004, 230, RESTARTED(115540, 3, 2));
    TELLS(&r, 115539, 115541, 0);
    HEARS_MEDIA(&r, 100, 999, NOT_HEARD(GOZDRIT_LATE)); /* the network repeats it, in whatever pause */
    HEARS_MEDIA(&r, 101, 999, NOT_HEARD(GOZDRIT_LATE));
    HEARS_MEDIA(&r, 200, 231, HELD_BACK(1));
    HEARS_MEDIA(&r, 202, 231, HELD_BACK(2));
    HEARS_MEDIA(&r, 203, 231, HELD_BACK(3));
    HEARS_MEDIA(&r, 205, 231, RESTARTED(65741, 4, 3));
    TELLS(&r, 65736, 65741, 2);
    ANSWERS(GOZDRIT_OK, gozdrit_receiver_free(&r));
}

void test_jumps(void) {
    test_ahead();
    test_wide();
    test_behind();
    test_numbers();
    test_runs();
    test_twice();
    test_long_run();
    test_held_times();
    test_rtcp();
    test_all_padding();
    test_counts();
    test_idle();
}
