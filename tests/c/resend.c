/* Which retransmissions fit the time: none again too soon, and none past its deadline. */
#include "checks.h"

/* It keeps 4 packets from 65736 on, retransmits none within 50 ms of its last retransmission, and none 200 ms after it was
 * sent. */
static const gozdrit_sender_config CONFIG = {
    .size = sizeof(gozdrit_sender_config), .session = SESSION, .history = 4, .first_sequence = 200,
    .rtx_first_sequence = 7, .max_retransmissions = 9, .min_resend = 50, .deadline = 200};

static void at(gozdrit_sender *sender, uint64_t now) { ANSWERS(GOZDRIT_OK, gozdrit_sender_set_time(sender, now)); }

static void sends(gozdrit_sender *sender, uint64_t now, uint64_t sequence) {
    static const gozdrit_header plain = {.timestamp = 100};
    const uint8_t octet = 0xd1;
    uint8_t out[GOZDRIT_MAX_DATAGRAM];
    gozdrit_sent sent = GOZDRIT_SENT_INIT;
    at(sender, now);
    ANSWERS(GOZDRIT_OK, gozdrit_send(sender, &plain, &octet, 1, 0, &sent, out, sizeof out));
    CHECK(sent.sequence == sequence);
}

static void names(gozdrit_sender *sender, uint16_t pid, uint16_t blp) {
    uint8_t nack[NACK_LENGTH];
    gozdrit_outcome outcome = GOZDRIT_OUTCOME_INIT;
    write_nack(nack, 0x33333333, 0x11111111, pid, blp);
    ANSWERS(GOZDRIT_OK, gozdrit_feedback(sender, nack, sizeof nack, &outcome));
    CHECK(outcome.kind == GOZDRIT_FEEDBACK);
}

/* The next retransmission at a time is that of this sequence number, or none where it is 0. Less room than any datagram may
 * need is refused, and passes nothing over. */
static void repeats(gozdrit_sender *sender, uint64_t now, uint64_t sequence) {
    uint8_t out[GOZDRIT_MAX_DATAGRAM];
    gozdrit_send_counts before = GOZDRIT_SEND_COUNTS_INIT, after;
    gozdrit_sent sent;
    FILL_SIZED(after);
    FILL_SIZED(sent);
    FILL(out);
    at(sender, now);
    ANSWERS(GOZDRIT_OK, gozdrit_sender_counts(sender, &before));
    ANSWERS(GOZDRIT_NO_ROOM, gozdrit_retransmit(sender, &sent, out, sizeof out - 1));
    ANSWERS(GOZDRIT_OK, gozdrit_sender_counts(sender, &after));
    CHECK(UNTOUCHED_SIZED(sent) && UNTOUCHED(out) && memcmp(&before, &after, sizeof before) == 0);
    ANSWERS(GOZDRIT_OK, gozdrit_retransmit(sender, &sent, out, sizeof out));
    CHECK(sequence == 0 ? sent.length == 0 && UNTOUCHED(sent.sequence) : sent.length == 15 && sent.sequence == sequence);
}

/* Sent at 1000 and 1010. The first is retransmitted at 1040, and named again too soon at 1089; at 1090 it is not. */
static void test_too_soon(gozdrit_sender *sender) {
    sends(sender, 1000, 65736);
    sends(sender, 1010, 65737);
    names(sender, 200, 0);
    repeats(sender, 1040, 65736);
    names(sender, 200, 1);
    repeats(sender, 1089, 65737); /* what lies below and comes too soon is passed over */
    repeats(sender, 1090, 0);
    names(sender, 200, 0);
    repeats(sender, 1090, 65736);
    CHECK(is_counted_sent(sender, (gozdrit_send_counts){.sent = 2, .octets = 2, .retransmissions = 3, .nacks = 3,
                                                        .nacked = 4, .early = 1}));
}

/* At 1210 the second is 200 ms old, and fits still; the first does not. At 1211 neither does. */
static void test_too_late(gozdrit_sender *sender) {
    names(sender, 200, 1);
    repeats(sender, 1210, 65737);
    names(sender, 201, 0);
    repeats(sender, 1260, 0);
    CHECK(is_counted_sent(sender, (gozdrit_send_counts){.sent = 2, .octets = 2, .retransmissions = 4, .nacks = 5,
                                                        .nacked = 7, .early = 1, .expired = 2}));
}

/* Without either rule the time makes no difference. */
static void test_no_rule(void) {
    gozdrit_sender_config config = CONFIG;
    gozdrit_sender sender = {NULL, 0};
    gozdrit_sent sent = GOZDRIT_SENT_INIT;
    uint8_t out[15];
    config.min_resend = config.deadline = 0;
    ANSWERS(GOZDRIT_OK, gozdrit_sender_new(&config, &sender));
    ANSWERS(GOZDRIT_OK, gozdrit_sender_set_adaptive(&sender, 0));
    sends(&sender, 5000, 65736);
    for (int i = 0; i < 3; i++) {
        at(&sender, i == 2 ? UINT64_MAX : 0);
        names(&sender, 200, 0);
        ANSWERS(GOZDRIT_OK, gozdrit_retransmit(&sender, &sent, out, sizeof out));
        CHECK(sent.length == 15 && sent.sequence == 65736);
    }
    ANSWERS(GOZDRIT_OK, gozdrit_sender_free(&sender));
}

/* Packets are sent five apart, so a path with room for the media alone takes as long for a retransmission, and forty for eight;
 * and an answer came 15 behind the last of them. Named 27 after its retransmission the first comes too soon, as that would be
 * taken for 13 more, and 38 after it it does not; by min_resend alone, which is 10, both are answered. Where nothing is said (2),
 * the path is followed. */
static void test_waits_for_answers(uint8_t adaptive) {
    gozdrit_sender_config config = CONFIG;
    gozdrit_sender sender = {NULL, 0};
    ANSWERS(GOZDRIT_EMPTY_HANDLE, gozdrit_sender_set_adaptive(&sender, 1));
    config.history = 16;
    config.min_resend = 10;
    config.deadline = 0;
    ANSWERS(GOZDRIT_OK, gozdrit_sender_new(&config, &sender));
    ANSWERS(GOZDRIT_BAD_LIMIT, gozdrit_sender_set_adaptive(&sender, 2));
    if (adaptive < 2) {
        ANSWERS(GOZDRIT_OK, gozdrit_sender_set_adaptive(&sender, 1));
        ANSWERS(GOZDRIT_OK, gozdrit_sender_set_adaptive(&sender, adaptive));
    }
    for (uint64_t i = 0; i < 9; i++) sends(&sender, 1005 + 5 * i, 65736 + i);
    at(&sender, 1060);
    names(&sender, 200, 0x7f);
    for (uint64_t i = 0; i < 8; i++) repeats(&sender, 1060, 65736 + i);
    at(&sender, 1087);
    names(&sender, 200, 0);
    repeats(&sender, 1087, adaptive ? 0 : 65736);
    at(&sender, 1098);
    names(&sender, 200, 0);
    repeats(&sender, 1098, 65736);
    ANSWERS(GOZDRIT_OK, gozdrit_sender_free(&sender));
}

/* Until it is told a time it retransmits whatever is named, in whatever room there is; then what it was configured holds. */
static void test_no_time(void) {
    static const gozdrit_header plain = {.timestamp = 100};
    const uint8_t octet = 0xd1;
    gozdrit_sender sender = {NULL, 0};
    gozdrit_sent sent = GOZDRIT_SENT_INIT;
    uint8_t out[GOZDRIT_MAX_DATAGRAM];
    ANSWERS(GOZDRIT_OK, gozdrit_sender_new(&CONFIG, &sender));
    ANSWERS(GOZDRIT_OK, gozdrit_send(&sender, &plain, &octet, 1, 0, &sent, out, sizeof out));
    for (int i = 0; i < 3; i++) {
        names(&sender, 200, 0);
        ANSWERS(GOZDRIT_OK, gozdrit_retransmit(&sender, &sent, out, 15));
        CHECK(sent.length == 15 && sent.sequence == 65736);
    }
    names(&sender, 200, 0);
    at(&sender, 0);
    ANSWERS(GOZDRIT_NO_ROOM, gozdrit_retransmit(&sender, &sent, out, 15));
    repeats(&sender, 49, 0);
    names(&sender, 200, 0);
    repeats(&sender, 50, 65736);
    ANSWERS(GOZDRIT_OK, gozdrit_sender_free(&sender));
}

void test_resend(void) {
    gozdrit_sender sender = {NULL, 0};
    ANSWERS(GOZDRIT_EMPTY_HANDLE, gozdrit_sender_set_time(&sender, 1));
    ANSWERS(GOZDRIT_OK, gozdrit_sender_new(&CONFIG, &sender));
    ANSWERS(GOZDRIT_OK, gozdrit_sender_set_adaptive(&sender, 0));
    test_too_soon(&sender);
    test_too_late(&sender);
    ANSWERS(GOZDRIT_OK, gozdrit_sender_free(&sender));
    test_no_rule();
    test_waits_for_answers(0);
    test_waits_for_answers(1);
    test_waits_for_answers(2);
    test_no_time();
}
