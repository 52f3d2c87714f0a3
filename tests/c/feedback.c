/* What a sender hears, and what it retransmits. */
#include "checks.h"

/* It keeps 4 packets, retransmits each twice at most, and starts at 131071, whose number is 65535. */
static const gozdrit_sender_config CONFIG = {
    .size = sizeof(gozdrit_sender_config), .session = SESSION, .history = 4, .first_sequence = 65535,
    .rtx_first_sequence = 7, .max_retransmissions = 2};
static const gozdrit_sender NONE = {NULL, 0};

/* A sender of so many packets: the first has everything, and the others a payload of one octet. */
static gozdrit_sender sender_of(const gozdrit_sender_config *config, int packets) {
    static const gozdrit_header full = {0x01020304, {0xa1a2a3a4, 0xb1b2b3b4}, {0xc1c2c3c4}, 0xbede, 2, 1, 7, 9};
    static const gozdrit_header plain = {.timestamp = 100};
    static const uint8_t payload[3] = {0xd1, 0xd2, 0xd3};
    uint8_t out[GOZDRIT_MAX_DATAGRAM];
    gozdrit_sender sender = NONE;
    gozdrit_sent sent = GOZDRIT_SENT_INIT;
    ANSWERS(GOZDRIT_OK, gozdrit_sender_new(config, &sender));
    for (int i = 0; i < packets; i++) {
        if (i == 0) ANSWERS(GOZDRIT_OK, gozdrit_send(&sender, &full, payload, 3, 4, &sent, out, sizeof out));
        else ANSWERS(GOZDRIT_OK, gozdrit_send(&sender, &plain, payload, 1, 0, &sent, out, sizeof out));
        CHECK(sent.sequence == 65536 + (uint64_t)config->first_sequence + (uint64_t)i);
    }
    return sender;
}

/* Nothing is to be retransmitted. No room is wanted to tell that. */
static void repeats_nothing(gozdrit_sender *sender) {
    uint8_t out[GOZDRIT_MAX_DATAGRAM];
    gozdrit_sent sent;
    FILL(out);
    FILL_SIZED(sent);
    ANSWERS(GOZDRIT_OK, gozdrit_retransmit(sender, &sent, NULL, 0));
    CHECK(sent.length == 0 && UNTOUCHED(sent.sequence));
    FILL_SIZED(sent);
    ANSWERS(GOZDRIT_OK, gozdrit_retransmit(sender, &sent, out, sizeof out));
    CHECK(sent.length == 0 && UNTOUCHED(sent.sequence) && UNTOUCHED(out));
}

/* The next retransmission has these octets: one octet of room less than they need is refused, and nothing changes then. */
static void repeats(gozdrit_sender *sender, uint64_t sequence, const uint8_t *octets, size_t length, size_t room) {
    uint8_t out[GOZDRIT_MAX_DATAGRAM];
    gozdrit_sent sent;
    FILL(out);
    FILL_SIZED(sent);
    ANSWERS(GOZDRIT_NO_ROOM, gozdrit_retransmit(sender, &sent, NULL, 0));
    ANSWERS(GOZDRIT_NO_ROOM, gozdrit_retransmit(sender, &sent, out, length - 1));
    CHECK(UNTOUCHED_SIZED(sent) && UNTOUCHED(out));
    ANSWERS(GOZDRIT_OK, gozdrit_retransmit(sender, &sent, out, room));
    CHECK(sent.sequence == sequence && sent.length == length);
    CHECK(memcmp(out, octets, length) == 0 && is_pattern(out + length, sizeof out - length));
}

/* The same of a packet with one octet of payload, and with more room than that needs. */
static void repeats_plain(gozdrit_sender *sender, uint64_t sequence, uint8_t number) {
    const uint8_t octets[] = {0x80, 0x61, 0,    number, 0, 0, 0, 100, 0x22, 0x22, 0x22, 0x22, (uint8_t)(sequence >> 8),
                              (uint8_t)sequence, 0xd1};
    repeats(sender, sequence, octets, sizeof octets, GOZDRIT_MAX_DATAGRAM);
}

/* Feedback that is refused, each by its number. Nothing is to be retransmitted by it, and it is counted. */
static void test_refused(void) {
    static const struct {
        uint8_t octets[32];
        uint8_t length;
        uint8_t number;
    } rows[] = {
        {{0x81, 205}, 2, GOZDRIT_FEEDBACK_SHORT},
        {{0x81, 205, 0}, 3, GOZDRIT_FEEDBACK_SHORT},
        {{0x81, 205, 0, 1, 0x33, 0x33, 0x33, 0x33}, 8, GOZDRIT_FEEDBACK_SHORT},
        {{0x81, 205, 0, 3, 0x33, 0x33, 0x33, 0x33, 0x11, 0x11, 0x11, 0x11, 0xff, 0xff, 0, 0, 0x80, 201, 0}, 19,
         GOZDRIT_FEEDBACK_SHORT},
        {{0x41, 205, 0, 3}, 16, GOZDRIT_FEEDBACK_VERSION},
        {{0xc0, 201, 0, 3}, 16, GOZDRIT_FEEDBACK_VERSION},
        {{0x81, 205, 0, 3, 0x33, 0x33, 0x33, 0x33, 0x11, 0x11, 0x11, 0x11, 0xff, 0xff, 0, 0, 0, 201, 0, 0}, 20,
         GOZDRIT_FEEDBACK_VERSION},
        {{0xa1, 205, 0, 3}, 16, GOZDRIT_FEEDBACK_PADDED},
        {{0x81, 205, 0, 4}, 16, GOZDRIT_FEEDBACK_LENGTH},
        {{0x80, 201, 0, 2}, 8, GOZDRIT_FEEDBACK_LENGTH},
        {{0x81, 205, 0, 2}, 12, GOZDRIT_FEEDBACK_EMPTY},
        {{0x81, 205, 0, 3, 0, 0, 0, 0, 0x11, 0x11, 0x11, 0x10, 0xff, 0xff}, 16, GOZDRIT_WRONG_MEDIA},
        {{0x81, 205, 0, 3, 0x33, 0x33, 0x33, 0x33, 0x22, 0x22, 0x22, 0x22, 0xff, 0xff}, 16, GOZDRIT_WRONG_MEDIA},
        {{0x81, 205, 0, 3, 0x33, 0x33, 0x33, 0x30, 0x11, 0x11, 0x11, 0x11, 0xff, 0xff}, 16, GOZDRIT_WRONG_REPORTER},
    };
    gozdrit_sender sender = sender_of(&CONFIG, 2);
    for (size_t i = 0; i < sizeof rows / sizeof *rows; i++) {
        TOLD(&sender, rows[i].octets, rows[i].length, NOT_TOLD(rows[i].number));
        CHECK(is_counted_sent(&sender, (gozdrit_send_counts){.sent = 2, .octets = 4, .refused = i + 1}));
    }
    repeats_nothing(&sender);
    ANSWERS(GOZDRIT_OK, gozdrit_sender_free(&sender));
}

/* What a sender passes over: RTP, which is what has no RTCP packet type in its second octet, and RTCP without a NACK. */
static void test_passed(void) {
    static const struct {
        uint8_t octets[16];
        uint8_t length;
        uint8_t kind;
    } rows[] = {
        {{0x80, 96, 0, 1, 0, 0, 0, 0, 0x11, 0x11, 0x11, 0x11}, 12, GOZDRIT_MEDIA},
        {{0x80, 191, 0, 1}, 4, GOZDRIT_MEDIA},
        {{0x80, 224, 0, 1}, 4, GOZDRIT_MEDIA},
        {{0x81}, 1, GOZDRIT_MEDIA},
        {{0}, 0, GOZDRIT_MEDIA},
        {{0x80, 192, 0, 0}, 4, GOZDRIT_REPORTS},
        {{0x80, 223, 0, 0}, 4, GOZDRIT_REPORTS},
        {{0x80, 201, 0, 1}, 8, GOZDRIT_REPORTS},
        {{0xa0, 201, 0, 0, 0x81, 202, 0, 2}, 16, GOZDRIT_REPORTS}, /* two packets, and what the first says of padding */
        {{0x82, 205, 0, 3}, 16, GOZDRIT_REPORTS}, /* transport layer feedback of another format */
        {{0x81, 206, 0, 2}, 12, GOZDRIT_REPORTS},
    };
    gozdrit_sender sender = sender_of(&CONFIG, 1);
    for (size_t i = 0; i < sizeof rows / sizeof *rows; i++) {
        TOLD(&sender, rows[i].octets, rows[i].length, (gozdrit_outcome){.kind = rows[i].kind});
    }
    CHECK(is_counted_sent(&sender, (gozdrit_send_counts){.sent = 1, .octets = 3, .media = 5, .reports = 6}));
    repeats_nothing(&sender);
    ANSWERS(GOZDRIT_OK, gozdrit_sender_free(&sender));
}

/* Feedback for both packets, as often as it is heard, and their retransmissions: without padding, each with the next number
 * of its own stream, and with its original number in front of the payload. */
static void test_retransmissions(void) {
    uint8_t full[] = {0x92, 0xe1, 0,    7,    1,    2,    3,    4,    0x22, 0x22, 0x22, 0x22, 0xa1, 0xa2, 0xa3, 0xa4, 0xb1,
                      0xb2, 0xb3, 0xb4, 0xbe, 0xde, 0,    1,    0xc1, 0xc2, 0xc3, 0xc4, 0xff, 0xff, 0xd1, 0xd2, 0xd3};
    gozdrit_sender sender = sender_of(&CONFIG, 2);
    uint8_t nack[NACK_LENGTH];
    write_nack(nack, 0x33333333, 0x11111111, 65535, 1);
    for (uint8_t i = 0; i < 2; i++) {
        TOLD(&sender, nack, sizeof nack, (gozdrit_outcome){.kind = GOZDRIT_FEEDBACK, .queued = 2, .nacks = 1, .nacked = 2});
        TOLD(&sender, nack, sizeof nack, (gozdrit_outcome){.kind = GOZDRIT_FEEDBACK, .nacks = 1, .nacked = 2});
        full[3] = (uint8_t)(7 + 2 * i);
        repeats(&sender, 131071, full, sizeof full, sizeof full);
        repeats_plain(&sender, 131072, (uint8_t)(8 + 2 * i));
        repeats_nothing(&sender);
    }
    TOLD(&sender, nack, sizeof nack,
         (gozdrit_outcome){.kind = GOZDRIT_FEEDBACK, .nacks = 1, .nacked = 2, .exhausted = 2});
    repeats_nothing(&sender);
    CHECK(is_counted_sent(&sender, (gozdrit_send_counts){.sent = 2, .octets = 4, .retransmissions = 4, .nacks = 5,
                                                         .nacked = 10, .exhausted = 2}));
    ANSWERS(GOZDRIT_OK, gozdrit_sender_free(&sender));
}

/* A full history drops its oldest packet; a number that no packet has is passed over, and counted. */
static void test_history(void) {
    gozdrit_sender sender = sender_of(&CONFIG, 5);
    const uint16_t pairs[6] = {65535, 0xffff, 2, 0, 2, 0};
    uint8_t nack[12 + 12];
    /* 65535 to 15, of which 0 to 3 are there, and 2 is named three times */
    TOLD(&sender, nack, write_pairs(nack, 0x33333333, 0x11111111, pairs, 3),
         (gozdrit_outcome){.kind = GOZDRIT_FEEDBACK, .queued = 4, .nacks = 1, .nacked = 19, .not_in_history = 13});
    for (uint64_t sequence = 131072; sequence <= 131075; sequence++) {
        repeats_plain(&sender, sequence, (uint8_t)(sequence - 131065));
    }
    repeats_nothing(&sender);
    ANSWERS(GOZDRIT_OK, gozdrit_sender_free(&sender));
}

/* One datagram with NACKs for several senders, and from several reporters. */
static void test_shared(void) {
    static const uint8_t report[8] = {0x80, 201, 0, 1, 0x33, 0x33, 0x33, 0x33};
    gozdrit_sender_config any = CONFIG;
    gozdrit_sender sender = sender_of(&CONFIG, 3), hears_all;
    uint8_t octets[8 + 4 * NACK_LENGTH], *at = octets + sizeof report;
    any.any_reporter = 1;
    hears_all = sender_of(&any, 3);
    memcpy(octets, report, sizeof report);
    write_nack(at, 0x33333333, 0x44444444, 0, 0);                   /* for other media */
    write_nack(at + NACK_LENGTH, 0x55555555, 0x11111111, 65535, 0); /* from another reporter */
    write_nack(at + 2 * NACK_LENGTH, 0x33333333, 0x11111111, 0, 1);
    write_nack(at + 3 * NACK_LENGTH, 0x33333333, 0x11111111, 0, 0);
    TOLD(&sender, octets, sizeof octets,
         (gozdrit_outcome){.kind = GOZDRIT_FEEDBACK, .queued = 2, .nacks = 2, .other_nacks = 2, .nacked = 3});
    TOLD(&hears_all, octets, sizeof octets,
         (gozdrit_outcome){.kind = GOZDRIT_FEEDBACK, .queued = 3, .nacks = 3, .other_nacks = 1, .nacked = 4});
    repeats_plain(&sender, 131072, 7);
    repeats_plain(&sender, 131073, 8);
    repeats_nothing(&sender);
    CHECK(is_counted_sent(&sender, (gozdrit_send_counts){.sent = 3, .octets = 5, .retransmissions = 2, .nacks = 2,
                                                         .other_nacks = 2, .nacked = 3}));
    /* none of the first two is this sender's; to the other one the second is */
    TOLD(&sender, octets, sizeof report + NACK_LENGTH, NOT_TOLD(GOZDRIT_WRONG_MEDIA));
    TOLD(&sender, at + NACK_LENGTH, NACK_LENGTH, NOT_TOLD(GOZDRIT_WRONG_REPORTER));
    TOLD(&hears_all, octets, sizeof report + NACK_LENGTH, NOT_TOLD(GOZDRIT_WRONG_MEDIA));
    TOLD(&hears_all, at + NACK_LENGTH, NACK_LENGTH,
         (gozdrit_outcome){.kind = GOZDRIT_FEEDBACK, .nacks = 1, .nacked = 1});
    ANSWERS(GOZDRIT_OK, gozdrit_sender_free(&sender));
    ANSWERS(GOZDRIT_OK, gozdrit_sender_free(&hears_all));
}

static void probes(gozdrit_sender *sender, uint32_t expected) {
    uint32_t queued;
    FILL(queued);
    ANSWERS(GOZDRIT_OK, gozdrit_tail_loss_probe(sender, &queued));
    CHECK(queued == expected);
}

/* The newest packet is retransmitted as if a NACK had named it, and as often; it is no NACK to the counts. */
static void test_tail_loss_probe(void) {
    gozdrit_sender sender = sender_of(&CONFIG, 0);
    uint8_t nack[NACK_LENGTH];
    probes(&sender, 0);
    repeats_nothing(&sender);
    ANSWERS(GOZDRIT_OK, gozdrit_sender_free(&sender));
    sender = sender_of(&CONFIG, 2);
    write_nack(nack, 0x33333333, 0x11111111, 0, 0);
    probes(&sender, 1);
    probes(&sender, 0);
    TOLD(&sender, nack, sizeof nack, (gozdrit_outcome){.kind = GOZDRIT_FEEDBACK, .nacks = 1, .nacked = 1});
    repeats_plain(&sender, 131072, 7);
    repeats_nothing(&sender);
    TOLD(&sender, nack, sizeof nack, (gozdrit_outcome){.kind = GOZDRIT_FEEDBACK, .queued = 1, .nacks = 1, .nacked = 1});
    probes(&sender, 0);
    repeats_plain(&sender, 131072, 8);
    probes(&sender, 0); /* it was retransmitted twice */
    TOLD(&sender, nack, sizeof nack, (gozdrit_outcome){.kind = GOZDRIT_FEEDBACK, .nacks = 1, .nacked = 1, .exhausted = 1});
    repeats_nothing(&sender);
    CHECK(is_counted_sent(&sender, (gozdrit_send_counts){.sent = 2, .octets = 4, .retransmissions = 2, .nacks = 3,
                                                         .nacked = 3, .exhausted = 1}));
    ANSWERS(GOZDRIT_OK, gozdrit_sender_free(&sender));
}

void test_feedback(void) {
    test_refused();
    test_passed();
    test_retransmissions();
    test_history();
    test_shared();
    test_tail_loss_probe();
}
