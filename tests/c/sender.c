/* The calls that make a sender and send; what a sender hears and retransmits is in feedback.c. */
#include "checks.h"

/* It keeps 4 packets, and starts at 131071, whose number is 65535. */
static const gozdrit_sender_config CONFIG = {
    .size = sizeof(gozdrit_sender_config), .session = SESSION, .history = 4, .first_sequence = 65535,
    .rtx_first_sequence = 7, .max_retransmissions = 2};
static const gozdrit_header PLAIN = {.timestamp = 100};
static const gozdrit_sender NONE = {NULL, 0};

/* The octets before a payload at most, and those of the largest packet, with its padding. */
enum {
    HEADER = 12 + 4 * GOZDRIT_MAX_CSRCS + 4 + 4 * GOZDRIT_MAX_EXTENSION_WORDS,
    LARGEST = HEADER + GOZDRIT_MAX_PAYLOAD + 255
};

typedef struct lent {
    gozdrit_sent sent;
    gozdrit_outcome outcome;
    gozdrit_send_counts counts;
    uint8_t out[GOZDRIT_MAX_DATAGRAM];
    uint32_t queued;
} lent;

/* What the calls are lent: a pattern, and the sizes of the structs that begin with theirs. */
static void fill(lent *l) {
    FILL(*l);
    l->sent.size = sizeof l->sent;
    l->outcome.size = sizeof l->outcome;
    l->counts.size = sizeof l->counts;
}

/* Whether all of it is as it was filled. */
static bool is_filled(const lent *l) {
    lent before;
    fill(&before);
    return memcmp(&before, l, sizeof before) == 0;
}

static void test_defaults(void) {
    gozdrit_sender_config config;
    gozdrit_sender sender = NONE;
    FILL(config);
    ANSWERS(GOZDRIT_OK, gozdrit_sender_defaults(&config, sizeof config));
    CHECK(config.session.media_ssrc == 0 && config.session.rtx_ssrc == 0 && config.session.receiver_ssrc == 0);
    CHECK(config.session.media_payload_type == 0 && config.session.rtx_payload_type == 0);
    CHECK(config.size == sizeof config && config.session.any_media_payload_type == 0);
    CHECK(config.history == 1024 && config.max_retransmissions == 16);
    CHECK(config.first_sequence == 0 && config.rtx_first_sequence == 0);
    CHECK(config.any_reporter == 0 && config.min_resend == 10 && config.deadline == 0);
    /* the session is still to be set */
    ANSWERS(GOZDRIT_BAD_PAYLOAD_TYPE, gozdrit_sender_new(&config, &sender));
    config.session = CONFIG.session;
    ANSWERS(GOZDRIT_OK, gozdrit_sender_new(&config, &sender));
    ANSWERS(GOZDRIT_OK, gozdrit_sender_free(&sender));
}

static void test_no_end(void) {
    static const uint8_t payload[GOZDRIT_MAX_PAYLOAD + 1];
    uint8_t nack[NACK_LENGTH];
    gozdrit_sender none = NONE;
    lent l;
    write_nack(nack, 0x33333333, 0x11111111, 65535, 0);
    fill(&l);
    ANSWERS(GOZDRIT_EMPTY_HANDLE, gozdrit_send(&none, &PLAIN, payload, 1, 0, &l.sent, l.out, sizeof l.out));
    ANSWERS(GOZDRIT_EMPTY_HANDLE, gozdrit_send(&none, &PLAIN, payload, sizeof payload, 0, &l.sent, l.out, 0));
    ANSWERS(GOZDRIT_EMPTY_HANDLE, gozdrit_feedback(&none, nack, sizeof nack, &l.outcome));
    ANSWERS(GOZDRIT_EMPTY_HANDLE, gozdrit_feedback(&none, nack, 3, &l.outcome));
    ANSWERS(GOZDRIT_EMPTY_HANDLE, gozdrit_retransmit(&none, &l.sent, l.out, sizeof l.out));
    ANSWERS(GOZDRIT_EMPTY_HANDLE, gozdrit_retransmit(&none, &l.sent, l.out, 0));
    ANSWERS(GOZDRIT_EMPTY_HANDLE, gozdrit_tail_loss_probe(&none, &l.queued));
    ANSWERS(GOZDRIT_EMPTY_HANDLE, gozdrit_sender_counts(&none, &l.counts));
    ANSWERS(GOZDRIT_EMPTY_HANDLE, gozdrit_sender_free(&none));
    CHECK(is_filled(&l));
    CHECK(none.at == NULL && none.held == 0);
}

enum { SIZE = sizeof(gozdrit_sender_config) };

/* A configuration, and the number that making its sender answers. */
typedef struct row {
    gozdrit_sender_config config;
    int32_t number;
} row;

static void test_rows(const row *rows, size_t count) {
    for (size_t i = 0; i < count; i++) {
        gozdrit_sender sender = NONE;
        ANSWERS(rows[i].number, gozdrit_sender_new(&rows[i].config, &sender));
        const bool made = rows[i].number == GOZDRIT_OK;
        CHECK(sender.held == made && (sender.at != NULL) == made);
        ANSWERS(made ? GOZDRIT_OK : GOZDRIT_EMPTY_HANDLE, gozdrit_sender_free(&sender));
    }
}

static void test_configs(void) {
    static const row rows[] = {
        {{SIZE, {1, 2, 3, 95, 97, 0}, 4, 0, 0, 1, 0, 0, 0}, GOZDRIT_BAD_PAYLOAD_TYPE},
        {{SIZE, {1, 2, 3, 128, 97, 0}, 4, 0, 0, 1, 0, 0, 0}, GOZDRIT_BAD_PAYLOAD_TYPE},
        {{SIZE, {1, 2, 3, 33, 97, 0}, 4, 0, 0, 1, 0, 0, 0}, GOZDRIT_BAD_PAYLOAD_TYPE},
        {{SIZE, {1, 2, 3, 96, 95, 0}, 4, 0, 0, 1, 0, 0, 0}, GOZDRIT_BAD_PAYLOAD_TYPE},
        {{SIZE, {1, 2, 3, 96, 255, 0}, 4, 0, 0, 1, 0, 0, 0}, GOZDRIT_BAD_PAYLOAD_TYPE},
        {{SIZE, {1, 2, 3, 100, 100, 0}, 4, 0, 0, 1, 0, 0, 0}, GOZDRIT_BAD_PAYLOAD_TYPE},
        {{SIZE, {1, 1, 3, 0, 97, 0}, 0, 0, 0, 0, 0, 1, 0}, GOZDRIT_BAD_PAYLOAD_TYPE}, /* the first check decides */
        {{SIZE, {1, 1, 3, 96, 97, 0}, 4, 0, 0, 1, 0, 0, 0}, GOZDRIT_SAME_SSRC},
        {{SIZE, {1, 2, 1, 96, 97, 0}, 4, 0, 0, 1, 0, 0, 0}, GOZDRIT_SAME_SSRC},
        {{SIZE, {1, 2, 2, 96, 97, 0}, 0, 0, 0, 0, 0, 1, 0}, GOZDRIT_SAME_SSRC},
        {{SIZE, {1, 2, 3, 96, 97, 0}, 0, 0, 0, 1, 0, 0, 0}, GOZDRIT_BAD_LIMIT},
        {{SIZE, {1, 2, 3, 96, 97, 0}, GOZDRIT_MAX_STORE + 1, 0, 0, 1, 0, 0, 0}, GOZDRIT_BAD_LIMIT},
        {{SIZE, {1, 2, 3, 96, 97, 0}, UINT32_MAX, 0, 0, 1, 0, 0, 0}, GOZDRIT_BAD_LIMIT},
        {{SIZE, {1, 2, 3, 96, 97, 0}, 4, 0, 0, 0, 0, 0, 0}, GOZDRIT_BAD_LIMIT},
        {{SIZE, {1, 2, 3, 96, 97, 0}, 4, 0, 0, 1, 0, 1, 0}, GOZDRIT_OK},
        {{SIZE, {1, 2, 3, 96, 97, 0}, 4, 0, 0, 1, 0, UINT64_MAX, UINT64_MAX}, GOZDRIT_OK},
        {{SIZE, {1, 2, 3, 96, 127, 0}, 1, 0, 0, 1, 255, 0, 0}, GOZDRIT_OK},
        {{SIZE, {0, 1, UINT32_MAX, 127, 96, 0}, GOZDRIT_MAX_STORE, 65535, 65535, 255, 1, 0, 0}, GOZDRIT_OK},
    };
    test_rows(rows, sizeof rows / sizeof *rows);
}

/* Where the media may have any type, that is 0 to 63 and 96 to 127; the retransmissions have a dynamic one there too. */
static void test_any_media_type(void) {
    static const row rows[] = {
        {{SIZE, {1, 2, 3, 0, 97, 1}, 4, 0, 0, 1, 0, 0, 0}, GOZDRIT_OK},
        {{SIZE, {1, 2, 3, 33, 97, 1}, 4, 0, 0, 1, 0, 0, 0}, GOZDRIT_OK},
        {{SIZE, {1, 2, 3, 63, 97, 255}, 4, 0, 0, 1, 0, 0, 0}, GOZDRIT_OK},
        {{SIZE, {1, 2, 3, 96, 127, 2}, 4, 0, 0, 1, 0, 0, 0}, GOZDRIT_OK},
        {{SIZE, {1, 2, 3, 127, 96, 1}, 4, 0, 0, 1, 0, 0, 0}, GOZDRIT_OK},
        {{SIZE, {1, 2, 3, 64, 97, 1}, 4, 0, 0, 1, 0, 0, 0}, GOZDRIT_BAD_PAYLOAD_TYPE},
        {{SIZE, {1, 2, 3, 95, 97, 1}, 4, 0, 0, 1, 0, 0, 0}, GOZDRIT_BAD_PAYLOAD_TYPE},
        {{SIZE, {1, 2, 3, 128, 97, 1}, 4, 0, 0, 1, 0, 0, 0}, GOZDRIT_BAD_PAYLOAD_TYPE},
        {{SIZE, {1, 2, 3, 33, 34, 1}, 4, 0, 0, 1, 0, 0, 0}, GOZDRIT_BAD_PAYLOAD_TYPE},
        {{SIZE, {1, 2, 3, 33, 95, 1}, 4, 0, 0, 1, 0, 0, 0}, GOZDRIT_BAD_PAYLOAD_TYPE},
        {{SIZE, {1, 2, 3, 33, 128, 1}, 4, 0, 0, 1, 0, 0, 0}, GOZDRIT_BAD_PAYLOAD_TYPE},
        {{SIZE, {1, 2, 3, 97, 97, 1}, 4, 0, 0, 1, 0, 0, 0}, GOZDRIT_BAD_PAYLOAD_TYPE},
        {{SIZE, {1, 2, 2, 33, 97, 1}, 4, 0, 0, 1, 0, 0, 0}, GOZDRIT_SAME_SSRC},
    };
    static const uint8_t expected[] = {0x80, 0xa1, 0xff, 0xff, 0, 0, 0, 9, 0x11, 0x11, 0x11, 0x11, 0xd1};
    static const uint8_t payload[1] = {0xd1};
    const gozdrit_header marked = {.timestamp = 9, .marker = 1};
    gozdrit_sender_config config = CONFIG;
    gozdrit_sender sender = NONE;
    lent l;
    fill(&l);
    test_rows(rows, sizeof rows / sizeof *rows);
    config.session.media_payload_type = 33, config.session.any_media_payload_type = 1;
    ANSWERS(GOZDRIT_OK, gozdrit_sender_new(&config, &sender));
    ANSWERS(GOZDRIT_OK, gozdrit_send(&sender, &marked, payload, 1, 0, &l.sent, l.out, sizeof l.out));
    CHECK(l.sent.length == sizeof expected && memcmp(l.out, expected, sizeof expected) == 0);
    ANSWERS(GOZDRIT_OK, gozdrit_sender_free(&sender));
}

static void test_new_twice(void) {
    gozdrit_sender_config bad = CONFIG;
    gozdrit_sender sender = NONE, before;
    lent l;
    ANSWERS(GOZDRIT_OK, gozdrit_sender_new(&CONFIG, &sender));
    before = sender;
    bad.session.media_payload_type = 0, bad.history = 0;
    ANSWERS(GOZDRIT_HANDLE_IN_USE, gozdrit_sender_new(&CONFIG, &sender));
    ANSWERS(GOZDRIT_HANDLE_IN_USE, gozdrit_sender_new(&bad, &sender));
    CHECK(before.at == sender.at && before.held == sender.held);
    ANSWERS(GOZDRIT_OK, gozdrit_sender_free(&sender));
    CHECK(sender.held == 0 && sender.at == NULL);
    /* from here on there is none, until one is made anew */
    fill(&l);
    ANSWERS(GOZDRIT_EMPTY_HANDLE, gozdrit_sender_free(&sender));
    ANSWERS(GOZDRIT_EMPTY_HANDLE, gozdrit_send(&sender, &PLAIN, NULL, 0, 0, &l.sent, l.out, sizeof l.out));
    ANSWERS(GOZDRIT_EMPTY_HANDLE, gozdrit_retransmit(&sender, &l.sent, l.out, sizeof l.out));
    ANSWERS(GOZDRIT_EMPTY_HANDLE, gozdrit_sender_counts(&sender, &l.counts));
    CHECK(is_filled(&l));
    ANSWERS(GOZDRIT_OK, gozdrit_sender_new(&CONFIG, &sender));
    ANSWERS(GOZDRIT_OK, gozdrit_send(&sender, &PLAIN, NULL, 0, 0, &l.sent, l.out, sizeof l.out));
    CHECK(l.sent.sequence == 131071 && l.sent.length == 12);
    CHECK(is_counted_sent(&sender, (gozdrit_send_counts){.sent = 1}));
    ANSWERS(GOZDRIT_OK, gozdrit_sender_free(&sender));
}

/* The octets of a packet with everything, and of one after it. Each is refused one octet of room less than it has, and
 * nothing is sent then. */
static void test_send(void) {
    static const gozdrit_header full = {0x01020304, {0xa1a2a3a4, 0xb1b2b3b4}, {0xc1c2c3c4}, 0xbede, 2, 1, 7, 9};
    static const uint8_t payload[3] = {0xd1, 0xd2, 0xd3};
    static const uint8_t first[] = {0xb2, 0xe0, 0xff, 0xff, 1,    2,    3,    4,    0x11, 0x11, 0x11, 0x11, 0xa1, 0xa2,
                                    0xa3, 0xa4, 0xb1, 0xb2, 0xb3, 0xb4, 0xbe, 0xde, 0,    1,    0xc1, 0xc2, 0xc3, 0xc4,
                                    0xd1, 0xd2, 0xd3, 0,    0,    0,    4};
    static const uint8_t second[] = {0x80, 0x60, 0, 0, 0, 0, 0, 100, 0x11, 0x11, 0x11, 0x11, 0xd1};
    gozdrit_sender sender = NONE;
    lent l;
    fill(&l);
    ANSWERS(GOZDRIT_OK, gozdrit_sender_new(&CONFIG, &sender));
    ANSWERS(GOZDRIT_NO_ROOM, gozdrit_send(&sender, &full, payload, 3, 4, &l.sent, l.out, sizeof first - 1));
    CHECK(is_filled(&l) && is_counted_sent(&sender, (gozdrit_send_counts){.sent = 0}));
    ANSWERS(GOZDRIT_OK, gozdrit_send(&sender, &full, payload, 3, 4, &l.sent, l.out, sizeof first));
    CHECK(l.sent.sequence == 131071 && l.sent.length == sizeof first);
    CHECK(memcmp(l.out, first, sizeof first) == 0);
    CHECK(is_pattern(l.out + sizeof first, sizeof l.out - sizeof first));
    fill(&l);
    ANSWERS(GOZDRIT_NO_ROOM, gozdrit_send(&sender, &PLAIN, payload, 1, 0, &l.sent, l.out, sizeof second - 1));
    CHECK(is_filled(&l));
    ANSWERS(GOZDRIT_OK, gozdrit_send(&sender, &PLAIN, payload, 1, 0, &l.sent, l.out, sizeof l.out));
    CHECK(l.sent.sequence == 131072 && l.sent.length == sizeof second);
    CHECK(memcmp(l.out, second, sizeof second) == 0);
    CHECK(is_pattern(l.out + sizeof second, sizeof l.out - sizeof second));
    CHECK(UNTOUCHED(l.queued));
    CHECK(is_counted_sent(&sender, (gozdrit_send_counts){.sent = 2, .octets = 4}));
    ANSWERS(GOZDRIT_OK, gozdrit_sender_free(&sender));
}

/* What is one above its limits, and padding without a payload, each in its order. */
static void test_refused_sends(gozdrit_sender *sender, gozdrit_header header) {
    static const uint8_t payload[GOZDRIT_MAX_PAYLOAD + 1];
    lent l;
    fill(&l);
    ANSWERS(GOZDRIT_TOO_LARGE, gozdrit_send(sender, &header, payload, sizeof payload, 0, &l.sent, l.out, sizeof l.out));
    ANSWERS(GOZDRIT_TOO_LARGE, gozdrit_send(sender, &header, payload, sizeof payload, 0, &l.sent, l.out, 0));
    header.csrc_count++;
    ANSWERS(GOZDRIT_TOO_LARGE, gozdrit_send(sender, &header, payload, 0, 1, &l.sent, l.out, sizeof l.out));
    header.csrc_count = 255;
    ANSWERS(GOZDRIT_TOO_LARGE, gozdrit_send(sender, &header, payload, 1, 0, &l.sent, l.out, sizeof l.out));
    header.csrc_count = GOZDRIT_MAX_CSRCS, header.extension_words++;
    ANSWERS(GOZDRIT_TOO_LARGE, gozdrit_send(sender, &header, payload, 1, 0, &l.sent, l.out, sizeof l.out));
    ANSWERS(GOZDRIT_TOO_LARGE, gozdrit_send(sender, &header, payload, 1, 0, &l.sent, NULL, 0));
    header.extension_words = GOZDRIT_MAX_EXTENSION_WORDS;
    ANSWERS(GOZDRIT_NO_ROOM, gozdrit_send(sender, &header, payload, 0, 1, &l.sent, l.out, HEADER - 1));
    ANSWERS(GOZDRIT_PADDED_EMPTY, gozdrit_send(sender, &header, payload, 0, 1, &l.sent, l.out, sizeof l.out));
    ANSWERS(GOZDRIT_PADDED_EMPTY, gozdrit_send(sender, &PLAIN, NULL, 0, 255, &l.sent, l.out, sizeof l.out));
    CHECK(is_filled(&l) && is_counted_sent(sender, (gozdrit_send_counts){.sent = 0}));
}

/* The largest packet. Lengths are those of buffers that are there. */
static void test_limits(void) {
    static const uint8_t payload[GOZDRIT_MAX_PAYLOAD] = {1};
    gozdrit_header header = {1, {2}, {3}, 4, GOZDRIT_MAX_CSRCS, GOZDRIT_MAX_EXTENSION_WORDS, 1, 0}, before;
    gozdrit_sender sender = NONE;
    lent l;
    ANSWERS(GOZDRIT_OK, gozdrit_sender_new(&CONFIG, &sender));
    test_refused_sends(&sender, header);
    memcpy(&before, &header, sizeof header);
    fill(&l);
    ANSWERS(GOZDRIT_NO_ROOM, gozdrit_send(&sender, &header, payload, sizeof payload, 255, &l.sent, l.out, LARGEST - 1));
    CHECK(is_filled(&l));
    ANSWERS(GOZDRIT_OK, gozdrit_send(&sender, &header, payload, sizeof payload, 255, &l.sent, l.out, LARGEST));
    CHECK(l.sent.sequence == 131071 && l.sent.length == LARGEST && l.out[LARGEST - 1] == 255);
    CHECK(l.out[HEADER] == 1 && is_pattern(l.out + LARGEST, sizeof l.out - LARGEST));
    CHECK(memcmp(&before, &header, sizeof header) == 0);
    /* without an extension its words are not looked at */
    header.has_extension = 0, header.extension_words = 255;
    ANSWERS(GOZDRIT_OK, gozdrit_send(&sender, &header, payload, sizeof payload, 0, &l.sent, l.out, sizeof l.out));
    CHECK(l.sent.sequence == 131072 && l.sent.length == 12 + 60 + GOZDRIT_MAX_PAYLOAD);
    CHECK(is_counted_sent(&sender, (gozdrit_send_counts){.sent = 2, .octets = 2 * GOZDRIT_MAX_PAYLOAD}));
    ANSWERS(GOZDRIT_OK, gozdrit_sender_free(&sender));
}

void test_sender(void) {
    test_defaults();
    test_no_end();
    test_configs();
    test_any_media_type();
    test_new_twice();
    test_send();
    test_limits();
}
