/* One RTP packet, read and written, and the version of the library. */
#include "checks.h"

#include <stdlib.h>

/* A packet with everything, and what it says. */
static const uint8_t FULL[] = {0xb2, 0xe0, 0xff, 0xfe, 1,    2,    3,    4,    0x11, 0x22, 0x33, 0x44,
                               0xa1, 0xa2, 0xa3, 0xa4, 0xb1, 0xb2, 0xb3, 0xb4, 0xbe, 0xde, 0,    1,
                               0xc1, 0xc2, 0xc3, 0xc4, 0xd1, 0xd2, 0xd3, 0,    0,    0,    4};
static const gozdrit_packet SAID = {.payload = SIZE_MAX, .length = SIZE_MAX,
                                    .header = {0x01020304, {0xa1a2a3a4, 0xb1b2b3b4}, {0xc1c2c3c4}, 0xbede, 2, 1, 7, 9},
                                    .ssrc = 0x11223344, .sequence = 65534, .payload_type = 96, .padding = 4};

/* What is written is lent with a pattern. */
typedef struct lent {
    size_t written;
    uint8_t out[GOZDRIT_MAX_DATAGRAM];
} lent;

static void test_read(void) {
    static const uint8_t plain[] = {0x80, 0x21, 0, 1, 0, 0, 0, 2, 0, 0, 0, 3, 0xd1};
    gozdrit_packet p;
    FILL(p);
    ANSWERS(GOZDRIT_OK, gozdrit_rtp_read(FULL, sizeof FULL, &p));
    CHECK(p.payload == 28 && p.length == 3 && p.padding == 4);
    CHECK(p.ssrc == 0x11223344 && p.sequence == 65534 && p.payload_type == 96);
    CHECK(p.header.timestamp == 0x01020304 && p.header.marker == 1 && p.header.csrc_count == 2);
    CHECK(p.header.csrcs[0] == 0xa1a2a3a4 && p.header.csrcs[1] == 0xb1b2b3b4);
    CHECK(p.header.has_extension == 1 && p.header.extension_profile == 0xbede && p.header.extension_words == 1);
    CHECK(p.header.extension[0] == 0xc1c2c3c4);
    CHECK(is_pattern(p.header.csrcs + 2, 13 * 4) && is_pattern(p.header.extension + 1, 15 * 4));
    FILL(p);
    ANSWERS(GOZDRIT_OK, gozdrit_rtp_read(plain, sizeof plain, &p));
    CHECK(p.payload == 12 && p.length == 1 && p.padding == 0);
    CHECK(p.ssrc == 3 && p.sequence == 1 && p.payload_type == 33);
    CHECK(p.header.timestamp == 2 && p.header.marker == 0 && p.header.csrc_count == 0);
    CHECK(p.header.has_extension == 0 && p.header.extension_words == 0 && UNTOUCHED(p.header.extension_profile));
    CHECK(UNTOUCHED(p.header.csrcs) && UNTOUCHED(p.header.extension));
    FILL(p);
    ANSWERS(GOZDRIT_OK, gozdrit_rtp_read(plain, 12, &p));
    CHECK(p.payload == 12 && p.length == 0);
}

/* A payload may be longer than an end would take it; an extension may not. */
static void test_read_limits(void) {
    static uint8_t packet[12 + 4 + (GOZDRIT_MAX_EXTENSION_WORDS + 1) * 4 + GOZDRIT_MAX_PAYLOAD + 1] = {
        0x90, 96, 0, 101, 0, 0, 0, 0, 0x11, 0x11, 0x11, 0x11, 1, 2, 0, GOZDRIT_MAX_EXTENSION_WORDS};
    gozdrit_packet p;
    FILL(p);
    packet[16 + 4 * GOZDRIT_MAX_EXTENSION_WORDS - 1] = 7;
    ANSWERS(GOZDRIT_OK, gozdrit_rtp_read(packet, sizeof packet, &p));
    CHECK(p.header.extension_words == GOZDRIT_MAX_EXTENSION_WORDS
          && p.header.extension[GOZDRIT_MAX_EXTENSION_WORDS - 1] == 7);
    CHECK(p.payload == 16 + 4 * GOZDRIT_MAX_EXTENSION_WORDS && p.length == sizeof packet - p.payload);
    packet[15]++;
    FILL(p);
    ANSWERS(GOZDRIT_TOO_LONG, gozdrit_rtp_read(packet, sizeof packet, &p));
    CHECK(UNTOUCHED(p));
}

static void test_read_refused(void) {
    static const struct {
        uint8_t octets[16];
        uint8_t length;
        int32_t number;
    } rows[] = {
        {{0}, 0, GOZDRIT_RTP_SHORT},
        {{0, 96, 0, 101, 0, 0, 0, 0, 0x11, 0x11, 0x11}, 11, GOZDRIT_RTP_SHORT},
        {{0x4f, 96, 0, 101, 0, 0, 0, 0, 0x11, 0x11, 0x11, 0x11}, 12, GOZDRIT_RTP_VERSION},
        {{0xc0, 96, 0, 101, 0, 0, 0, 0, 0x11, 0x11, 0x11, 0x11}, 12, GOZDRIT_RTP_VERSION},
        {{0xb1, 96, 0, 101, 0, 0, 0, 0, 0x11, 0x11, 0x11, 0x11, 1, 2, 3}, 15, GOZDRIT_RTP_CSRC_LIST},
        {{0xb0, 96, 0, 101, 0, 0, 0, 0, 0x11, 0x11, 0x11, 0x11, 1, 2, 0}, 15, GOZDRIT_RTP_EXTENSION},
        {{0x90, 96, 0, 101, 0, 0, 0, 0, 0x11, 0x11, 0x11, 0x11, 1, 2, 0, 1}, 16, GOZDRIT_RTP_EXTENSION},
        {{0xa0, 96, 0, 101, 0, 0, 0, 0, 0x11, 0x11, 0x11, 0x11, 1, 0}, 14, GOZDRIT_RTP_PADDING},
        {{0xa0, 96, 0, 101, 0, 0, 0, 0, 0x11, 0x11, 0x11, 0x11, 1, 2}, 14, GOZDRIT_RTP_PADDING},
        {{0xa0, 96, 0, 101, 0, 0, 0, 0, 0x11, 0x11, 0x11, 0x11}, 12, GOZDRIT_RTP_PADDING},
    };
    for (size_t i = 0; i < sizeof rows / sizeof *rows; i++) {
        uint8_t *lent = boxed(rows[i].octets, rows[i].length);
        gozdrit_packet p;
        FILL(p);
        ANSWERS(rows[i].number, gozdrit_rtp_read(lent, rows[i].length, &p));
        CHECK(UNTOUCHED(p));
        free(lent);
    }
}

/* The packet with everything, with one octet of room too few and with just enough. What is read can be written anew. */
static void test_write(void) {
    gozdrit_packet said = SAID, before;
    lent l;
    FILL(l);
    memcpy(&before, &said, sizeof said);
    ANSWERS(GOZDRIT_NO_ROOM, gozdrit_rtp_write(&said, FULL + 28, 3, &l.written, l.out, sizeof FULL - 1));
    ANSWERS(GOZDRIT_NO_ROOM, gozdrit_rtp_write(&said, FULL + 28, 3, &l.written, NULL, 0));
    CHECK(UNTOUCHED(l));
    ANSWERS(GOZDRIT_OK, gozdrit_rtp_write(&said, FULL + 28, 3, &l.written, l.out, sizeof FULL));
    CHECK(l.written == sizeof FULL && memcmp(l.out, FULL, sizeof FULL) == 0);
    CHECK(is_pattern(l.out + sizeof FULL, sizeof l.out - sizeof FULL));
    CHECK(memcmp(&before, &said, sizeof said) == 0);
    FILL(said);
    FILL(l);
    ANSWERS(GOZDRIT_OK, gozdrit_rtp_read(FULL, sizeof FULL, &said));
    ANSWERS(GOZDRIT_OK, gozdrit_rtp_write(&said, FULL + said.payload, said.length, &l.written, l.out, sizeof l.out));
    CHECK(l.written == sizeof FULL && memcmp(l.out, FULL, sizeof FULL) == 0);
    CHECK(is_pattern(l.out + sizeof FULL, sizeof l.out - sizeof FULL));
}

/* Any payload type of seven bits, and a payload of no octets. Without an extension its fields are not looked at. */
static void test_write_types(void) {
    gozdrit_packet said = {.sequence = 1, .ssrc = 3};
    uint8_t expected[12] = {0x80, 0, 0, 1, 0, 0, 0, 0, 0, 0, 0, 3};
    said.header.extension_words = 255;
    for (unsigned type = 0; type < 256; type++) {
        const bool good = type < 128;
        lent l;
        FILL(l);
        said.payload_type = (uint8_t)type;
        expected[1] = (uint8_t)type;
        ANSWERS(good ? GOZDRIT_OK : GOZDRIT_BAD_PAYLOAD_TYPE,
                gozdrit_rtp_write(&said, NULL, 0, &l.written, l.out, sizeof l.out));
        CHECK(good ? l.written == 12 && memcmp(l.out, expected, 12) == 0 : UNTOUCHED(l));
    }
}

/* Of what could be refused for more than one reason, the first is told; each step takes one away. */
static void test_write_order(void) {
    gozdrit_packet said = {.payload_type = 128, .padding = 1};
    lent l;
    FILL(l);
    said.header.csrc_count = GOZDRIT_MAX_CSRCS + 1;
    ANSWERS(GOZDRIT_TOO_LARGE, gozdrit_rtp_write(&said, NULL, 0, &l.written, l.out, 11));
    said.header.csrc_count = GOZDRIT_MAX_CSRCS;
    ANSWERS(GOZDRIT_NO_ROOM, gozdrit_rtp_write(&said, NULL, 0, &l.written, l.out, 11));
    ANSWERS(GOZDRIT_BAD_PAYLOAD_TYPE, gozdrit_rtp_write(&said, NULL, 0, &l.written, l.out, sizeof l.out));
    said.payload_type = 127;
    ANSWERS(GOZDRIT_PADDED_EMPTY, gozdrit_rtp_write(&said, NULL, 0, &l.written, l.out, sizeof l.out));
    CHECK(UNTOUCHED(l));
    said.padding = 0;
    ANSWERS(GOZDRIT_OK, gozdrit_rtp_write(&said, NULL, 0, &l.written, l.out, sizeof l.out));
    CHECK(l.written == 12 + 4 * GOZDRIT_MAX_CSRCS);
}

static void test_write_refused(void) {
    static const uint8_t payload[GOZDRIT_MAX_PAYLOAD + 1];
    gozdrit_packet said = SAID;
    lent l;
    FILL(l);
    ANSWERS(GOZDRIT_PADDED_EMPTY, gozdrit_rtp_write(&said, payload, 0, &l.written, l.out, sizeof l.out));
    ANSWERS(GOZDRIT_TOO_LARGE, gozdrit_rtp_write(&said, payload, sizeof payload, &l.written, l.out, sizeof l.out));
    ANSWERS(GOZDRIT_TOO_LARGE, gozdrit_rtp_write(&said, payload, sizeof payload, &l.written, NULL, 0));
    said.header.csrc_count = GOZDRIT_MAX_CSRCS + 1;
    ANSWERS(GOZDRIT_TOO_LARGE, gozdrit_rtp_write(&said, payload, 1, &l.written, l.out, sizeof l.out));
    said.header.csrc_count = GOZDRIT_MAX_CSRCS, said.header.extension_words = GOZDRIT_MAX_EXTENSION_WORDS + 1;
    ANSWERS(GOZDRIT_TOO_LARGE, gozdrit_rtp_write(&said, payload, 1, &l.written, l.out, sizeof l.out));
    said.header.extension_words = 255;
    ANSWERS(GOZDRIT_TOO_LARGE, gozdrit_rtp_write(&said, payload, 1, &l.written, l.out, sizeof l.out));
    said.header.extension_words = GOZDRIT_MAX_EXTENSION_WORDS, said.payload_type = 128;
    ANSWERS(GOZDRIT_BAD_PAYLOAD_TYPE, gozdrit_rtp_write(&said, payload, 1, &l.written, l.out, sizeof l.out));
    CHECK(UNTOUCHED(l));
}

/* The largest packet. */
static void test_write_limits(void) {
    static const uint8_t payload[GOZDRIT_MAX_PAYLOAD] = {1};
    const size_t front = 12 + 4 * GOZDRIT_MAX_CSRCS + 4 + 4 * GOZDRIT_MAX_EXTENSION_WORDS;
    const size_t largest = front + GOZDRIT_MAX_PAYLOAD + 255;
    gozdrit_packet said = SAID;
    lent l;
    FILL(l);
    said.header.csrc_count = GOZDRIT_MAX_CSRCS, said.header.extension_words = GOZDRIT_MAX_EXTENSION_WORDS;
    said.padding = 255;
    ANSWERS(GOZDRIT_NO_ROOM, gozdrit_rtp_write(&said, payload, sizeof payload, &l.written, l.out, largest - 1));
    CHECK(UNTOUCHED(l));
    ANSWERS(GOZDRIT_OK, gozdrit_rtp_write(&said, payload, sizeof payload, &l.written, l.out, largest));
    CHECK(l.written == largest && l.out[0] == 0xbf && l.out[front] == 1 && l.out[largest - 1] == 255);
    CHECK(is_pattern(l.out + largest, sizeof l.out - largest));
}

/* A retransmission is written anew with another header extension, or without one: all else is as it was, and that is played. */
static void test_other_extension(uint8_t has_extension) {
    static const uint8_t payload[GOZDRIT_MAX_PAYLOAD - 2] = {7};
    const gozdrit_session session = SESSION;
    const gozdrit_header header = {.timestamp = 5, .marker = 1, .has_extension = 1, .extension_profile = 0xbede, .extension_words = 1,
                                   .extension = {0x10000001}};
    gozdrit_sender_config sending;
    gozdrit_receiver_config receiving;
    gozdrit_sender s = {NULL, 0};
    gozdrit_receiver r = {NULL, 0};
    gozdrit_sent sent = GOZDRIT_SENT_INIT;
    gozdrit_outcome outcome = GOZDRIT_OUTCOME_INIT;
    gozdrit_received received = GOZDRIT_RECEIVED_INIT;
    gozdrit_played played = GOZDRIT_PLAYED_INIT;
    gozdrit_packet p;
    uint8_t nack[NACK_LENGTH], came[GOZDRIT_MAX_PAYLOAD];
    lent first, l;
    ANSWERS(GOZDRIT_OK, gozdrit_sender_defaults(&sending, sizeof sending));
    ANSWERS(GOZDRIT_OK, gozdrit_receiver_defaults(&receiving, sizeof receiving));
    sending.session = receiving.session = session;
    sending.first_sequence = 100;
    ANSWERS(GOZDRIT_OK, gozdrit_sender_new(&sending, &s));
    ANSWERS(GOZDRIT_OK, gozdrit_receiver_new(&receiving, &r));
    ANSWERS(GOZDRIT_OK, gozdrit_begin(&r, 100));
    ANSWERS(GOZDRIT_OK, gozdrit_send(&s, &header, payload, sizeof payload, 0, &sent, first.out, sizeof first.out));
    write_nack(nack, session.receiver_ssrc, session.media_ssrc, 100, 0);
    ANSWERS(GOZDRIT_OK, gozdrit_feedback(&s, nack, sizeof nack, &outcome));
    ANSWERS(GOZDRIT_OK, gozdrit_retransmit(&s, &sent, first.out, sizeof first.out));
    ANSWERS(GOZDRIT_OK, gozdrit_rtp_read(first.out, sent.length, &p));
    p.header.has_extension = has_extension;
    p.header.extension[0] = 0x10abcdef;
    ANSWERS(GOZDRIT_OK, gozdrit_rtp_write(&p, first.out + p.payload, p.length, &l.written, l.out, sizeof l.out));
    CHECK(l.written == sent.length - (has_extension ? 0 : 8) && memcmp(l.out + 1, first.out + 1, 11) == 0);
    ANSWERS(GOZDRIT_OK, gozdrit_receive(&r, l.out, l.written, 0, &received));
    CHECK(received.kind == GOZDRIT_RETRANSMISSION);
    ANSWERS(GOZDRIT_OK, gozdrit_play(&r, 0, &played, came, sizeof came));
    CHECK(played.kind == GOZDRIT_PACKET && played.length == sizeof payload && memcmp(came, payload, sizeof payload) == 0);
    CHECK(played.header.timestamp == 5 && played.header.marker == 1 && played.header.has_extension == has_extension);
    CHECK(!has_extension || (played.header.extension_words == 1 && played.header.extension[0] == 0x10abcdef));
    ANSWERS(GOZDRIT_OK, gozdrit_sender_free(&s));
    ANSWERS(GOZDRIT_OK, gozdrit_receiver_free(&r));
}

static void test_version(void) {
    CHECK(gozdrit_version() == GOZDRIT_VERSION && GOZDRIT_VERSION == 20500);
    CHECK(gozdrit_max_payload() == GOZDRIT_MAX_PAYLOAD);
}

void test_rtp(void) {
    test_version();
    test_read();
    test_read_limits();
    test_read_refused();
    test_write();
    test_write_types();
    test_write_refused();
    test_write_order();
    test_write_limits();
    test_other_extension(0);
    test_other_extension(1);
}
