/* SRTP from C: what leaves octet by octet, what comes back, and what is refused. */
#include "checks.h"

#include <stdlib.h>

enum { RTP = 19, RTCP = 16, TAG = 10, ROOM = 64 };

/* A master key and its salt: 0, 1, 2, .. */
static uint8_t key[GOZDRIT_SRTP_KEY];

static const uint8_t PACKET[RTP] = {0x80, 0x60, 0, 1, 0, 0, 0, 2, 0x11, 0x11, 0x11, 0x11, 'g', 'o', 'z', 'd', 'r', 'i', 't'};
static const uint8_t NACK[RTCP] = {0x81, 0xcd, 0, 3, 0x33, 0x33, 0x33, 0x33, 0x11, 0x11, 0x11, 0x11, 0, 1, 0, 0};

/* Both as they are protected under that key, as their first ones, by another hand's SRTP (tests/relay/srtp.py). */
static const struct {
    uint16_t profile;
    uint8_t packet[RTP + TAG], nack[RTCP + GOZDRIT_SRTP_GROWTH];
} ROWS[] = {
    {GOZDRIT_SRTP_AES128_CM_HMAC_SHA1_80,
     {0x80, 0x60, 0x00, 0x01, 0x00, 0x00, 0x00, 0x02, 0x11, 0x11, 0x11, 0x11, 0x43, 0xf5, 0xc8,
      0xb0, 0xbf, 0xa1, 0xdd, 0x76, 0x46, 0x90, 0xf4, 0x38, 0x43, 0x0e, 0x4b, 0xf6, 0x04},
     {0x81, 0xcd, 0x00, 0x03, 0x33, 0x33, 0x33, 0x33, 0xaa, 0xd9, 0xf0, 0x41, 0xc0, 0xac, 0x86,
      0x69, 0x80, 0x00, 0x00, 0x00, 0xf3, 0x86, 0x95, 0x51, 0x03, 0x7d, 0xb6, 0x6d, 0x68, 0x0f}},
    {GOZDRIT_SRTP_NULL_HMAC_SHA1_80,
     {0x80, 0x60, 0x00, 0x01, 0x00, 0x00, 0x00, 0x02, 0x11, 0x11, 0x11, 0x11, 0x67, 0x6f, 0x7a,
      0x64, 0x72, 0x69, 0x74, 0x25, 0xf4, 0xd8, 0x99, 0xc7, 0x07, 0x9d, 0xd9, 0x8b, 0xfa},
     {0x81, 0xcd, 0x00, 0x03, 0x33, 0x33, 0x33, 0x33, 0x11, 0x11, 0x11, 0x11, 0x00, 0x01, 0x00,
      0x00, 0x00, 0x00, 0x00, 0x00, 0x47, 0xcd, 0x3a, 0xde, 0x8d, 0x16, 0x3c, 0x91, 0x62, 0xcb}},
};

/* Both ends under the key. */
typedef struct pair {
    gozdrit_srtp_sender out;
    gozdrit_srtp_receiver in;
} pair;

static pair made(uint16_t profile) {
    pair p = {{NULL, 0}, {NULL, 0}};
    ANSWERS(GOZDRIT_OK, gozdrit_srtp_sender_new(profile, key, sizeof key, &p.out));
    ANSWERS(GOZDRIT_OK, gozdrit_srtp_receiver_new(profile, key, sizeof key, &p.in));
    return p;
}

static void freed(pair *p) {
    ANSWERS(GOZDRIT_OK, gozdrit_srtp_sender_free(&p->out));
    ANSWERS(GOZDRIT_OK, gozdrit_srtp_receiver_free(&p->in));
}

/* Protects octets in a room that has a pattern behind them, and answers how many there are. */
static size_t protects(gozdrit_srtp_sender *out, const uint8_t *octets, size_t length, uint8_t *room) {
    size_t whole = 0;
    memset(room, PATTERN, ROOM);
    memcpy(room, octets, length);
    ANSWERS(GOZDRIT_OK, gozdrit_srtp_protect(out, room, ROOM, length, &whole));
    CHECK(is_pattern(room + whole, ROOM - whole));
    return whole;
}

/* A refusal of what comes leaves all as it was. */
static void refuses(int32_t number, gozdrit_srtp_receiver *in, const uint8_t *octets, size_t length) {
    uint8_t lent[ROOM];
    size_t plain;
    FILL(plain);
    memcpy(lent, octets, length);
    ANSWERS(number, gozdrit_srtp_unprotect(in, lent, length, 0, &plain));
    CHECK(UNTOUCHED(plain) && memcmp(lent, octets, length) == 0);
}

static void takes(gozdrit_srtp_receiver *in, const uint8_t *octets, size_t length, const uint8_t *expected, size_t plain) {
    uint8_t lent[ROOM];
    size_t came = 0;
    memcpy(lent, octets, length);
    ANSWERS(GOZDRIT_OK, gozdrit_srtp_unprotect(in, lent, length, 0, &came));
    CHECK(came == plain && memcmp(lent, expected, plain) == 0);
}

static void test_octets(size_t row) {
    pair p = made(ROWS[row].profile);
    uint8_t room[ROOM];
    CHECK(protects(&p.out, PACKET, RTP, room) == RTP + TAG && memcmp(room, ROWS[row].packet, RTP + TAG) == 0);
    CHECK(protects(&p.out, NACK, RTCP, room) == RTCP + GOZDRIT_SRTP_GROWTH);
    CHECK(memcmp(room, ROWS[row].nack, RTCP + GOZDRIT_SRTP_GROWTH) == 0);
    takes(&p.in, ROWS[row].packet, RTP + TAG, PACKET, RTP);
    takes(&p.in, ROWS[row].nack, RTCP + GOZDRIT_SRTP_GROWTH, NACK, RTCP);
    refuses(GOZDRIT_SRTP_TAKEN_BEFORE, &p.in, ROWS[row].packet, RTP + TAG);
    refuses(GOZDRIT_SRTP_TAKEN_BEFORE, &p.in, ROWS[row].nack, RTCP + GOZDRIT_SRTP_GROWTH);
    freed(&p);
}

/* Each bit that is turned is seen, and then the packet itself is taken: nothing was recorded of the others. */
static void test_bits(size_t row) {
    pair p = made(ROWS[row].profile);
    uint8_t lent[ROOM];
    for (size_t bit = 0; bit < 8 * (RTP + TAG); bit++) {
        size_t plain = 0;
        memcpy(lent, ROWS[row].packet, RTP + TAG);
        lent[bit / 8] ^= (uint8_t)(1 << bit % 8);
        CHECK(gozdrit_srtp_unprotect(&p.in, lent, RTP + TAG, 1000 * bit, &plain) != GOZDRIT_OK && plain == 0);
    }
    for (size_t bit = 0; bit < 8 * (RTCP + GOZDRIT_SRTP_GROWTH); bit++) {
        size_t plain = 0;
        memcpy(lent, ROWS[row].nack, RTCP + GOZDRIT_SRTP_GROWTH);
        lent[bit / 8] ^= (uint8_t)(1 << bit % 8);
        CHECK(gozdrit_srtp_unprotect(&p.in, lent, RTCP + GOZDRIT_SRTP_GROWTH, 1000 * bit, &plain) != GOZDRIT_OK && plain == 0);
    }
    takes(&p.in, ROWS[row].packet, RTP + TAG, PACKET, RTP);
    takes(&p.in, ROWS[row].nack, RTCP + GOZDRIT_SRTP_GROWTH, NACK, RTCP);
    freed(&p);
}

/* Two profiles do not agree of RTCP, whose flag tells them; another key is nobody's. */
static void test_others(void) {
    pair p = made(GOZDRIT_SRTP_NULL_HMAC_SHA1_80), q = {{NULL, 0}, {NULL, 0}};
    refuses(GOZDRIT_SRTP_FLAG, &p.in, ROWS[0].nack, RTCP + GOZDRIT_SRTP_GROWTH);
    key[29] ^= 1;
    ANSWERS(GOZDRIT_OK, gozdrit_srtp_receiver_new(GOZDRIT_SRTP_NULL_HMAC_SHA1_80, key, sizeof key, &q.in));
    key[29] ^= 1;
    refuses(GOZDRIT_SRTP_WRONG_TAG, &q.in, ROWS[1].packet, RTP + TAG);
    ANSWERS(GOZDRIT_OK, gozdrit_srtp_receiver_free(&q.in));
    freed(&p);
}

/* No two packets leave under one index, and the numbers go on through their wrap. */
static void test_indices(void) {
    pair p = made(GOZDRIT_SRTP_AES128_CM_HMAC_SHA1_80);
    uint8_t packet[RTP], room[ROOM];
    size_t whole;
    memcpy(packet, PACKET, RTP);
    for (uint32_t at = 65000; at < 66000; at++) {
        packet[2] = (uint8_t)(at >> 8);
        packet[3] = (uint8_t)at;
        whole = protects(&p.out, packet, RTP, room);
        if (at % 3) takes(&p.in, room, whole, packet, RTP);
    }
    FILL(whole);
    memcpy(room, packet, RTP);
    ANSWERS(GOZDRIT_SRTP_TAKEN_BEFORE, gozdrit_srtp_protect(&p.out, room, ROOM, RTP, &whole));
    CHECK(UNTOUCHED(whole) && memcmp(room, packet, RTP) == 0);
    packet[3] = (uint8_t)(packet[3] - 100);
    memcpy(room, packet, RTP);
    ANSWERS(GOZDRIT_SRTP_TOO_OLD, gozdrit_srtp_protect(&p.out, room, ROOM, RTP, &whole));
    freed(&p);
}

static void test_refusals(void) {
    pair p = {{NULL, 0}, {NULL, 0}};
    uint8_t room[ROOM] = {0x80, 96};
    static uint8_t large[65536 + GOZDRIT_SRTP_GROWTH] = {0x80, 96};
    size_t told;
    FILL(told);
    ANSWERS(GOZDRIT_SRTP_BAD_KEY, gozdrit_srtp_sender_new(2, key, sizeof key, &p.out));
    ANSWERS(GOZDRIT_SRTP_BAD_KEY, gozdrit_srtp_sender_new(GOZDRIT_SRTP_NULL_HMAC_SHA1_80, key, sizeof key - 1, &p.out));
    ANSWERS(GOZDRIT_SRTP_BAD_KEY, gozdrit_srtp_receiver_new(0, key, sizeof key, &p.in));
    ANSWERS(GOZDRIT_SRTP_BAD_KEY, gozdrit_srtp_receiver_new(GOZDRIT_SRTP_NULL_HMAC_SHA1_80, NULL, 0, &p.in));
    ANSWERS(GOZDRIT_EMPTY_HANDLE, gozdrit_srtp_sender_free(&p.out));
    ANSWERS(GOZDRIT_EMPTY_HANDLE, gozdrit_srtp_receiver_free(&p.in));
    ANSWERS(GOZDRIT_EMPTY_HANDLE, gozdrit_srtp_protect(&p.out, room, ROOM, 12, &told));
    ANSWERS(GOZDRIT_EMPTY_HANDLE, gozdrit_srtp_unprotect(&p.in, room, ROOM, 0, &told));
    p = made(GOZDRIT_SRTP_AES128_CM_HMAC_SHA1_80);
    ANSWERS(GOZDRIT_HANDLE_IN_USE, gozdrit_srtp_sender_new(2, key, 0, &p.out));
    ANSWERS(GOZDRIT_HANDLE_IN_USE, gozdrit_srtp_receiver_new(2, key, 0, &p.in));
    ANSWERS(GOZDRIT_NO_ROOM, gozdrit_srtp_protect(&p.out, room, 12 + TAG - 1, 12, &told));
    ANSWERS(GOZDRIT_NO_ROOM, gozdrit_srtp_protect(&p.out, room, 11, 12, &told));
    room[1] = 205;
    ANSWERS(GOZDRIT_NO_ROOM, gozdrit_srtp_protect(&p.out, room, 12 + GOZDRIT_SRTP_GROWTH - 1, 12, &told));
    room[1] = 96;
    ANSWERS(GOZDRIT_SRTP_SHORT, gozdrit_srtp_protect(&p.out, room, ROOM, 11, &told));
    ANSWERS(GOZDRIT_SRTP_SHORT, gozdrit_srtp_unprotect(&p.in, room, 21, 0, &told));
    ANSWERS(GOZDRIT_SRTP_SHORT, gozdrit_srtp_protect(&p.out, room, TAG, 0, &told));
    ANSWERS(GOZDRIT_NO_ROOM, gozdrit_srtp_protect(&p.out, NULL, 0, 0, &told));
    ANSWERS(GOZDRIT_SRTP_SHORT, gozdrit_srtp_unprotect(&p.in, NULL, 0, 0, &told));
    room[0] = 0x8f;
    ANSWERS(GOZDRIT_SRTP_HEADER, gozdrit_srtp_protect(&p.out, room, ROOM, 12, &told));
    room[0] = 0;
    ANSWERS(GOZDRIT_SRTP_VERSION, gozdrit_srtp_protect(&p.out, room, ROOM, 12, &told));
    ANSWERS(GOZDRIT_TOO_LARGE, gozdrit_srtp_protect(&p.out, large, sizeof large, 65536, &told));
    ANSWERS(GOZDRIT_TOO_LARGE, gozdrit_srtp_unprotect(&p.in, large, 65536, 0, &told));
    CHECK(UNTOUCHED(told));
    ANSWERS(GOZDRIT_OK, gozdrit_srtp_protect(&p.out, large, sizeof large, 65535, &told));
    CHECK(told == 65535 + TAG);
    freed(&p);
}

static void test_null_pointers(void) {
    pair p = made(GOZDRIT_SRTP_NULL_HMAC_SHA1_80);
    uint8_t room[ROOM] = {0};
    size_t told;
    FILL(told);
    ANSWERS(GOZDRIT_NULL, gozdrit_srtp_sender_new(5, NULL, 30, &p.out));
    ANSWERS(GOZDRIT_NULL, gozdrit_srtp_sender_new(5, key, 30, NULL));
    ANSWERS(GOZDRIT_NULL, gozdrit_srtp_receiver_new(5, NULL, 30, &p.in));
    ANSWERS(GOZDRIT_NULL, gozdrit_srtp_receiver_new(5, key, 30, NULL));
    ANSWERS(GOZDRIT_NULL, gozdrit_srtp_sender_free(NULL));
    ANSWERS(GOZDRIT_NULL, gozdrit_srtp_receiver_free(NULL));
    ANSWERS(GOZDRIT_NULL, gozdrit_srtp_protect(NULL, room, ROOM, 12, &told));
    ANSWERS(GOZDRIT_NULL, gozdrit_srtp_protect(&p.out, NULL, ROOM, 12, &told));
    ANSWERS(GOZDRIT_NULL, gozdrit_srtp_protect(&p.out, room, ROOM, 12, NULL));
    ANSWERS(GOZDRIT_NULL, gozdrit_srtp_unprotect(NULL, room, ROOM, 0, &told));
    ANSWERS(GOZDRIT_NULL, gozdrit_srtp_unprotect(&p.in, NULL, ROOM, 0, &told));
    ANSWERS(GOZDRIT_NULL, gozdrit_srtp_unprotect(&p.in, room, ROOM, 0, NULL));
    CHECK(UNTOUCHED(told));
    freed(&p);
}

/* A session through SRTP and back: what is sent is played, and what was lost is asked for and retransmitted, all of it protected. */
static void test_session(void) {
    gozdrit_sender_config sending;
    gozdrit_receiver_config receiving;
    gozdrit_sender sender = {NULL, 0};
    gozdrit_receiver receiver = {NULL, 0};
    gozdrit_header header = {.timestamp = 0};
    gozdrit_sent sent = GOZDRIT_SENT_INIT;
    gozdrit_received received = GOZDRIT_RECEIVED_INIT;
    gozdrit_outcome outcome = GOZDRIT_OUTCOME_INIT;
    gozdrit_played played = GOZDRIT_PLAYED_INIT;
    pair forth = made(GOZDRIT_SRTP_AES128_CM_HMAC_SHA1_80), back = made(GOZDRIT_SRTP_AES128_CM_HMAC_SHA1_80);
    uint8_t out[GOZDRIT_MAX_DATAGRAM + GOZDRIT_SRTP_GROWTH], payload[GOZDRIT_MAX_PAYLOAD];
    size_t length, plain;
    ANSWERS(GOZDRIT_OK, gozdrit_sender_defaults(&sending, sizeof sending));
    ANSWERS(GOZDRIT_OK, gozdrit_receiver_defaults(&receiving, sizeof receiving));
    sending.session = receiving.session = (gozdrit_session)SESSION;
    ANSWERS(GOZDRIT_OK, gozdrit_sender_new(&sending, &sender));
    ANSWERS(GOZDRIT_OK, gozdrit_receiver_new(&receiving, &receiver));
    ANSWERS(GOZDRIT_OK, gozdrit_set_nack_copies(&receiver, 1));
    for (uint8_t i = 0; i < 100; i++) {
        const uint64_t now = 20u * i;
        ANSWERS(GOZDRIT_OK, gozdrit_sender_set_time(&sender, now));
        ANSWERS(GOZDRIT_OK, gozdrit_send(&sender, &header, &i, 1, 0, &sent, out, sizeof out));
        for (;;) { /* the packet, and what is to be retransmitted */
            ANSWERS(GOZDRIT_OK, gozdrit_srtp_protect(&forth.out, out, sizeof out, sent.length, &length));
            if (i % 5 != 3 || out[1] == 97) {
                ANSWERS(GOZDRIT_OK, gozdrit_srtp_unprotect(&forth.in, out, length, now, &plain));
                CHECK(plain == sent.length);
                ANSWERS(GOZDRIT_OK, gozdrit_receive(&receiver, out, plain, now, &received));
                CHECK(received.kind == GOZDRIT_MEDIA || received.kind == GOZDRIT_RETRANSMISSION);
            }
            ANSWERS(GOZDRIT_OK, gozdrit_retransmit(&sender, &sent, out, sizeof out));
            if (sent.length == 0) break;
        }
        ANSWERS(GOZDRIT_OK, gozdrit_nack(&receiver, now + 1, GOZDRIT_MAX_NACKED, &length, out, sizeof out));
        if (length == 0) continue;
        ANSWERS(GOZDRIT_OK, gozdrit_srtp_protect(&back.out, out, sizeof out, length, &length));
        ANSWERS(GOZDRIT_OK, gozdrit_srtp_unprotect(&back.in, out, length, now, &plain));
        ANSWERS(GOZDRIT_OK, gozdrit_feedback(&sender, out, plain, &outcome));
        CHECK(outcome.kind == GOZDRIT_FEEDBACK);
    }
    for (uint8_t i = 0; i < 98; i++) {
        ANSWERS(GOZDRIT_OK, gozdrit_play(&receiver, 2000, &played, payload, sizeof payload));
        CHECK(played.kind == GOZDRIT_PACKET && played.length == 1 && payload[0] == i);
    }
    ANSWERS(GOZDRIT_OK, gozdrit_sender_free(&sender));
    ANSWERS(GOZDRIT_OK, gozdrit_receiver_free(&receiver));
    freed(&forth);
    freed(&back);
}

void test_srtp(void) {
    for (size_t i = 0; i < sizeof key; i++) key[i] = (uint8_t)i;
    for (size_t row = 0; row < sizeof ROWS / sizeof *ROWS; row++) {
        test_octets(row);
        test_bits(row);
    }
    test_others();
    test_indices();
    test_refusals();
    test_null_pointers();
    test_session();
}
