/* Memory: a call that gets none refuses with 73 and keeps nothing; only the `new` take any, and SRTP with each SSRC that is
 * new, and each free gives all of it back. The linker puts the three functions below in the place of the C library's (--wrap). */
#include "checks.h"

#include <stdlib.h>

static long taken;    /* blocks that were taken */
static long held;     /* blocks that were taken and not given back */
static long left = -1; /* how many more blocks are given; below 0: any number */

void *__real_malloc(size_t size);
void *__real_realloc(void *at, size_t size);
void __real_free(void *at);
void *__wrap_malloc(size_t size);
void *__wrap_realloc(void *at, size_t size);
void __wrap_free(void *at);

/* Whether one more block is given. */
static bool gives(void) {
    if (left == 0) return false;
    if (left > 0) left--;
    taken++;
    return true;
}

void *__wrap_malloc(size_t size) {
    void *at = gives() ? __real_malloc(size) : NULL;
    held += at != NULL;
    return at;
}

void *__wrap_realloc(void *at, size_t size) {
    void *to = gives() ? __real_realloc(at, size) : NULL;
    held += at == NULL && to != NULL;
    return to;
}

void __wrap_free(void *at) {
    held -= at != NULL;
    __real_free(at);
}

/* Every call of a sender that holds an end, but for the free. */
static void use_sender(gozdrit_sender *sender) {
    static const gozdrit_header header = {.timestamp = 0};
    static const uint8_t payload[GOZDRIT_MAX_PAYLOAD];
    uint8_t out[GOZDRIT_MAX_DATAGRAM], nack[NACK_LENGTH];
    gozdrit_sent sent = GOZDRIT_SENT_INIT;
    gozdrit_outcome outcome = GOZDRIT_OUTCOME_INIT;
    gozdrit_send_counts counts = GOZDRIT_SEND_COUNTS_INIT;
    uint32_t queued;
    write_nack(nack, 0x33333333, 0x11111111, 50, 0xffff);
    for (int i = 0; i < 100; i++) {
        ANSWERS(GOZDRIT_OK, gozdrit_send(sender, &header, payload, sizeof payload, 0, &sent, out, sizeof out));
    }
    ANSWERS(GOZDRIT_OK, gozdrit_feedback(sender, nack, sizeof nack, &outcome));
    CHECK(outcome.queued == 17);
    ANSWERS(GOZDRIT_OK, gozdrit_retransmit(sender, &sent, out, sizeof out));
    ANSWERS(GOZDRIT_OK, gozdrit_tail_loss_probe(sender, &queued));
    CHECK(queued == 1);
    ANSWERS(GOZDRIT_OK, gozdrit_sender_counts(sender, &counts));
    CHECK(counts.sent == 100 && counts.retransmissions == 1);
}

/* What comes to a receiver at a time, and what it does then. */
static void use_at(gozdrit_receiver *receiver, uint16_t seq, uint64_t now, uint8_t kind) {
    uint8_t out[GOZDRIT_MAX_DATAGRAM], payload[GOZDRIT_MAX_PAYLOAD] = {0};
    gozdrit_received received = GOZDRIT_RECEIVED_INIT;
    gozdrit_played played = GOZDRIT_PLAYED_INIT;
    size_t length = write_rtp(out, 96, seq, 0x11111111, payload, sizeof payload);
    ANSWERS(GOZDRIT_OK, gozdrit_receive(receiver, out, length, now, &received));
    CHECK(received.kind == kind);
    ANSWERS(GOZDRIT_OK, gozdrit_nack(receiver, now, GOZDRIT_MAX_NACKED, &length, out, sizeof out));
    ANSWERS(GOZDRIT_OK, gozdrit_play(receiver, now, &played, payload, sizeof payload));
}

/* Every call of a receiver that holds an end, but for the free, with a jump, and with a window that it has to leave. */
static void use_receiver(gozdrit_receiver *receiver) {
    ANSWERS(GOZDRIT_OK, gozdrit_begin(receiver, 0));
    ANSWERS(GOZDRIT_OK, gozdrit_set_times(receiver, 100, 0, 20));
    for (uint16_t i = 0; i < 100; i++) use_at(receiver, (uint16_t)(7 * i), i, GOZDRIT_MEDIA);
    use_at(receiver, 9000, 100, GOZDRIT_HELD_BACK);
    use_at(receiver, 9001, 100, GOZDRIT_RESTARTED);
    for (uint16_t i = 0; i < 100; i++) use_at(receiver, (uint16_t)(9002 + 7 * i), 100u + i, GOZDRIT_MEDIA);
    const state came = state_of(receiver);
    CHECK(came.next.known && came.highest.known && came.timeout.known && came.missing > 0);
    CHECK(came.counts.media == 200 && came.counts.restarts == 1);
    ANSWERS(GOZDRIT_OK, gozdrit_reset(receiver));
    use_at(receiver, 1, 0, GOZDRIT_MEDIA);
}

/* The calls without an end take none either. */
static void test_calls_without_end(void) {
    const long made = taken, before = held;
    gozdrit_sender_config sending;
    gozdrit_receiver_config receiving;
    gozdrit_packet packet = {.payload_type = 96};
    uint8_t out[64];
    size_t length;
    ANSWERS(GOZDRIT_OK, gozdrit_sender_defaults(&sending, sizeof sending));
    ANSWERS(GOZDRIT_OK, gozdrit_receiver_defaults(&receiving, sizeof receiving));
    ANSWERS(GOZDRIT_OK, gozdrit_rtp_write(&packet, NULL, 0, &length, out, sizeof out));
    ANSWERS(GOZDRIT_OK, gozdrit_rtp_read(out, length, &packet));
    CHECK(gozdrit_version() > 0 && gozdrit_max_payload() > 0);
    CHECK(taken == made && held == before);
}

static void test_sender_memory(uint32_t history) {
    const gozdrit_sender_config config = {
        .size = sizeof(gozdrit_sender_config), .session = SESSION, .history = history, .max_retransmissions = 1};
    const long before = held;
    gozdrit_sender sender = {NULL, 0};
    for (long given = 0; !sender.held && given < 100; given++) {
        left = given;
        const int32_t number = gozdrit_sender_new(&config, &sender);
        left = -1;
        CHECK(number == (sender.held ? GOZDRIT_OK : GOZDRIT_OUT_OF_MEMORY));
        CHECK(sender.held == (given > 0 && held > before));
        CHECK(sender.held || (held == before && sender.at == NULL));
    }
    CHECK(sender.held);
    const long made = taken;
    use_sender(&sender);
    CHECK(taken == made);
    ANSWERS(GOZDRIT_OK, gozdrit_sender_free(&sender));
    CHECK(taken == made && held == before);
}

static void test_receiver_memory(uint32_t window) {
    const gozdrit_receiver_config config = {
        .size = sizeof(gozdrit_receiver_config), .session = SESSION, .latency = 100, .nack_interval = 20,
        .window = window, .max_nacks = 2};
    const long before = held;
    gozdrit_receiver receiver = {NULL, 0};
    for (long given = 0; !receiver.held && given < 100; given++) {
        left = given;
        const int32_t number = gozdrit_receiver_new(&config, &receiver);
        left = -1;
        CHECK(number == (receiver.held ? GOZDRIT_OK : GOZDRIT_OUT_OF_MEMORY));
        CHECK(receiver.held == (given > 0 && held > before));
        CHECK(receiver.held || (held == before && receiver.at == NULL));
    }
    CHECK(receiver.held);
    const long made = taken;
    use_receiver(&receiver);
    CHECK(taken == made);
    ANSWERS(GOZDRIT_OK, gozdrit_receiver_free(&receiver));
    CHECK(taken == made && held == before);
}

/* Each SSRC that is new takes memory, and where there is none its packet is refused, and nothing else is changed. */
static void test_srtp_memory(void) {
    static const uint8_t key[GOZDRIT_SRTP_KEY] = {7};
    const long before = held;
    gozdrit_srtp_sender out = {NULL, 0};
    gozdrit_srtp_receiver in = {NULL, 0};
    uint8_t packet[12 + GOZDRIT_SRTP_GROWTH], sealed[12 + GOZDRIT_SRTP_GROWTH];
    size_t whole = 0, plain = 0;
    for (long given = 0; !out.held && given < 100; given++) {
        left = given;
        const int32_t number = gozdrit_srtp_sender_new(GOZDRIT_SRTP_AES128_CM_HMAC_SHA1_80, key, sizeof key, &out);
        left = -1;
        CHECK(number == (out.held ? GOZDRIT_OK : GOZDRIT_OUT_OF_MEMORY) && (out.held || held == before));
    }
    for (long given = 0; !in.held && given < 100; given++) {
        const long kept = held;
        left = given;
        const int32_t number = gozdrit_srtp_receiver_new(GOZDRIT_SRTP_AES128_CM_HMAC_SHA1_80, key, sizeof key, &in);
        left = -1;
        CHECK(number == (in.held ? GOZDRIT_OK : GOZDRIT_OUT_OF_MEMORY) && (in.held || held == kept));
    }
    CHECK(out.held && in.held);
    for (uint32_t ssrc = 1; ssrc < 50; ssrc++) {
        int32_t number = GOZDRIT_SRTP_NO_MEMORY;
        for (long given = 0; number == GOZDRIT_SRTP_NO_MEMORY && given < 100; given++) {
            write_rtp(packet, 96, 1, ssrc, NULL, 0);
            left = given;
            number = gozdrit_srtp_protect(&out, packet, sizeof packet, 12, &whole);
            left = -1;
        }
        CHECK(number == GOZDRIT_OK && whole == 22);
        number = GOZDRIT_SRTP_NO_MEMORY;
        for (long given = 0; number == GOZDRIT_SRTP_NO_MEMORY && given < 100; given++) {
            memcpy(sealed, packet, sizeof packet);
            left = given;
            number = gozdrit_srtp_unprotect(&in, sealed, whole, 0, &plain);
            left = -1;
        }
        CHECK(number == GOZDRIT_OK && plain == 12);
    }
    const long made = taken; /* of an SSRC that is known none is taken */
    write_rtp(packet, 96, 2, 1, NULL, 0);
    ANSWERS(GOZDRIT_OK, gozdrit_srtp_protect(&out, packet, sizeof packet, 12, &whole));
    CHECK(taken == made);
    ANSWERS(GOZDRIT_OK, gozdrit_srtp_sender_free(&out));
    ANSWERS(GOZDRIT_OK, gozdrit_srtp_receiver_free(&in));
    CHECK(held == before);
}

void test_memory(void) {
    test_calls_without_end();
    test_sender_memory(64);
    test_sender_memory(GOZDRIT_MAX_STORE);
    test_receiver_memory(64);
    test_receiver_memory(GOZDRIT_MAX_STORE);
    test_srtp_memory();
}
