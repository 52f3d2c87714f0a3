/* Null pointers: each one is refused, whatever else is wrong with the call, but for those of a length or room of 0. */
#include "checks.h"

static gozdrit_sender sender = {NULL, 0};
static gozdrit_receiver receiver = {NULL, 0};

typedef struct lent {
    gozdrit_sent sent;
    gozdrit_received received;
    gozdrit_outcome outcome;
    gozdrit_played played;
    gozdrit_ssrc ssrc;
    gozdrit_sequence sequence;
    gozdrit_timeout timeout;
    gozdrit_times times;
    gozdrit_receive_counts receiver_counts;
    gozdrit_probe_counts probes;
    gozdrit_send_counts sender_counts;
    gozdrit_packet packet;
    size_t length;
    uint32_t queued;
    uint8_t out[GOZDRIT_MAX_DATAGRAM];
} lent;

static lent l;

/* What the calls are lent: a pattern, and the sizes of the structs that begin with theirs. */
static void fill(lent *at) {
    FILL(*at);
    at->sent.size = sizeof at->sent;
    at->received.size = sizeof at->received;
    at->outcome.size = sizeof at->outcome;
    at->played.size = sizeof at->played;
    at->times.size = sizeof at->times;
    at->receiver_counts.size = sizeof at->receiver_counts;
    at->probes.size = sizeof at->probes;
    at->sender_counts.size = sizeof at->sender_counts;
}

/* Whether all of it is as it was filled. */
static bool is_filled(const lent *at) {
    lent before;
    fill(&before);
    return memcmp(&before, at, sizeof before) == 0;
}

/* Null comes before a handle that holds no end. */
static void test_no_end(void) {
    const gozdrit_header header = {.timestamp = 0};
    ANSWERS(GOZDRIT_NULL, gozdrit_send(&sender, &header, NULL, 1, 0, &l.sent, l.out, sizeof l.out));
    ANSWERS(GOZDRIT_NULL, gozdrit_feedback(&sender, NULL, 1, &l.outcome));
    ANSWERS(GOZDRIT_NULL, gozdrit_retransmit(&sender, NULL, l.out, sizeof l.out));
    ANSWERS(GOZDRIT_NULL, gozdrit_tail_loss_probe(&sender, NULL));
    ANSWERS(GOZDRIT_NULL, gozdrit_sender_counts(&sender, NULL));
    ANSWERS(GOZDRIT_NULL, gozdrit_receive(&receiver, NULL, 1, 0, &l.received));
    ANSWERS(GOZDRIT_NULL, gozdrit_play(&receiver, 0, &l.played, NULL, sizeof l.out));
    ANSWERS(GOZDRIT_NULL, gozdrit_nack(&receiver, 0, 1, NULL, l.out, sizeof l.out));
    ANSWERS(GOZDRIT_NULL, gozdrit_missing(&receiver, NULL));
    ANSWERS(GOZDRIT_NULL, gozdrit_next_timeout(&receiver, NULL));
    ANSWERS(GOZDRIT_NULL, gozdrit_receiver_counts(&receiver, NULL));
    ANSWERS(GOZDRIT_EMPTY_HANDLE, gozdrit_feedback(&sender, NULL, 0, &l.outcome));
    ANSWERS(GOZDRIT_EMPTY_HANDLE, gozdrit_retransmit(&sender, &l.sent, NULL, 0));
    ANSWERS(GOZDRIT_EMPTY_HANDLE, gozdrit_receive(&receiver, NULL, 0, 0, &l.received));
    ANSWERS(GOZDRIT_EMPTY_HANDLE, gozdrit_play(&receiver, 0, &l.played, NULL, 0));
    ANSWERS(GOZDRIT_EMPTY_HANDLE, gozdrit_nack(&receiver, 0, 1, &l.length, NULL, 0));
    CHECK(is_filled(&l));
}

static void test_new(void) {
    const gozdrit_sender_config sending = {
        .size = sizeof(gozdrit_sender_config), .session = SESSION, .history = 4, .max_retransmissions = 1};
    const gozdrit_receiver_config receiving = {
        .size = sizeof(gozdrit_receiver_config), .session = SESSION, .latency = 100, .nack_interval = 20, .window = 4,
        .max_nacks = 2};
    ANSWERS(GOZDRIT_NULL, gozdrit_sender_defaults(NULL, sizeof sending));
    ANSWERS(GOZDRIT_NULL, gozdrit_receiver_defaults(NULL, sizeof receiving));
    ANSWERS(GOZDRIT_NULL, gozdrit_sender_new(NULL, &sender));
    ANSWERS(GOZDRIT_NULL, gozdrit_sender_new(&sending, NULL));
    ANSWERS(GOZDRIT_NULL, gozdrit_sender_new(NULL, NULL));
    ANSWERS(GOZDRIT_NULL, gozdrit_receiver_new(NULL, &receiver));
    ANSWERS(GOZDRIT_NULL, gozdrit_receiver_new(&receiving, NULL));
    ANSWERS(GOZDRIT_NULL, gozdrit_receiver_new(NULL, NULL));
    ANSWERS(GOZDRIT_NULL, gozdrit_sender_free(NULL));
    ANSWERS(GOZDRIT_NULL, gozdrit_receiver_free(NULL));
    CHECK(sender.held == 0 && sender.at == NULL && receiver.held == 0 && receiver.at == NULL);
    ANSWERS(GOZDRIT_OK, gozdrit_sender_new(&sending, &sender));
    ANSWERS(GOZDRIT_OK, gozdrit_receiver_new(&receiving, &receiver));
    /* null comes before held */
    ANSWERS(GOZDRIT_NULL, gozdrit_sender_new(NULL, &sender));
    ANSWERS(GOZDRIT_NULL, gozdrit_receiver_new(NULL, &receiver));
}

static void test_sending(void) {
    static const uint8_t octets[GOZDRIT_MAX_PAYLOAD + 1];
    const gozdrit_header header = {.timestamp = 0};
    ANSWERS(GOZDRIT_NULL, gozdrit_send(NULL, &header, octets, 1, 0, &l.sent, l.out, sizeof l.out));
    ANSWERS(GOZDRIT_NULL, gozdrit_send(&sender, NULL, octets, 1, 0, &l.sent, l.out, sizeof l.out));
    ANSWERS(GOZDRIT_NULL, gozdrit_send(&sender, &header, NULL, 1, 0, &l.sent, l.out, sizeof l.out));
    ANSWERS(GOZDRIT_NULL, gozdrit_send(&sender, &header, NULL, GOZDRIT_MAX_PAYLOAD + 1, 0, &l.sent, l.out, 0));
    ANSWERS(GOZDRIT_NULL, gozdrit_send(&sender, &header, octets, 1, 0, NULL, l.out, sizeof l.out));
    ANSWERS(GOZDRIT_NULL, gozdrit_send(&sender, &header, octets, 1, 0, &l.sent, NULL, sizeof l.out));
    ANSWERS(GOZDRIT_NULL, gozdrit_send(&sender, &header, octets, sizeof octets, 0, &l.sent, NULL, 1));
    ANSWERS(GOZDRIT_TOO_LARGE, gozdrit_send(&sender, &header, octets, sizeof octets, 0, &l.sent, NULL, 0));
    ANSWERS(GOZDRIT_NO_ROOM, gozdrit_send(&sender, &header, octets, 1, 0, &l.sent, NULL, 0));
    ANSWERS(GOZDRIT_NO_ROOM, gozdrit_send(&sender, &header, NULL, 0, 0, &l.sent, NULL, 0));
    ANSWERS(GOZDRIT_NULL, gozdrit_feedback(NULL, octets, 1, &l.outcome));
    ANSWERS(GOZDRIT_NULL, gozdrit_feedback(&sender, NULL, 1, &l.outcome));
    ANSWERS(GOZDRIT_NULL, gozdrit_feedback(&sender, octets, 1, NULL));
    ANSWERS(GOZDRIT_NULL, gozdrit_retransmit(NULL, &l.sent, l.out, sizeof l.out));
    ANSWERS(GOZDRIT_NULL, gozdrit_retransmit(&sender, NULL, l.out, sizeof l.out));
    ANSWERS(GOZDRIT_NULL, gozdrit_retransmit(&sender, &l.sent, NULL, 1));
    ANSWERS(GOZDRIT_NULL, gozdrit_retransmit(&sender, &l.sent, NULL, sizeof l.out));
    ANSWERS(GOZDRIT_NULL, gozdrit_tail_loss_probe(NULL, &l.queued));
    ANSWERS(GOZDRIT_NULL, gozdrit_sender_set_time(NULL, 1));
    ANSWERS(GOZDRIT_NULL, gozdrit_sender_set_adaptive(NULL, 1));
    ANSWERS(GOZDRIT_NULL, gozdrit_tail_loss_probe(&sender, NULL));
    ANSWERS(GOZDRIT_NULL, gozdrit_sender_counts(NULL, &l.sender_counts));
    ANSWERS(GOZDRIT_NULL, gozdrit_sender_counts(&sender, NULL));
    CHECK(is_filled(&l));
    /* nothing was sent so far, and no datagram was heard */
    CHECK(is_counted_sent(&sender, (gozdrit_send_counts){.sent = 0}));
    ANSWERS(GOZDRIT_OK, gozdrit_send(&sender, &header, NULL, 0, 0, &l.sent, l.out, sizeof l.out));
    CHECK(l.sent.sequence == 65536 && l.sent.length == 12);
}

static void test_receiving(void) {
    static const uint8_t octets[12];
    ANSWERS(GOZDRIT_NULL, gozdrit_receive(NULL, octets, sizeof octets, 0, &l.received));
    ANSWERS(GOZDRIT_NULL, gozdrit_receive(&receiver, NULL, 1, 0, &l.received));
    ANSWERS(GOZDRIT_NULL, gozdrit_receive(&receiver, octets, sizeof octets, 0, NULL));
    ANSWERS(GOZDRIT_NULL, gozdrit_play(NULL, 0, &l.played, l.out, sizeof l.out));
    ANSWERS(GOZDRIT_NULL, gozdrit_play(&receiver, 0, NULL, l.out, sizeof l.out));
    ANSWERS(GOZDRIT_NULL, gozdrit_play(&receiver, 0, &l.played, NULL, 1));
    ANSWERS(GOZDRIT_NULL, gozdrit_play(&receiver, 0, &l.played, NULL, sizeof l.out));
    ANSWERS(GOZDRIT_NULL, gozdrit_nack(NULL, 0, 1, &l.length, l.out, sizeof l.out));
    ANSWERS(GOZDRIT_NULL, gozdrit_nack(&receiver, 0, 1, NULL, l.out, sizeof l.out));
    ANSWERS(GOZDRIT_NULL, gozdrit_nack(&receiver, 0, 1, &l.length, NULL, 1));
    ANSWERS(GOZDRIT_NULL, gozdrit_nack(&receiver, 0, 0, &l.length, NULL, sizeof l.out));
    ANSWERS(GOZDRIT_NULL, gozdrit_begin(NULL, 1));
    ANSWERS(GOZDRIT_NULL, gozdrit_reset(NULL));
    ANSWERS(GOZDRIT_NULL, gozdrit_set_times(NULL, 1, 1, 1));
    ANSWERS(GOZDRIT_NULL, gozdrit_set_times(NULL, 1, 1, 0));
    CHECK(is_filled(&l));
    CHECK(is_counted(&receiver, (gozdrit_receive_counts){.media = 0}));
}

static void test_asking(void) {
    ANSWERS(GOZDRIT_NULL, gozdrit_missing(NULL, &l.length));
    ANSWERS(GOZDRIT_NULL, gozdrit_missing(&receiver, NULL));
    ANSWERS(GOZDRIT_NULL, gozdrit_rtx_ssrc(NULL, &l.ssrc));
    ANSWERS(GOZDRIT_NULL, gozdrit_rtx_ssrc(&receiver, NULL));
    ANSWERS(GOZDRIT_NULL, gozdrit_next_sequence(NULL, &l.sequence));
    ANSWERS(GOZDRIT_NULL, gozdrit_next_sequence(&receiver, NULL));
    ANSWERS(GOZDRIT_NULL, gozdrit_highest_sequence(NULL, &l.sequence));
    ANSWERS(GOZDRIT_NULL, gozdrit_highest_sequence(&receiver, NULL));
    ANSWERS(GOZDRIT_NULL, gozdrit_next_timeout(NULL, &l.timeout));
    ANSWERS(GOZDRIT_NULL, gozdrit_next_timeout(&receiver, NULL));
    ANSWERS(GOZDRIT_NULL, gozdrit_set_adaptive(NULL, 1));
    ANSWERS(GOZDRIT_NULL, gozdrit_set_nack_copies(NULL, 1));
    ANSWERS(GOZDRIT_NULL, gozdrit_set_nack_budget(NULL, 1));
    ANSWERS(GOZDRIT_NULL, gozdrit_receiver_times(NULL, &l.times));
    ANSWERS(GOZDRIT_NULL, gozdrit_receiver_times(&receiver, NULL));
    ANSWERS(GOZDRIT_NULL, gozdrit_receiver_probe_counts(NULL, &l.probes));
    ANSWERS(GOZDRIT_NULL, gozdrit_receiver_probe_counts(&receiver, NULL));
    ANSWERS(GOZDRIT_NULL, gozdrit_receiver_counts(NULL, &l.receiver_counts));
    ANSWERS(GOZDRIT_NULL, gozdrit_receiver_counts(&receiver, NULL));
    CHECK(is_filled(&l));
}

/* A packet's pointers, also where its payload type is bad. */
static void test_packet(void) {
    static const uint8_t octets[12] = {0x80};
    const gozdrit_packet good = {.payload_type = 96}, bad = {.payload_type = 255};
    ANSWERS(GOZDRIT_NULL, gozdrit_rtp_read(NULL, 1, &l.packet));
    ANSWERS(GOZDRIT_NULL, gozdrit_rtp_read(octets, sizeof octets, NULL));
    ANSWERS(GOZDRIT_NULL, gozdrit_rtp_read(NULL, 0, NULL));
    ANSWERS(GOZDRIT_RTP_SHORT, gozdrit_rtp_read(NULL, 0, &l.packet));
    ANSWERS(GOZDRIT_NULL, gozdrit_rtp_write(NULL, octets, 1, &l.length, l.out, sizeof l.out));
    ANSWERS(GOZDRIT_NULL, gozdrit_rtp_write(&good, NULL, 1, &l.length, l.out, sizeof l.out));
    ANSWERS(GOZDRIT_NULL, gozdrit_rtp_write(&good, octets, 1, NULL, l.out, sizeof l.out));
    ANSWERS(GOZDRIT_NULL, gozdrit_rtp_write(&good, octets, 1, &l.length, NULL, 1));
    ANSWERS(GOZDRIT_NULL, gozdrit_rtp_write(&bad, NULL, 1, &l.length, l.out, sizeof l.out));
    ANSWERS(GOZDRIT_NULL, gozdrit_rtp_write(&bad, octets, 1, NULL, l.out, 0));
    ANSWERS(GOZDRIT_BAD_PAYLOAD_TYPE, gozdrit_rtp_write(&bad, NULL, 0, &l.length, l.out, sizeof l.out));
    ANSWERS(GOZDRIT_NO_ROOM, gozdrit_rtp_write(&good, NULL, 0, &l.length, NULL, 0));
    CHECK(is_filled(&l));
}

/* An empty datagram behind a null pointer is a datagram, and where nothing is to be written no buffer is wanted. */
static void test_nothing(void) {
    ANSWERS(GOZDRIT_OK, gozdrit_feedback(&sender, NULL, 0, &l.outcome));
    CHECK(l.outcome.kind == GOZDRIT_MEDIA && l.outcome.refusal == 0);
    ANSWERS(GOZDRIT_OK, gozdrit_retransmit(&sender, &l.sent, NULL, 0));
    CHECK(l.sent.length == 0);
    ANSWERS(GOZDRIT_OK, gozdrit_receive(&receiver, NULL, 0, 0, &l.received));
    CHECK(l.received.kind == GOZDRIT_REFUSED && l.received.refusal == GOZDRIT_RTP_SHORT);
    ANSWERS(GOZDRIT_OK, gozdrit_play(&receiver, 0, &l.played, NULL, 0));
    CHECK(l.played.kind == GOZDRIT_WAIT);
    ANSWERS(GOZDRIT_OK, gozdrit_nack(&receiver, 0, GOZDRIT_MAX_NACKED, &l.length, NULL, 0));
    CHECK(l.length == 0);
    CHECK(is_counted(&receiver, (gozdrit_receive_counts){.refused = 1}));
}

void test_null(void) {
    fill(&l);
    test_no_end();
    test_new();
    test_receiving();
    test_asking();
    test_packet();
    test_sending();
    fill(&l);
    test_nothing();
    ANSWERS(GOZDRIT_OK, gozdrit_sender_free(&sender));
    ANSWERS(GOZDRIT_OK, gozdrit_receiver_free(&receiver));
}
