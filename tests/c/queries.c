/* What an end is asked leaves it, and its handle, as they were: of two ends to which the same happens one is asked all the
 * time, and the other one at the end alone. */
#include "checks.h"

enum { STEPS = 3000 };

static uint32_t drawn = 5;

static uint32_t draw(uint32_t below) {
    drawn = drawn * 1664525 + 1013904223;
    return (drawn >> 16) % below;
}

/* Whether two receivers counted the same. */
static bool has_counted_same(const state *a, const state *b) {
    return memcmp(&a->counts, &b->counts, sizeof a->counts) == 0 && memcmp(&a->probes, &b->probes, sizeof a->probes) == 0;
}

/* Asks a receiver all that can be asked. Its handle is lent as a constant. */
static void ask_receiver(const gozdrit_receiver *r) {
    const gozdrit_receiver before = *r;
    const state once = state_of(r), twice = state_of(r);
    CHECK(is_same_state(&once, &twice) && has_counted_same(&once, &twice));
    CHECK(before.at == r->at && before.held == r->held);
}

static void ask_sender(const gozdrit_sender *s) {
    const gozdrit_sender before = *s;
    gozdrit_send_counts once = GOZDRIT_SEND_COUNTS_INIT, twice;
    FILL_SIZED(twice); /* so that both are the same only where all is written */
    ANSWERS(GOZDRIT_OK, gozdrit_sender_counts(s, &once));
    ANSWERS(GOZDRIT_OK, gozdrit_sender_counts(s, &twice));
    CHECK(memcmp(&once, &twice, sizeof once) == 0);
    CHECK(before.at == s->at && before.held == s->held);
}

/* One step of a session: something happens to a receiver, and what came of it stands in the octets. */
typedef struct step {
    uint32_t what;
    uint16_t seq;
    uint64_t now;
    uint8_t came[GOZDRIT_MAX_NACK_DATAGRAM];
} step;

static void take_step(gozdrit_receiver *r, step *s) {
    const uint8_t payload[3] = {(uint8_t)(s->seq >> 8), (uint8_t)s->seq, 1};
    uint8_t packet[15];
    gozdrit_received received;
    gozdrit_played played;
    size_t length = 0;
    memset(s->came, 0, sizeof s->came);
    memset(packet, 0, sizeof packet);
    memset(&received, 0, sizeof received);
    memset(&played, 0, sizeof played);
    received.size = sizeof received;
    played.size = sizeof played;
    if (s->what < 5) {
        if (s->what < 4) length = write_rtp(packet, 96, s->seq, 0x11111111, payload, sizeof payload);
        else length = write_rtp(packet, 97, 1, 0x22222222, payload, sizeof payload);
        ANSWERS(GOZDRIT_OK, gozdrit_receive(r, packet, length, s->now, &received));
        memcpy(s->came, &received, offsetof(gozdrit_received, refusal) + 1); /* no octets behind its last field */
    } else if (s->what < 8) {
        ANSWERS(GOZDRIT_OK, gozdrit_play(r, s->now, &played, packet, sizeof packet));
        memcpy(s->came, &played, sizeof played);
        memcpy(s->came + sizeof played, packet, sizeof payload);
    } else {
        ANSWERS(GOZDRIT_OK, gozdrit_nack(r, s->now, 1 + s->seq % 20u, &length, s->came, sizeof s->came));
    }
}

static void test_receivers(void) {
    const gozdrit_receiver_config config = {
        .size = sizeof(gozdrit_receiver_config), .session = SESSION, .latency = 5, .nack_interval = 2, .window = 16,
        .max_nacks = 2, .reorder_delay = 1};
    gozdrit_receiver asked = {NULL, 0}, left = {NULL, 0};
    uint32_t highest = 40000;
    ANSWERS(GOZDRIT_OK, gozdrit_receiver_new(&config, &asked));
    ANSWERS(GOZDRIT_OK, gozdrit_receiver_new(&config, &left));
    for (uint32_t i = 0; i < STEPS; i++) {
        step s = {.what = draw(10), .now = i / 4}, other;
        highest += draw(200) == 0 ? 5000 : draw(2);
        s.seq = (uint16_t)(highest - (s.what == 4 ? draw(12) : draw(3)));
        other = s;
        ask_receiver(&asked);
        take_step(&asked, &s);
        ask_receiver(&asked);
        take_step(&left, &other);
        CHECK(memcmp(s.came, other.came, sizeof s.came) == 0);
    }
    const state one = state_of(&asked), two = state_of(&left);
    CHECK(is_same_state(&one, &two) && has_counted_same(&one, &two));
    /* much of everything has happened */
    CHECK(one.counts.media > 500 && one.counts.retransmissions > 50 && one.counts.restarts > 2);
    CHECK(one.counts.played > 300 && one.counts.gaps > 100 && one.counts.nacked > 500);
    ANSWERS(GOZDRIT_OK, gozdrit_receiver_free(&asked));
    ANSWERS(GOZDRIT_OK, gozdrit_receiver_free(&left));
}

static void test_senders(void) {
    const gozdrit_sender_config config = {.size = sizeof(gozdrit_sender_config), .session = SESSION, .history = 16,
                                          .first_sequence = 65000, .max_retransmissions = 2};
    const gozdrit_header header = {.timestamp = 9};
    gozdrit_sender ends[2] = {{NULL, 0}, {NULL, 0}};
    for (int e = 0; e < 2; e++) ANSWERS(GOZDRIT_OK, gozdrit_sender_new(&config, &ends[e]));
    for (uint32_t i = 0; i < STEPS / 3; i++) {
        const uint32_t blp = draw(65536);
        uint8_t outs[2][4][64], nack[NACK_LENGTH];
        memset(outs, 0, sizeof outs);
        write_nack(nack, 0x33333333, 0x11111111, (uint16_t)(65000 + i - draw(20)), (uint16_t)(blp & draw(65536)));
        for (int e = 0; e < 2; e++) {
            gozdrit_sent sent = GOZDRIT_SENT_INIT;
            gozdrit_outcome outcome = GOZDRIT_OUTCOME_INIT;
            if (e == 0) ask_sender(&ends[0]);
            ANSWERS(GOZDRIT_OK, gozdrit_send(&ends[e], &header, nack, 15, 0, &sent, outs[e][0], 64));
            if (e == 0) ask_sender(&ends[0]);
            ANSWERS(GOZDRIT_OK, gozdrit_feedback(&ends[e], nack, sizeof nack, &outcome));
            if (e == 0) ask_sender(&ends[0]);
            for (int k = 1; k < 4; k++) ANSWERS(GOZDRIT_OK, gozdrit_retransmit(&ends[e], &sent, outs[e][k], 64));
        }
        CHECK(memcmp(outs[0], outs[1], sizeof outs[0]) == 0);
    }
    gozdrit_send_counts one = GOZDRIT_SEND_COUNTS_INIT, two;
    FILL_SIZED(two);
    ANSWERS(GOZDRIT_OK, gozdrit_sender_counts(&ends[0], &one));
    ANSWERS(GOZDRIT_OK, gozdrit_sender_counts(&ends[1], &two));
    CHECK(memcmp(&one, &two, sizeof one) == 0 && one.retransmissions > 500 && one.exhausted > 100);
    for (int e = 0; e < 2; e++) ANSWERS(GOZDRIT_OK, gozdrit_sender_free(&ends[e]));
}

void test_queries(void) {
    test_receivers();
    test_senders();
}
