/* A program of a user: both ends, a network that loses each tenth datagram, and all that they count. check compiles it with the headers of
 * releases and of trials, and runs it with the library of today. It ends with 0 where each packet came, and nothing was written that is not
 * the library's. */
#include "gozdrit.h"

#include <stdio.h>
#include <stdlib.h>
#include <string.h>

enum { MANY = 500, ROOM = GOZDRIT_MAX_DATAGRAM };

#define EXPECT(holds)                                                    \
    do {                                                                 \
        if (!(holds)) {                                                  \
            fprintf(stderr, "program: line %d: %s\n", __LINE__, #holds); \
            exit(1);                                                     \
        }                                                                \
    } while (0)

static gozdrit_sender sender;
static gozdrit_receiver receiver;
static unsigned drawn = 1, played;

static int is_lost(void) {
    drawn = drawn * 1664525 + 1013904223;
    return (drawn >> 16) % 10 == 0;
}

static void make_ends(void) {
    const gozdrit_session session = {0x11111111, 0x22222222, 0x33333333, 96, 97, 0};
    gozdrit_sender_config sending;
    gozdrit_receiver_config receiving;
    EXPECT(gozdrit_sender_defaults(&sending, sizeof sending) == GOZDRIT_OK);
    EXPECT(gozdrit_receiver_defaults(&receiving, sizeof receiving) == GOZDRIT_OK);
    EXPECT(sending.size == sizeof sending && receiving.size == sizeof receiving);
    sending.session = receiving.session = session;
    receiving.adaptive = GOZDRIT_ADAPTIVE_SEND_TIME;
    receiving.latency = 2000;
    receiving.max_nacks = 255;
    EXPECT(gozdrit_sender_new(&sending, &sender) == GOZDRIT_OK);
    EXPECT(gozdrit_receiver_new(&receiving, &receiver) == GOZDRIT_OK);
}

static void carry(const uint8_t *datagram, size_t length, uint64_t now) {
    gozdrit_received received = GOZDRIT_RECEIVED_INIT;
    if (is_lost()) return;
    EXPECT(gozdrit_receive(&receiver, datagram, length, now, &received) == GOZDRIT_OK);
    EXPECT(received.size == sizeof received);
}

static void send_one(uint32_t number, uint64_t now) {
    const gozdrit_header header = {number, {0}, {0}, 0, 0, 0, 0, 0};
    gozdrit_sent sent = GOZDRIT_SENT_INIT;
    uint8_t datagram[ROOM];
    EXPECT(gozdrit_send(&sender, &header, (const uint8_t *)&number, sizeof number, 0, &sent, datagram, ROOM) == GOZDRIT_OK);
    carry(datagram, sent.length, now);
}

static void play_all(uint64_t now) {
    for (;;) {
        gozdrit_played one = GOZDRIT_PLAYED_INIT;
        uint32_t number;
        EXPECT(gozdrit_play(&receiver, now, &one, (uint8_t *)&number, sizeof number) == GOZDRIT_OK);
        if (one.kind == GOZDRIT_WAIT) return;
        EXPECT(one.kind == GOZDRIT_PACKET && one.header.timestamp == number);
        played++;
    }
}

static void repair(uint64_t now) {
    uint8_t nack[GOZDRIT_MAX_NACK_DATAGRAM], datagram[ROOM];
    size_t length;
    EXPECT(gozdrit_nack(&receiver, now, GOZDRIT_MAX_NACKED, &length, nack, sizeof nack) == GOZDRIT_OK);
    if (length > 0 && !is_lost()) {
        gozdrit_outcome outcome = GOZDRIT_OUTCOME_INIT;
        EXPECT(gozdrit_feedback(&sender, nack, length, &outcome) == GOZDRIT_OK && outcome.kind == GOZDRIT_FEEDBACK);
    }
    for (;;) {
        gozdrit_sent sent = GOZDRIT_SENT_INIT;
        EXPECT(gozdrit_retransmit(&sender, &sent, datagram, ROOM) == GOZDRIT_OK);
        if (sent.length == 0) return;
        carry(datagram, sent.length, now);
    }
}

static void read_counts(void) {
    gozdrit_send_counts sent = GOZDRIT_SEND_COUNTS_INIT;
    gozdrit_receive_counts received = GOZDRIT_RECEIVE_COUNTS_INIT;
    gozdrit_probe_counts probes = GOZDRIT_PROBE_COUNTS_INIT;
    gozdrit_times times = GOZDRIT_TIMES_INIT;
    EXPECT(gozdrit_sender_counts(&sender, &sent) == GOZDRIT_OK && sent.sent == MANY && sent.retransmissions > 0);
    EXPECT(gozdrit_receiver_counts(&receiver, &received) == GOZDRIT_OK && received.retransmissions > 0);
    EXPECT(gozdrit_receiver_probe_counts(&receiver, &probes) == GOZDRIT_OK && probes.padding == 0);
    EXPECT(gozdrit_receiver_times(&receiver, &times) == GOZDRIT_OK && times.size == sizeof times);
}

int main(void) {
    make_ends();
    for (uint32_t i = 0; i < MANY; i++) {
        send_one(i, 10 * i);
        repair(10 * i);
        play_all(10 * i);
    }
    for (uint32_t i = 0; i < 100; i++) {
        uint32_t queued;
        EXPECT(gozdrit_tail_loss_probe(&sender, &queued) == GOZDRIT_OK);
        repair(10 * (MANY + i));
        play_all(10 * (MANY + i));
    }
    EXPECT(played >= MANY - 1);
    read_counts();
    EXPECT(gozdrit_sender_free(&sender) == GOZDRIT_OK && gozdrit_receiver_free(&receiver) == GOZDRIT_OK);
    return 0;
}
