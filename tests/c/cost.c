/* What a packet costs a receiver: gozdrit_receive and gozdrit_play of packets with the longest payload, in order, in
 * nanoseconds of the processor. It prints the median of its rounds. */
#define _POSIX_C_SOURCE 200809L
#include "gozdrit.h"

#include <stdbool.h>
#include <stdio.h>
#include <stdlib.h>
#include <time.h>

enum { ROUNDS = 2001, PACKETS = 256, LENGTH = 12 + GOZDRIT_MAX_PAYLOAD };

static double nanoseconds(void) {
    struct timespec t;
    clock_gettime(CLOCK_PROCESS_CPUTIME_ID, &t);
    return (double)t.tv_sec * 1e9 + (double)t.tv_nsec;
}

static int is_below(const void *a, const void *b) {
    const double one = *(const double *)a, two = *(const double *)b;
    return (one > two) - (one < two);
}

/* Takes and plays the packets of a round: one datagram, which gets the next number each time. */
static bool take(gozdrit_receiver *receiver, uint16_t *seq, uint32_t *sum) {
    static uint8_t datagram[LENGTH] = {0x80, 96, 0, 0, 0, 0, 0, 0, 0, 0, 0, 1};
    gozdrit_received received = GOZDRIT_RECEIVED_INIT;
    gozdrit_played played = GOZDRIT_PLAYED_INIT;
    for (int i = 0; i < PACKETS; i++) {
        uint8_t payload[GOZDRIT_MAX_PAYLOAD];
        ++*seq;
        datagram[2] = (uint8_t)(*seq >> 8);
        datagram[3] = (uint8_t)*seq;
        datagram[LENGTH - 1] = (uint8_t)i;
        if (gozdrit_receive(receiver, datagram, sizeof datagram, 0, &received)) return false;
        if (received.kind != GOZDRIT_MEDIA) return false;
        if (gozdrit_play(receiver, 0, &played, payload, sizeof payload) || played.kind != GOZDRIT_PACKET) return false;
        *sum += payload[played.length - 1];
    }
    return true;
}

int main(void) {
    static const gozdrit_session session = {1, 2, 3, 96, 97, 0};
    static double spent[ROUNDS];
    gozdrit_receiver_config config;
    gozdrit_receiver receiver = {NULL, 0};
    uint16_t seq = 0;
    uint32_t sum = 0;
    if (gozdrit_receiver_defaults(&config, sizeof config)) return 1;
    config.session = session;
    config.window = 1024;
    if (gozdrit_receiver_new(&config, &receiver)) return 1;
    for (int round = 0; round < ROUNDS; round++) {
        const double start = nanoseconds();
        if (!take(&receiver, &seq, &sum)) return 1;
        spent[round] = (nanoseconds() - start) / PACKETS;
    }
    if (gozdrit_receiver_free(&receiver) || sum != (uint32_t)ROUNDS * (PACKETS * (PACKETS - 1) / 2)) return 1;
    qsort(spent, ROUNDS, sizeof *spent, is_below);
    printf("receive and play of %d octets: %.0f ns\n", GOZDRIT_MAX_PAYLOAD, spent[ROUNDS / 2]);
    return 0;
}
