/* Sends a file to `receive`, over UDP, and retransmits what that asks for.
 *
 *   send FILE HOST PORT [--loss N] [--seed N] [--seconds N]
 *
 * It loses N in 1000 of the datagrams that it sends (0), drawn by a seed (1), and ends after so many seconds (60) at
 * the latest. At the end one line of counts is printed: the library's.
 *
 * How a file becomes packets: CHUNK octets a packet, whose timestamp says where in the file they begin, modulo 2^32. Behind
 * them comes a packet without payload, whose marker is set. A receiver notices only what is missing below the highest
 * packet that it got: so the sender, once it is silent, probes with its last packet again and again until the receiver says
 * BYE (RFC 3550, section 6.6), and that retransmission shows what is missing at the end.
 *
 * The status is 0 where that BYE says that the whole file was received, 2 for a wrong command line, and else 1. */
#define _POSIX_C_SOURCE 200809L
#include "udp.h"

#include <inttypes.h>

enum {
    CHUNK = 1000, /* octets of the file in a packet: with its headers less than the MTU of most networks */
    BURST = 4,    /* datagrams sent in a millisecond at most */
    PACE = 20     /* milliseconds between two probes with the last packet */
};

typedef struct sending {
    gozdrit_sender end;
    gozdrit_header header; /* of the next packet */
    FILE *file;
    int at;
    options chosen;
    uint64_t probed; /* when it last probed with the last packet */
    bool ended, whole;
} sending;

/* Takes what came. NACKs are the library's; of other reports only BYE counts here. */
static void take_feedback(sending *s) {
    static uint8_t octets[65536];
    for (int i = 0; i < BURST; i++) {
        gozdrit_outcome outcome = GOZDRIT_OUTCOME_INIT;
        ssize_t length = recv(s->at, octets, sizeof octets, MSG_DONTWAIT);
        if (length < 0) return;
        if (gozdrit_feedback(&s->end, octets, (size_t)length, &outcome) != GOZDRIT_OK) return;
        if (outcome.kind != GOZDRIT_REPORTS) continue;
        s->whole = is_same(octets, (size_t)length, BYE_WHOLE);
        s->ended = s->whole || is_same(octets, (size_t)length, BYE_BROKEN);
        if (s->ended) return;
    }
}

/* Sends the next packet of the file, or the one behind it. */
static int32_t send_next(sending *s, gozdrit_sent *sent, uint8_t *out, size_t room) {
    uint8_t payload[CHUNK];
    size_t length = fread(payload, 1, sizeof payload, s->file);
    sent->length = 0;
    if (ferror(s->file)) return GOZDRIT_OK; /* it is no end of the file, and send_file tells it */
    s->header.marker = length == 0;
    int32_t number = gozdrit_send(&s->end, &s->header, payload, length, 0, sent, out, room);
    s->header.timestamp += (uint32_t)length;
    return number;
}

/* Once all was sent: probes with the last packet from time to time. Where it was retransmitted as often as it may be,
 * another one like it follows. */
static int32_t probe(sending *s, uint64_t now, gozdrit_sent *sent, uint8_t *out, size_t room) {
    uint32_t queued;
    sent->length = 0;
    if (now - s->probed < PACE) return GOZDRIT_OK;
    s->probed = now;
    int32_t number = gozdrit_tail_loss_probe(&s->end, &queued);
    if (number != GOZDRIT_OK || queued > 0) return number;
    return gozdrit_send(&s->end, &s->header, NULL, 0, 0, sent, out, room);
}

/* Sends what is due in this millisecond: retransmissions first, since somebody waits for them. */
static int32_t send_burst(sending *s, uint64_t now) {
    for (int i = 0; i < BURST; i++) {
        uint8_t out[GOZDRIT_MAX_DATAGRAM];
        gozdrit_sent sent = GOZDRIT_SENT_INIT;
        int32_t number = gozdrit_retransmit(&s->end, &sent, out, sizeof out);
        if (number == GOZDRIT_OK && sent.length == 0) {
            number = s->header.marker ? probe(s, now, &sent, out, sizeof out) : send_next(s, &sent, out, sizeof out);
        }
        if (number != GOZDRIT_OK) return number;
        if (sent.length > 0) lossy_send(s->at, &s->chosen, out, sent.length);
    }
    return GOZDRIT_OK;
}

/* Sends the file until the receiver has ended, the time is over, or something fails. */
static void send_file(sending *s) {
    uint64_t start = milliseconds(), last = start;
    while (!s->ended && milliseconds() - start < s->chosen.seconds * 1000) {
        wait_for_datagram(s->at, 1);
        take_feedback(s);
        uint64_t now = milliseconds();
        if (now == last) continue;
        last = now;
        int32_t number = send_burst(s, now);
        if (number != GOZDRIT_OK) {
            tell_refusal("send", number);
            return;
        }
        if (ferror(s->file)) {
            perror("send");
            return;
        }
    }
    if (!s->ended) fprintf(stderr, "send: no receiver has ended in time\n");
}

/* Makes the sender, sends the file with it, and gives its memory back. */
static void run(sending *s) {
    gozdrit_sender_config config;
    gozdrit_send_counts counts = GOZDRIT_SEND_COUNTS_INIT;
    gozdrit_sender_defaults(&config, sizeof config);
    config.session = SESSION;
    config.history = GOZDRIT_MAX_STORE;
    config.first_sequence = FIRST;
    config.max_retransmissions = 255;
    int32_t number = gozdrit_sender_new(&config, &s->end);
    if (number != GOZDRIT_OK) {
        tell_refusal("gozdrit_sender_new", number);
        return;
    }
    send_file(s);
    gozdrit_sender_counts(&s->end, &counts);
    gozdrit_sender_free(&s->end);
    printf("send: packets %" PRIu64 " octets %" PRIu64 " retransmissions %" PRIu64, counts.sent, counts.octets,
           counts.retransmissions);
    printf(" nacks %" PRIu64 " exhausted %" PRIu64 "\n", counts.nacks, counts.exhausted);
}

int main(int count, char **words) {
    sending s = {0};
    if (count < 4 || !options_of(words + 4, &s.chosen)) {
        fprintf(stderr, "usage: send FILE HOST PORT [--loss N] [--seed N] [--seconds N]\n");
        return 2;
    }
    s.file = fopen(words[1], "rb");
    if (!s.file) {
        perror(words[1]);
        return 1;
    }
    s.at = open_socket(words[2], words[3]);
    if (s.at < 0) {
        fprintf(stderr, "send: no socket to %s port %s\n", words[2], words[3]);
    } else {
        run(&s);
        close(s.at);
    }
    fclose(s.file);
    return s.whole ? 0 : 1;
}
