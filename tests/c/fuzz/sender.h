/* The model of a sender, which sender.c and hearing.c share. */
#ifndef FUZZ_SENDER_H
#define FUZZ_SENDER_H

#include "fuzz.h"

/* A packet of the history. */
struct kept {
    size_t length; /* of the datagram, and of it */
    size_t at;     /* where the payload begins, and */
    uint8_t padding;
    uint64_t digest;
    unsigned retransmissions;
    bool is_queued; /* it is to be retransmitted */
    uint64_t sent_at, resent_at;
    bool was_resent;
    uint8_t datagram[GOZDRIT_MAX_DATAGRAM];
};

/* What is measured of the path, where the rule follows it: how long an answer takes; by how much the least of late is below a minute, since
 * a moment and in the span before; the mean gap between packets and when the last one was sent, and until when retransmissions
 * are being taken, the gap and that in 4096 parts of a millisecond. */
struct path {
    bool is_followed, has_answer, has_sent;
    uint64_t answer, most, most_before, since, gap, last, busy;
};

struct sender {
    bool is_made;
    unsigned session;
    gozdrit_sender_config config;
    gozdrit_send_counts counts;
    uint64_t first, next; /* the first packet's sequence, and the next one's */
    uint16_t rtx_next;
    uint64_t now;
    bool is_told, is_set; /* a time was told, and it was said whether it follows the path */
    uint64_t fed;
    struct path path;
    struct kept *history; /* of GOZDRIT_MAX_STORE packets, each at its sequence modulo that */
};

/* ---- its history (sender.c) */

struct kept *kept_at(struct sender *it, uint64_t sequence);
/* The oldest packet's sequence. */
uint64_t oldest(const struct sender *it);

/* ---- what it hears (hearing.c) */

/* Hears a datagram, with its counts. */
void hear(struct sender *it, const uint8_t *octets, size_t length, gozdrit_outcome *outcome);

/* ---- what follows the path (following.c) */

void follow(struct sender *it, bool follows);
void follow_send(struct sender *it);
void follow_resend(struct sender *it);
void follow_hear(struct sender *it, uint64_t sequence);
/* How long a packet is not retransmitted again. */
uint64_t min_resend(const struct sender *it);

#endif
