/* The model of a receiver, which receiver.c, window.c, receiving.c and queries.c share. */
#ifndef FUZZ_RECEIVER_H
#define FUZZ_RECEIVER_H

#include "fuzz.h"

/* ---- its window (window.c) */

/* A place of the window: held, or missing. */
struct slot {
    bool is_held;
    size_t length; /* held: of the payload */
    uint64_t digest;
    uint64_t noticed, last; /* missing: since when, and when a NACK named it last */
    unsigned nacks;
};

struct window {
    bool has_started;
    bool has_taken; /* it may have started without, by a begin */
    uint64_t next, highest;
    uint32_t capacity;
    struct slot *slots; /* of GOZDRIT_MAX_STORE places, each at its sequence modulo that */
};

struct slot *slot_at(const struct window *window, uint64_t sequence);
/* The slot of the next one to play, or null where nothing is kept. */
struct slot *front(const struct window *window);
void clear_window(struct window *window);
void begin_window(struct window *window, uint16_t first);
/* Takes a packet: 0, or why it does not. */
int32_t take_packet(struct window *window, uint64_t sequence, uint64_t sum, size_t length, uint64_t now, uint64_t *overrun);
/* The extended sequence number that a number stands for: 0, or why there is none. */
int32_t extend(const struct window *window, uint16_t number, uint64_t *sequence);
size_t count_missing(const struct window *window);

/* ---- all of it (receiver.c) */

struct receiver {
    bool is_made;
    unsigned session;
    gozdrit_receiver_config config;
    gozdrit_receive_counts counts;
    struct window window, spare; /* the spare one has what is held back */
    bool has_learnt;
    uint32_t learnt;
    unsigned held_back, wanted; /* packets that have jumped */
    uint16_t follows;           /* the number of the next of them in sequence */
    uint64_t taken_at;          /* when a media packet was last taken */
    uint64_t seen[8192];        /* by a number modulo 8192: what was taken last, its number and timestamp, and one more */
    uint8_t copies;             /* of each NACK, as it was set */
    bool earns;                 /* whether NACKs are earned by what comes, */
    uint64_t earned, allowed;   /* the octets that were, and the datagrams that came more than NACKs left */
    uint8_t again[GOZDRIT_MAX_NACK_DATAGRAM]; /* the NACK that is to leave once more */
    size_t again_length;                      /* 0: none */
    bool has_played;            /* since it was reset, or the stream restarted */
    uint64_t played;            /* the last sequence that was played or given up */
    uint64_t fed;
};

/* What the next NACK may have: as many octets, and none where that is too little for any. */
size_t room_for_nack(const struct receiver *it);

/* Takes a datagram, with its counts. */
void take_datagram(struct receiver *it, const struct datagram *datagram, uint64_t now, gozdrit_received *received);
/* What a play does at a moment: GOZDRIT_WAIT, GOZDRIT_PACKET or GOZDRIT_GAP. */
uint8_t expect_play(const struct receiver *it, uint64_t now);
/* Writes the NACK of a moment, and answers its length, or 0; `named` packets are named from the next one on. */
size_t expect_nack(const struct receiver *it, uint64_t now, size_t most, uint8_t *out, size_t *named);
/* Counts a NACK for the first of the packets that are due. */
void count_nack(struct receiver *it, uint64_t now, size_t named);
/* The next timeout, if there is one. */
bool expect_timeout(const struct receiver *it, uint64_t *moment);
void reset(struct receiver *it);

/* ---- its calls (receiving.c) */

gozdrit_receiver *lend_receiver(const struct receiver *it, bool to_write);
void check_receiver(const struct receiver *it, int32_t answer);
int32_t unless_no_end(const struct receiver *it, int32_t answer);
/* Each answers what it did, or a number below 0 where it was refused. */
int play(struct receiver *it, uint64_t now, size_t room, bool is_plain);
int nack(struct receiver *it, uint64_t now, size_t most, size_t room, bool is_plain);

/* ---- its queries (queries.c) */

void call_query(struct receiver *it);

#endif
