/* A path in virtual time, as that of a lossy network: what leaves at one end comes at the other one later, or never. All times are
 * milliseconds, from the first packet on. */
#ifndef NETWORK_H
#define NETWORK_H

#include <stdbool.h>
#include <stddef.h>
#include <stdint.h>

/* What a path does. Losses are drawn for each way by itself, and begin after two seconds. */
struct path {
    double loss;         /* the share of the datagrams that is lost */
    double burst;        /* how many are lost in a row, on the mean; 0: each by itself */
    double delay;        /* of each way */
    double jitter;       /* up to so much more for each datagram, drawn evenly: they overtake each other */
    double kilobits;     /* the rate of the way there; 0: any */
    double queue;        /* so long a datagram waits for it at most; what would wait longer is dropped */
    double out, out_for; /* nothing passes from this moment on, for so long */
    double slow;         /* in half a second of each two the rate is this share of it; 0: it never changes */
};

enum way { THERE, BACK };

/* A datagram that has come. The octets are there until the next call. */
struct arrival {
    enum way way;
    const uint8_t *octets;
    size_t length;
};

/* Begins a path with draws of its own, on which nothing is. */
void path_begins(const struct path *path, uint64_t seed);

/* A datagram leaves at a moment. Whether it will come. */
bool path_takes(enum way way, const uint8_t *octets, size_t length, double now);

/* The moment at which the next one comes; a great one where none does. */
double path_next(void);

/* The one that comes then. */
struct arrival path_gives(void);

#endif
