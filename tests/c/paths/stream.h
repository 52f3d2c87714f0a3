/* A stream from a sender to a receiver over a path, both with the defaults of the header. */
#ifndef STREAM_H
#define STREAM_H

#include "network.h"

struct stream {
    double kilobits; /* of packets of 1200 octets */
    double seconds;
    uint64_t latency;
    uint8_t earned; /* whether NACKs are earned by what comes */
};

/* What came of it, in shares: of the packets that were sent those that were never played; those that were played more than the latency, four
 * times the way's delay and 30 milliseconds after they were sent; the retransmissions; and of these those in vain, as the packet had come or
 * was on its way. */
struct outcome {
    double lost, late, retransmitted, in_vain;
};

struct outcome run_stream(const struct stream *stream, const struct path *path, uint64_t seed);

#endif
