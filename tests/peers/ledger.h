/* What a path knows of each stream that it carries: which packets it lost, what was asked for, and what came of it. */
#ifndef LEDGER_H
#define LEDGER_H

#include "net.h"

enum { MAX_STREAMS = 4 };

/* Of one media packet. */
enum { SENT = 1, LOST = 2, CAME = 4, NAMED = 8 };

/* The counts of a stream. Packets and datagrams are counted as they come to the path, whether it loses them or not. */
typedef struct ledger {
    stream of;
    uint8_t marks[65536]; /* of the media packets by their sequence numbers: a stream has fewer, so each has its own */
    uint32_t highest;     /* the sequence number of the media packet that was sent last */
    uint64_t media, lost;
    uint64_t rtx, rtx_lost;
    uint64_t useless; /* retransmissions that came, of what had come already */
    uint64_t last;    /* retransmissions that came of the newest packet: by these a sender shows its end */
    uint64_t repaired;
    uint64_t named, again, vain; /* numbers in NACKs: of lost packets, of those that were repaired already, and of others */
    uint64_t wanted;             /* lost packets that were named at all */
} ledger;

/* Marks an RTP packet of these streams, which is lost or comes. */
void mark_rtp(ledger *books, size_t count, const uint8_t *octets, size_t length, bool lost);

/* Marks what the generic NACKs of an RTCP datagram name, and gives for how many of these streams it has one. */
size_t mark_nacks(ledger *books, size_t count, const uint8_t *octets, size_t length);

/* Prints the counts of a stream in a line. */
void tell_ledger(const ledger *book);

/* Whether RTP or RTCP, where both come to a port (RFC 5761, section 4). */
static inline bool is_rtcp(const uint8_t *octets, size_t length) {
    return length >= 8 && octets[1] >= 192 && octets[1] < 224;
}

#endif
