/* Where the sender of the session is, and what shows it at another address, as where a NAT on its way binds it anew: the rule of the relay, in C.
 * There it is proved: crates/relays/src/far_side.rt. Times are milliseconds. */
#ifndef GOZDRIT_GST_FAR_SIDE_H
#define GOZDRIT_GST_FAR_SIDE_H

#include "claims.h"

typedef struct far_side {
    sender_address at;
    guint64 came; /* the moment of its last packet, */
    gboolean has_come; /* where there was one since it is there */
    /* The mean time between two of its packets, in microseconds: of the last second, and of each moment in it the gap in which that lies, so that
     * packets that come at once make it no shorter. It begins with the longest that counts. */
    guint64 gap;
    /* What shows it at another address, since its last packet: */
    sender_address shown;
    guint16 number; /* the last number in sequence from there, */
    guint64 last;   /* when it came, */
    guint64 in_sequence; /* and how many did; 0: none */
} far_side;

/* It is at an address, of which nothing came so far: its gaps may be the longest. */
far_side far_side_at(sender_address at);
/* A packet of it came from where it is. */
void far_side_hear(far_side *self, guint64 now);
/* Whether nothing came from there for long enough for it to be elsewhere. */
gboolean far_side_is_quiet(const far_side *self, guint64 now);
/* A packet of the session, with one of the next numbers, came from another address. Whether it is there now, from this packet on. */
gboolean far_side_show(far_side *self, const sender_address *from, guint16 number, guint64 now);

#endif
