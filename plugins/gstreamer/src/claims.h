/* Who may take a session that another sender has: the rule of the relay, in C. There it is proved: crates/relays/src/claims.rt and
 * claim_tables.rt, and docs/RULES.md has it in words.
 *
 * A session falls to who sends a stream, of ten packets in sequence, while the session's own sender never sent one, or sends less than some two
 * packets a second. However fast a stranger sends, and as however many, he takes no session whose sender sends a stream. Times are milliseconds. */
#ifndef GOZDRIT_GST_CLAIMS_H
#define GOZDRIT_GST_CLAIMS_H

#include <glib.h>

/* Where a packet came from: an IPv6 address, or that which stands for an IPv4 one (RFC 4291, section 2.5.5.2), and a port. */
typedef struct sender_address {
    guint8 octets[16]; /* zeros where it is not known, as the port */
    guint16 port;
    gboolean is_known;
} sender_address;

gboolean sender_address_is(const sender_address *one, const sender_address *other);

/* Who claims a session. */
typedef struct claimant {
    sender_address from;
    guint32 ssrc;
} claimant;

/* So many packets in sequence are a stream. */
enum { CLAIM_STREAM = 10 };

/* So many claims of one packet are kept, and of more. Those of one packet have a table of their own, so that a flood of them takes no other's
 * place. */
enum { CLAIM_SINGLES = 3072, CLAIM_RUNS = 1024 };

/* The strangers that claim a session. All zeros: nobody claims it, and it took nothing so far. */
typedef struct claims {
    GHashTable *all;      /* claims by their claimants; NULL: none */
    GQueue singles, runs; /* the same; those with the latest packet in sequence first */
    guint64 held;         /* how many packets this session and those before it took, */
    guint64 start;        /* and how many those before it */
} claims;

/* A session begins. Who claimed the one before goes on with it, unless it fell. */
void claims_begin(claims *self);
/* The session took a packet. */
void claims_take(claims *self);
/* A packet of a stranger came, with this number. Whether the session falls to it: then nobody claims it any more. */
gboolean claims_hear(claims *self, const claimant *by, guint16 number, guint64 now);
/* Whether a number is one of the next ones behind another. */
gboolean claims_is_next(guint16 before, guint16 number);
/* How many claims are kept. */
guint claims_count(const claims *self);
/* Nobody claims it any more. What it took stays. */
void claims_forget(claims *self);

#endif
