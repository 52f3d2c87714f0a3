/* What the tests of several streams share. */
#ifndef BUNDLE_H
#define BUNDLE_H

#include "checks.h"

#define ANY_CAPS "application/x-rtp"

/* The streams of the tests, by their numbers: sound and picture by turns. Each has timestamps of its own. */
guint32 bundle_ssrc(guint stream);
guint32 bundle_rtx(guint stream);
guint8 bundle_type(guint stream);
packet bundle_packet(guint stream, guint16 number);

/* A receiver whose map has their types, and whose feedback nobody takes. */
receiver make_bundle(const gchar *caps);
void drop_bundle(receiver *r);
/* One with two streams whose retransmissions are known: each lost a packet, and got it again. Both have 10 to 13 then, and nothing is to come. */
receiver make_known(void);

void bundle_send(receiver *r, guint stream, guint16 number);
/* The retransmission of a packet comes, with its stream's SSRC of them, or with that one. */
void bundle_repair(receiver *r, guint stream, guint16 number);
void bundle_repair_as(receiver *r, guint stream, guint16 number, guint32 ssrc);
gboolean bundle_goes_out(receiver *r, guint stream, guint16 number);
/* Whether the next request that goes upstream is for that packet; and whether there is none any more. */
gboolean bundle_asks(receiver *r, guint stream, guint number);
gboolean bundle_asks_nothing(receiver *r);

/* A count of one stream, or G_MAXUINT64 where there is no such stream. */
guint64 bundle_count(receiver *r, guint stream, const gchar *name);

#endif
