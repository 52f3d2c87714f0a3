/* What tells the streams of a simulcast apart (RFC 8852): a packet says its stream's name as RtpStreamId, and its retransmission says the same
 * name as RepairedRtpStreamId. Both are elements of the header extension (RFC 8285), with ids that the ends agreed on. */
#ifndef GOZDRIT_GST_RIDS_H
#define GOZDRIT_GST_RIDS_H

#include "common.h"

typedef struct rid_ids {
    guint stream, repaired; /* 0: there is none */
    gboolean is_unfit; /* a retransmission says RtpStreamId, since its form of extension can't have the other's id */
} rid_ids;

/* Makes a retransmission's RtpStreamId a RepairedRtpStreamId in its place, or leaves it out where that has no id. The other elements stay as
 * they are. Padding between them goes, and so does what lies behind the last one that can be read. One without RtpStreamId stays as it is, to
 * the octet. The octets have a whole header in front; gives how many there are then, which are no more. */
gsize rids_rename(rid_ids *ids, guint8 *octets, gsize length);

#endif
