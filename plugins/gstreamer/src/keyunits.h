/* Requests for a key frame: PLI (RFC 4585, section 6.3.1) and FIR (RFC 5104, section 4.3.1) in RTCP, and the event GstForceKeyUnit between
 * elements. */
#ifndef GOZDRIT_GST_KEYUNITS_H
#define GOZDRIT_GST_KEYUNITS_H

#include "common.h"

typedef struct key_request {
    guint32 from;     /* the SSRC that asks */
    guint32 media;    /* and that which it asks */
    gboolean is_full; /* FIR: with all headers, and: */
    guint8 number;    /* the same one is the same request */
} key_request;

/* The requests of a datagram, whatever else it has, in `requests`; at most MOST_REQUESTS. Gives how many there are. */
enum { MOST_REQUESTS = 16 };
guint key_requests_read(const guint8 *octets, gsize length, key_request requests[MOST_REQUESTS]);

/* A datagram of a request. */
GstBuffer *key_request_write(const key_request *request);

/* The event of a request that goes upstream. */
GstEvent *key_request_event(const key_request *request);

/* Whether an event is one, for that media if it says for which; and what it says then. */
gboolean key_request_parse(const GstEvent *event, guint32 media, gboolean *is_full);

#endif
