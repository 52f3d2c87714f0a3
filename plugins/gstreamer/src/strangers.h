/* What a receiver keeps of who sends to it, where nobody named the SSRC of its stream. */
#ifndef GOZDRIT_GST_STRANGERS_H
#define GOZDRIT_GST_STRANGERS_H

#include "claims.h"
#include "far_side.h"

#include <gst/gst.h>

typedef struct strangers {
    claims claims;
    far_side far;      /* where the session's sender is, if that is known */
    guint64 taken;     /* when the session took a packet last, in milliseconds */
    guint64 dropped;   /* packets of strangers that were, since that was told */
    guint64 told;      /* when that was, where */
    gboolean has_told; /* it was */
} strangers;

/* What is to be told of them. */
typedef struct stranger_told {
    guint64 dropped; /* so many were; 0: nothing */
    claimant last;   /* and who sent the last of these */
} stranger_told;

/* Where a packet came from, as udpsrc tells it. */
sender_address strangers_address(GstBuffer *buffer);
/* In words, to be freed. */
gchar *strangers_address_text(const sender_address *from);

/* What comes of a packet of a stranger: nothing; the session ends, and another one begins with it; or it is of the session, whose sender is elsewhere
 * now. */
typedef enum stranger_step { STRANGER_PASSES, STRANGER_FALLS, STRANGER_MOVES } stranger_step;

/* A session begins with this packet. */
void strangers_begin(strangers *self, GstBuffer *buffer, guint64 now);
/* Whether a packet of the session's SSRC came from elsewhere than its sender is. */
gboolean strangers_is_elsewhere(const strangers *self, GstBuffer *buffer);
/* A packet came that is none of a stranger's; and the session took one. */
void strangers_came(strangers *self, GstBuffer *buffer, guint64 now);
void strangers_took(strangers *self, guint64 now);
/* A packet of a stranger came. Whether it goes on with the session, but for its address. */
stranger_step strangers_hear(strangers *self, GstBuffer *buffer, const guint8 *octets, gboolean goes_on, guint64 now);
/* One was dropped, and what is to be told of it: at most once each ten seconds. */
stranger_told strangers_drop(strangers *self, GstBuffer *buffer, const guint8 *octets, guint64 now);
/* What strangers sent counts no more; and nothing does. */
void strangers_forget(strangers *self);
void strangers_reset(strangers *self);

#endif
