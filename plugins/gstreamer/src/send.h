/* gozdritsend, the sending element. send.c is the element: its pads, properties and states. sending.c is what it does
 * with packets, answering.c with feedback, extensions.c knows header extensions, stream.c is one stream's numbers and history, and silence.c
 * what it does where no packet comes. */
#ifndef GOZDRIT_GST_SEND_H
#define GOZDRIT_GST_SEND_H

#include "maps.h"
#include "stream.h"

G_DECLARE_FINAL_TYPE(GstGozdritSend, gst_gozdrit_send, GST, GOZDRIT_SEND, GstElement)

struct _GstGozdritSend {
    GstElement parent;
    GstPad *sink;
    GstPad *feedback;
    GstPad *src;

    GMutex lock; /* one call of the library at a time, and all that follows */
    send_settings settings;
    type_map types;      /* of the retransmissions: what it has none for is not kept */
    type_map rates;      /* of the timestamps */
    GstStructure *ssrcs; /* of the retransmissions, or NULL */
    GPtrArray *streams;  /* send_stream, at most MOST_STREAMS of them */
    send_stream *recent; /* that of the last packet or caps, or NULL */
    guint32 rtx_ssrc;    /* of the first stream, which caps tell before it comes, and */
    guint16 rtx_first;   /* its first number, and */
    gint64 told_first;   /* its first packet's, or -1 */
    gboolean rtx_taken;  /* it has come */
    gozdrit_send_counts past; /* the counts of the streams that are gone */
    guint64 media, reports, refused; /* datagrams of feedback: RTP, RTCP without a NACK, and what no stream took */
    GstClockID waiting; /* for the tail to be repaired */
    gboolean flushing;  /* nothing is waited for */
    gboolean stopped;   /* the same, also behind a flush */
    guint64 passed;     /* packets that were too long to be kept, and went out */
    guint64 strays;     /* buffers that were no RTP packets */
    guint64 key_requests; /* that went upstream */
    GstRTPHeaderExtension *stream_id, *repaired_id; /* RtpStreamId and RepairedRtpStreamId, or NULL */
    gboolean unfit_told; /* a retransmission could not have the latter */

    element_time time;
    gboolean requested; /* an event from downstream wants a retransmission, which the task sends */
    GCond silence_cond;
    GstClockID silence_id;
    GstClockTime silence_until; /* what that waits for */
    gboolean silence_waits, silence_active; /* waits: the task waits for a packet */
};

/* So many streams have a history at most. That of which nothing came for the longest goes for another one. */
enum { MOST_STREAMS = 64 };

/* The caps of the packets that go out, from those that come in. */
GstCaps *sending_caps(GstGozdritSend *self, const GstCaps *caps);

/* Takes the reference of a packet that came, and gives the one that goes out. */
GstFlowReturn sending_packet(GstGozdritSend *self, GstBuffer *buffer, GstBuffer **out);

/* Sends what a datagram of feedback asks for. */
void sending_feedback(GstGozdritSend *self, GstBuffer *buffer);

/* A packet is asked for by its number: the task sends it. FALSE where it is another stream's. */
gboolean sending_request(GstGozdritSend *self, guint32 ssrc, guint16 number);

/* Draws another SSRC of a stream's retransmissions, where they have this one and no property says so; else FALSE. The stream's
 * SSRC becomes `media`, or -1 where it has not come yet. */
gboolean sending_collision(GstGozdritSend *self, guint32 ssrc, gint64 *media, guint32 *drawn);

/* Sends all that is to be retransmitted. */
void sending_retransmissions(GstGozdritSend *self);

/* Repeats the last packets, and answers until the time is over. */
void sending_tail(GstGozdritSend *self);

/* The streams' counts, of those that there are and those before. The lock is held. */
gozdrit_send_counts sending_sums(const GstGozdritSend *self);

/* The same, and what the element counted, for its property. */
GstStructure *sending_counts(GstGozdritSend *self);

/* Ends all streams, and keeps their counts. The lock is held. */
void sending_end(GstGozdritSend *self);

/* ---- extensions.c */

/* The signals of the element's class. */
void extensions_install(GType type);
/* The ids of what they told. The lock is held. */
rid_ids extensions_ids(const GstGozdritSend *self);
void extensions_tell_unfit(GstGozdritSend *self);

/* ---- silence.c. The lock is held, but for the pad's activation. */

/* A stream's packet was sent. */
void silence_packet(GstGozdritSend *self, send_stream *stream, GstClockTime now);
/* No packet is to be repeated any more, until another one was sent. */
void silence_end(GstGozdritSend *self);
/* The delay or the clock is another, or something is to be sent. */
void silence_changed(GstGozdritSend *self);
gboolean silence_activate(GstPad *pad, GstObject *parent, GstPadMode mode, gboolean active);

#endif
