/* A stream of packets that is pushed through elements: to receivers as a network would bring it, ten packets each millisecond.
 * Some are lost and asked for. stream.c pushes it, and between.c makes what stands between its pads. */
#ifndef STREAM_H
#define STREAM_H

#include <gst/gst.h>
#include <gst/rtp/rtp.h>

enum {
    MEDIA = 0x11111111,
    RTX = 0x22222222,
    REPORTER = 0x33333333,
    TYPE = 96,
    RTX_TYPE = 97,
    RATE = 90000,
    LENGTH = 1128,  /* octets of a payload: six packets of MPEG-TS */
    BURST = 10,     /* packets in a millisecond */
    TRIP = 20,      /* milliseconds from an ask to its answer */
    WARM = 2000,    /* packets before the processor's time counts */
    LEAST = 3 * WARM
};

/* The lost packets of one burst: a bit of each, and of the time before them, when they are asked for. */
typedef struct burst {
    guint lost;
} burst;

typedef struct stream {
    gboolean sends; /* the sending side is measured, and else the receiving one */
    guint packets, permille;
    guint32 state; /* of the draws */

    GstElement *pipeline;
    GstPad *in;       /* what the packets are pushed from */
    GstPad *out;      /* where they come to */
    GstPad *feedback; /* sends: what NACKs are pushed from; else where they come to; or NULL */
    burst bursts[TRIP];

    GMutex lock;    /* for what follows: the elements' threads write it */
    GArray *asked;  /* guint64: the moment in milliseconds when the answer is due, and below it 16 bits of the number */
    guint came, repairs; /* packets that came out, and retransmissions among them */
    guint lost, requests;
} stream;

/* What stands between the pads: `neither`, `ours` or `theirs`. */
gboolean put_between(stream *s, const gchar *kind);

/* Pushes all, and gives the nanoseconds of the processor's time that a packet took. */
gdouble push_stream(stream *s);

/* Milliseconds since some moment. */
guint64 milliseconds(void);

/* A packet has to be retransmitted a round trip from now. */
void ask_for(stream *s, guint16 number);

#endif
