/* The times of RTP packets. The network delays each packet by a time of its own, and a packet that was repaired comes much
 * later than its neighbours: so a packet's time is made from its RTP timestamp, and the arrivals tell only where on the
 * element's time line the timestamps lie, and how fast the far clock runs. */
#ifndef GOZDRIT_GST_TIMES_H
#define GOZDRIT_GST_TIMES_H

#include <gst/gst.h>

typedef struct rtp_times {
    gint64 clock_rate;  /* units of a timestamp in a second; 0 where it is not known, and then no time is told */
    gboolean based;     /* a packet came, and what follows holds */
    guint64 newest;     /* the last timestamp that arrived, extended */
    gint64 base;        /* the time of the extended timestamp 0, in nanoseconds */
    gint64 least;       /* of a span: by how much the packet that came the earliest was later than its time */
    GstClockTime began; /* the span */
    guint64 first;      /* the extended timestamp of the packet that the base was set by */
    gboolean is_fixed;  /* both clocks are one: the times follow that packet alone */
    GstClockTime last;  /* when the last packet arrived, or GST_CLOCK_TIME_NONE */
    GstClockTime jitter; /* RFC 3550, section 6.4.1, in nanoseconds */
} rtp_times;

/* Forgets all, for a stream with that clock rate; but not whether the clocks are one. */
void rtp_times_begin(rtp_times *times, gint64 clock_rate);

/* A packet with this timestamp came at that time, as media: not repaired. */
void rtp_times_arrived(rtp_times *times, guint32 timestamp, GstClockTime at);

/* The time of the packets with this timestamp, or GST_CLOCK_TIME_NONE. */
GstClockTime rtp_times_of(const rtp_times *times, guint32 timestamp);

/* The extended one of a timestamp, which is the nearest to the newest one; and the time from one of these to another, in nanoseconds. */
guint64 rtp_times_extended(const rtp_times *times, guint32 timestamp);
gint64 rtp_times_apart(const rtp_times *times, guint64 from, guint64 to);

/* Whether a time differs from a packet's own by less than the timestamp's unit, and thus is that very time, unrounded. */
gboolean rtp_times_same(const rtp_times *times, GstClockTime at, GstClockTime own);

#endif
