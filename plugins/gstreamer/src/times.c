#include "times.h"

/* What lies farther apart is a stream that began anew, not a delay. */
#define JUMP ((gint64)GST_SECOND)

/* The latest time that is looked at, some 146 years: differences of times fit in 64 bits. None is later. */
#define LATEST (G_GUINT64_CONSTANT(1) << 62)

/* How long the earliest packet is looked for, before the times follow it. */
#define SPAN (2 * GST_SECOND)

void rtp_times_begin(rtp_times *times, gint64 clock_rate) {
    *times = (rtp_times){.clock_rate = clock_rate > 0 ? clock_rate : 0, .newest = G_GUINT64_CONSTANT(1) << 40,
                         .is_fixed = times->is_fixed, .last = GST_CLOCK_TIME_NONE};
}

guint64 rtp_times_extended(const rtp_times *times, guint32 timestamp) {
    return times->newest + (guint64)(gint64)(gint32)(timestamp - (guint32)times->newest);
}

static gint64 nanoseconds(const rtp_times *times, guint64 extended) {
    return (gint64)gst_util_uint64_scale(extended, GST_SECOND, (guint64)times->clock_rate);
}

static void set_base(rtp_times *times, guint64 extended, GstClockTime at) {
    times->based = TRUE;
    times->base = (gint64)at - nanoseconds(times, extended);
    times->first = extended;
    times->least = G_MAXINT64;
    times->began = at;
}

/* A span is over: half of what the earliest packet was late is the far clock's, and is followed. */
static void end_span(rtp_times *times, GstClockTime at) {
    times->base += times->least / 2;
    times->least = G_MAXINT64;
    times->began = at;
}

gint64 rtp_times_apart(const rtp_times *times, guint64 from, guint64 to) { return nanoseconds(times, to) - nanoseconds(times, from); }

/* By how much packets are nearer to each other, or farther apart, than when they were sent. */
static void note_jitter(rtp_times *times, guint64 extended, GstClockTime at) {
    gint64 apart = rtp_times_apart(times, times->newest, extended);
    gint64 differs = GST_CLOCK_TIME_IS_VALID(times->last) ? (gint64)at - (gint64)times->last - apart : 0;
    times->jitter = ((GstClockTime)ABS(differs) + 15 * times->jitter) / 16;
    times->last = at;
}

void rtp_times_arrived(rtp_times *times, guint32 timestamp, GstClockTime at) {
    if (times->clock_rate == 0 || at > LATEST) return;
    guint64 extended = rtp_times_extended(times, timestamp);
    gint64 late = (gint64)at - times->base - nanoseconds(times, extended);
    gint64 unit = (gint64)GST_SECOND / times->clock_rate;
    note_jitter(times, extended, at);
    times->newest = extended;
    if (!times->based || late < -JUMP || late > JUMP) {
        set_base(times, extended, at);
    } else if (times->is_fixed) {
        /* as the first */
    } else if (late < -unit) { /* no packet is earlier than its time */
        times->base += late;
        times->least = 0;
    } else {
        times->least = MIN(times->least, late <= unit ? 0 : late);
        if (at > times->began + SPAN) end_span(times, at);
    }
}

GstClockTime rtp_times_of(const rtp_times *times, guint32 timestamp) {
    if (!times->based) return GST_CLOCK_TIME_NONE;
    gint64 at = times->base + nanoseconds(times, rtp_times_extended(times, timestamp));
    return at > 0 ? (GstClockTime)at : 0;
}

gboolean rtp_times_same(const rtp_times *times, GstClockTime at, GstClockTime own) {
    if (!GST_CLOCK_TIME_IS_VALID(own)) return times->clock_rate == 0;
    GstClockTime apart = at > own ? at - own : own - at;
    return apart <= GST_SECOND / (GstClockTime)times->clock_rate;
}
