#define _POSIX_C_SOURCE 200809L
#include "stream.h"

#include <string.h>
#include <time.h>

/* ---- times */

/* What is later than that is not made up for. */
#define LATE (5 * (guint64)GST_MSECOND)

static guint64 nanoseconds_of(clockid_t clock) {
    struct timespec now;
    clock_gettime(clock, &now);
    return (guint64)now.tv_sec * GST_SECOND + (guint64)now.tv_nsec;
}

guint64 milliseconds(void) { return nanoseconds_of(CLOCK_MONOTONIC) / GST_MSECOND; }

/* Sleeps until a moment, and gives how late it was then: where others held the process up, the stream goes on from there. */
static guint64 sleep_until(guint64 moment) {
    struct timespec until = {(time_t)(moment / GST_SECOND), (long)(moment % GST_SECOND)};
    while (clock_nanosleep(CLOCK_MONOTONIC, TIMER_ABSTIME, &until, NULL) != 0) {}
    guint64 late = nanoseconds_of(CLOCK_MONOTONIC) - moment;
    return late > LATE ? late : 0;
}

/* ---- packets */

static gboolean draw(stream *s) {
    s->state = s->state * 1664525u + 1013904223u;
    return (s->state >> 8) % 1000 < s->permille;
}

/* The packet of that number, with the timestamp of its burst, or its retransmission, which has the number in front (RFC 4588,
 * section 4). */
static GstBuffer *make_packet(const stream *s, guint number, guint repair) {
    GstClock *clock = gst_pipeline_get_clock(GST_PIPELINE(s->pipeline));
    GstClockTime now = gst_clock_get_time(clock) - gst_element_get_base_time(s->pipeline);
    guint length = LENGTH + (repair ? 2 : 0);
    GstBuffer *buffer = gst_buffer_new_allocate(NULL, 12 + length, NULL);
    GstMapInfo map;
    gst_object_unref(clock);
    gst_buffer_map(buffer, &map, GST_MAP_WRITE);
    memset(map.data, 0, map.size);
    map.data[0] = 0x80;
    map.data[1] = repair ? RTX_TYPE : TYPE;
    GST_WRITE_UINT16_BE(map.data + 2, (guint16)(repair ? repair : number));
    GST_WRITE_UINT32_BE(map.data + 4, (guint32)(number / BURST * (RATE / 1000)));
    GST_WRITE_UINT32_BE(map.data + 8, repair ? RTX : MEDIA);
    if (repair) GST_WRITE_UINT16_BE(map.data + 12, (guint16)number);
    gst_buffer_unmap(buffer, &map);
    GST_BUFFER_PTS(buffer) = GST_BUFFER_DTS(buffer) = now;
    return buffer;
}

/* ---- asks and their answers */

void ask_for(stream *s, guint16 number) {
    guint64 asked = (milliseconds() + TRIP) << 16 | number;
    g_mutex_lock(&s->lock);
    g_array_append_val(s->asked, asked);
    s->requests++;
    g_mutex_unlock(&s->lock);
}

/* Retransmits a packet that was sent. GStreamer's jitter buffer also asks for packets that are still to come. */
static void retransmit(stream *s, guint next, guint16 number) {
    guint back = (guint16)((guint16)next - number);
    if (back == 0 || back > MIN(next, G_MAXINT16)) return;
    s->repairs++;
    gst_pad_push(s->in, make_packet(s, next - back, (guint16)s->repairs | 0x10000u));
}

/* The receiving side: pushes the retransmissions that are due. */
static void answer(stream *s, guint next) {
    guint64 now = milliseconds();
    for (;;) {
        guint64 asked = G_MAXUINT64;
        g_mutex_lock(&s->lock);
        if (s->asked->len > 0) asked = g_array_index(s->asked, guint64, 0);
        if (asked >> 16 <= now) g_array_remove_index(s->asked, 0);
        g_mutex_unlock(&s->lock);
        if (asked >> 16 > now) return;
        retransmit(s, MIN(next, s->packets), (guint16)asked);
    }
}

/* The sending side: asks for what was lost of a burst, by a generic NACK of one pair (RFC 4585, section 6.2.1). */
static void ask(stream *s, guint first, guint lost) {
    guint8 octets[16] = {0x81, 205, 0, 3, 0x33, 0x33, 0x33, 0x33, 0x11, 0x11, 0x11, 0x11};
    if (lost == 0) return;
    guint lowest = (guint)g_bit_nth_lsf(lost, -1);
    GST_WRITE_UINT16_BE(octets + 12, (guint16)(first + lowest));
    GST_WRITE_UINT16_BE(octets + 14, (guint16)(lost >> lowest >> 1));
    GstBuffer *nack = gst_buffer_new_memdup(octets, sizeof octets);
    if (s->feedback) gst_pad_push(s->feedback, nack);
    else gst_buffer_unref(nack);
}

/* ---- the stream */

/* One burst that begins with that number. The first and the last one lose nothing, and behind the last none is pushed. */
static void push_burst(stream *s, guint first, gboolean last) {
    burst *place = &s->bursts[first / BURST % TRIP];
    if (s->sends) ask(s, first - TRIP * BURST, place->lost);
    else answer(s, first);
    place->lost = 0;
    for (guint i = 0; i < BURST && !last; i++) {
        gboolean lost = draw(s) && first > 0 && first + BURST < s->packets;
        s->lost += (guint)lost;
        place->lost |= (guint)lost << i;
        if (s->sends || !lost) gst_pad_push(s->in, make_packet(s, first + i, 0));
    }
}

/* The sending side looks at no clock for a packet, so its packets follow one another at once. What another thread still has to do
 * gets its time at the end. */
gdouble push_stream(stream *s) {
    guint64 began = nanoseconds_of(CLOCK_MONOTONIC), spent = 0;
    guint end = s->packets + 20 * TRIP * BURST;
    for (guint first = 0; first < end; first += BURST) {
        if (first == WARM) spent = nanoseconds_of(CLOCK_PROCESS_CPUTIME_ID);
        if (!s->sends) began += sleep_until(began + first / BURST * GST_MSECOND);
        push_burst(s, first, first >= s->packets);
    }
    if (s->sends) g_usleep(20 * TRIP * 1000);
    spent = nanoseconds_of(CLOCK_PROCESS_CPUTIME_ID) - spent;
    return (gdouble)spent / (s->packets - WARM);
}
