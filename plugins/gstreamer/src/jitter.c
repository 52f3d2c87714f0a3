/* What a jitter buffer does beside: it holds still where an rtpbin fills its buffers, keeps no more than its latency, tells what it dropped, and
 * lets through what it can't repair. */
#include "recv.h"

#include <string.h>

/* ---- packets that the library has no room for: it keeps their places by their headers. */

/* What is no RTP packet is the library's to refuse. */
gboolean jitter_is_long(const guint8 *octets, gsize length) {
    gboolean has_extension = octets[0] & 16, has_padding = octets[0] & 32;
    if (length <= 12 + GOZDRIT_MAX_PAYLOAD && !has_extension) return FALSE;
    gsize head = packet_head(octets, length), csrcs = 4 * (gsize)(octets[0] & 15), padding = has_padding ? octets[length - 1] : 0;
    if (octets[0] >> 6 != 2 || head == 0 || head + padding > length || (has_padding && padding == 0)) return FALSE;
    if (has_extension && head > 12 + csrcs + 4 + 4 * GOZDRIT_MAX_EXTENSION_WORDS) return TRUE;
    return length - head - padding > GOZDRIT_MAX_PAYLOAD;
}

guint8 *jitter_stand_in(const guint8 *octets, guint8 type, gsize *length) {
    guint8 *made = g_malloc0(*length = 13);
    memcpy(made, octets, 12);
    made[0] = 0x80;
    made[1] = (guint8)((octets[1] & 128) | type);
    return made;
}

/* ---- what is dropped. The lock is held. */

/* The message has the fields that rtpjitterbuffer gives it. */
void jitter_dropped(GstGozdritRecv *self, guint number, GstClockTime at, gboolean late) {
    drop_messages *drops = &self->drops;
    guint64 now = receiving_now(self);
    if (!self->settings.tells_drops) return;
    (*(late ? &drops->late : &drops->on_latency))++;
    if (drops->next || (drops->has_told && now < drops->last + self->settings.drops_interval)) return;
    GstStructure *told = gst_structure_new("drop-msg", "seqnum", G_TYPE_UINT, number, "timestamp", GST_TYPE_CLOCK_TIME, at, "reason",
                                           G_TYPE_STRING, late ? "too-late" : "drop-on-latency", "num-too-late", G_TYPE_UINT, drops->late,
                                           "num-drop-on-latency", G_TYPE_UINT, drops->on_latency, NULL);
    *drops = (drop_messages){.next = gst_message_new_element(GST_OBJECT(self), told), .last = now, .has_told = TRUE};
}

/* The first packet of what is ready, or NULL. */
static GstBuffer *first_ready(const GstGozdritRecv *self) {
    guint count = gst_queue_array_get_length(self->ready);
    for (guint i = 0; i < count; i++) {
        gpointer item = gst_queue_array_peek_nth(self->ready, i);
        if (GST_IS_BUFFER(item)) return item;
    }
    return NULL;
}

/* The events before it stay in their order. */
static void drop_first(GstGozdritRecv *self) {
    gboolean is_dropped = FALSE;
    for (guint left = gst_queue_array_get_length(self->ready); left > 0; left--) {
        gpointer item = gst_queue_array_pop_head(self->ready);
        if (is_dropped || !GST_IS_BUFFER(item)) {
            gst_queue_array_push_tail(self->ready, item);
            continue;
        }
        guint8 octets[4] = {0};
        gst_buffer_extract(item, 0, octets, sizeof octets);
        jitter_dropped(self, PACKET_SEQUENCE(octets), offset_of(self, GST_BUFFER_PTS(item)), FALSE);
        gst_buffer_unref(item);
        is_dropped = TRUE;
    }
    self->ready_packets--;
    self->dropped++;
    self->has_dropped = TRUE;
}

void jitter_drop_old(GstGozdritRecv *self) {
    if (!self->settings.drop_on_latency || self->settings.latency == 0) return;
    const rtp_times *times = ptmap_times(self, self->stream->last_type);
    GstClockTime newest = rtp_times_of(times, (guint32)times->newest);
    if (!GST_CLOCK_TIME_IS_VALID(newest)) return;
    for (GstBuffer *first; (first = first_ready(self));) {
        GstClockTime at = GST_BUFFER_PTS(first);
        if (!GST_CLOCK_TIME_IS_VALID(at) || newest < at + self->settings.latency * MILLISECOND) return;
        drop_first(self);
    }
}

/* ---- set-active */

/* When the next packet goes out, or else when the last one did, if there was one. */
static GstClockTime out_time(const GstGozdritRecv *self) {
    const GstBuffer *first = first_ready(self);
    return first ? offset_of(self, GST_BUFFER_PTS(first)) : self->last_out;
}

static guint64 set_active(GstGozdritRecv *self, gboolean active, guint64 offset) {
    g_mutex_lock(&self->lock);
    if (active == self->is_held) offset_pause(self, offset);
    self->is_held = !active;
    if (self->src_waits) g_cond_signal(&self->ready_cond);
    GstClockTime last = out_time(self);
    g_mutex_unlock(&self->lock);
    return last;
}

void jitter_install(GObjectClass *class) {
    g_signal_new_class_handler("set-active", G_OBJECT_CLASS_TYPE(class), G_SIGNAL_RUN_LAST | G_SIGNAL_ACTION, G_CALLBACK(set_active), NULL, NULL,
                               NULL, G_TYPE_UINT64, 2, G_TYPE_BOOLEAN, G_TYPE_UINT64);
}
