/* The payload types of packets in a jitter buffer's place: several have one sequence, and what the caps don't tell of each is asked for by a
 * signal. The caps that are answered also tell where a stream begins and ends. */
#include "recv.h"

#include <string.h>

static guint request_signal, stop_signal;

/* ---- clock rates. The lock is held. */

/* What the caps of the pad say of a type's clock rate, or 0. */
static gint64 rate_of_caps(const GstGozdritRecv *self, guint8 type) {
    gboolean are_its = self->caps.type < 0 || self->caps.type == type;
    return are_its && self->caps.clock_rate > 0 ? self->caps.clock_rate : 0;
}

/* Whether a type is to be asked for. */
static gboolean is_unknown(GstGozdritRecv *self, guint8 type) {
    if (self->rates.of[type] == 0) self->rates.of[type] = rate_of_caps(self, type);
    return self->rates.of[type] == 0;
}

/* What was answered for a type, or nothing. The types that are the same everywhere need no answer. */
static void read_answer(GstGozdritRecv *self, const GstCaps *caps, guint8 type) {
    gboolean are_its = caps && caps_number(caps, "payload", type) == type;
    gint64 rate = are_its ? caps_number(caps, "clock-rate", -1) : -1;
    if (rate <= 0) rate = receiving_static_rate(type);
    self->rates.of[type] = rate > 0 ? rate : -1;
    if (!are_its) return;
    if (!self->stream->end.held && self->caps.first < 0) self->caps.first = caps_number(caps, "seqnum-base", -1);
    if (caps_number(caps, "clock-base", -1) >= 0) ptmap_read_play(self, caps);
    sync_read_caps(self, caps);
}

void ptmap_forget(GstGozdritRecv *self) { memset(self->rates.of, 0, sizeof self->rates.of); }

rtp_times *ptmap_times(GstGozdritRecv *self, guint8 type) {
    gint64 rate = MAX(self->rates.of[type], 0);
    if (!self->in_place) return &self->stream->times;
    if (self->stream->times.clock_rate == 0) rtp_times_begin(&self->stream->times, rate);
    if (self->stream->times.clock_rate == rate) return &self->stream->times;
    if (rate == 0) return &self->rates.unknown;
    rtp_times *other = &self->rates.others[rate % OTHER_RATES]; /* 8, 16, 32, 44.1, 48 and 90 kHz have places of their own but the last two */
    other->is_fixed = self->stream->times.is_fixed;
    if (other->clock_rate != rate) rtp_times_begin(other, rate);
    return other;
}

void ptmap_begin_times(GstGozdritRecv *self) {
    rtp_times_begin(&self->stream->times, self->stream->times.clock_rate);
    memset(self->rates.others, 0, sizeof self->rates.others);
}

/* ---- the end of what is played. The lock is held. */

void ptmap_read_play(GstGozdritRecv *self, const GstCaps *caps) {
    const GstStructure *said = gst_caps_get_structure(caps, 0);
    GstClockTime at;
    self->caps.clock_base = caps_number(caps, "clock-base", -1);
    self->caps.npt_start = gst_structure_get_clock_time(said, "npt-start", &at) && at <= G_MAXINT64 ? (gint64)at : 0;
    self->caps.npt_stop = gst_structure_get_clock_time(said, "npt-stop", &at) && at <= G_MAXINT64 ? (gint64)at : -1;
    self->npt_due = G_MAXUINT64;
}

/* The packet of npt-stop comes as much later as its timestamp is above this one's, and goes out within the latency. */
void ptmap_note_time(GstGozdritRecv *self, guint32 timestamp) {
    const recv_caps *caps = &self->caps;
    if (!self->is_playing || caps->npt_stop < caps->npt_start || caps->clock_base < 0) return;
    const rtp_times *times = ptmap_times(self, self->stream->last_type);
    if (!times->based) return;
    gint64 units = (gint64)(rtp_times_extended(times, timestamp) - times->first) + (gint32)((guint32)times->first - (guint32)caps->clock_base);
    gint64 played = (gint64)gst_util_uint64_scale((guint64)MAX(units, 0), GST_SECOND, (guint64)times->clock_rate);
    gint64 left = MAX(caps->npt_stop - caps->npt_start - played, 0);
    self->npt_due = receiving_now(self) + (guint64)left / MILLISECOND + self->settings.latency;
}

gboolean ptmap_is_past(GstGozdritRecv *self, guint64 now) {
    if (now < self->npt_due) return FALSE;
    self->npt_due = G_MAXUINT64;
    self->caps.npt_stop = -1; /* it is told once */
    return TRUE;
}

/* ---- signals, which are emitted without the lock */

gboolean ptmap_is_answered(GstGozdritRecv *self) { return g_signal_has_handler_pending(self, request_signal, 0, TRUE); }

void ptmap_ask(GstGozdritRecv *self, GstBuffer *buffer) {
    guint8 octets[2];
    if (!self->in_place || gst_buffer_extract(buffer, 0, octets, sizeof octets) < sizeof octets) return;
    guint8 type = PACKET_TYPE(octets);
    if (!is_unknown(self, type)) return;
    GstCaps *caps = NULL;
    g_mutex_unlock(&self->lock);
    g_signal_emit(self, request_signal, 0, (guint)type, &caps);
    g_mutex_lock(&self->lock);
    read_answer(self, caps, type);
    gst_clear_caps(&caps);
}

void ptmap_npt_stop(GstGozdritRecv *self) { g_signal_emit(self, stop_signal, 0); }

/* What was answered holds no more. */
static void clear_pt_map(GstGozdritRecv *self) {
    g_mutex_lock(&self->lock);
    ptmap_forget(self);
    g_mutex_unlock(&self->lock);
}

void ptmap_install(GObjectClass *class) {
    GType type = G_OBJECT_CLASS_TYPE(class);
    request_signal = g_signal_new("request-pt-map", type, G_SIGNAL_RUN_LAST, 0, NULL, NULL, NULL, GST_TYPE_CAPS, 1, G_TYPE_UINT);
    stop_signal = g_signal_new("on-npt-stop", type, G_SIGNAL_RUN_LAST, 0, NULL, NULL, NULL, G_TYPE_NONE, 0);
    g_signal_new_class_handler("clear-pt-map", type, G_SIGNAL_RUN_LAST | G_SIGNAL_ACTION, G_CALLBACK(clear_pt_map), NULL, NULL, NULL,
                               G_TYPE_NONE, 0);
}
