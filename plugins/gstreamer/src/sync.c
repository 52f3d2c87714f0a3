/* Sender reports (RFC 3550, section 6.4.1), as a jitter buffer takes them: they say what time of the far side's clock a timestamp is, and that is
 * told with how timestamps become times here. From what an rtpbin is told so of all streams of one CNAME it has their ts-offset. */
#include "recv.h"

#include <gst/rtp/rtp.h>

static guint sync_signal;

/* ---- reading. No lock is held. */

/* The CNAME of an SSRC in a packet of descriptions, or NULL. */
static gchar *name_in(GstRTCPPacket *packet, guint32 ssrc) {
    GstRTCPSDESType type;
    guint8 length, *text;
    for (gboolean item = gst_rtcp_packet_sdes_first_item(packet); item; item = gst_rtcp_packet_sdes_next_item(packet)) {
        if (gst_rtcp_packet_sdes_get_ssrc(packet) != ssrc) continue;
        for (gboolean entry = gst_rtcp_packet_sdes_first_entry(packet); entry; entry = gst_rtcp_packet_sdes_next_entry(packet))
            if (gst_rtcp_packet_sdes_get_entry(packet, &type, &length, &text) && type == GST_RTCP_SDES_CNAME)
                return g_strndup((const gchar *)text, length);
    }
    return NULL;
}

/* The first sender report of a datagram, and the CNAME of its stream, if it is there. FALSE where there is none. */
static gboolean read_report(GstBuffer *buffer, sender_report *report, gchar **name) {
    GstRTCPBuffer rtcp = GST_RTCP_BUFFER_INIT;
    GstRTCPPacket packet;
    gboolean is_found = FALSE;
    guint64 ntp;
    if (!gst_rtcp_buffer_validate_reduced(buffer) || !gst_rtcp_buffer_map(buffer, GST_MAP_READ, &rtcp)) return FALSE;
    for (gboolean more = gst_rtcp_buffer_get_first_packet(&rtcp, &packet); more && !*name; more = gst_rtcp_packet_move_to_next(&packet)) {
        if (!is_found && gst_rtcp_packet_get_type(&packet) == GST_RTCP_TYPE_SR) {
            gst_rtcp_packet_sr_get_sender_info(&packet, &report->ssrc, &ntp, &report->timestamp, NULL, NULL);
            report->ntp = gst_util_uint64_scale(ntp, GST_SECOND, G_GUINT64_CONSTANT(1) << 32);
            is_found = TRUE;
        } else if (is_found && gst_rtcp_packet_get_type(&packet) == GST_RTCP_TYPE_SDES) {
            *name = name_in(&packet, report->ssrc);
        }
    }
    gst_rtcp_buffer_unmap(&rtcp);
    return is_found;
}

/* ---- what is known. The lock is held. */

void sync_forget(GstGozdritRecv *self) {
    gst_clear_buffer(&self->sync.last.buffer);
    self->sync.is_known = FALSE;
    self->sync.told = GST_CLOCK_TIME_NONE;
}

/* So many names are kept at most: who invents SSRCs fills no memory. */
enum { MOST_NAMES = 1024 };

static void note_name(GstGozdritRecv *self, guint32 ssrc, gchar *name) {
    if (!self->sync.names) self->sync.names = g_hash_table_new_full(NULL, NULL, NULL, g_free);
    if (g_hash_table_size(self->sync.names) >= MOST_NAMES) g_hash_table_remove_all(self->sync.names);
    g_hash_table_replace(self->sync.names, GUINT_TO_POINTER(ssrc), name);
}

/* Caps have the attributes of SDP as fields "ssrc-1234-cname" (RFC 5576). */
void sync_read_caps(GstGozdritRecv *self, const GstCaps *caps) {
    const GstStructure *said = gst_caps_get_structure(caps, 0);
    for (gint i = 0; i < gst_structure_n_fields(said); i++) {
        const gchar *field = gst_structure_nth_field_name(said, (guint)i), *name = gst_structure_get_string(said, field);
        if (!name || !g_str_has_prefix(field, "ssrc-") || !g_str_has_suffix(field, "-cname")) continue;
        note_name(self, (guint32)g_ascii_strtoull(field + 5, NULL, 10), g_strdup(name));
    }
}

/* Whether the report is one of this stream, and not too near to the one before, by sync-interval. */
static gboolean is_wanted(const GstGozdritRecv *self) {
    const sync_state *sync = &self->sync;
    if (sync->last.ssrc != self->stream->session.media_ssrc) return FALSE;
    return !GST_CLOCK_TIME_IS_VALID(sync->told) || sync->last.ntp - sync->told >= self->settings.sync_interval * MILLISECOND;
}

/* The extended timestamp of the report, as these times have it; or G_MAXUINT64 where that lies too far ahead of the newest packet's: then an
 * rtpbin that does without reports still does. */
static guint64 place_of(const GstGozdritRecv *self, const rtp_times *times) {
    guint64 extended = rtp_times_extended(times, self->sync.last.timestamp);
    gint64 most = self->settings.most_ahead;
    if (most < 0 || extended <= times->newest) return extended;
    guint64 ahead = gst_util_uint64_scale((guint64)most, (guint64)times->clock_rate, 1000);
    return extended - times->newest > ahead ? G_MAXUINT64 : extended;
}

/* The running time at which the first packet of these times would come by what came since: it may lie before 0, and wraps then. */
static guint64 base_time(const GstGozdritRecv *self, const rtp_times *times) {
    GstClockTime newest = rtp_times_of(times, (guint32)times->newest), running = newest;
    if (self->segment.format == GST_FORMAT_TIME) running = gst_segment_to_running_time(&self->segment, GST_FORMAT_TIME, newest);
    if (!GST_CLOCK_TIME_IS_VALID(running)) running = newest;
    return running - (guint64)rtp_times_apart(times, times->first, times->newest);
}

/* What is told of a report, with the fields that rtpjitterbuffer gives it. */
static GstStructure *make_told(const GstGozdritRecv *self, const rtp_times *times, guint64 extended) {
    const sender_report *report = &self->sync.last;
    const gchar *name = self->sync.names ? g_hash_table_lookup(self->sync.names, GUINT_TO_POINTER(report->ssrc)) : NULL;
    GstStructure *told = gst_structure_new("application/x-rtp-sync", "base-rtptime", G_TYPE_UINT64, times->first, "base-time", G_TYPE_UINT64,
                                           base_time(self, times), "clock-rate", G_TYPE_UINT, (guint)times->clock_rate, "clock-base", G_TYPE_UINT64,
                                           (guint64)self->caps.clock_base, "ssrc", G_TYPE_UINT, report->ssrc, "sr-ext-rtptime", G_TYPE_UINT64,
                                           extended, "sr-ntpnstime", G_TYPE_UINT64, report->ntp, "sr-buffer", GST_TYPE_BUFFER, report->buffer, NULL);
    if (name) gst_structure_set(told, "cname", G_TYPE_STRING, name, NULL);
    return told;
}

/* What is to be told of the last report, or NULL. It waits for the first packet, which bases the times; what is older than that is of no use. */
static GstStructure *next_told(GstGozdritRecv *self) {
    const rtp_times *times = ptmap_times(self, self->stream->last_type);
    if (!self->sync.last.buffer || !self->stream->end.held || !times->based) return NULL;
    guint64 extended = place_of(self, times);
    GstStructure *told = is_wanted(self) && extended >= times->first ? make_told(self, times, extended) : NULL;
    if (is_wanted(self)) self->sync.told = self->sync.last.ntp;
    gst_clear_buffer(&self->sync.last.buffer);
    return told;
}

void sync_add_meta(GstGozdritRecv *self, GstBuffer *out, guint32 timestamp, guint8 type) {
    static GstStaticCaps clock = GST_STATIC_CAPS("timestamp/x-ntp");
    const sender_report *report = &self->sync.last;
    const rtp_times *times = ptmap_times(self, type);
    if (!self->settings.adds_meta || !self->sync.is_known || report->ssrc != self->stream->session.media_ssrc || times->clock_rate == 0) return;
    gint64 units = (gint32)(timestamp - report->timestamp);
    GstClockTime apart = gst_util_uint64_scale((guint64)ABS(units), GST_SECOND, (guint64)times->clock_rate);
    GstCaps *caps = gst_static_caps_get(&clock);
    gst_buffer_add_reference_timestamp_meta(out, caps, units < 0 ? report->ntp - apart : report->ntp + apart, GST_CLOCK_TIME_NONE);
    gst_caps_unref(caps);
}

/* ---- the pad and the signal. The lock is not held. */

void sync_tell(GstGozdritRecv *self) {
    g_mutex_lock(&self->lock);
    GstStructure *told = next_told(self);
    g_mutex_unlock(&self->lock);
    if (!told) return;
    g_signal_emit(self, sync_signal, 0, told);
    gst_structure_free(told);
}

/* The lock is held. */
static void take_report(GstGozdritRecv *self, GstBuffer *buffer, const sender_report *read) {
    gst_clear_buffer(&self->sync.last.buffer);
    self->sync.last = *read;
    self->sync.last.buffer = gst_buffer_ref(buffer);
    self->sync.is_known = TRUE;
}

static GstFlowReturn chain(GstPad *pad, GstObject *parent, GstBuffer *buffer) {
    GstGozdritRecv *self = GST_GOZDRIT_RECV(parent);
    sender_report read = {0};
    gchar *name = NULL;
    (void)pad;
    if (!read_report(buffer, &read, &name)) {
        gst_buffer_unref(buffer);
        return GST_FLOW_OK;
    }
    g_mutex_lock(&self->lock);
    if (name) note_name(self, read.ssrc, name);
    if (!self->stream->end.held || read.ssrc == self->stream->session.media_ssrc) take_report(self, buffer, &read);
    g_mutex_unlock(&self->lock);
    gst_buffer_unref(buffer);
    sync_tell(self);
    return GST_FLOW_OK;
}

/* Nothing of the reports goes on. */
static gboolean take_event(GstPad *pad, GstObject *parent, GstEvent *event) {
    (void)pad, (void)parent;
    gst_event_unref(event);
    return TRUE;
}

static GstIterator *linked_nowhere(GstPad *pad, GstObject *parent) {
    (void)pad, (void)parent;
    return NULL;
}

/* A session that goes on stays what it is: one that has begun without this pad takes reports, and is no jitter buffer, and so is one whose
 * feedback is taken. */
GstPad *sync_request_pad(GstElement *element, GstPadTemplate *template, const gchar *name, const GstCaps *caps) {
    GstGozdritRecv *self = GST_GOZDRIT_RECV(element);
    GstPad *pad = gst_pad_new_from_template(template, "sink_rtcp");
    (void)name, (void)caps;
    g_mutex_lock(&self->lock);
    gboolean is_first = self->reports == NULL;
    if (is_first) self->reports = pad;
    if (is_first && !streams_have_begun(self) && !feedback_is_taken(self)) self->in_place = TRUE;
    g_mutex_unlock(&self->lock);
    if (!is_first) {
        gst_object_unref(gst_object_ref_sink(pad));
        return NULL;
    }
    gst_pad_set_chain_function(pad, chain);
    gst_pad_set_event_function(pad, take_event);
    gst_pad_set_iterate_internal_links_function(pad, linked_nowhere);
    gst_pad_set_active(pad, TRUE);
    gst_element_add_pad(element, pad);
    return pad;
}

/* A report that comes just now is waited for, without the lock that it wants. */
void sync_release_pad(GstElement *element, GstPad *pad) {
    GstGozdritRecv *self = GST_GOZDRIT_RECV(element);
    gst_pad_set_active(pad, FALSE);
    g_mutex_lock(&self->lock);
    self->reports = NULL;
    g_mutex_unlock(&self->lock);
    gst_element_remove_pad(element, pad);
}

void sync_install(GObjectClass *class) {
    sync_signal = g_signal_new("handle-sync", G_OBJECT_CLASS_TYPE(class), G_SIGNAL_RUN_LAST, 0, NULL, NULL, NULL, G_TYPE_NONE, 1,
                               GST_TYPE_STRUCTURE | G_SIGNAL_TYPE_STATIC_SCOPE);
}
