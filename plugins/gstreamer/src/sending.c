#include "send.h"

#include <gst/rtp/rtp.h>

/* ---- streams */

/* Whether an SSRC is a stream's, of media or of retransmissions, or that of the one receiver. */
static gboolean is_taken(const GstGozdritSend *self, guint32 ssrc) {
    if (ssrc == self->settings.receiver_ssrc || ssrc == self->settings.ssrc || ssrc == self->rtx_ssrc) return TRUE;
    if (map_leads_to(self->ssrcs, ssrc)) return TRUE;
    for (guint i = 0; i < self->streams->len; i++) {
        const send_stream *stream = g_ptr_array_index(self->streams, i);
        if (ssrc == stream->ssrc || ssrc == stream->media_ssrc || ssrc == stream->rtx_ssrc) return TRUE;
    }
    return FALSE;
}

/* An SSRC for retransmissions that nobody has, nor this one. */
static guint32 draw_rtx(const GstGozdritSend *self, guint32 other) {
    guint32 drawn;
    do drawn = draw_ssrc(other, other);
    while (is_taken(self, drawn));
    return drawn;
}

static send_stream *find_stream(const GstGozdritSend *self, guint32 ssrc) {
    send_stream *recent = self->recent;
    if (recent && (recent->ssrc == ssrc || self->settings.ssrc != SSRC_UNSET)) return recent;
    for (guint i = 0; i < self->streams->len; i++) {
        send_stream *stream = g_ptr_array_index(self->streams, i);
        if (stream->ssrc == ssrc) return stream;
    }
    return NULL;
}

/* The SSRC with which packets go out. */
static guint32 media_of(const GstGozdritSend *self, guint32 ssrc) {
    return self->settings.ssrc != SSRC_UNSET ? self->settings.ssrc : ssrc;
}

/* That stream goes, and its counts stay. */
static void drop_stream(GstGozdritSend *self, guint index) {
    send_stream *stream = g_ptr_array_index(self->streams, index);
    stream_end(stream);
    stream_add_counts(stream, &self->past);
    if (stream == self->recent) self->recent = NULL;
    g_ptr_array_remove_index_fast(self->streams, index);
}

static void make_room(GstGozdritSend *self) {
    guint oldest = 0;
    if (self->streams->len < MOST_STREAMS) return;
    for (guint i = 1; i < self->streams->len; i++) {
        const send_stream *one = g_ptr_array_index(self->streams, i), *other = g_ptr_array_index(self->streams, oldest);
        if (one->last < other->last) oldest = i;
    }
    GST_DEBUG_OBJECT(self, "SSRC %08x: its history makes room for another one's",
                     ((send_stream *)g_ptr_array_index(self->streams, oldest))->media_ssrc);
    drop_stream(self, oldest);
}

/* The retransmissions' SSRC of a stream: that of the map, or, where it is the first one, what the property or the caps said, or a drawn
 * one. */
static void set_rtx_ssrc(GstGozdritSend *self, send_stream *stream) {
    gint64 mapped = map_find(self->ssrcs, stream->media_ssrc);
    stream->is_given = mapped >= 0 || (!self->rtx_taken && self->settings.rtx_ssrc != SSRC_UNSET);
    stream->rtx_ssrc = mapped >= 0 ? (guint32)mapped : self->rtx_ssrc;
    if (!stream->is_given && (self->rtx_taken || stream->rtx_ssrc == stream->media_ssrc)) stream->rtx_ssrc = draw_rtx(self, stream->media_ssrc);
    if (!self->rtx_taken) stream->rtx_first = stream->rtx_next = self->rtx_first;
    if (!self->rtx_taken) stream->told_first = self->told_first;
    self->rtx_taken = TRUE;
}

/* The stream of an SSRC that packets or caps have, which begins where there is none. Another one's retransmissions that were drawn to have
 * it get another one. */
static send_stream *stream_of(GstGozdritSend *self, guint32 ssrc) {
    send_stream *stream = find_stream(self, ssrc);
    if (!stream) {
        guint32 media = media_of(self, ssrc);
        make_room(self);
        for (guint i = 0; i < self->streams->len; i++) {
            send_stream *other = g_ptr_array_index(self->streams, i);
            if (other->rtx_ssrc == media && !other->is_given) other->rtx_ssrc = draw_rtx(self, media);
        }
        stream = stream_new(ssrc, media);
        stream->last = element_time_now(&self->time);
        set_rtx_ssrc(self, stream);
        g_ptr_array_add(self->streams, stream);
    }
    self->recent = stream;
    return stream;
}

void sending_end(GstGozdritSend *self) {
    while (self->streams->len > 0) drop_stream(self, self->streams->len - 1);
}

gboolean sending_collision(GstGozdritSend *self, guint32 ssrc, gint64 *media, guint32 *drawn) {
    gboolean is_ours = FALSE;
    g_mutex_lock(&self->lock);
    if (!self->rtx_taken && self->rtx_ssrc == ssrc && self->settings.rtx_ssrc == SSRC_UNSET) {
        *drawn = self->rtx_ssrc = draw_rtx(self, ssrc);
        *media = -1;
        is_ours = TRUE;
    }
    for (guint i = 0; i < self->streams->len && !is_ours; i++) {
        send_stream *stream = g_ptr_array_index(self->streams, i);
        if (stream->rtx_ssrc != ssrc || stream->is_given) continue;
        *drawn = stream->rtx_ssrc = draw_rtx(self, ssrc);
        *media = stream->media_ssrc;
        is_ours = TRUE;
    }
    g_mutex_unlock(&self->lock);
    if (is_ours) GST_DEBUG_OBJECT(self, "SSRC %08x is another participant's too: retransmissions have %08x", ssrc, *drawn);
    return is_ours;
}

/* ---- caps */

/* The type of the retransmissions of packets of this one, or -1 where they are not kept. */
static gint64 rtx_type_of(const GstGozdritSend *self, gint64 type) {
    if (!self->types.given) return self->settings.rtx_type;
    return type >= 0 && type < 128 ? self->types.of[type] : -1;
}

/* What is known of a stream before it comes is told: its number, where it has not begun, and its retransmissions. The type of these has
 * two names: this project's, and that of rtprtxsend. */
GstCaps *sending_caps(GstGozdritSend *self, const GstCaps *caps) {
    GstCaps *out = gst_caps_copy(caps);
    g_mutex_lock(&self->lock);
    const send_settings *settings = &self->settings;
    gint64 ssrc = caps_number(caps, "ssrc", -1), first = caps_number(caps, "seqnum-offset", -1);
    gint64 rtx_type = rtx_type_of(self, caps_number(caps, "payload", -1));
    send_stream *stream = ssrc >= 0 ? stream_of(self, (guint32)ssrc) : self->recent;
    gint64 media = settings->ssrc != SSRC_UNSET ? (gint64)settings->ssrc : ssrc;
    if (stream) stream->clock_rate = caps_number(caps, "clock-rate", -1);
    if (settings->first >= 0) first = settings->first;
    gst_caps_set_simple(out, "rtx-ssrc", G_TYPE_UINT, stream ? stream->rtx_ssrc : self->rtx_ssrc, "rtx-seqnum-offset", G_TYPE_UINT,
                        (guint)(stream ? stream->rtx_first : self->rtx_first), NULL);
    if (rtx_type >= 0)
        gst_caps_set_simple(out, "rtcp-fb-nack", G_TYPE_BOOLEAN, TRUE, "rtx-payload-type", G_TYPE_INT, (gint)rtx_type, "rtx-payload",
                            G_TYPE_INT, (gint)rtx_type, NULL);
    gst_caps_set_simple(out, "rtcp-fb-nack-pli", G_TYPE_BOOLEAN, TRUE, "rtcp-fb-ccm-fir", G_TYPE_BOOLEAN, TRUE, NULL);
    if (media >= 0) gst_caps_set_simple(out, "ssrc", G_TYPE_UINT, (guint)media, NULL);
    if (stream && stream->is_numbered) first = -1;
    if (first >= 0) gst_caps_set_simple(out, "seqnum-base", G_TYPE_UINT, (guint)first, NULL);
    *(stream ? &stream->told_first : &self->told_first) = first;
    g_mutex_unlock(&self->lock);
    return out;
}

/* ---- media */

/* What becomes of a packet. */
typedef struct taken {
    gint32 answer; /* of the library */
    guint32 ssrc;  /* with which it goes out */
    guint16 number;
    gboolean is_other; /* one of these is not the packet's own */
    gboolean too_long; /* it is the first one that is not kept since it is too long */
    gboolean is_elsewhere; /* it is the first one, and lies far from where the caps told */
} taken;

/* So many packets before the first one may be lost. More were never sent: the element was linked to a stream that was there. */
enum { MOST_LOST = 64 };

/* Whether the library takes a packet of such a length. */
static gboolean is_short(GstRTPBuffer *rtp) {
    guint16 profile;
    gpointer octets;
    guint words = 0;
    gst_rtp_buffer_get_extension_data(rtp, &profile, &octets, &words);
    return words <= GOZDRIT_MAX_EXTENSION_WORDS && gst_rtp_buffer_get_payload_len(rtp) <= GOZDRIT_MAX_PAYLOAD;
}

/* Whether packets of a type can have retransmissions of that one. */
static gint32 check_types(const GstGozdritSend *self, guint8 type, gint64 rtx_type) {
    gboolean is_rtcp = !self->types.given && type >= 64 && type < 96; /* on one port with RTCP (RFC 5761, section 4) */
    return type == rtx_type || is_rtcp || rtx_type > 127 ? GOZDRIT_BAD_PAYLOAD_TYPE : GOZDRIT_OK;
}

/* The stream of a packet. One that is not kept begins none, unless a property says what all packets go out with. */
static send_stream *stream_for(GstGozdritSend *self, guint32 ssrc, gboolean is_kept) {
    const send_settings *settings = &self->settings;
    if (!is_kept && settings->ssrc == SSRC_UNSET && settings->first < 0) return find_stream(self, ssrc);
    return stream_of(self, ssrc);
}

/* A packet of its stream. The lock is held. */
static taken take_packet(GstGozdritSend *self, GstBuffer *buffer, GstRTPBuffer *rtp) {
    guint32 ssrc = gst_rtp_buffer_get_ssrc(rtp);
    guint16 own = gst_rtp_buffer_get_seq(rtp);
    guint8 type = gst_rtp_buffer_get_payload_type(rtp);
    gint64 rtx_type = rtx_type_of(self, type);
    taken done = {.answer = check_types(self, type, rtx_type), .ssrc = ssrc, .number = own};
    stream_packet packet = {.buffer = buffer, .rtp = rtp, .rtx_type = (guint8)rtx_type, .is_kept = rtx_type >= 0 && is_short(rtp)};
    send_stream *stream = done.answer == GOZDRIT_OK ? stream_for(self, ssrc, rtx_type >= 0) : NULL;
    if (!stream) return done;
    GstClockTime now = element_time_now(&self->time);
    gboolean is_first = !stream->is_numbered;
    if (is_first) stream->media_ssrc = media_of(self, ssrc);
    if (self->rates.of[type] > 0) stream->clock_rate = self->rates.of[type];
    packet.number = stream_number(stream, ssrc, own, self->settings.first);
    done.answer = stream_take(stream, &self->settings, &packet, now / MILLISECOND);
    if (packet.is_kept) silence_packet(self, stream, now);
    else stream->is_silent = TRUE;
    if (!packet.is_kept) GST_LOG_OBJECT(self, "SSRC %08x: %u is not kept, %s", ssrc, own, rtx_type >= 0 ? "it is too long" : "by its type");
    done.ssrc = stream->media_ssrc;
    done.number = packet.number;
    done.is_other = done.ssrc != ssrc || done.number != own;
    done.is_elsewhere = is_first && stream->told_first >= 0 && (guint16)(packet.number - stream->told_first) > MOST_LOST;
    done.too_long = rtx_type >= 0 && !packet.is_kept && self->passed++ == 0;
    return done;
}

/* A packet as it goes out: the one that came, unless it has another SSRC or number. */
static GstBuffer *write_taken(GstBuffer *buffer, const taken *as) {
    GstRTPBuffer rtp = GST_RTP_BUFFER_INIT;
    if (!as->is_other) return buffer;
    buffer = gst_buffer_make_writable(buffer);
    if (gst_rtp_buffer_map(buffer, GST_MAP_READWRITE, &rtp)) {
        gst_rtp_buffer_set_ssrc(&rtp, as->ssrc);
        gst_rtp_buffer_set_seq(&rtp, as->number);
        gst_rtp_buffer_unmap(&rtp);
    }
    return buffer;
}

/* ---- what is told */

/* Says why a packet does not go out: it is never dropped in silence. */
static GstFlowReturn refuse(GstGozdritSend *self, gint32 number) {
    if (number == GOZDRIT_BAD_PAYLOAD_TYPE || number == GOZDRIT_SAME_SSRC)
        GST_ELEMENT_ERROR(self, STREAM, FORMAT, ("The session can't begin."),
                          ("%s: rtx-payload-type, rtx-ssrc or receiver-ssrc is that of the media, or the media's type is "
                           "64 to 95", gozdrit_refusal_name(number)));
    else
        GST_ELEMENT_ERROR(self, STREAM, FAILED, ("A packet can't be sent."), ("%s", gozdrit_refusal_name(number)));
    return GST_FLOW_ERROR;
}

/* What is no RTP packet is dropped: the first is told, and each is counted. */
static GstFlowReturn drop_stray(GstGozdritSend *self, GstBuffer *buffer) {
    gst_buffer_unref(buffer);
    g_mutex_lock(&self->lock);
    gboolean tell = self->strays++ == 0;
    g_mutex_unlock(&self->lock);
    if (tell) GST_ELEMENT_WARNING(self, STREAM, DECODE, ("A buffer is dropped, as others may be."), ("it is no RTP packet"));
    return GST_FLOW_OK;
}

static void tell_too_long(GstGozdritSend *self, guint length) {
    GST_ELEMENT_WARNING(self, STREAM, FORMAT, ("A packet is too long to be repaired, as others may be."),
                        ("its payload has %u octets, and this build of the library takes %d, and %d words of a header "
                         "extension: set the payloader's mtu to %d",
                         length, GOZDRIT_MAX_PAYLOAD, GOZDRIT_MAX_EXTENSION_WORDS, GOZDRIT_MAX_PAYLOAD));
}

/* The caps are told again, with the number of the first packet. */
static void tell_first(GstGozdritSend *self, guint16 first) {
    GstCaps *caps = gst_pad_get_current_caps(self->src);
    if (!caps) return;
    caps = gst_caps_make_writable(caps);
    gst_caps_set_simple(caps, "seqnum-base", G_TYPE_UINT, (guint)first, NULL);
    gst_pad_push_event(self->src, gst_event_new_caps(caps));
    gst_caps_unref(caps);
}

GstFlowReturn sending_packet(GstGozdritSend *self, GstBuffer *buffer, GstBuffer **out) {
    GstRTPBuffer rtp = GST_RTP_BUFFER_INIT;
    *out = NULL;
    if (GST_BUFFER_FLAG_IS_SET(buffer, GST_RTP_BUFFER_FLAG_RETRANSMISSION)) { /* of another sender before this one */
        *out = buffer;
        return GST_FLOW_OK;
    }
    if (!gst_rtp_buffer_map(buffer, GST_MAP_READ, &rtp)) return drop_stray(self, buffer);
    guint length = gst_rtp_buffer_get_payload_len(&rtp);
    g_mutex_lock(&self->lock);
    taken done = take_packet(self, buffer, &rtp);
    g_mutex_unlock(&self->lock);
    gst_rtp_buffer_unmap(&rtp);
    if (done.answer != GOZDRIT_OK) {
        gst_buffer_unref(buffer);
        return refuse(self, done.answer);
    }
    if (done.too_long) tell_too_long(self, length);
    if (done.is_elsewhere) tell_first(self, done.number);
    *out = write_taken(buffer, &done);
    return GST_FLOW_OK;
}

/* ---- counts */

gozdrit_send_counts sending_sums(const GstGozdritSend *self) {
    gozdrit_send_counts sums = self->past;
    for (guint i = 0; i < self->streams->len; i++) stream_add_counts(g_ptr_array_index(self->streams, i), &sums);
    return sums;
}

GstStructure *sending_counts(GstGozdritSend *self) {
    GstStructure *told = gst_structure_new_empty("application/x-gozdrit-send-counts");
    g_mutex_lock(&self->lock);
    gozdrit_send_counts now = sending_sums(self);
    now.media = self->media;
    now.reports = self->reports;
    now.refused = self->refused;
    guint64 passed = self->passed, strays = self->strays, key_requests = self->key_requests;
    g_mutex_unlock(&self->lock);
    ADD_COUNT(told, "strays", strays);
    ADD_COUNT(told, "passed", passed);
    ADD_COUNT(told, "sent", now.sent);
    ADD_COUNT(told, "octets", now.octets);
    ADD_COUNT(told, "retransmissions", now.retransmissions);
    ADD_COUNT(told, "nacks", now.nacks);
    ADD_COUNT(told, "others", now.other_nacks);
    ADD_COUNT(told, "numbers", now.nacked);
    ADD_COUNT(told, "unknown", now.not_in_history);
    ADD_COUNT(told, "exhausted", now.exhausted);
    ADD_COUNT(told, "media", now.media);
    ADD_COUNT(told, "reports", now.reports);
    ADD_COUNT(told, "refused", now.refused);
    ADD_COUNT(told, "early", now.early);
    ADD_COUNT(told, "expired", now.expired);
    ADD_COUNT(told, "key-requests", key_requests);
    return told;
}
