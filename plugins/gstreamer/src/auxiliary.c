/* What a receiver does where nobody takes its feedback: it stands between others, as rtpbin's auxiliary receiver between an rtpsession and a
 * jitter buffer. It asks by events that go upstream, which an rtpsession makes NACKs of, and what is not its stream goes through. In a jitter
 * buffer's place it asks the same way, and takes repairs that are media again. */
#include "recv.h"

#include <gst/rtp/rtp.h>
#include <string.h>

gboolean auxiliary_is(const GstGozdritRecv *self) { return !self->in_place && !feedback_is_taken(self); }

/* ---- other streams. The lock is held. */

/* So long nothing of the stream came, in milliseconds, when another one takes its place. */
enum { GONE = 5000 };

gboolean auxiliary_is_gone(const GstGozdritRecv *self, guint64 now) { return now >= self->stream->last_media + GONE; }

gboolean auxiliary_takes_over(GstGozdritRecv *self, const guint8 *octets, guint64 now) {
    candidate *other = &self->other;
    gboolean follows = other->is_known && other->ssrc == PACKET_SSRC(octets) && other->next == PACKET_SEQUENCE(octets);
    gst_clear_buffer(&other->buffer);
    *other = (candidate){.is_known = TRUE, .ssrc = PACKET_SSRC(octets), .next = (guint16)(PACKET_SEQUENCE(octets) + 1)};
    return follows && auxiliary_is_gone(self, now);
}

/* ---- repairs that another element made media of again. The lock is held. */

gboolean auxiliary_is_repair(const GstGozdritRecv *self, GstBuffer *buffer, const guint8 *octets, gsize length) {
    return GST_BUFFER_FLAG_IS_SET(buffer, GST_RTP_BUFFER_FLAG_RETRANSMISSION) && self->stream->end.held && length >= 12 &&
           PACKET_SSRC(octets) == self->stream->session.media_ssrc && !receiving_is_rtx_type(self, PACKET_TYPE(octets));
}

guint8 *auxiliary_wrap(GstGozdritRecv *self, const guint8 *octets, gsize length) {
    gsize head = packet_head(octets, length);
    gozdrit_ssrc learnt = {.ssrc = self->stream->session.rtx_ssrc};
    if (head == 0) return NULL;
    gozdrit_rtx_ssrc(&self->stream->end, &learnt);
    guint8 *wrapped = g_malloc(length + 2);
    memcpy(wrapped, octets, head);
    memcpy(wrapped + head, octets + 2, 2); /* the number of the packet: RFC 4588, section 4 */
    memcpy(wrapped + head + 2, octets + head, length - head);
    wrapped[1] = (guint8)((octets[1] & 128) | self->stream->session.rtx_payload_type);
    GST_WRITE_UINT32_BE(wrapped + 8, learnt.ssrc);
    return wrapped;
}

/* ---- asking by events */

/* When a packet was asked for first, and how often; by the lowest bits of its number. */
struct asked {
    guint64 first; /* milliseconds */
    guint16 number;
    guint8 count; /* 0: never */
};

static asked *asked_at(const GstGozdritRecv *self, guint16 number) {
    asked *at = self->stream->asked ? &self->stream->asked[number % GOZDRIT_MAX_STORE] : NULL;
    return at && at->number == number ? at : NULL;
}

gboolean auxiliary_has_asked(const GstGozdritRecv *self, guint16 number, guint64 now) {
    const asked *at = asked_at(self, number);
    return at && at->count > 0 && now <= at->first + self->settings.latency;
}

void auxiliary_came(GstGozdritRecv *self, guint16 number) {
    asked *at = asked_at(self, number);
    if (at) at->count = 0;
}

static void set_uint(GstStructure *told, const gchar *name, guint64 value) {
    gst_structure_set(told, name, G_TYPE_UINT, (guint)MIN(value, G_MAXUINT), NULL);
}

/* The event by which a packet is asked for, with the fields that rtpjitterbuffer gives it. The lock is held. */
static GstEvent *make_request(GstGozdritRecv *self, guint16 number, guint64 now) {
    gozdrit_times times = GOZDRIT_TIMES_INIT;
    if (!self->stream->asked) self->stream->asked = g_new0(asked, GOZDRIT_MAX_STORE);
    asked *at = &self->stream->asked[number % GOZDRIT_MAX_STORE];
    if (at->count == 0 || at->number != number || now > at->first + self->settings.latency) *at = (asked){.first = now, .number = number};
    gozdrit_receiver_times(&self->stream->end, &times);
    guint64 delay = times.reorder_delay + (now > at->first ? now - at->first : 0);
    GstStructure *told = gst_structure_new_empty("GstRTPRetransmissionRequest");
    set_uint(told, "seqnum", number);
    set_uint(told, "ssrc", self->stream->session.media_ssrc);
    set_uint(told, "payload-type", self->in_place ? self->stream->last_type : self->stream->session.media_payload_type);
    set_uint(told, "delay", delay);
    set_uint(told, "retry", at->count);
    set_uint(told, "frequency", times.nack_interval);
    set_uint(told, "period", self->settings.latency);
    set_uint(told, "deadline", self->settings.latency);
    set_uint(told, "avg-rtt", times.known ? times.round_trip : times.nack_interval);
    at->count = (guint8)MIN(at->count + 1, 255);
    GST_LOG_OBJECT(self, "SSRC %08x: %u is asked for by event %u, %" G_GUINT64_FORMAT " ms behind the first", self->stream->session.media_ssrc,
                   number, at->count, now > at->first ? now - at->first : 0);
    return gst_event_new_custom(GST_EVENT_CUSTOM_UPSTREAM, told);
}

/* The numbers of a pair: the first, and those of the bits behind it (RFC 4585, section 6.2.1). */
static guint requests_of(GstGozdritRecv *self, const guint8 *pair, guint64 now, GstEvent **requests) {
    guint16 first = GST_READ_UINT16_BE(pair), more = GST_READ_UINT16_BE(pair + 2);
    guint count = 0;
    for (guint i = 0; i < 17; i++) {
        guint16 number = (guint16)(first + i);
        if ((i == 0 || more >> (i - 1) & 1) && !streams_ask_elsewhere(self, number, now)) requests[count++] = make_request(self, number, now);
    }
    return count;
}

void auxiliary_ask(GstGozdritRecv *self, GstBuffer *nack) {
    guint8 octets[GOZDRIT_MAX_NACK_DATAGRAM];
    GstEvent *requests[GOZDRIT_MAX_NACKED];
    gsize length = gst_buffer_extract(nack, 0, octets, sizeof octets);
    guint count = 0;
    gst_buffer_unref(nack);
    g_mutex_lock(&self->lock);
    guint64 now = receiving_now(self);
    gboolean is_there = length >= 12 && streams_find(self, GST_READ_UINT32_BE(octets + 8));
    for (gsize at = 12; at + 4 <= length && is_there; at += 4) count += requests_of(self, octets + at, now, requests + count);
    streams_first(self);
    g_mutex_unlock(&self->lock);
    for (guint i = 0; i < count; i++) gst_pad_push_event(self->sink, requests[i]);
}

gboolean auxiliary_request(GstGozdritRecv *self, const GstEvent *event) {
    const GstStructure *told = gst_event_get_structure((GstEvent *)event);
    guint ssrc;
    if (!told || !gst_structure_has_name(told, "GstRTPRetransmissionRequest") || !gst_structure_get_uint(told, "ssrc", &ssrc)) return FALSE;
    g_mutex_lock(&self->lock);
    gboolean is_ours = streams_find(self, ssrc) && !self->in_place;
    streams_first(self);
    g_mutex_unlock(&self->lock);
    return is_ours;
}
