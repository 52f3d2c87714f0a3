#include "send.h"

#include "keyunits.h"

/* ---- retransmissions */

/* The next retransmission of any stream, or NULL, and whether it is the first one that has to be told of. The lock is held. */
static GstBuffer *next_retransmission(GstGozdritSend *self, gboolean *is_unfit) {
    GstBuffer *out = NULL;
    rid_ids ids = extensions_ids(self);
    GstClockTime now = self->streams->len > 0 ? element_time_now(&self->time) : 0;
    for (guint i = 0; i < self->streams->len && !out; i++)
        out = stream_retransmission(g_ptr_array_index(self->streams, i), now / MILLISECOND, &ids);
    *is_unfit = ids.is_unfit && !self->unfit_told;
    self->unfit_told |= ids.is_unfit;
    return out;
}

/* Sends what is to be retransmitted. The network loses what can't go out, and the receiver asks again: so how it went is
 * not looked at. They have no time of their own, and a sink that waits for times sends them at once. */
void sending_retransmissions(GstGozdritSend *self) {
    for (;;) {
        gboolean is_unfit;
        g_mutex_lock(&self->lock);
        GstBuffer *out = next_retransmission(self, &is_unfit);
        g_mutex_unlock(&self->lock);
        if (!out) return;
        if (is_unfit) extensions_tell_unfit(self);
        gst_pad_push(self->src, out);
    }
}

/* ---- feedback */

/* Hands a stream feedback, and says in the log what becomes of what its NACKs name. */
static gboolean hear_one(GstGozdritSend *self, send_stream *stream, const guint8 *octets, gsize length, gozdrit_outcome *outcome) {
    stream_tell_time(stream, element_time_now(&self->time) / MILLISECOND);
    if (gozdrit_feedback(&stream->end, octets, length, outcome) != GOZDRIT_OK) return FALSE;
    if (outcome->kind == GOZDRIT_FEEDBACK)
        GST_LOG_OBJECT(self, "SSRC %08x: %u numbers are asked for, %u more are to be retransmitted, %u are not in the history, %u were as often "
                       "as they may be", stream->media_ssrc, outcome->nacked, outcome->queued, outcome->not_in_history, outcome->exhausted);
    return TRUE;
}

/* Hands a datagram to each stream, which hears its own NACKs in it, and counts what it was. Gives how many packets are to be retransmitted. */
static guint32 hear(GstGozdritSend *self, const guint8 *octets, gsize length) {
    guint32 queued = 0, refusal = GOZDRIT_OK;
    gint kind = -1; /* the kinds' numbers rise by how much is heard */
    for (guint i = 0; i < self->streams->len; i++) {
        send_stream *stream = g_ptr_array_index(self->streams, i);
        gozdrit_outcome outcome = GOZDRIT_OUTCOME_INIT;
        if (!hear_one(self, stream, octets, length, &outcome)) continue;
        kind = MAX(kind, outcome.kind);
        refusal = outcome.refusal;
        queued += outcome.queued;
    }
    if (kind == GOZDRIT_REFUSED) GST_LOG_OBJECT(self, "feedback is refused: %s", gozdrit_refusal_name((gint32)refusal));
    self->media += kind == GOZDRIT_MEDIA;
    self->reports += kind == GOZDRIT_REPORTS;
    self->refused += kind == GOZDRIT_REFUSED;
    return queued;
}

/* The stream whose packets go out with an SSRC, or NULL. */
static send_stream *find_sent(const GstGozdritSend *self, guint32 ssrc) {
    for (guint i = 0; i < self->streams->len; i++) {
        send_stream *stream = g_ptr_array_index(self->streams, i);
        if (stream->is_numbered && stream->media_ssrc == ssrc) return stream;
    }
    return NULL;
}

/* Whether a request for a key frame goes upstream: with the SSRC that its stream has there. A FIR that is repeated does not. */
static gboolean wants_key(GstGozdritSend *self, key_request *request) {
    send_stream *stream = find_sent(self, request->media);
    gboolean is_heard = self->settings.receiver_ssrc == SSRC_UNSET || self->settings.receiver_ssrc == request->from;
    gint64 full = (gint64)request->from << 8 | request->number;
    if (!stream || !is_heard || (request->is_full && stream->full_request == full)) return FALSE;
    if (request->is_full) stream->full_request = full;
    request->media = stream->ssrc;
    self->key_requests++;
    return TRUE;
}

void sending_feedback(GstGozdritSend *self, GstBuffer *buffer) {
    key_request requests[MOST_REQUESTS];
    GstMapInfo map;
    if (!gst_buffer_map(buffer, &map, GST_MAP_READ)) return;
    guint count = key_requests_read(map.data, map.size, requests);
    gboolean is_wanted[MOST_REQUESTS];
    g_mutex_lock(&self->lock);
    guint32 queued = hear(self, map.data, map.size);
    for (guint i = 0; i < count; i++) is_wanted[i] = wants_key(self, &requests[i]);
    g_mutex_unlock(&self->lock);
    gst_buffer_unmap(buffer, &map);
    if (queued > 0) sending_retransmissions(self);
    for (guint i = 0; i < count; i++)
        if (is_wanted[i]) gst_pad_push_event(self->sink, key_request_event(&requests[i]));
}

/* A NACK of one number (RFC 4585, section 6.2.1) says the same, and obeys the same rules. Who pushes an event upstream may hold what those
 * want that are downstream: so the retransmission does not leave here. */
gboolean sending_request(GstGozdritSend *self, guint32 ssrc, guint16 number) {
    guint8 nack[16] = {0x81, 205, 0, 3};
    gozdrit_outcome outcome = GOZDRIT_OUTCOME_INIT;
    GST_LOG_OBJECT(self, "SSRC %08x: an event asks for %u", ssrc, number);
    g_mutex_lock(&self->lock);
    send_stream *stream = find_sent(self, ssrc);
    if (stream && stream->end.held) {
        GST_WRITE_UINT32_BE(nack + 4, stream->receiver_ssrc);
        GST_WRITE_UINT32_BE(nack + 8, ssrc);
        GST_WRITE_UINT16_BE(nack + 12, number);
        if (hear_one(self, stream, nack, sizeof nack, &outcome) && outcome.queued > 0) {
            self->requested = TRUE;
            silence_changed(self);
        }
    }
    g_mutex_unlock(&self->lock);
    return stream != NULL;
}

/* ---- the tail */

/* Waits for a while. It is over at once where the element stops or is flushed. */
static gboolean wait_for(GstGozdritSend *self, GstClock *clock, GstClockTime until) {
    g_mutex_lock(&self->lock);
    gboolean go_on = !self->flushing;
    if (go_on) {
        GstClockID id = self->waiting = gst_clock_new_single_shot_id(clock, until);
        g_mutex_unlock(&self->lock);
        go_on = gst_clock_id_wait(id, NULL) != GST_CLOCK_UNSCHEDULED;
        g_mutex_lock(&self->lock);
        self->waiting = NULL;
        gst_clock_id_unref(id);
    }
    g_mutex_unlock(&self->lock);
    return go_on;
}

/* The last packet of each stream is to be repeated. */
static void repeat_last(GstGozdritSend *self) {
    guint32 queued;
    g_mutex_lock(&self->lock);
    for (guint i = 0; i < self->streams->len; i++)
        gozdrit_tail_loss_probe(&((send_stream *)g_ptr_array_index(self->streams, i))->end, &queued);
    g_mutex_unlock(&self->lock);
}

/* A receiver notices only what is missing below the highest packet that came, so the last one is repeated, as often as one
 * may be. */
void sending_tail(GstGozdritSend *self) {
    GstClock *clock = gst_element_get_clock(GST_ELEMENT(self));
    if (!clock) clock = gst_system_clock_obtain();
    GstClockTime until = gst_clock_get_time(clock);
    g_mutex_lock(&self->lock);
    guint repeats = self->settings.repeats;
    GstClockTime step = self->settings.eos_delay * MILLISECOND / (repeats + 1);
    silence_end(self);
    g_mutex_unlock(&self->lock);
    for (guint i = 0; i < repeats + 1; i++) {
        if (i < repeats) repeat_last(self);
        sending_retransmissions(self);
        until += step;
        if (!wait_for(self, clock, until)) break;
    }
    gst_object_unref(clock);
}
