#include "recv.h"

#include "keyunits.h"

/* A ghost of the pad that nobody linked takes none either. */
gboolean feedback_is_taken(const GstGozdritRecv *self) {
    GstPad *peer = gst_pad_is_linked(self->feedback) ? pad_behind(self->feedback) : NULL;
    gboolean is_taken = peer != NULL;
    gst_clear_object(&peer);
    return is_taken;
}

/* ---- waking the timer. The lock is held. */

void feedback_wake(GstGozdritRecv *self) {
    self->timer_until = 0;
    if (self->timer_id) gst_clock_id_unschedule(self->timer_id);
    g_cond_signal(&self->timer_cond);
}

/* The stream's next timeout. While downstream stands still, that is always the time to play the next packet: then asks go on by
 * steps of the times between them, as long as something is missing. */
static gozdrit_timeout stream_timeout(GstGozdritRecv *self, guint64 now) {
    gozdrit_timeout next = {0};
    gsize missing = 0;
    if (!self->stalled) gozdrit_next_timeout(&self->stream->end, &next);
    else gozdrit_missing(&self->stream->end, &missing);
    if (missing > 0) next = (gozdrit_timeout){now + asking_step(self), 1};
    return next;
}

/* The next of all. */
static gozdrit_timeout next_timeout(GstGozdritRecv *self, guint64 now) {
    gozdrit_timeout next = {0};
    for (EACH_STREAM(self, at)) {
        gozdrit_timeout one = stream_timeout(self, now);
        if (one.known && (!next.known || one.time < next.time)) next = one;
    }
    if (self->npt_due != G_MAXUINT64 && (!next.known || self->npt_due < next.time)) next = (gozdrit_timeout){self->npt_due, 1};
    return next;
}

void feedback_schedule(GstGozdritRecv *self) {
    gozdrit_timeout next = next_timeout(self, receiving_now(self));
    if (next.known && next.time < self->timer_until) feedback_wake(self);
}

/* ---- the stream of feedback */

/* The stream's name is made of that of the media, where these have begun. GStreamer makes none where there are two pads that it could be of. */
static gchar *make_id(GstGozdritRecv *self) {
    gchar *media = gst_pad_get_stream_id(self->sink);
    gchar *id = media ? g_strconcat(media, "/feedback", NULL) : g_strdup_printf("%08x%08x/feedback", g_random_int(), g_random_int());
    g_free(media);
    return id;
}

/* Begins the stream. The gap event makes a sink downstream ready, which else were so with the first NACK only: until then
 * a pipeline would know no latency. */
static void begin_stream(GstGozdritRecv *self) {
    GstSegment segment;
    GstCaps *caps = gst_caps_new_empty_simple("application/x-rtcp");
    gchar *id = make_id(self);
    gst_segment_init(&segment, GST_FORMAT_TIME);
    gst_pad_push_event(self->feedback, gst_event_new_stream_start(id));
    gst_pad_push_event(self->feedback, gst_event_new_caps(caps));
    gst_pad_push_event(self->feedback, gst_event_new_segment(&segment));
    gst_pad_push_event(self->feedback, gst_event_new_gap(0, GST_CLOCK_TIME_NONE));
    gst_caps_unref(caps);
    g_free(id);
}

void feedback_set_budget(GstGozdritRecv *self) {
    gboolean earns = self->settings.earns_nacks && feedback_is_taken(self);
    if (!self->stream->end.held || earns == self->stream->earns) return;
    self->stream->earns = earns;
    gozdrit_set_nack_budget(&self->stream->end, earns ? 1 : 0);
}

/* How often each ask leaves: twice, unless the far side is seen to answer both (0), as a NACK may be lost. An event is not; but where much is
 * lost, so is the RTCP packet that is made of it. */
static guint8 copies_of(GstGozdritRecv *self) { return feedback_is_taken(self) || self->stream->came.loses_much ? 0 : 1; }

/* The stream's next NACK, or NULL where none is due. */
static GstBuffer *stream_nack(GstGozdritRecv *self, guint64 now) {
    guint8 octets[GOZDRIT_MAX_NACK_DATAGRAM];
    gsize length = 0;
    if (!self->stream->end.held) return NULL;
    feedback_set_budget(self);
    gozdrit_set_nack_copies(&self->stream->end, copies_of(self));
    gint32 number = gozdrit_nack(&self->stream->end, now, GOZDRIT_MAX_NACKED, &length, octets, sizeof octets);
    if (number != GOZDRIT_OK || length == 0) return NULL;
    return gst_buffer_new_memdup(octets, length);
}

/* The next one of any. The lock is held. */
static GstBuffer *next_nack(GstGozdritRecv *self, guint64 now) {
    GstBuffer *nack = NULL;
    for (EACH_STREAM(self, at))
        if (!nack) nack = stream_nack(self, now);
    return nack;
}

gboolean feedback_key_unit(GstGozdritRecv *self, const GstEvent *event) {
    gboolean is_taken = feedback_is_taken(self), is_full = FALSE;
    g_mutex_lock(&self->lock);
    gboolean is_ours = is_taken && self->stream->end.held && key_request_parse(event, self->stream->session.media_ssrc, &is_full);
    is_full = is_full && self->caps.fir;
    is_ours = is_ours && (is_full || self->caps.pli);
    if (is_ours) {
        self->key_full = is_full || (self->key_wanted && self->key_full);
        self->key_wanted = TRUE;
        feedback_wake(self);
    }
    g_mutex_unlock(&self->lock);
    return is_ours;
}

/* The request for a key frame that is wanted, or NULL. The lock is held. */
static GstBuffer *next_key_request(GstGozdritRecv *self) {
    key_request request = {self->stream->session.receiver_ssrc, self->stream->session.media_ssrc, self->key_full, self->key_number};
    if (!self->key_wanted) return NULL;
    self->key_wanted = FALSE;
    if (!self->stream->end.held) return NULL;
    self->key_number = (guint8)(self->key_number + request.is_full);
    self->key_requests++;
    return key_request_write(&request);
}

void feedback_end(GstGozdritRecv *self) {
    self->ended = TRUE;
    feedback_wake(self);
}

void feedback_go_on(GstGozdritRecv *self) {
    if (!self->ended) return;
    self->ended = FALSE;
    if (self->feedback_stage == FEEDBACK_HAS_ENDED) self->feedback_stage = FEEDBACK_TO_BEGIN;
    feedback_wake(self);
}

/* ---- the task */

/* Waits for the session's next timeout, for a call, or, where there is none or the stream has ended, for the latter alone. The
 * lock is held. */
static void wait_for_timeout(GstGozdritRecv *self, guint64 now) {
    gozdrit_timeout next = {0};
    if (!self->ended) next = next_timeout(self, now);
    if (next.known && next.time <= now) return;
    self->timer_until = next.known ? next.time : G_MAXUINT64;
    if (!next.known) {
        while (self->timer_until == G_MAXUINT64) g_cond_wait(&self->timer_cond, &self->lock);
    } else {
        GstClockID id = self->timer_id = element_time_id(&self->time, next.time * MILLISECOND);
        g_mutex_unlock(&self->lock);
        gst_clock_id_wait(id, NULL);
        g_mutex_lock(&self->lock);
        self->timer_id = NULL;
        gst_clock_id_unref(id);
    }
    self->timer_until = 0;
}

/* What a turn of the task found to do. */
typedef enum turn { TURN_AGAIN, TURN_BEGIN, TURN_ASK, TURN_SEND, TURN_NPT_STOP, TURN_END, TURN_STOP } turn;

/* One turn: what is due now, and else it waits. The lock is held. */
static turn take_turn(GstGozdritRecv *self, GstBuffer **asks) {
    guint64 now = receiving_now(self);
    if (!self->timer_active) return TURN_STOP;
    if (self->feedback_stage == FEEDBACK_TO_BEGIN) {
        self->feedback_stage = FEEDBACK_GOES;
        return TURN_BEGIN;
    }
    playing_all(self, now);
    if (self->ended && self->feedback_stage == FEEDBACK_GOES) {
        self->feedback_stage = FEEDBACK_HAS_ENDED;
        return TURN_END;
    }
    if (!self->ended) *asks = next_key_request(self);
    if (*asks) return TURN_SEND;
    if (!self->ended) *asks = next_nack(self, now);
    if (*asks) return feedback_is_taken(self) ? TURN_SEND : TURN_ASK;
    if (ptmap_is_past(self, now)) return TURN_NPT_STOP;
    if (self->drops.next) return TURN_AGAIN; /* it is told at once */
    wait_for_timeout(self, now);
    return TURN_AGAIN;
}

void feedback_task(gpointer pad) {
    GstGozdritRecv *self = GST_GOZDRIT_RECV(GST_OBJECT_PARENT(pad));
    GstBuffer *asks = NULL;
    g_mutex_lock(&self->lock);
    turn found = take_turn(self, &asks);
    GstMessage *dropped = g_steal_pointer(&self->drops.next);
    g_mutex_unlock(&self->lock);
    if (dropped) gst_element_post_message(GST_ELEMENT(self), dropped);
    switch (found) {
    case TURN_BEGIN: begin_stream(self); break;
    case TURN_ASK: auxiliary_ask(self, asks); break;
    case TURN_SEND: gst_pad_push(self->feedback, asks); break; /* who gets none is asked again */
    case TURN_NPT_STOP: ptmap_npt_stop(self); break;
    case TURN_END: gst_pad_push_event(self->feedback, gst_event_new_eos()); break;
    case TURN_STOP: gst_pad_pause_task(self->feedback); break;
    case TURN_AGAIN: break;
    }
}
