/* What a sender does where no packet comes for a while: it repeats the last one once, so that the far side notices what it lacks
 * of the end of a talk spurt. The source pad's task waits for it: not for each packet, but from one silence's end that could be
 * to the next. It also sends what events from downstream want. */
#include "send.h"

/* Wakes the task. The lock is held. */
static void wake(GstGozdritSend *self) {
    if (self->silence_id) gst_clock_id_unschedule(self->silence_id);
    g_cond_signal(&self->silence_cond);
}

/* A gap that ends before it is so many times the delay is no silence, but how far apart the packets of a slow stream come: the next of its
 * kind is no silence either, as long as there is one each second. */
enum { SHORT = 4 };
#define FORGETS (1000 * MILLISECOND)

/* How long no packet of a stream comes until that is a silence. */
static GstClockTime delay_of(const GstGozdritSend *self, const send_stream *stream) {
    GstClockTime delay = self->settings.silence_delay * MILLISECOND;
    return MAX(delay, MIN(stream->usual, SHORT * delay));
}

static void note_gap(send_stream *stream, GstClockTime now, GstClockTime delay) {
    GstClockTime gap = now > stream->last ? now - stream->last : 0;
    if (gap >= delay && gap < SHORT * delay) {
        stream->usual = MAX(stream->usual, gap + gap / 4);
        stream->paused = now;
    } else if (gap >= delay || now > stream->paused + FORGETS) {
        stream->usual = 0;
    }
}

void silence_packet(GstGozdritSend *self, send_stream *stream, GstClockTime now) {
    note_gap(stream, now, self->settings.silence_delay * MILLISECOND);
    stream->last = now;
    stream->is_silent = FALSE;
    if (self->silence_waits) g_cond_signal(&self->silence_cond);
    else if (self->silence_id && now + delay_of(self, stream) < self->silence_until) wake(self);
}

void silence_end(GstGozdritSend *self) {
    for (guint i = 0; i < self->streams->len; i++) ((send_stream *)g_ptr_array_index(self->streams, i))->is_silent = TRUE;
    wake(self);
}

void silence_changed(GstGozdritSend *self) { wake(self); }

/* Waits until a silence that begins with a packet would be over, or, where there is none, for a packet. The lock is held. */
static void wait_for_silence(GstGozdritSend *self, GstClockTime until) {
    if (!GST_CLOCK_TIME_IS_VALID(until)) {
        self->silence_waits = self->settings.silence_delay > 0;
        g_cond_wait(&self->silence_cond, &self->lock);
        self->silence_waits = FALSE;
        return;
    }
    GstClockID id = self->silence_id = element_time_id(&self->time, self->silence_until = until);
    g_mutex_unlock(&self->lock);
    gst_clock_id_wait(id, NULL);
    g_mutex_lock(&self->lock);
    self->silence_id = NULL;
    gst_clock_id_unref(id);
}

/* Whether something is to be sent now: what was wanted, or a last packet again. Else it waited. The lock is held. */
static gboolean is_due(GstGozdritSend *self) {
    GstClockTime delay = self->settings.silence_delay * MILLISECOND, until = GST_CLOCK_TIME_NONE, now = 0;
    guint32 queued, all = self->requested ? 1 : 0;
    self->requested = FALSE;
    for (guint i = 0; i < self->streams->len && delay > 0; i++) {
        send_stream *stream = g_ptr_array_index(self->streams, i);
        if (stream->is_silent) continue;
        if (now == 0) now = element_time_now(&self->time);
        GstClockTime end = stream->last + delay_of(self, stream);
        if (now < end) {
            until = MIN(until, end);
            continue;
        }
        stream->is_silent = TRUE;
        if (!gst_pad_is_linked(self->feedback) || gozdrit_tail_loss_probe(&stream->end, &queued) != GOZDRIT_OK) continue;
        GST_DEBUG_OBJECT(self, "SSRC %08x is silent: its last packet is repeated", stream->media_ssrc);
        all += queued;
    }
    if (all == 0) wait_for_silence(self, until);
    return all > 0;
}

static void silence_task(gpointer pad) {
    GstGozdritSend *self = GST_GOZDRIT_SEND(GST_OBJECT_PARENT(pad));
    g_mutex_lock(&self->lock);
    gboolean active = self->silence_active, due = active && is_due(self);
    g_mutex_unlock(&self->lock);
    if (!active) gst_pad_pause_task(pad);
    else if (due) sending_retransmissions(self);
}

gboolean silence_activate(GstPad *pad, GstObject *parent, GstPadMode mode, gboolean active) {
    GstGozdritSend *self = GST_GOZDRIT_SEND(parent);
    if (mode != GST_PAD_MODE_PUSH) return FALSE;
    g_mutex_lock(&self->lock);
    self->silence_active = active;
    silence_end(self);
    g_mutex_unlock(&self->lock);
    return active ? gst_pad_start_task(pad, silence_task, pad, NULL) : gst_pad_stop_task(pad);
}
