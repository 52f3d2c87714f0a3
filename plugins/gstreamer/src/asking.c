/* When a receiver asks for what is missing, and gives it up: the library's times, by properties, caps and the place of the element. The lock is held in
 * all of these. */
#include "recv.h"

/* How long an answer is waited for until a round trip is known, in milliseconds: three tenths of the latency, up to the most, and where that is
 * less than usual up to half of it. */
enum { USUAL_TRIP = 60, MOST_TRIP = 250 };

static guint64 first_retry(guint64 latency) {
    guint64 some = MIN(latency * 3 / 10, MOST_TRIP), half = MIN(latency / 2, USUAL_TRIP);
    return MAX(MAX(some, half), 1);
}

/* A delay that no packet is waited for so long: nothing is asked for. */
#define NEVER ((guint64)G_MAXUINT32 * 2)

gozdrit_times asking_times(const GstGozdritRecv *self) {
    gozdrit_times times = GOZDRIT_TIMES_INIT;
    if (self->stream->end.held) gozdrit_receiver_times(&self->stream->end, &times);
    return times;
}

guint64 asking_step(const GstGozdritRecv *self) {
    return MAX(MIN(self->settings.delay, asking_times(self).nack_interval), 1);
}

/* Whether anything is asked for. In a jitter buffer's place that is a property's to say, unless somebody took the pad of feedback. */
static gboolean asks(const GstGozdritRecv *self) {
    if (self->caps.nack == 0) return FALSE;
    return !self->in_place || self->settings.do_retransmission || feedback_is_taken(self);
}

/* How long a missing packet is waited for: what goes out later by an offset may come later. */
static guint64 latency_of(const GstGozdritRecv *self) {
    gint64 offset = (self->offset.now + self->offset.paused) / (gint64)GST_MSECOND, latency = self->settings.latency;
    return (guint64)MAX(latency + offset, 0);
}

/* What follows the path where no property says how long an answer is waited for. A packet is given up by when it was sent, too. */
static guint8 adaptive_of(const GstGozdritRecv *self) {
    return asks(self) && self->settings.retry < 0 ? GOZDRIT_ADAPTIVE_SEND_TIME : GOZDRIT_ADAPTIVE_OFF;
}

/* Until something was measured two asks fit into the latency, however short that is: else none had its answer in time, and nothing was
 * measured. */
void asking_set_stream(GstGozdritRecv *self) {
    if (!self->stream->end.held) return;
    guint64 latency = latency_of(self), delay = self->settings.delay, retry = (guint64)MAX(self->settings.retry, 1);
    if (self->settings.retry < 0) delay = MIN(delay, latency / 10), retry = first_retry(latency);
    gozdrit_set_times(&self->stream->end, latency, asks(self) ? delay : NEVER, retry);
    gozdrit_set_adaptive(&self->stream->end, adaptive_of(self));
}

/* More than one in so many packets of a second is much. */
enum { MUCH = 8 };

void asking_see(GstGozdritRecv *self, guint64 now) {
    last_second *before = &self->stream->came;
    gozdrit_receive_counts counts = GOZDRIT_RECEIVE_COUNTS_INIT;
    if (before->is_known && before->since <= now && now < before->since + 1000) return;
    gozdrit_receiver_counts(&self->stream->end, &counts);
    last_second seen = {.is_known = TRUE, .since = now, .lost = counts.retransmissions + counts.gaps};
    seen.all = seen.lost + counts.media;
    /* one session, and a clock that goes on */
    if (before->is_known && before->since < now && before->lost <= seen.lost && before->all < seen.all)
        seen.loses_much = MUCH * (seen.lost - before->lost) > seen.all - before->all;
    *before = seen;
}

void asking_set(GstGozdritRecv *self) {
    for (EACH_STREAM(self, at)) asking_set_stream(self);
}
