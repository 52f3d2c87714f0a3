/* What is added to the times of packets as they go out: ts-offset, by which an rtpbin brings the streams of one sender together, and the time
 * that set-active held them for. */
#include "recv.h"

/* No offset is farther from 0: sums of times fit in 64 bits. */
#define MOST (G_GINT64_CONSTANT(1) << 61)

static void move(GstGozdritRecv *self, gint64 by) {
    self->offset.now += by;
    asking_set(self);
    feedback_schedule(self);
}

void offset_set(GstGozdritRecv *self, gint64 wanted) {
    self->offset.wanted = CLAMP(wanted, -MOST, MOST);
    self->offset.has_moved = TRUE;
    if (self->settings.offset_step == 0) move(self, self->offset.wanted - self->offset.now);
}

void offset_pause(GstGozdritRecv *self, guint64 paused) {
    self->offset.paused = (gint64)MIN(paused, (guint64)MOST);
    asking_set(self);
}

GstClockTime offset_of(const GstGozdritRecv *self, GstClockTime at) {
    gint64 by = self->offset.now + self->offset.paused;
    if (!GST_CLOCK_TIME_IS_VALID(at)) return at;
    return by < 0 && at < (GstClockTime)-by ? 0 : at + (GstClockTime)by;
}

/* A new frame: what is left of the way to the offset that is wanted is gone by a step. */
static void step(GstGozdritRecv *self) {
    gint64 left = self->offset.wanted - self->offset.now, most = (gint64)MIN(self->settings.offset_step, (guint64)MOST);
    if (left == 0) return;
    move(self, most == 0 ? left : CLAMP(left, -most, most));
}

GstBuffer *offset_onto(GstGozdritRecv *self, GstBuffer *out) {
    if (GST_BUFFER_PTS(out) != self->offset.frame) step(self);
    self->offset.frame = GST_BUFFER_PTS(out);
    self->last_out = offset_of(self, GST_BUFFER_PTS(out));
    if (self->last_out == GST_BUFFER_PTS(out) && !self->offset.has_moved && !self->has_dropped) return out;
    out = gst_buffer_make_writable(out);
    GST_BUFFER_PTS(out) = self->last_out;
    GST_BUFFER_DTS(out) = offset_of(self, GST_BUFFER_DTS(out));
    if (self->offset.has_moved) GST_BUFFER_FLAG_SET(out, GST_BUFFER_FLAG_RESYNC);
    if (self->has_dropped) GST_BUFFER_FLAG_SET(out, GST_BUFFER_FLAG_DISCONT);
    self->offset.has_moved = self->has_dropped = FALSE;
    return out;
}
