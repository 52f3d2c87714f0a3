/* The tasks of a receiver's two source pads: when each runs. */
#include "recv.h"

/* A task begins with its pad, and again behind a flush. A flush that ends while the pads are made inactive starts none: who waits
 * for the pad's task to end would wait for ever, or it would go on behind its end. So whether a pad is open does not change between the look
 * at that and the start. */
static void start_src(GstGozdritRecv *self) {
    g_mutex_lock(&self->starting);
    g_mutex_lock(&self->lock);
    gboolean open = self->src_active = self->src_open;
    if (open) self->flow = GST_FLOW_OK;
    self->ending = self->ended = FALSE;
    g_mutex_unlock(&self->lock);
    if (open) gst_pad_start_task(self->src, playing_task, self->src, NULL);
    g_mutex_unlock(&self->starting);
}

static void halt_src(GstGozdritRecv *self) {
    g_mutex_lock(&self->lock);
    self->src_active = FALSE;
    self->flow = GST_FLOW_FLUSHING;
    g_cond_signal(&self->ready_cond);
    g_mutex_unlock(&self->lock);
}

static void start_feedback(GstGozdritRecv *self) {
    g_mutex_lock(&self->starting);
    g_mutex_lock(&self->lock);
    gboolean open = self->timer_active = self->feedback_open;
    self->feedback_stage = FEEDBACK_TO_BEGIN;
    g_mutex_unlock(&self->lock);
    if (open) gst_pad_start_task(self->feedback, feedback_task, self->feedback, NULL);
    g_mutex_unlock(&self->starting);
}

static void halt_feedback(GstGozdritRecv *self) {
    g_mutex_lock(&self->lock);
    self->timer_active = FALSE;
    feedback_wake(self);
    g_mutex_unlock(&self->lock);
}

gboolean tasks_activate(GstPad *pad, GstObject *parent, GstPadMode mode, gboolean active) {
    GstGozdritRecv *self = GST_GOZDRIT_RECV(parent);
    if (mode != GST_PAD_MODE_PUSH) return FALSE;
    g_mutex_lock(&self->starting);
    g_mutex_lock(&self->lock);
    *(pad == self->src ? &self->src_open : &self->feedback_open) = active;
    g_mutex_unlock(&self->lock);
    g_mutex_unlock(&self->starting);
    if (active) (pad == self->src ? start_src : start_feedback)(self);
    else (pad == self->src ? halt_src : halt_feedback)(self);
    return active || gst_pad_stop_task(pad);
}

void tasks_start(GstGozdritRecv *self) {
    start_src(self);
    start_feedback(self);
}

void tasks_halt(GstGozdritRecv *self) {
    halt_src(self);
    halt_feedback(self);
}
