#include "far_side.h"

/* How many packets in sequence show it at another address. */
enum { SHOWN = 4 };

/* Over how long gaps are averaged. */
#define SECOND G_GUINT64_CONSTANT(1000)

/* The longest gap that counts as what it is: behind four of these, a second of silence, any other sender begins a session. */
#define LONGEST G_GUINT64_CONSTANT(250)

/* For how long nothing may have come at least before it is heard at another address. */
#define QUIET G_GUINT64_CONSTANT(100)

static guint64 span_of(guint64 from, guint64 to) { return to > from ? to - from : 0; }

far_side far_side_at(sender_address at) { return (far_side){.at = at, .gap = 1000 * LONGEST}; }

void far_side_hear(far_side *self, guint64 now) {
    if (self->has_come) {
        guint64 gap = MIN(span_of(self->came, now), LONGEST);
        self->gap = self->gap * (SECOND - gap) / SECOND + gap * gap;
    }
    self->came = now;
    self->has_come = TRUE;
    self->in_sequence = 0;
}

/* Four of its gaps. */
static guint64 quiet_for(const far_side *self) { return MAX(self->gap / 250, QUIET); }

gboolean far_side_is_quiet(const far_side *self, guint64 now) {
    return self->has_come && span_of(self->came, now) >= quiet_for(self);
}

/* What one address shows counts until it was not gone on with for as long as the far side has to be quiet. */
static void note(far_side *self, gboolean is_there, const sender_address *from, guint16 number, guint64 now) {
    if (is_there && claims_is_next(self->number, number)) self->in_sequence++;
    else if (self->in_sequence == 0 || span_of(self->last, now) >= quiet_for(self)) self->in_sequence = 1;
    else return;
    self->shown = *from;
    self->number = number;
    self->last = now;
}

/* It left its address then: the time until it is heard at the other one is no gap of its own. */
gboolean far_side_show(far_side *self, const sender_address *from, guint16 number, guint64 now) {
    gboolean is_there = self->in_sequence > 0 && sender_address_is(&self->shown, from);
    note(self, is_there, from, number, now);
    if (!is_there || self->in_sequence < SHOWN || !far_side_is_quiet(self, now)) return FALSE;
    self->at = *from;
    self->has_come = FALSE;
    return TRUE;
}
