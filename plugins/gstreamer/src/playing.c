#include "recv.h"

#include <gst/rtp/rtp.h>

/* A packet goes out in the buffer that it came in. One that did not come in one of its own, as it was repaired, or that has padding, is
 * played into the middle of a buffer, and its header is written in front of it: so the payload is copied once. */
enum { FRONT = 12 + 4 * GOZDRIT_MAX_CSRCS + 4 + 4 * GOZDRIT_MAX_EXTENSION_WORDS };

/* ---- what is ready */

static void push_ready(GstGozdritRecv *self, gpointer item) {
    if (self->flow == GST_FLOW_EOS && GST_IS_BUFFER(item)) {
        gst_buffer_unref(item);
        return;
    }
    gst_queue_array_push_tail(self->ready, item);
    if (GST_IS_BUFFER(item)) self->ready_packets++;
    if (self->src_waits) g_cond_signal(&self->ready_cond);
}

/* Packets that are not the stream's have no window: where downstream stands still, they are dropped. */
void playing_pass(GstGozdritRecv *self, GstBuffer *buffer) {
    if (self->ready_packets >= GOZDRIT_MAX_STORE) {
        self->dropped++;
        return;
    }
    self->passed++;
    push_ready(self, gst_buffer_ref(buffer));
}

/* What was lost is told with times between those of the packets around it; but not where there are several streams, since the event names
 * none. */
static void tell_lost(GstGozdritRecv *self, GstClockTime next) {
    gboolean is_told = self->settings.do_lost && self->count == 1;
    GstClockTime from = GST_CLOCK_TIME_IS_VALID(self->stream->last_pts) ? self->stream->last_pts : next, step = 0;
    if (GST_CLOCK_TIME_IS_VALID(next) && next > from) step = (next - from) / (self->stream->lost + 1);
    if (!GST_CLOCK_TIME_IS_VALID(from)) from = 0;
    for (guint i = 0; is_told && i < self->stream->lost; i++) {
        GstClockTime at = offset_of(self, from + step * (i + 1));
        GstStructure *told = gst_structure_new("GstRTPPacketLost", "seqnum", G_TYPE_UINT, (guint)(guint16)(self->stream->lost_from + i),
                                               "timestamp", G_TYPE_UINT64, at, "duration", G_TYPE_UINT64,
                                               step, "retry", G_TYPE_UINT, self->settings.nacks, NULL);
        push_ready(self, gst_event_new_custom(GST_EVENT_CUSTOM_DOWNSTREAM, told));
    }
    self->stream->lost = 0;
}

static void count_lost(GstGozdritRecv *self, guint64 from, guint count) {
    if (self->stream->lost == 0) self->stream->lost_from = (guint16)from;
    self->stream->lost += count;
    self->given_up += count;
    self->stream->discont = TRUE;
}

/* ---- events, which go out behind the packets that came before them */

/* Sends those on that wait for no packet above this one. */
static void release(GstGozdritRecv *self, guint64 sequence) {
    held_behind *first;
    while ((first = g_queue_peek_head(&self->stream->held)) && first->behind <= sequence) {
        if (self->stream->lost > 0) tell_lost(self, GST_CLOCK_TIME_NONE);
        if (--first->held->waits == 0) {
            push_ready(self, first->held->event);
            g_free(first->held);
        }
        g_free(g_queue_pop_head(&self->stream->held));
    }
}

void playing_release(GstGozdritRecv *self) { release(self, G_MAXUINT64); }

/* So many events wait at most: the first of more goes out before its time. */
enum { MOST_HELD = 1024 };

/* The event waits for what the stream has, or else what it lost is told before. */
static void hold_event(GstGozdritRecv *self, held_event *held) {
    gozdrit_sequence next = {0}, highest = {0};
    if (self->stream->end.held) {
        gozdrit_next_sequence(&self->stream->end, &next);
        gozdrit_highest_sequence(&self->stream->end, &highest);
    }
    if (next.known && highest.known && highest.sequence >= next.sequence) {
        held_behind *last = g_new(held_behind, 1), *first = g_queue_peek_head(&self->stream->held);
        if (g_queue_get_length(&self->stream->held) >= MOST_HELD) release(self, first->behind);
        *last = (held_behind){held, highest.sequence};
        held->waits++;
        g_queue_push_tail(&self->stream->held, last);
    } else if (self->stream->lost > 0) {
        tell_lost(self, GST_CLOCK_TIME_NONE);
    }
}

void playing_event(GstGozdritRecv *self, GstEvent *event) {
    held_event *held = g_new0(held_event, 1);
    held->event = event;
    for (EACH_STREAM(self, at)) hold_event(self, held);
    if (held->waits > 0) return;
    push_ready(self, event);
    g_free(held);
}

/* ---- packets */

/* How a packet came, or NULL. */
static arrival *arrival_of(GstGozdritRecv *self, const gozdrit_played *played) {
    arrival *came = &self->stream->arrivals[(guint16)played->sequence % ARRIVALS];
    gboolean is_it = came->number == (guint16)played->sequence && came->timestamp == played->header.timestamp;
    return came->buffer && is_it ? came : NULL;
}

/* So many packets behind one that was repaired are looked at. */
enum { FAR_BEHIND = 64 };

/* When the next packet came that came by itself: where there is no clock rate, one that was repaired is told to have come then. It is no earlier
 * than that of its frame was, as who follows the earliest packets would else follow it. */
static GstClockTime time_behind(const GstGozdritRecv *self, guint16 number) {
    for (guint i = 1; i <= FAR_BEHIND; i++) {
        const arrival *next = &self->stream->arrivals[(guint16)(number + i) % ARRIVALS];
        if (next->buffer && next->number == (guint16)(number + i) && !next->is_repair) return next->pts;
    }
    return GST_CLOCK_TIME_NONE;
}

/* The times of a packet: those that it came with, where these are what its timestamp says, and else what that says. All
 * packets with one timestamp have one time. */
static void set_times(GstGozdritRecv *self, GstBuffer *out, const arrival *came, const gozdrit_played *played, guint8 type) {
    const rtp_times *times = ptmap_times(self, type);
    guint32 timestamp = played->header.timestamp;
    GstClockTime own = rtp_times_of(times, timestamp);
    if (GST_CLOCK_TIME_IS_VALID(self->stream->last_pts) && self->stream->last_timestamp == timestamp) {
        /* as the one before */
    } else if (came && !came->is_repair && rtp_times_same(times, came->pts, own)) {
        self->stream->last_pts = came->pts;
        self->stream->last_dts = came->dts;
    } else {
        if (times->clock_rate == 0) own = time_behind(self, (guint16)played->sequence);
        self->stream->last_pts = GST_CLOCK_TIME_IS_VALID(own) ? own : self->stream->last_pts;
        self->stream->last_dts = GST_CLOCK_TIME_NONE;
    }
    self->stream->last_timestamp = timestamp;
    GST_BUFFER_PTS(out) = self->stream->last_pts;
    GST_BUFFER_DTS(out) = self->stream->last_dts;
}

/* Whether a type is not the one that caps or a property say. */
static gboolean is_unwanted(const GstGozdritRecv *self, guint8 type) {
    gint64 wanted = receiving_wanted_type(self);
    return wanted >= 0 && type != wanted && !auxiliary_is(self);
}

/* Writes the header in front of the payload, and takes the buffer. */
static GstBuffer *finish_packet(GstGozdritRecv *self, const gozdrit_played *played, guint8 type) {
    const gozdrit_packet packet = {.header = played->header, .ssrc = self->stream->session.media_ssrc,
                                   .sequence = (guint16)played->sequence, .payload_type = type};
    gsize extension = played->header.has_extension ? 4 + 4 * (gsize)played->header.extension_words : 0;
    gsize head = 12 + 4 * (gsize)played->header.csrc_count + extension, written;
    gozdrit_rtp_write(&packet, NULL, 0, &written, self->map.data + FRONT - head, head);
    GstBuffer *out = g_steal_pointer(&self->spare);
    gst_buffer_unmap(out, &self->map);
    gst_buffer_resize(out, (gssize)(FRONT - head), (gssize)(head + played->length));
    return out;
}

/* Whether a packet came as it goes out: as media, and without padding. */
static gboolean is_whole(const arrival *came) {
    guint8 first = 0;
    return !came->is_repair && came->is_taken && gst_buffer_extract(came->buffer, 0, &first, 1) == 1 && !(first & 32);
}

/* The buffer that a packet goes out in, which is the one that it came in, or has what is noted of it there. */
static GstBuffer *make_packet(GstGozdritRecv *self, const gozdrit_played *played, arrival *came, guint8 type) {
    if (came && (came->is_long || is_whole(came))) return gst_buffer_make_writable(g_steal_pointer(&came->buffer));
    GstBuffer *out = finish_packet(self, played, type);
    GstBufferCopyFlags noted = GST_BUFFER_COPY_META;
    if (came && !came->is_repair) noted |= GST_BUFFER_COPY_FLAGS | GST_BUFFER_COPY_TIMESTAMPS;
    if (came) gst_buffer_copy_into(out, came->buffer, noted, 0, (gsize)-1);
    return out;
}

static void set_flag(GstBuffer *buffer, GstBufferFlags flag, gboolean is_set) {
    if (is_set) GST_BUFFER_FLAG_SET(buffer, flag);
    else GST_BUFFER_FLAG_UNSET(buffer, flag);
}

static void play_packet(GstGozdritRecv *self, const gozdrit_played *played) {
    GstClockTime before = self->stream->last_pts;
    arrival *came = arrival_of(self, played);
    guint8 type = came ? came->type : self->stream->session.media_payload_type;
    if (played->sequence > self->stream->expected)
        count_lost(self, self->stream->expected, (guint)MIN(played->sequence - self->stream->expected, G_MAXUINT16));
    if (is_unwanted(self, type)) {
        if (self->unwanted++ == 0) self->untold.type = type;
        self->stream->discont = TRUE;
        return;
    }
    GstBuffer *out = make_packet(self, played, came, type);
    set_times(self, out, came, played, type);
    if (self->stream->lost > 0) {
        GstClockTime pts = self->stream->last_pts;
        self->stream->last_pts = before;
        tell_lost(self, pts);
        self->stream->last_pts = pts;
    }
    if (came && came->is_repair) set_flag(out, (GstBufferFlags)GST_RTP_BUFFER_FLAG_RETRANSMISSION, FALSE);
    set_flag(out, GST_BUFFER_FLAG_MARKER, played->header.marker);
    set_flag(out, GST_BUFFER_FLAG_DISCONT, self->stream->discont);
    self->stream->discont = FALSE;
    sync_add_meta(self, out, played->header.timestamp, type);
    push_ready(self, out);
    jitter_drop_old(self);
}

static void make_spare(GstGozdritRecv *self) {
    if (self->spare) return;
    self->spare = gst_buffer_new_allocate(NULL, FRONT + GOZDRIT_MAX_PAYLOAD, NULL);
    gst_buffer_map(self->spare, &self->map, GST_MAP_WRITE);
}

/* Forgets how the packets came from the one that was to go out next on, up to one: they went out, or never will. */
static void forget_below(GstGozdritRecv *self, guint64 end) {
    guint64 least = end > ARRIVALS ? end - ARRIVALS : 0;
    for (guint64 i = MAX(self->stream->expected, least); i < end; i++) {
        arrival *came = &self->stream->arrivals[(guint16)i % ARRIVALS];
        if (came->number == (guint16)i) gst_clear_buffer(&came->buffer);
    }
}

void playing_forget(GstGozdritRecv *self) {
    gozdrit_sequence next = {0}, highest = {0};
    if (self->stream->end.held) {
        gozdrit_next_sequence(&self->stream->end, &next);
        gozdrit_highest_sequence(&self->stream->end, &highest);
    }
    for (guint i = 0; i < ARRIVALS; i++) {
        arrival *came = &self->stream->arrivals[i];
        guint16 ahead = (guint16)(came->number - (guint16)next.sequence);
        if (!next.known || !highest.known || ahead >= highest.sequence + 1 - next.sequence) gst_clear_buffer(&came->buffer);
    }
}

/* Sends the events on that wait for packets below this one. What the window dropped of these is told before the event that came
 * behind them. */
static void release_below(GstGozdritRecv *self, guint64 sequence) {
    const held_behind *first;
    while ((first = g_queue_peek_head(&self->stream->held)) && first->behind < sequence) {
        guint64 behind = first->behind;
        if (behind >= self->stream->expected) {
            count_lost(self, self->stream->expected, (guint)MIN(behind + 1 - self->stream->expected, G_MAXUINT16));
            self->stream->expected = behind + 1;
        }
        release(self, behind);
    }
}

void playing_stream(GstGozdritRecv *self, guint64 now) {
    gozdrit_played played = GOZDRIT_PLAYED_INIT;
    while (self->stream->end.held) {
        self->stalled = self->ready_packets >= WINDOW_OF(&self->settings) && now != G_MAXINT64;
        if (self->stalled) return;
        make_spare(self);
        gint32 number = gozdrit_play(&self->stream->end, now, &played, self->map.data + FRONT, GOZDRIT_MAX_PAYLOAD);
        if (number != GOZDRIT_OK || played.kind == GOZDRIT_WAIT) return;
        release_below(self, played.sequence);
        if (played.kind == GOZDRIT_GAP) count_lost(self, played.sequence, 1);
        else if (played.kind == GOZDRIT_PACKET) play_packet(self, &played);
        forget_below(self, played.sequence + 1);
        self->stream->expected = played.sequence + 1;
        release(self, played.sequence);
    }
}

void playing_all(GstGozdritRecv *self, guint64 now) {
    for (EACH_STREAM(self, at)) playing_stream(self, now);
}

/* ---- the stream */

void playing_begin_stream(GstGozdritRecv *self) {
    gozdrit_sequence next = {0};
    if (self->stream->end.held) gozdrit_next_sequence(&self->stream->end, &next);
    self->stream->expected = next.known ? next.sequence : G_MAXUINT64;
    self->stream->lost = 0;
    self->stream->discont = TRUE;
    self->stream->last_pts = self->stream->last_dts = GST_CLOCK_TIME_NONE;
}

/* Drops the events that wait for the stream. */
static void drop_held(GstGozdritRecv *self) {
    held_behind *first;
    while ((first = g_queue_pop_head(&self->stream->held))) {
        if (--first->held->waits == 0) {
            gst_event_unref(first->held->event);
            g_free(first->held);
        }
        g_free(first);
    }
}

void playing_clear(GstGozdritRecv *self) {
    for (EACH_STREAM(self, at)) drop_held(self);
    while (!gst_queue_array_is_empty(self->ready)) gst_mini_object_unref(gst_queue_array_pop_head(self->ready));
    if (self->spare) gst_buffer_unmap(self->spare, &self->map);
    gst_clear_buffer(&self->spare);
    self->ready_packets = 0;
    self->stalled = FALSE;
}

/* ---- the task */

/* The next item, or NULL where the pad is no longer active. */
static gpointer next_item(GstGozdritRecv *self) {
    while (self->src_active && (self->is_held || gst_queue_array_is_empty(self->ready))) {
        self->src_waits = TRUE;
        g_cond_wait(&self->ready_cond, &self->lock);
        self->src_waits = FALSE;
    }
    if (!self->src_active) return NULL;
    gpointer item = gst_queue_array_pop_head(self->ready);
    if (GST_IS_BUFFER(item)) self->ready_packets--;
    if (self->stalled && self->ready_packets <= WINDOW_OF(&self->settings) / 2) feedback_wake(self);
    if (!GST_IS_BUFFER(item)) return item;
    self->pushed++;
    return offset_onto(self, item);
}

/* Downstream wants no more of this stream. What is ready of it goes nowhere, but for the events: the end is still told. */
static void drop_packets(GstGozdritRecv *self) {
    for (guint left = gst_queue_array_get_length(self->ready); left > 0; left--) {
        gpointer item = gst_queue_array_pop_head(self->ready);
        if (GST_IS_BUFFER(item)) gst_buffer_unref(item);
        else gst_queue_array_push_tail(self->ready, item);
    }
    self->ready_packets = 0;
    if (self->stalled) feedback_wake(self);
}

/* An error of what is downstream reaches upstream with the next packet; where none comes any more, it is posted. */
static void pushed(GstGozdritRecv *self, GstFlowReturn flow) {
    g_mutex_lock(&self->lock);
    self->flow = self->src_active ? flow : GST_FLOW_FLUSHING;
    gboolean bounded = self->flow == GST_FLOW_EOS;
    if (bounded) drop_packets(self);
    gboolean tell = self->ending && self->src_active && (flow == GST_FLOW_NOT_LINKED || flow < GST_FLOW_EOS);
    g_mutex_unlock(&self->lock);
    if (!bounded) gst_pad_pause_task(self->src);
    if (tell) GST_ELEMENT_FLOW_ERROR(self, flow);
}

void playing_task(gpointer pad) {
    GstGozdritRecv *self = GST_GOZDRIT_RECV(GST_OBJECT_PARENT(pad));
    g_mutex_lock(&self->lock);
    gpointer item = next_item(self);
    g_mutex_unlock(&self->lock);
    if (!item) {
        gst_pad_pause_task(self->src);
    } else if (GST_IS_BUFFER(item)) {
        GstFlowReturn flow = gst_pad_push(self->src, item);
        if (flow != GST_FLOW_OK) pushed(self, flow);
    } else {
        GstEventType type = GST_EVENT_TYPE(item);
        gst_pad_push_event(self->src, item);
        g_mutex_lock(&self->lock);
        if (type == GST_EVENT_EOS) feedback_end(self);
        else if (type == GST_EVENT_STREAM_START) feedback_go_on(self);
        g_mutex_unlock(&self->lock);
    }
}
