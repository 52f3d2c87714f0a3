/* The streams of a receiver. There is one, unless the element is an auxiliary receiver with a payload-type-map, which tells media and
 * retransmissions apart, and nothing names the one stream: then each SSRC is a stream with a receiver of its own, as an rtpsession lets sound and
 * picture through. The lock is held in all of these. */
#include "recv.h"

#include <gst/rtp/rtp.h>

static recv_stream *make(const GstGozdritRecv *self) {
    recv_stream *stream = g_new0(recv_stream, 1);
    stream->arrivals = g_new0(arrival, ARRIVALS);
    stream->times.is_fixed = self->settings.mode == MODE_SYNCED;
    g_queue_init(&stream->held);
    return stream;
}

static void drop(recv_stream *stream) {
    gozdrit_receiver_free(&stream->end);
    for (guint i = 0; i < ARRIVALS; i++) gst_clear_buffer(&stream->arrivals[i].buffer);
    g_free(stream->arrivals);
    g_free(stream->asked);
    g_free(stream);
}

void streams_begin(GstGozdritRecv *self) {
    self->streams[0] = make(self);
    self->count = 1;
    streams_first(self);
}

void streams_drop_others(GstGozdritRecv *self) {
    while (self->count > 1) drop(self->streams[--self->count]);
    streams_first(self);
}

void streams_free(GstGozdritRecv *self) {
    streams_drop_others(self);
    drop(self->streams[0]);
}

void streams_first(GstGozdritRecv *self) { self->stream = self->streams[0]; }

gboolean streams_next(GstGozdritRecv *self, stream_loop *at) {
    gboolean is_one = at->next < self->count;
    self->stream = is_one ? self->streams[at->next++] : at->before;
    return is_one;
}

gboolean streams_have_begun(GstGozdritRecv *self) {
    gboolean is_held = FALSE;
    for (EACH_STREAM(self, at)) is_held |= self->stream->end.held;
    return is_held;
}

gboolean streams_find(GstGozdritRecv *self, guint32 ssrc) {
    for (EACH_STREAM(self, at))
        if (self->stream->end.held && self->stream->session.media_ssrc == ssrc) return TRUE;
    return FALSE;
}

gboolean streams_are_several(const GstGozdritRecv *self) {
    return self->types.given && receiving_is_free(self) && auxiliary_is(self);
}

/* ---- retransmissions */

/* A retransmission has its packet's timestamp (RFC 4588, section 4), which is no farther than that from the stream's newest: ten seconds of
 * picture. Those of different streams are seldom so near, as each begins at random (RFC 3550, section 5.1). */
enum { NEAR = 1 << 20 };

static gboolean is_near(const recv_stream *stream, guint32 timestamp) {
    gint64 apart = (gint32)(timestamp - stream->newest);
    return ABS(apart) <= NEAR;
}

static gboolean knows_rtx_ssrc(const recv_stream *stream, guint32 *ssrc) {
    gozdrit_ssrc known = {0};
    gozdrit_rtx_ssrc(&stream->end, &known);
    *ssrc = known.ssrc;
    return known.known;
}

/* How likely a retransmission is the stream's. Who has taken the SSRC of another one's is told by the timestamp. */
enum {
    IS_NOT,
    MAY_REPAIR, /* the stream has asked for its number, and knows another SSRC: the library sees which of both repairs */
    HAS_SSRC,
    HAS_ASKED, /* it has asked for its number, and knows no SSRC of its retransmissions (RFC 4588, section 5.3) */
    IS_ITS
};

static guint likeness(GstGozdritRecv *self, const guint8 *octets, gint number, guint64 now) {
    guint32 ssrc;
    if (!self->stream->end.held) return IS_NOT;
    gboolean near = is_near(self->stream, PACKET_TIMESTAMP(octets)), is_known = knows_rtx_ssrc(self->stream, &ssrc);
    if (is_known && ssrc == PACKET_SSRC(octets)) return near ? IS_ITS : HAS_SSRC;
    if (number < 0 || !near || !auxiliary_has_asked(self, (guint16)number, now)) return IS_NOT;
    return is_known ? MAY_REPAIR : HAS_ASKED;
}

/* The number that a retransmission stands for, or -1 where it has none: it is padding. */
static gint original(const guint8 *octets, gsize length) {
    gsize head = packet_head(octets, length);
    return head > 0 && length >= head + 2 ? GST_READ_UINT16_BE(octets + head) : -1;
}

/* A retransmission where there are several streams. One that nobody asked for goes nowhere, as long as a stream has still to learn which are
 * its own, and else through, as what is not known does. */
static destiny rtx_destiny(GstGozdritRecv *self, const guint8 *octets, gsize length, guint64 now) {
    recv_stream *best = NULL;
    guint most = IS_NOT;
    gboolean is_learning = FALSE;
    guint32 known;
    gint number = original(octets, length);
    for (EACH_STREAM(self, at)) {
        guint like = likeness(self, octets, number, now);
        if (like > most) best = self->stream;
        most = MAX(most, like);
        is_learning |= self->stream->end.held && !knows_rtx_ssrc(self->stream, &known);
    }
    if (!best && !is_learning) return DESTINY_THROUGH;
    if (!best) {
        self->rtx_came++;
        self->unclaimed++;
        return DESTINY_NOWHERE;
    }
    self->stream = best;
    if (most == HAS_ASKED) GST_DEBUG_OBJECT(self, "SSRC %08x has asked for %d, which SSRC %08x brings", best->session.media_ssrc, number, PACKET_SSRC(octets));
    return DESTINY_STREAM;
}

/* Before the SSRCs of both streams' retransmissions are known, an answer could be either's, so one number is asked for by one of them at a time
 * (RFC 4588, section 5.3). The other one asks when its next time to do so comes. */
gboolean streams_ask_elsewhere(GstGozdritRecv *self, guint16 number, guint64 now) {
    gboolean is_elsewhere = FALSE;
    guint32 known;
    if (self->count == 1 || knows_rtx_ssrc(self->stream, &known)) return FALSE;
    for (EACH_STREAM(self, at))
        is_elsewhere |= self->stream != at.before && self->stream->end.held && !knows_rtx_ssrc(self->stream, &known) &&
                        auxiliary_has_asked(self, number, now);
    return is_elsewhere;
}

/* ---- places */

/* A place for another stream: a new one, or that of the stream of which nothing came for the longest, where that is gone. */
static gboolean find_place(GstGozdritRecv *self, guint64 now) {
    recv_stream *gone = NULL;
    for (EACH_STREAM(self, at)) {
        if (!self->stream->end.held) return TRUE;
        if (auxiliary_is_gone(self, now) && (!gone || self->stream->last_media < gone->last_media)) gone = self->stream;
    }
    if (self->count < MOST_RECEIVED) {
        self->stream = self->streams[self->count++] = make(self);
        return TRUE;
    }
    if (!gone) return FALSE;
    self->stream = gone;
    receiving_end(self);
    return TRUE;
}

/* Whether a packet of an SSRC that is no stream's may begin one. */
static gboolean may_begin(GstGozdritRecv *self, GstBuffer *buffer, const guint8 *octets) {
    gboolean is_rtx = FALSE;
    guint32 known;
    if (GST_BUFFER_FLAG_IS_SET(buffer, GST_RTP_BUFFER_FLAG_RETRANSMISSION) || !receiving_is_wanted(self, octets)) return FALSE;
    for (EACH_STREAM(self, at))
        is_rtx |= self->stream->end.held && knows_rtx_ssrc(self->stream, &known) && known == PACKET_SSRC(octets);
    return !is_rtx;
}

/* A packet of another stream: where there is a place, it begins there. */
static destiny media_destiny(GstGozdritRecv *self, GstBuffer *buffer, const guint8 *octets, guint64 now) {
    if (!may_begin(self, buffer, octets)) return DESTINY_THROUGH;
    if (!find_place(self, now)) {
        self->untold.is_crowded = !self->crowd_told;
        self->crowd_told = TRUE;
        return DESTINY_THROUGH;
    }
    GST_DEBUG_OBJECT(self, "SSRC %08x is a stream of its own, of %u", PACKET_SSRC(octets), self->count);
    rtp_times_begin(&self->stream->times, self->caps.clock_rate);
    return DESTINY_STREAM;
}

/* The first stream that has a session is meant; or the first, where none has. Gives how many have one. */
static guint find_held(GstGozdritRecv *self) {
    recv_stream *held = NULL;
    guint count = 0;
    for (EACH_STREAM(self, at)) {
        if (self->stream->end.held && count++ == 0) held = self->stream;
    }
    if (held) self->stream = held;
    return count;
}

destiny streams_of(GstGozdritRecv *self, GstBuffer *buffer, const guint8 *octets, gsize length, guint64 now) {
    if (length < 12 || octets[0] >> 6 != 2 || streams_find(self, PACKET_SSRC(octets))) return DESTINY_STREAM;
    guint8 type = PACKET_TYPE(octets);
    guint held = find_held(self);
    if (held > 1 && receiving_is_rtx_type(self, type)) return rtx_destiny(self, octets, length, now);
    gboolean is_other = held > 0 && self->types.of[type] >= 0 && !receiving_is_taken(self, PACKET_SSRC(octets));
    return is_other && streams_are_several(self) ? media_destiny(self, buffer, octets, now) : DESTINY_STREAM;
}
