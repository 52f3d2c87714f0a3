#include "recv.h"

#include <gst/rtp/rtp.h>
#include <stdio.h>
#include <string.h>

/* By how much less a number may lie ahead that is no jump, where the window is no longer. */
enum { USUAL_REACH = 3000 };

guint64 receiving_now(GstGozdritRecv *self) { return element_time_now(&self->time) / MILLISECOND; }

/* ---- caps */

/* The two SSRCs of a group (RFC 5576), as an SDP attribute in caps: "FID 1234 5678". */
static void read_group(recv_caps *read, const GstCaps *caps) {
    const gchar *text = gst_structure_get_string(gst_caps_get_structure(caps, 0), "a-ssrc-group");
    unsigned media, rtx;
    if (!text || sscanf(text, "FID %u %u", &media, &rtx) != 2) return;
    if (read->ssrc < 0) read->ssrc = media;
    if (read->rtx_ssrc < 0) read->rtx_ssrc = rtx;
}

/* What the caps don't tell. */
gint64 receiving_static_rate(gint64 type) {
    const GstRTPPayloadInfo *info = type >= 0 && type < 96 ? gst_rtp_payload_info_for_pt((guint8)type) : NULL;
    return info ? (gint64)info->clock_rate : -1;
}

gint64 receiving_wanted_type(const GstGozdritRecv *self) {
    if (self->settings.type >= 0 || self->in_place) return self->settings.type;
    return self->caps.type;
}

static gint64 wanted_ssrc(const GstGozdritRecv *self) {
    if (self->settings.ssrc != SSRC_UNSET) return self->settings.ssrc;
    return self->in_place ? -1 : self->caps.ssrc;
}

/* Whether the session has another type or SSRC than the caps want. */
static gboolean is_other(const GstGozdritRecv *self, const recv_caps *read) {
    return self->stream->end.held && !self->in_place &&
           ((read->type >= 0 && self->settings.type < 0 && read->type != self->stream->session.media_payload_type) ||
            (read->ssrc >= 0 && self->settings.ssrc == SSRC_UNSET && read->ssrc != self->stream->session.media_ssrc));
}

gboolean receiving_is_rtx(const GstCaps *caps) {
    const gchar *name = gst_structure_get_string(gst_caps_get_structure(caps, 0), "encoding-name");
    return name && g_ascii_strcasecmp(name, "RTX") == 0;
}

/* The caps of the retransmissions (RFC 4588, section 8.6): `apt` is the type of the media. */
static gboolean read_rtx_caps(recv_caps *known, const GstCaps *caps) {
    if (!receiving_is_rtx(caps)) return FALSE;
    known->rtx_type = caps_number(caps, "payload", known->rtx_type);
    known->rtx_ssrc = caps_number(caps, "ssrc", known->rtx_ssrc);
    if (known->type < 0) known->type = caps_number(caps, "apt", -1);
    return TRUE;
}

/* The clock rate of the caps is that of all types, but in a jitter buffer's place, where each packet's type is asked for. */
static void read_rate(GstGozdritRecv *self, recv_caps *read) {
    if (self->in_place) {
        ptmap_forget(self);
        return;
    }
    if (read->clock_rate <= 0) read->clock_rate = receiving_static_rate(read->type);
    if (read->clock_rate != self->stream->times.clock_rate) rtp_times_begin(&self->stream->times, read->clock_rate);
}

gboolean receiving_caps(GstGozdritRecv *self, const GstCaps *caps) {
    recv_caps read = {0};
    if (!self->in_place && read_rtx_caps(&self->caps, caps)) return FALSE;
    read.type = caps_number(caps, "payload", -1);
    read.rtx_type = caps_number(caps, "rtx-payload-type", caps_number(caps, "rtx-payload", self->caps.rtx_type));
    read.ssrc = caps_number(caps, "ssrc", -1);
    read.rtx_ssrc = caps_number(caps, "rtx-ssrc", -1);
    read.nack = caps_number(caps, "rtcp-fb-nack", -1);
    read.pli = caps_number(caps, "rtcp-fb-nack-pli", 0) > 0;
    read.fir = caps_number(caps, "rtcp-fb-ccm-fir", 0) > 0;
    read.first = caps_number(caps, "seqnum-base", -1);
    read.clock_rate = caps_number(caps, "clock-rate", -1);
    read_group(&read, caps);
    if (read.rtx_ssrc < 0) read.rtx_ssrc = self->caps.rtx_ssrc;
    for (EACH_STREAM(self, at)) {
        if (is_other(self, &read)) {
            receiving_end(self);
            strangers_forget(&self->strangers);
        }
        read_rate(self, &read);
    }
    self->caps = read;
    ptmap_read_play(self, caps);
    sync_read_caps(self, caps);
    asking_set(self);
    return TRUE;
}

/* ---- the session */

static gboolean is_free_ssrc(const GstGozdritRecv *self) { return wanted_ssrc(self) < 0; }

gboolean receiving_is_free(const GstGozdritRecv *self) {
    return is_free_ssrc(self) && self->settings.rtx_ssrc == SSRC_UNSET && self->caps.rtx_ssrc < 0;
}

/* The type of the retransmissions of media of a type. */
static guint8 rtx_type_of(const GstGozdritRecv *self, guint8 media) {
    gint64 type = self->settings.rtx_type >= 0 ? self->settings.rtx_type : self->types.of[media];
    if (type < 0) type = self->caps.rtx_type;
    return type >= 0 && type < 128 ? (guint8)type : RTX_TYPE;
}

gboolean receiving_is_rtx_type(const GstGozdritRecv *self, guint8 type) {
    return !self->in_place && (type == self->stream->rtx_type || self->types.from[type] >= 0);
}

/* The SSRC of the retransmissions of media of an SSRC, as a property or the caps say it; or -1. */
static gint64 rtx_ssrc_of(const GstGozdritRecv *self, guint32 media) {
    gint64 mapped = map_find(self->ssrcs, media);
    if (self->settings.rtx_ssrc != SSRC_UNSET) return self->settings.rtx_ssrc;
    return mapped >= 0 ? mapped : self->caps.rtx_ssrc;
}

gboolean receiving_is_taken(const GstGozdritRecv *self, guint32 ssrc) {
    if (self->in_place) return FALSE;
    gint64 rtx = self->settings.rtx_ssrc != SSRC_UNSET ? (gint64)self->settings.rtx_ssrc : self->caps.rtx_ssrc;
    gboolean is_ours = self->settings.receiver_ssrc != SSRC_UNSET && ssrc == self->settings.receiver_ssrc;
    return ssrc == rtx || is_ours || map_leads_to(self->ssrcs, ssrc);
}

/* The types and the SSRCs of a session in a jitter buffer's place: all packets are media there, but those that are flagged as repairs. Their
 * types are the element's affair alone, and what the library knows repairs by is no packet's. */
static void configure_in_place(guint8 type, gozdrit_session *session) {
    session->media_payload_type = type < 64 || type >= 96 ? type : RTX_TYPE - 1;
    session->rtx_payload_type = session->media_payload_type == RTX_TYPE ? RTX_TYPE + 1 : RTX_TYPE;
}

/* A session of what properties and caps say, and, where they say nothing, of the packet that begins it. */
static void configure(GstGozdritRecv *self, guint8 type, guint32 ssrc, gozdrit_receiver_config *config) {
    const recv_settings *settings = &self->settings;
    gozdrit_session *session = &config->session;
    gint64 rtx = self->in_place ? -1 : rtx_ssrc_of(self, ssrc);
    gozdrit_receiver_defaults(config, sizeof *config);
    session->media_ssrc = ssrc;
    session->media_payload_type = type;
    session->any_media_payload_type = 1;
    session->rtx_payload_type = library_rtx_type(rtx_type_of(self, type), type);
    if (self->in_place) configure_in_place(type, session);
    config->learn_rtx_ssrc = rtx < 0 && !self->in_place;
    session->receiver_ssrc = settings->receiver_ssrc;
    if (session->receiver_ssrc == SSRC_UNSET) session->receiver_ssrc = draw_ssrc(ssrc, (guint32)rtx);
    session->rtx_ssrc = rtx < 0 ? draw_ssrc(ssrc, session->receiver_ssrc) : (guint32)rtx;
    config->latency = settings->latency;
    config->reorder_delay = settings->delay;
    config->max_nacks = (guint8)settings->nacks;
    config->window = WINDOW_OF(settings);
}

/* Those of 64 to 95 with a marker look as RTCP does (RFC 5761, section 4). */
gboolean receiving_is_wanted(const GstGozdritRecv *self, const guint8 *octets) {
    gint64 wanted = receiving_wanted_type(self);
    guint8 type = PACKET_TYPE(octets);
    gboolean is_odd = type >= 64 && type < 96 && (!self->in_place || octets[1] & 128);
    if (wanted >= 0 ? type != wanted : is_odd) return FALSE;
    return self->in_place || !self->types.given || self->types.of[type] >= 0; /* else it has no retransmissions */
}

/* Begins a session with a packet. FALSE where it is none of a session that could be. */
static gboolean begin(GstGozdritRecv *self, GstBuffer *buffer, const guint8 *octets, gsize length, guint64 now) {
    gint64 type = receiving_wanted_type(self), ssrc = wanted_ssrc(self);
    gozdrit_receiver_config config;
    if (length < 12 || octets[0] >> 6 != 2 || !receiving_is_wanted(self, octets)) return FALSE;
    configure(self, PACKET_TYPE(octets), ssrc >= 0 ? (guint32)ssrc : PACKET_SSRC(octets), &config);
    if (ssrc >= 0 ? ssrc != PACKET_SSRC(octets) : receiving_is_taken(self, PACKET_SSRC(octets))) return FALSE;
    /* a repair came first */
    if (type < 0 && config.session.rtx_payload_type == config.session.media_payload_type) return FALSE;
    self->untold.refused = gozdrit_receiver_new(&config, &self->stream->end);
    if (self->untold.refused != GOZDRIT_OK) return FALSE;
    self->stream->earns = FALSE;
    feedback_set_budget(self);
    self->stream->session = config.session;
    self->stream->rtx_type = rtx_type_of(self, PACKET_TYPE(octets));
    self->sessions++;
    if (self->caps.first >= 0) gozdrit_begin(&self->stream->end, (guint16)self->caps.first);
    self->caps.first = -1; /* is the first stream's alone */
    if (self->stream->times.clock_rate == 0 && !self->in_place) rtp_times_begin(&self->stream->times, receiving_static_rate(PACKET_TYPE(octets)));
    playing_begin_stream(self);
    strangers_begin(&self->strangers, buffer, now);
    asking_set_stream(self);
    return TRUE;
}

void receiving_end(GstGozdritRecv *self) {
    gst_clear_buffer(&self->other.buffer);
    if (!self->stream->end.held) return;
    playing_stream(self, G_MAXINT64); /* at this time no latency has not passed */
    playing_release(self);
    counts_add(self, &self->past, &self->past_probes);
    gozdrit_receiver_free(&self->stream->end);
    g_clear_pointer(&self->stream->asked, g_free);
    playing_forget(self);
    ptmap_begin_times(self);
    sync_forget(self);
}

void receiving_end_all(GstGozdritRecv *self) {
    for (EACH_STREAM(self, at)) receiving_end(self);
}

void receiving_flush(GstGozdritRecv *self) {
    gst_clear_buffer(&self->other.buffer);
    strangers_forget(&self->strangers);
    sync_forget(self);
    playing_clear(self);
    for (EACH_STREAM(self, at)) {
        if (self->stream->end.held) gozdrit_reset(&self->stream->end);
        ptmap_begin_times(self);
        playing_forget(self);
        playing_begin_stream(self);
    }
}

/* ---- packets */

/* The time with which a packet came. One without a time came now. */
static GstClockTime time_of(GstGozdritRecv *self, GstBuffer *buffer) {
    if (GST_BUFFER_PTS_IS_VALID(buffer)) return GST_BUFFER_PTS(buffer);
    if (GST_BUFFER_DTS_IS_VALID(buffer)) return GST_BUFFER_DTS(buffer);
    GST_OBJECT_LOCK(self);
    gboolean is_playing = GST_STATE(self) == GST_STATE_PLAYING;
    GST_OBJECT_UNLOCK(self);
    GstClockTime now = is_playing ? gst_element_get_current_running_time(GST_ELEMENT(self)) : GST_CLOCK_TIME_NONE;
    if (!GST_CLOCK_TIME_IS_VALID(now) || self->segment.format != GST_FORMAT_TIME) return GST_CLOCK_TIME_NONE;
    return gst_segment_position_from_running_time(&self->segment, GST_FORMAT_TIME, now);
}

/* In a jitter buffer's place what the library can't hold keeps its place all the same. */
static gboolean is_long(const GstGozdritRecv *self, const guint8 *octets, gsize length) {
    return self->in_place && jitter_is_long(octets, length);
}

/* Notes how a media packet came that was taken, or held back. */
static void note_arrival(GstGozdritRecv *self, GstBuffer *buffer, const guint8 *octets, gsize length, gboolean believed) {
    arrival *noted = &self->stream->arrivals[PACKET_SEQUENCE(octets) % ARRIVALS];
    gst_buffer_replace(&noted->buffer, buffer);
    noted->pts = time_of(self, buffer);
    noted->dts = GST_BUFFER_DTS(buffer);
    noted->timestamp = PACKET_TIMESTAMP(octets);
    noted->number = PACKET_SEQUENCE(octets);
    noted->type = PACKET_TYPE(octets);
    noted->is_repair = FALSE;
    noted->is_taken = believed;
    noted->is_long = is_long(self, octets, length);
    self->stream->last_type = noted->type;
    self->stream->newest = noted->timestamp;
    auxiliary_came(self, noted->number);
    if (believed) rtp_times_arrived(ptmap_times(self, noted->type), noted->timestamp, noted->pts);
    if (believed) ptmap_note_time(self, noted->timestamp);
}

/* The type of the media that retransmissions of a type are of: what a map says, or that of the first packet. */
static guint8 type_behind(const GstGozdritRecv *self, guint8 rtx_type) {
    gint64 mapped = self->types.from[rtx_type];
    return mapped >= 0 ? (guint8)mapped : self->stream->session.media_payload_type;
}

/* Notes the buffer of a packet's repair: when that came says nothing of the packet's time. */
static void note_repair(GstGozdritRecv *self, GstBuffer *buffer, const guint8 *octets, gsize length, guint64 sequence) {
    arrival *noted = &self->stream->arrivals[(guint16)sequence % ARRIVALS];
    gst_buffer_replace(&noted->buffer, buffer);
    noted->timestamp = PACKET_TIMESTAMP(octets);
    noted->number = (guint16)sequence;
    noted->type = PACKET_SSRC(octets) == self->stream->session.media_ssrc ? PACKET_TYPE(octets) : type_behind(self, PACKET_TYPE(octets));
    noted->is_repair = TRUE;
    noted->is_long = is_long(self, octets, length);
}

/* The stream goes on elsewhere: what came with the old numbers goes out before it. */
static void restarted(GstGozdritRecv *self, GstBuffer *buffer, const guint8 *octets, gsize length) {
    playing_release(self);
    playing_begin_stream(self);
    playing_forget(self);
    ptmap_begin_times(self);
    note_arrival(self, buffer, octets, length, TRUE);
}

static void take(GstGozdritRecv *self, GstBuffer *buffer, const guint8 *octets, gsize length, guint64 now);

/* Whether it is a media packet of another SSRC. While that of the retransmissions is learnt, such a one is refused for its
 * type. */
static gboolean is_other_stream(const GstGozdritRecv *self, const guint8 *octets, guint8 refusal) {
    return (refusal == GOZDRIT_UNKNOWN_SSRC || refusal == GOZDRIT_UNKNOWN_PAYLOAD_TYPE) && is_free_ssrc(self) &&
           (self->in_place || PACKET_TYPE(octets) == self->stream->session.media_payload_type) && PACKET_SSRC(octets) != self->stream->session.media_ssrc &&
           !receiving_is_taken(self, PACKET_SSRC(octets));
}

/* A media packet of another SSRC in a jitter buffer's place, where it comes to an rtpbin's stream of one SSRC. Two in sequence of one SSRC are a stream
 * that takes the place of this one: the far side began anew. */
static void take_second(GstGozdritRecv *self, GstBuffer *buffer, const guint8 *octets, gsize length, guint64 now) {
    candidate *other = &self->other;
    GstMapInfo map;
    if (!other->buffer || other->ssrc != PACKET_SSRC(octets) || other->next != PACKET_SEQUENCE(octets)) {
        gst_buffer_replace(&other->buffer, buffer);
        other->is_known = TRUE;
        other->ssrc = PACKET_SSRC(octets);
        other->next = (guint16)(PACKET_SEQUENCE(octets) + 1);
        return;
    }
    GstBuffer *first = g_steal_pointer(&other->buffer);
    receiving_end(self);
    if (gst_buffer_map(first, &map, GST_MAP_READ)) {
        if (begin(self, first, map.data, map.size, now)) take(self, first, map.data, map.size, now);
        gst_buffer_unmap(first, &map);
    }
    gst_buffer_unref(first);
    if (self->stream->end.held) take(self, buffer, octets, length, now);
}

/* Whether a packet goes on with the session, by its SSRC and number. */
static gboolean goes_on(const GstGozdritRecv *self, const guint8 *octets) {
    gozdrit_sequence highest = {0};
    gozdrit_highest_sequence(&self->stream->end, &highest);
    guint16 ahead = (guint16)(PACKET_SEQUENCE(octets) - highest.sequence);
    return PACKET_SSRC(octets) == self->stream->session.media_ssrc && highest.known && 0 < ahead && ahead < MAX(WINDOW_OF(&self->settings), USUAL_REACH);
}

/* A packet of somebody who is not heard is dropped and counted, and told now and then. */
static void drop_stranger(GstGozdritRecv *self, GstBuffer *buffer, const guint8 *octets, gsize length, guint64 now) {
    self->strays++;
    if (length < 12) return;
    stranger_told told = strangers_drop(&self->strangers, buffer, octets, now);
    if (told.dropped > 0) self->untold.strangers = told;
}

/* A packet of a stranger: media of another SSRC than the session's, or from another address, where nobody said which SSRC it has to be. Only
 * what may begin a session ends one. */
static void take_stranger(GstGozdritRecv *self, GstBuffer *buffer, const guint8 *octets, gsize length, guint64 now) {
    stranger_step step = STRANGER_PASSES;
    if (receiving_is_wanted(self, octets)) step = strangers_hear(&self->strangers, buffer, octets, goes_on(self, octets), now);
    if (step == STRANGER_PASSES) {
        drop_stranger(self, buffer, octets, length, now);
        return;
    }
    GST_INFO_OBJECT(self, "SSRC %08x %s, where there was %08x", PACKET_SSRC(octets), step == STRANGER_MOVES ? "is elsewhere" : "begins a session",
                    self->stream->session.media_ssrc);
    if (step == STRANGER_FALLS) receiving_end(self);
    if (step == STRANGER_MOVES && self->stream->earns) gozdrit_set_nack_budget(&self->stream->end, 1); /* nothing came from there */
    if (step == STRANGER_MOVES || begin(self, buffer, octets, length, now)) take(self, buffer, octets, length, now);
}

/* The type by which the library is to know a packet: it takes one of the media and one of the retransmissions. A packet of the media's SSRC
 * has its place in the sequence whatever its type is, as comfort noise has. Where retransmissions come with another type than the library
 * knows them by, each of the two stands for the other one. */
static guint8 library_type(const GstGozdritRecv *self, const guint8 *octets) {
    guint8 type = PACKET_TYPE(octets), known = self->stream->session.rtx_payload_type;
    if (receiving_is_rtx_type(self, type)) return known;
    gboolean may_be_media = self->in_place || type < 64 || type >= 96;
    if (PACKET_SSRC(octets) == self->stream->session.media_ssrc && may_be_media) return self->stream->session.media_payload_type;
    return type == known ? self->stream->rtx_type : type;
}

/* A packet as the library is to have it, where that is not as it came, and then it is to be freed; or NULL. */
static guint8 *rewritten(GstGozdritRecv *self, GstBuffer *buffer, const guint8 *octets, gsize *length) {
    guint8 *copy = NULL;
    if (*length < 12) return NULL;
    gboolean stands_in = is_long(self, octets, *length);
    if (auxiliary_is_repair(self, buffer, octets, *length)) {
        guint8 *other = stands_in ? jitter_stand_in(octets, PACKET_TYPE(octets), length) : NULL;
        copy = auxiliary_wrap(self, other ? other : octets, *length);
        if (copy) *length += 2;
        g_free(other);
    } else if (stands_in) {
        copy = jitter_stand_in(octets, library_type(self, octets), length);
    } else if (library_type(self, octets) != PACKET_TYPE(octets)) {
        copy = g_malloc(*length);
        memcpy(copy, octets, *length);
        copy[1] = (guint8)((octets[1] & 128) | library_type(self, octets));
    }
    return copy;
}

/* Hands a packet to the library. */
static gint32 receive(GstGozdritRecv *self, GstBuffer *buffer, const guint8 *octets, gsize length, guint64 now, gozdrit_received *received) {
    guint8 *other = rewritten(self, buffer, octets, &length);
    const guint8 *handed = other ? other : octets;
    if (length >= 12 && PACKET_TYPE(handed) == self->stream->session.rtx_payload_type) self->rtx_came++;
    asking_see(self, now);
    gint32 number = gozdrit_receive(&self->stream->end, handed, length, now, received);
    g_free(other);
    return number;
}

/* Whether the library knows nothing of a packet's stream. */
static gboolean is_unknown(const GstGozdritRecv *self, const guint8 *octets, gsize length, guint8 refusal) {
    return length >= 12 && (refusal == GOZDRIT_UNKNOWN_SSRC || refusal == GOZDRIT_UNKNOWN_PAYLOAD_TYPE) &&
           PACKET_SSRC(octets) != self->stream->session.media_ssrc && !receiving_is_taken(self, PACKET_SSRC(octets));
}

/* Where nobody takes feedback, packets of other streams go through. One of them takes the place of the one stream where that is gone. */
static void pass_other(GstGozdritRecv *self, GstBuffer *buffer, const guint8 *octets, gsize length, guint64 now) {
    gboolean may_take = is_free_ssrc(self) && !streams_are_several(self) && !receiving_is_rtx_type(self, PACKET_TYPE(octets));
    if (may_take && auxiliary_takes_over(self, octets, now)) {
        receiving_end(self);
        if (begin(self, buffer, octets, length, now)) take(self, buffer, octets, length, now);
    } else {
        playing_pass(self, buffer);
    }
}

/* The number of a packet that came too late, and its time. A retransmission has the number of its packet in front of the payload. */
static void note_late(GstGozdritRecv *self, GstBuffer *buffer, const guint8 *octets, gsize length) {
    gsize head = packet_head(octets, length);
    gboolean is_media = PACKET_SSRC(octets) == self->stream->session.media_ssrc;
    if (!is_media && (head == 0 || length < head + 2)) return;
    GstClockTime own = rtp_times_of(ptmap_times(self, PACKET_TYPE(octets)), PACKET_TIMESTAMP(octets));
    jitter_dropped(self, GST_READ_UINT16_BE(octets + (is_media ? 2 : head)), GST_CLOCK_TIME_IS_VALID(own) ? own : GST_BUFFER_PTS(buffer), TRUE);
}

static void refuse(GstGozdritRecv *self, GstBuffer *buffer, const guint8 *octets, gsize length, guint64 now, guint8 refusal) {
    GST_LOG_OBJECT(self, "not taken: %s", gozdrit_refusal_name(refusal));
    if (refusal == GOZDRIT_LATE) note_late(self, buffer, octets, length);
    if (refusal == GOZDRIT_TOO_LONG) self->untold.refused = GOZDRIT_TOO_LONG;
    if (auxiliary_is(self) && is_unknown(self, octets, length, refusal)) pass_other(self, buffer, octets, length, now);
    else if (is_other_stream(self, octets, refusal)) (self->in_place ? take_second : take_stranger)(self, buffer, octets, length, now);
}

/* What the session took keeps it. What is held back after a jump does not, before the stream goes on there. */
static void note_taken(GstGozdritRecv *self, guint8 kind, guint64 now) {
    if (kind == GOZDRIT_MEDIA || kind == GOZDRIT_RESTARTED || kind == GOZDRIT_RETRANSMISSION) strangers_took(&self->strangers, now);
}

static void take(GstGozdritRecv *self, GstBuffer *buffer, const guint8 *octets, gsize length, guint64 now) {
    gozdrit_received received = GOZDRIT_RECEIVED_INIT;
    strangers_came(&self->strangers, buffer, now);
    if (receive(self, buffer, octets, length, now, &received) != GOZDRIT_OK) return;
    note_taken(self, received.kind, now);
    if (received.kind != GOZDRIT_REFUSED && received.kind != GOZDRIT_RTCP) self->stream->last_media = now;
    switch (received.kind) {
    case GOZDRIT_MEDIA: note_arrival(self, buffer, octets, length, TRUE); break;
    case GOZDRIT_HELD_BACK: note_arrival(self, buffer, octets, length, FALSE); break;
    case GOZDRIT_RETRANSMISSION: note_repair(self, buffer, octets, length, received.sequence); break;
    case GOZDRIT_RESTARTED: restarted(self, buffer, octets, length); break;
    case GOZDRIT_REFUSED: refuse(self, buffer, octets, length, now, received.refusal); break;
    default: break;
    }
}

/* A packet that the library is not asked about goes through. What is no RTP goes nowhere. */
static void pass(GstGozdritRecv *self, GstBuffer *buffer, const guint8 *octets, gsize length) {
    gozdrit_packet read;
    gint32 number = gozdrit_rtp_read(octets, length, &read);
    if (number == GOZDRIT_OK || number == GOZDRIT_TOO_LONG) playing_pass(self, buffer);
    else self->strays++;
}

/* Whether a packet of the session's SSRC comes from another address than its sender's, where nobody named the SSRC. Who named it, and what sorts streams
 * before the element, have said who is heard. */
static gboolean is_elsewhere(const GstGozdritRecv *self, GstBuffer *buffer, const guint8 *octets, gsize length) {
    gozdrit_packet read;
    return length >= 12 && PACKET_SSRC(octets) == self->stream->session.media_ssrc && (PACKET_TYPE(octets) < 64 || PACKET_TYPE(octets) >= 96) &&
           strangers_is_elsewhere(&self->strangers, buffer) && is_free_ssrc(self) && !self->in_place && !auxiliary_is(self) &&
           gozdrit_rtp_read(octets, length, &read) == GOZDRIT_OK; /* what is no RTP is the library's to refuse */
}

/* A packet of the stream that is meant. */
static void take_one(GstGozdritRecv *self, GstBuffer *buffer, const guint8 *octets, gsize length, guint64 now) {
    gboolean is_made = GST_BUFFER_FLAG_IS_SET(buffer, GST_RTP_BUFFER_FLAG_RETRANSMISSION); /* no stream begins with a repair */
    if (self->stream->end.held && is_elsewhere(self, buffer, octets, length)) take_stranger(self, buffer, octets, length, now);
    else if (self->stream->end.held || (!is_made && begin(self, buffer, octets, length, now))) take(self, buffer, octets, length, now);
    else if (auxiliary_is(self)) pass(self, buffer, octets, length);
    else self->strays++;
}

void receiving_packet(GstGozdritRecv *self, GstBuffer *buffer, const guint8 *octets, gsize length, guint64 now) {
    if (!peers_admit(&self->peers, buffer)) {
        drop_stranger(self, buffer, octets, length, now);
        return;
    }
    switch (streams_of(self, buffer, octets, length, now)) {
    case DESTINY_STREAM: take_one(self, buffer, octets, length, now); break;
    case DESTINY_THROUGH: pass(self, buffer, octets, length); break;
    case DESTINY_NOWHERE: break;
    }
    streams_first(self);
}
