#include "stream.h"

/* The library's two types: it keeps none with a packet, and what goes out has its own. */
enum { LIBRARY_TYPE = 96, LIBRARY_RTX_TYPE = 97 };

send_stream *stream_new(guint32 ssrc, guint32 media_ssrc) {
    send_stream *stream = g_new0(send_stream, 1);
    stream->ssrc = ssrc;
    stream->media_ssrc = media_ssrc;
    stream->rtx_first = stream->rtx_next = (guint16)g_random_int();
    stream->clock_rate = stream->told_first = stream->full_request = -1;
    stream->is_silent = TRUE;
    stream->past = stream->made = (gozdrit_send_counts)GOZDRIT_SEND_COUNTS_INIT;
    return stream;
}

void stream_end(send_stream *stream) {
    gozdrit_send_counts counts = GOZDRIT_SEND_COUNTS_INIT;
    gst_clear_buffer(&stream->jumped);
    if (gozdrit_sender_counts(&stream->end, &counts) != GOZDRIT_OK) return;
    add_counts(&stream->past, &counts, sizeof counts);
    gozdrit_sender_free(&stream->end);
    for (guint i = 0; i < stream->size; i++) gst_clear_buffer(&stream->places[i].late);
    g_clear_pointer(&stream->places, g_free);
}

void stream_free(send_stream *stream) {
    stream_end(stream);
    g_free(stream);
}

void stream_add_counts(const send_stream *stream, gozdrit_send_counts *sum) {
    gozdrit_send_counts counts = GOZDRIT_SEND_COUNTS_INIT;
    if (gozdrit_sender_counts(&stream->end, &counts) == GOZDRIT_OK) add_counts(sum, &counts, sizeof counts);
    add_counts(sum, &stream->past, sizeof stream->past);
    add_counts(sum, &stream->made, sizeof stream->made);
}

/* ---- numbers */

guint16 stream_number(send_stream *stream, guint32 ssrc, guint16 own, gint first) {
    if (!stream->is_numbered) {
        stream->shift = (guint16)(first >= 0 ? first - own : 0);
        stream->is_numbered = TRUE;
    } else if (stream->ssrc != ssrc) { /* another one takes its place, and goes on with its numbers */
        stream->shift = (guint16)(stream->after - own);
    }
    stream->ssrc = ssrc;
    return (guint16)(own + stream->shift);
}

/* ---- the history */

static gint32 begin(send_stream *stream, const send_settings *settings, guint16 first) {
    gozdrit_sender_config config;
    stream_end(stream);
    gozdrit_sender_defaults(&config, sizeof config);
    config.any_reporter = settings->receiver_ssrc == SSRC_UNSET;
    config.session = (gozdrit_session){.media_ssrc = stream->media_ssrc, .rtx_ssrc = stream->rtx_ssrc, .media_payload_type = LIBRARY_TYPE,
                                       .rtx_payload_type = LIBRARY_RTX_TYPE, .receiver_ssrc = settings->receiver_ssrc};
    if (config.any_reporter) config.session.receiver_ssrc = draw_ssrc(stream->media_ssrc, stream->rtx_ssrc);
    gboolean is_most = settings->history == 0 || settings->history > GOZDRIT_MAX_STORE;
    config.history = is_most ? GOZDRIT_MAX_STORE : settings->history;
    config.max_retransmissions = (guint8)settings->repeats;
    if (settings->min_interval >= 0) config.min_resend = (guint64)settings->min_interval; /* else the library's own, and: */
    config.deadline = settings->max_time;
    config.first_sequence = first;
    gint32 number = gozdrit_sender_new(&config, &stream->end);
    if (number != GOZDRIT_OK) return number;
    gozdrit_sender_set_adaptive(&stream->end, settings->min_interval < 0);
    stream->receiver_ssrc = config.session.receiver_ssrc;
    stream->has_rule = settings->min_interval != 0 || settings->max_time > 0;
    stream->max_time = settings->max_time;
    stream->size = config.history;
    stream->places = g_new0(place, stream->size);
    stream->next = G_GUINT64_CONSTANT(65536) + first;
    GST_DEBUG("SSRC %08x: a history of %u packets from %u on, retransmitted with SSRC %08x", stream->media_ssrc, stream->size, first,
              stream->rtx_ssrc);
    return GOZDRIT_OK;
}

static place *place_of(const send_stream *stream, guint64 sequence) { return &stream->places[sequence % stream->size]; }

void stream_tell_time(send_stream *stream, guint64 now) {
    if (stream->end.held && stream->has_rule) gozdrit_sender_set_time(&stream->end, now);
}

/* The words of a header extension. There are no more than the library takes. */
static void read_extension(GstRTPBuffer *rtp, gozdrit_header *header) {
    gpointer octets;
    guint words = 0;
    if (!gst_rtp_buffer_get_extension_data(rtp, &header->extension_profile, &octets, &words)) return;
    header->has_extension = 1;
    header->extension_words = (guint8)words;
    for (guint i = 0; i < words; i++) header->extension[i] = GST_READ_UINT32_BE((const guint8 *)octets + 4 * i);
}

static void read_header(GstRTPBuffer *rtp, gozdrit_header *header) {
    header->timestamp = gst_rtp_buffer_get_timestamp(rtp);
    header->marker = (gozdrit_bool)gst_rtp_buffer_get_marker(rtp);
    header->csrc_count = gst_rtp_buffer_get_csrc_count(rtp);
    header->has_extension = 0;
    for (guint8 i = 0; i < header->csrc_count; i++) header->csrcs[i] = gst_rtp_buffer_get_csrc(rtp, i);
    read_extension(rtp, header);
}

/* Hands the next packet to the library, or a blank. What it writes is the packet as it came, and goes nowhere. */
static gint32 hand_over(send_stream *stream, const gozdrit_header *header, const guint8 *payload, guint length, place noted) {
    gozdrit_sent sent = GOZDRIT_SENT_INIT;
    guint8 out[GOZDRIT_MAX_DATAGRAM];
    gint32 number = gozdrit_send(&stream->end, header, payload, length, 0, &sent, out, sizeof out);
    if (number != GOZDRIT_OK) return number;
    place *at = place_of(stream, sent.sequence);
    gst_clear_buffer(&at->late);
    *at = noted;
    at->sequence = sent.sequence;
    stream->next = sent.sequence + 1;
    return GOZDRIT_OK;
}

static gint32 leave_blank(send_stream *stream) {
    static const gozdrit_header blank;
    stream->made.sent--; /* it is counted as sent, and is not */
    return hand_over(stream, &blank, NULL, 0, (place){.blank = TRUE});
}

/* Keeps a packet that has the next number. */
static gint32 keep(send_stream *stream, const stream_packet *packet) {
    gozdrit_header header;
    read_header(packet->rtp, &header);
    stream->newest = header.timestamp;
    return hand_over(stream, &header, gst_rtp_buffer_get_payload(packet->rtp), gst_rtp_buffer_get_payload_len(packet->rtp),
                     (place){.timestamp = header.timestamp, .rtx_type = packet->rtx_type});
}

/* Keeps a packet beside the library's blank of its number. */
static void keep_late(send_stream *stream, place *at, const stream_packet *packet) {
    at->late = gst_buffer_ref(packet->buffer);
    at->timestamp = gst_rtp_buffer_get_timestamp(packet->rtp);
    at->rtx_type = packet->rtx_type;
    stream->made.sent++;
    stream->made.octets += gst_rtp_buffer_get_payload_len(packet->rtp);
}

/* A packet whose number is the next one or lies so many above it. */
static gint32 take_ahead(send_stream *stream, const stream_packet *packet, guint blanks) {
    gint32 number = GOZDRIT_OK;
    gst_clear_buffer(&stream->jumped);
    for (; blanks > 0 && number == GOZDRIT_OK; blanks--) number = leave_blank(stream);
    if (number == GOZDRIT_OK) number = packet->is_kept ? keep(stream, packet) : leave_blank(stream);
    return number;
}

/* A packet that lies where no number is near is none of the stream, unless the next one follows it: then the stream goes on there, and
 * what went before has another one's numbers. */
static gint32 take_jumped(send_stream *stream, const send_settings *settings, const stream_packet *packet) {
    GstRTPBuffer rtp = GST_RTP_BUFFER_INIT;
    gboolean goes_on = stream->jumped && stream->behind_jumped == packet->number;
    gint32 number = GOZDRIT_OK;
    if (!packet->is_kept) return GOZDRIT_OK;
    if (!goes_on) {
        gst_buffer_replace(&stream->jumped, packet->buffer);
        stream->jumped_rtx_type = packet->rtx_type;
        stream->behind_jumped = (guint16)(packet->number + 1);
        return GOZDRIT_OK;
    }
    GstBuffer *before = g_steal_pointer(&stream->jumped);
    if (gst_rtp_buffer_map(before, GST_MAP_READ, &rtp)) {
        number = begin(stream, settings, (guint16)(packet->number - 1));
        if (number == GOZDRIT_OK) number = keep(stream, &(stream_packet){.rtp = &rtp, .rtx_type = stream->jumped_rtx_type});
        gst_rtp_buffer_unmap(&rtp);
        if (number == GOZDRIT_OK) number = keep(stream, packet);
    }
    gst_buffer_unref(before);
    return number;
}

/* What the place of a packet, whose number lies so far from the next one's, makes of it. */
static gint32 take_near(send_stream *stream, const send_settings *settings, const stream_packet *packet, gint ahead) {
    if (ahead >= 0 && (guint)ahead < stream->size) return take_ahead(stream, packet, (guint)ahead);
    if (ahead >= 0 || (guint)-ahead > stream->size) return take_jumped(stream, settings, packet);
    guint64 sequence = stream->next - (guint64)-ahead;
    place *at = place_of(stream, sequence);
    if (at->sequence != sequence) return take_jumped(stream, settings, packet); /* before the first one */
    gboolean came = !at->blank || at->late;
    if (came && at->timestamp != gst_rtp_buffer_get_timestamp(packet->rtp)) return take_jumped(stream, settings, packet);
    if (!came && packet->is_kept) keep_late(stream, at, packet);
    return GOZDRIT_OK;
}

gint32 stream_take(send_stream *stream, const send_settings *settings, const stream_packet *packet, guint64 now) {
    gint32 number = GOZDRIT_OK;
    if (!stream->end.held && packet->is_kept) number = begin(stream, settings, packet->number);
    stream->after = (guint16)(packet->number + 1);
    if (number != GOZDRIT_OK || !stream->end.held) return number;
    stream_tell_time(stream, now);
    number = take_near(stream, settings, packet, (gint16)(packet->number - (guint16)stream->next));
    stream->after = (guint16)stream->next;
    return number;
}

/* ---- retransmissions */

/* A retransmission of a packet that the library has not (RFC 4588, section 4): its header without padding, its number, and its payload,
 * which is not copied. The library's own one, of a blank, is not used. */
static GstBuffer *repair_late(GstBuffer *packet, guint16 number, rid_ids *ids) {
    GstRTPBuffer rtp = GST_RTP_BUFFER_INIT;
    GstMapInfo map;
    if (!gst_rtp_buffer_map(packet, GST_MAP_READ, &rtp)) return NULL;
    guint head = gst_rtp_buffer_get_header_len(&rtp);
    GstBuffer *out = gst_buffer_new_allocate(NULL, head + 2, NULL);
    gst_buffer_map(out, &map, GST_MAP_WRITE);
    gst_buffer_extract(packet, 0, map.data, head);
    map.data[0] &= (guint8)~32; /* no padding */
    GST_WRITE_UINT16_BE(map.data + head, number);
    gsize length = rids_rename(ids, map.data, map.size);
    gst_buffer_unmap(out, &map);
    gst_buffer_set_size(out, (gssize)length);
    out = gst_buffer_append(out, gst_rtp_buffer_get_payload_buffer(&rtp));
    gst_rtp_buffer_unmap(&rtp);
    return out;
}

/* Whether the timestamps say that a packet is past its time. */
static gboolean is_past(const send_stream *stream, const place *at) {
    gint64 age = (gint32)(stream->newest - at->timestamp);
    return stream->max_time > 0 && stream->clock_rate > 0 && age * 1000 > (gint64)stream->max_time * stream->clock_rate;
}

/* What the place of a retransmission makes of it: the library's octets, another packet, or NULL where it was blank or its time is over. */
static GstBuffer *repair_of(send_stream *stream, const place *at, guint8 *octets, gsize length, rid_ids *ids) {
    gboolean nothing = at->blank && !at->late, past = !nothing && is_past(stream, at);
    if (nothing || past) {
        GST_DEBUG("SSRC %08x: %u is not retransmitted, it %s", stream->media_ssrc, (guint16)at->sequence,
                  nothing ? "never came" : "is past its time");
        stream->made.retransmissions--;
        (*(nothing ? &stream->made.not_in_history : &stream->made.expired))++;
        return NULL;
    }
    if (at->late) return repair_late(at->late, (guint16)at->sequence, ids);
    return gst_buffer_new_memdup(octets, rids_rename(ids, octets, length));
}

/* Writes what the stream of retransmissions has of its own into a header: its type, number and SSRC. */
static void write_own(send_stream *stream, GstBuffer *out, const place *at) {
    GstMapInfo map;
    GST_DEBUG("SSRC %08x: %u is retransmitted as %u of SSRC %08x", stream->media_ssrc, (guint16)at->sequence, stream->rtx_next,
              stream->rtx_ssrc);
    gst_buffer_map_range(out, 0, 1, &map, GST_MAP_READWRITE);
    map.data[1] = (guint8)((map.data[1] & 128) | at->rtx_type);
    GST_WRITE_UINT16_BE(map.data + 2, stream->rtx_next++);
    GST_WRITE_UINT32_BE(map.data + 8, stream->rtx_ssrc);
    gst_buffer_unmap(out, &map);
}

/* What the library takes next. What it passes over, since that does not fit the time, shows in its counts alone. */
static gint32 retransmit(send_stream *stream, gozdrit_sent *sent, guint8 *octets, gsize room) {
    gozdrit_send_counts before = GOZDRIT_SEND_COUNTS_INIT, after = GOZDRIT_SEND_COUNTS_INIT;
    gboolean is_logged = stream->has_rule && gst_debug_category_get_threshold(GST_CAT_DEFAULT) >= GST_LEVEL_DEBUG;
    if (is_logged) gozdrit_sender_counts(&stream->end, &before);
    gint32 number = gozdrit_retransmit(&stream->end, sent, octets, room);
    if (is_logged) gozdrit_sender_counts(&stream->end, &after);
    if (after.early > before.early || after.expired > before.expired)
        GST_DEBUG("SSRC %08x: %u are not retransmitted again so early, and %u are past their time", stream->media_ssrc,
                  (guint)(after.early - before.early), (guint)(after.expired - before.expired));
    return number;
}

GstBuffer *stream_retransmission(send_stream *stream, guint64 now, rid_ids *ids) {
    guint8 octets[GOZDRIT_MAX_DATAGRAM];
    GstBuffer *out = NULL;
    stream_tell_time(stream, now);
    while (stream->end.held && !out) {
        gozdrit_sent sent = GOZDRIT_SENT_INIT;
        gint32 number = retransmit(stream, &sent, octets, sizeof octets);
        if (number != GOZDRIT_OK || sent.length == 0) return NULL;
        const place *at = place_of(stream, sent.sequence);
        out = repair_of(stream, at, octets, sent.length, ids);
        if (out) write_own(stream, out, at);
    }
    if (out) GST_BUFFER_FLAG_SET(out, GST_RTP_BUFFER_FLAG_RETRANSMISSION);
    return out;
}
