/* A sender's retransmissions of packets with header extensions: RtpStreamId becomes RepairedRtpStreamId, as rtprtxsend makes it. */
#include "checks.h"

#include <string.h>

#define STREAM_URI GST_RTP_HDREXT_BASE "sdes:rtp-stream-id"
#define REPAIRED_URI GST_RTP_HDREXT_BASE "sdes:repaired-rtp-stream-id"
#define MID_URI GST_RTP_HDREXT_BASE "sdes:mid"

enum { SHORT = 0xbede, LONG = 0x1000, MOST = 300 }; /* the two forms of extensions, and the most words of one here */

/* The octets of an extension. */
typedef struct block {
    guint8 octets[4 * MOST];
    guint length;
} block;

/* Reads hexadecimal digits, and fills the last word with 0. */
static block block_of(const gchar *text) {
    block b = {.length = 0};
    for (; text[0] && text[1]; text += 2)
        b.octets[b.length++] = (guint8)(g_ascii_xdigit_value(text[0]) << 4 | g_ascii_xdigit_value(text[1]));
    while (b.length % 4 != 0) b.octets[b.length++] = 0;
    return b;
}

/* Gives a packet of 12 octets and a payload CSRCs, which say 0, and an extension. */
static GstBuffer *extend(GstBuffer *packet, guint csrcs, guint16 profile, const block *b) {
    gsize size = gst_buffer_get_size(packet), head = 12 + 4 * csrcs;
    guint8 *octets = g_malloc0(size + 4 * csrcs + 4 + b->length);
    gst_buffer_extract(packet, 0, octets, 12);
    octets[0] |= (guint8)(16 | csrcs);
    GST_WRITE_UINT16_BE(octets + head, profile);
    GST_WRITE_UINT16_BE(octets + head + 2, (guint16)(b->length / 4));
    memcpy(octets + head + 4, b->octets, b->length);
    gst_buffer_extract(packet, 12, octets + head + 4 + b->length, size - 12);
    gst_buffer_unref(packet);
    return gst_buffer_new_wrapped(octets, head + 4 + b->length + size - 12);
}

/* An extension of an URI with an id, which is told to an element; or NULL where GStreamer has it not. */
static GstRTPHeaderExtension *tell(GstElement *element, const gchar *uri, guint id) {
    GstRTPHeaderExtension *extension = gst_rtp_header_extension_create_from_uri(uri);
    if (!extension) return NULL;
    if (id < 256) gst_rtp_header_extension_set_id(extension, id); /* else it has none */
    g_signal_emit_by_name(element, "add-extension", extension);
    return extension;
}

static void tell_both(GstElement *element, guint stream, guint repaired) {
    GstRTPHeaderExtension *told[] = {stream ? tell(element, STREAM_URI, stream) : NULL,
                                     repaired ? tell(element, REPAIRED_URI, repaired) : NULL};
    for (guint i = 0; i < G_N_ELEMENTS(told); i++) gst_clear_object(&told[i]);
}

/* Asks for a packet, and looks at the octets that come: the extension is to be this one. */
static gboolean comes_with(sender *s, packet of, guint csrcs, guint16 profile, const block *b) {
    gst_harness_push(s->feedback, make_nack(of.sequence, 0));
    GstBuffer *came = next_buffer(s->media);
    guint8 octets[4] = {0};
    if (!came) return FALSE;
    gst_buffer_extract(came, 0, octets, sizeof octets);
    GstBuffer *same = extend(make_repair(of, GST_READ_UINT16_BE(octets + 2)), csrcs, profile, b);
    gboolean is = same_octets(came, same);
    if (!is) gst_util_dump_buffer(came);
    gst_buffer_unref(same);
    gst_buffer_unref(came);
    return is;
}

/* Sends a packet, which goes out with its own extension. */
static void push_with(sender *s, packet of, guint csrcs, guint16 profile, const block *b) {
    GstBuffer *sent = extend(make_packet(of), csrcs, profile, b);
    gst_buffer_ref(sent);
    CHECK(gst_harness_push(s->media, sent) == GST_FLOW_OK);
    GstBuffer *out = next_buffer(s->media), *same = extend(make_packet(of), csrcs, profile, b);
    CHECK(out == sent && same_octets(out, same));
    gst_clear_buffer(&out);
    gst_buffer_unref(sent);
    gst_buffer_unref(same);
}

/* ---- what becomes of an extension */

typedef struct row {
    guint stream, repaired; /* ids; 0: not told */
    guint16 profile;
    const gchar *sent, *again; /* NULL: as it was sent */
    gboolean is_told; /* that it is as it was */
} row;

#define TEXT16 "30313233343536373839616263646566"
#define TEXT60 TEXT16 TEXT16 TEXT16 "303132333435363738396162"

static const row rows[] = {
    {3, 5, SHORT, "106131686900", "106151686900", FALSE}, /* behind another element */
    {3, 5, SHORT, "316869106100", "516869106100", FALSE}, /* before one */
    {3, 5, SHORT, "3061906230639064", "5061906250639064", FALSE}, /* each of two */
    {3, 5, SHORT, "3468656c6c6f3368656c6c", "5468656c6c6f5368656c6c", FALSE}, /* the second is how the first begins */
    {3, 5, SHORT, "3468692d6c6f", "5468692d6c6f", FALSE}, /* not letters and digits alone */
    {3, 5, SHORT, "3f" TEXT16 "1061", "5f" TEXT16 "1061", FALSE},
    {3, 14, SHORT, "306100e062", "e061e062", FALSE}, /* without the padding between */
    {3, 5, SHORT, "000030610000001062", "50611062", FALSE},
    {3, 0, SHORT, "106131686900", "1061", FALSE},
    {3, 0, SHORT, "31686900", "", FALSE},
    {3, 0, SHORT, "3168691061316869", "1061", FALSE},
    {3, 5, SHORT, "3061f06230631064", "5061", FALSE}, /* the id 15 ends all */
    {3, 5, SHORT, "f06130621063", NULL, FALSE},
    {3, 5, SHORT, "30610f1062", "50611062", FALSE}, /* 0f is padding: as GStreamer reads it */
    {3, 5, SHORT, "306110621f636465", "50611062", FALSE}, /* longer than what is left */
    {3, 5, SHORT, "1061306230633f64", "1061506250630000", FALSE},
    {3, 5, SHORT, "106100003f626364", NULL, FALSE},
    {3, 5, SHORT, "1061000020620000f1", NULL, FALSE}, /* none there */
    {3, 5, SHORT, "", NULL, FALSE},
    {0, 5, SHORT, "30610000", NULL, FALSE},
    {15, 5, SHORT, "f0610000", NULL, FALSE},
    {3, 15, SHORT, "106130620000", NULL, TRUE}, /* the short form has no such id */
    {3, 200, SHORT, "3061", NULL, TRUE},
    {3, 200, SHORT, "1061", NULL, FALSE},
    {3, 5, LONG, "0302686907016100", "0502686907016100", FALSE},
    {3, 5, LONG, "070161000302686900", "07016105026869", FALSE},
    {3, 200, LONG, "03026869", "c8026869", FALSE},
    {200, 255, 0x100f, "c8026869", "ff026869", FALSE},
    {3, 5, LONG, "033c" TEXT60, "053c" TEXT60, FALSE}, /* as long as one may be */
    {3, 0, LONG, "033c" TEXT60, "", FALSE},
    {3, 5, LONG, "0301610000000700", "0501610700", FALSE}, /* empty elements are kept, also at the end */
    {3, 5, LONG, "0300000007010000", "050007010000", FALSE},
    {3, 5, LONG, "0302686909ff6162", "05026869", FALSE},
    {3, 5, LONG, "0302686900000007", "05026869", FALSE}, /* a head that is cut off */
    {3, 5, LONG, "03ff6869", NULL, FALSE},
    {3, 0x1000, LONG, "03026869", NULL, TRUE}, /* one without an id */
    {3, 5, 0x1234, "03026869", NULL, FALSE}, /* no elements */
    {3, 5, 0x1010, "03026869", NULL, FALSE},
    {3, 5, 0xbedf, "31686900", NULL, FALSE},
};

/* The library keeps the packets 10 and 13, and the element the one that comes late. */
static void test_row(const row *of, guint csrcs) {
    static const guint16 order[] = {10, 12, 11, 13};
    sender s = make_sender();
    GstBus *bus = bus_of(s.element);
    block sent = block_of(of->sent), again = block_of(of->again ? of->again : of->sent), plain = block_of("1061");
    gboolean holds = TRUE;
    tell_both(s.element, of->stream, of->repaired);
    for (guint i = 0; i < G_N_ELEMENTS(order); i++)
        push_with(&s, (packet){.sequence = order[i], .fill = (guint8)i}, csrcs, i == 1 ? SHORT : of->profile, i == 1 ? &plain : &sent);
    for (guint i = 0; i < G_N_ELEMENTS(order); i++)
        holds &= comes_with(&s, (packet){.sequence = order[i], .fill = (guint8)i}, csrcs, i == 1 ? SHORT : of->profile, i == 1 ? &plain : &again);
    if (!CHECK(holds)) g_print("the row of %s, %u CSRCs\n", of->sent, csrcs);
    CHECK(posted(bus, GST_MESSAGE_WARNING) == of->is_told && !posted(bus, GST_MESSAGE_WARNING | GST_MESSAGE_ERROR));
    drop_bus(s.element, bus);
    drop_sender(&s);
}

static void test_rows(void) {
    for (guint i = 0; i < G_N_ELEMENTS(rows); i++) {
        test_row(&rows[i], 0);
        test_row(&rows[i], 15);
    }
}

/* An extension of as many words as the library takes, and of one more: that packet is not kept. */
static void test_longest(void) {
    sender s = make_sender();
    block b = block_of("3061");
    b.length = 4 * GOZDRIT_MAX_EXTENSION_WORDS;
    b.octets[b.length - 2] = 0x30;
    b.octets[b.length - 1] = 'b';
    tell_both(s.element, 3, 5);
    push_with(&s, (packet){.sequence = 10}, 15, SHORT, &b);
    block again = block_of("50615062");
    CHECK(comes_with(&s, (packet){.sequence = 10}, 15, SHORT, &again));
    b.length += 4;
    push_with(&s, (packet){.sequence = 11}, 0, SHORT, &b);
    gst_harness_push(s.feedback, make_nack(11, 0));
    CHECK(is_silent(s.media) && count_of(s.element, "passed") == 1);
    drop_sender(&s);
}

/* A packet without an extension, whose number and payload look like one: its retransmission has them as they were. */
static void test_none(void) {
    static const guint8 look[10] = {0, 1, 0x30, 'a', 0x10, 'b', 0x30, 'c', 0, 0};
    sender s = make_sender();
    GstBuffer *sent = make_packet((packet){.sequence = SHORT}), *same = make_repair((packet){.sequence = SHORT}, 0);
    tell_both(s.element, 3, 5);
    gst_buffer_fill(sent, 12, look, sizeof look);
    gst_buffer_fill(same, 14, look, sizeof look);
    CHECK(gst_harness_push(s.media, sent) == GST_FLOW_OK);
    gst_buffer_unref(next_buffer(s.media));
    gst_harness_push(s.feedback, make_nack(SHORT, 0));
    GstBuffer *came = next_buffer(s.media);
    if (came) gst_buffer_memset(came, 2, 0, 2);
    CHECK(came && same_octets(came, same));
    gst_clear_buffer(&came);
    gst_buffer_unref(same);
    drop_sender(&s);
}

/* ---- the signals */

static guint complaints;

static void on_complaint(const gchar *domain, GLogLevelFlags level, const gchar *text, gpointer data) {
    (void)domain, (void)level, (void)text, (void)data;
    complaints++;
}

/* Another extension of the same kind takes the place of the one before, also with another id later on; then both are forgotten. */
static void test_signals(void) {
    sender s = make_sender();
    block sent = block_of("306140627063"), again[] = {block_of("506140627063"), block_of("306150627063"), block_of("306160627063")};
    push_with(&s, (packet){.sequence = 10}, 0, SHORT, &sent);
    CHECK(comes_with(&s, (packet){.sequence = 10}, 0, SHORT, &sent));
    tell_both(s.element, 3, 5);
    CHECK(comes_with(&s, (packet){.sequence = 10}, 0, SHORT, &again[0]));
    GstRTPHeaderExtension *before = tell(s.element, REPAIRED_URI, 9), *repaired = tell(s.element, REPAIRED_URI, 5);
    tell_both(s.element, 4, 0);
    CHECK(comes_with(&s, (packet){.sequence = 10}, 0, SHORT, &again[1]) && GST_OBJECT_REFCOUNT_VALUE(before) == 1);
    gst_object_unref(before);
    gst_rtp_header_extension_set_id(repaired, 6);
    CHECK(comes_with(&s, (packet){.sequence = 10}, 0, SHORT, &again[2]));
    gst_element_set_state(s.element, GST_STATE_NULL); /* what was told stays */
    gst_element_set_state(s.element, GST_STATE_PLAYING);
    gst_harness_set_src_caps_str(s.media, CAPS);
    push_with(&s, (packet){.sequence = 10}, 0, SHORT, &sent);
    CHECK(comes_with(&s, (packet){.sequence = 10}, 0, SHORT, &again[2]) && GST_OBJECT_REFCOUNT_VALUE(repaired) == 2);
    g_signal_emit_by_name(s.element, "clear-extensions");
    CHECK(comes_with(&s, (packet){.sequence = 10}, 0, SHORT, &sent) && GST_OBJECT_REFCOUNT_VALUE(repaired) == 1);
    g_signal_emit_by_name(s.element, "add-extension", repaired);
    drop_sender(&s);
    CHECK(GST_OBJECT_REFCOUNT_VALUE(repaired) == 1);
    gst_object_unref(repaired);
}

/* Others are refused, and one whose id is 0. */
static void test_refused(void) {
    sender s = make_sender();
    block sent = block_of("10613062");
    GLogFunc before = g_log_set_default_handler(on_complaint, NULL);
    tell_both(s.element, 3, 0);
    GstRTPHeaderExtension *others[] = {tell(s.element, MID_URI, 1), tell(s.element, STREAM_URI, 0)};
    g_log_set_default_handler(before, NULL);
    CHECK(complaints == 2);
    push_with(&s, (packet){.sequence = 10}, 0, SHORT, &sent);
    block again = block_of("1061");
    CHECK(comes_with(&s, (packet){.sequence = 10}, 0, SHORT, &again));
    for (guint i = 0; i < G_N_ELEMENTS(others); i++) {
        CHECK(GST_OBJECT_REFCOUNT_VALUE(others[i]) == 1);
        gst_clear_object(&others[i]);
    }
    drop_sender(&s);
}

/* It is told once, and once more when the element begins anew. */
static void test_told(void) {
    sender s = make_sender();
    GstBus *bus = bus_of(s.element);
    block sent = block_of("3061");
    tell_both(s.element, 3, 20);
    for (guint i = 0; i < 2; i++) {
        push_with(&s, (packet){.sequence = 10}, 0, SHORT, &sent);
        CHECK(!posted(bus, GST_MESSAGE_WARNING));
        for (guint j = 0; j < 3; j++) CHECK(comes_with(&s, (packet){.sequence = 10}, 0, SHORT, &sent));
        CHECK(posted(bus, GST_MESSAGE_WARNING) && !posted(bus, GST_MESSAGE_WARNING));
        gst_element_set_state(s.element, GST_STATE_NULL);
        gst_element_set_state(s.element, GST_STATE_PLAYING);
        gst_harness_set_src_caps_str(s.media, CAPS);
    }
    drop_bus(s.element, bus);
    drop_sender(&s);
}

/* What caps say of extensions goes on. */
static void test_caps(void) {
    sender s = make_sender();
    gst_harness_set_src_caps_str(s.media, CAPS ",extmap-3=(string)" STREAM_URI ",extmap-4=(string)" REPAIRED_URI);
    GstCaps *caps = gst_pad_get_current_caps(s.media->sinkpad);
    const GstStructure *told = gst_caps_get_structure(caps, 0);
    CHECK(g_strcmp0(gst_structure_get_string(told, "extmap-3"), STREAM_URI) == 0);
    CHECK(g_strcmp0(gst_structure_get_string(told, "extmap-4"), REPAIRED_URI) == 0);
    gst_caps_unref(caps);
    drop_sender(&s);
}

/* ---- beside rtprtxsend */

/* Draws elements, and padding between, and sees to it that one is a stream's name of four letters or digits. What is no part of an element
 * comes last. Of two forms rtprtxsend loses an empty element that comes last, so there is none here. */
static block draw_block(GRand *drawn, gboolean is_short, guint id) {
    block b = {.length = 0};
    gint names = g_rand_int_range(drawn, 1, 3);
    guint room = 4 * (guint)g_rand_int_range(drawn, 6, 17);
    while (b.length + 18 < room) {
        gboolean is_name = names > 0 && (g_rand_boolean(drawn) || b.length + 40 > room);
        guint8 length = is_name ? 4 : (guint8)g_rand_int_range(drawn, 1, 9), other = (guint8)g_rand_int_range(drawn, 6, 15);
        guint8 head = is_name ? (guint8)id : other;
        if (is_short) b.octets[b.length++] = (guint8)(head << 4 | (length - 1));
        else b.octets[b.length++] = head, b.octets[b.length++] = length;
        for (guint i = 0; i < length; i++) b.octets[b.length++] = (guint8)g_rand_int_range(drawn, is_name ? 'a' : 0, is_name ? 'z' : 256);
        b.length += g_rand_boolean(drawn) ? (guint)g_rand_int_range(drawn, 0, 4) : 0;
        names -= is_name;
    }
    if (is_short && g_rand_boolean(drawn)) b.octets[b.length++] = 0xf2;
    while (b.length % 4 != 0) b.length++;
    return b;
}

/* All octets of what both retransmit are the same behind the numbers. */
static gboolean same_again(GstBuffer *ours, GstBuffer *theirs) {
    if (!ours || !theirs || gst_buffer_get_size(ours) != gst_buffer_get_size(theirs)) return FALSE;
    gst_buffer_memset(ours, 2, 0, 2);
    gst_buffer_memset(theirs, 2, 0, 2);
    return same_octets(ours, theirs);
}

static void test_beside(void) {
    GstElement *element = gst_element_factory_make("rtprtxsend", NULL);
    GRand *drawn = g_rand_new_with_seed(7);
    if (!element) return;
    gst_util_set_object_arg(G_OBJECT(element), "payload-type-map", "map,96=(uint)97");
    gst_util_set_object_arg(G_OBJECT(element), "ssrc-map", "map,286331153=(uint)572662306");
    sender ours = make_sender(), theirs = {.element = element, .media = gst_harness_new_with_element(element, "sink", "src")};
    gst_harness_set_src_caps_str(theirs.media, CAPS);
    for (guint16 i = 0; i < 200; i++) {
        gboolean is_short = g_rand_boolean(drawn), has_other = g_rand_int_range(drawn, 0, 3) > 0;
        guint csrcs = (guint)g_rand_int_range(drawn, 0, 16);
        block b = draw_block(drawn, is_short, 3);
        sender *both[] = {&ours, &theirs};
        GstBuffer *again[2];
        for (guint j = 0; j < 2; j++) {
            g_signal_emit_by_name(both[j]->element, "clear-extensions");
            tell_both(both[j]->element, 3, has_other ? 5 : 0);
            push_with(both[j], (packet){.sequence = i, .fill = (guint8)i}, csrcs, is_short ? SHORT : LONG, &b);
            CHECK(request(both[j], MEDIA, i));
            again[j] = next_buffer(both[j]->media);
        }
        CHECK(same_again(again[0], again[1]));
        for (guint j = 0; j < 2; j++) gst_clear_buffer(&again[j]);
    }
    drop_sender(&ours);
    gst_harness_teardown(theirs.media);
    gst_object_unref(element);
    g_rand_free(drawn);
}

/* Through this one and rtprtxreceive, which is told of both too, each packet of two forms comes again as it was. */
static void test_far_side(void) {
    static const guint16 profiles[] = {SHORT, LONG};
    block blocks[] = {block_of("106131686920"), block_of("0101610302686907026263")};
    GstElement *elements[2];
    sender s;
    if (!make_chain(&s, "gozdritsend", "rtprtxreceive", elements)) return;
    for (guint i = 0; i < 2; i++) {
        gst_util_set_object_arg(G_OBJECT(elements[i]), "payload-type-map", "map,96=(uint)97");
        tell_both(elements[i], 3, 5);
    }
    gst_harness_set_src_caps_str(s.media, CAPS);
    for (guint16 i = 0; i < 8; i++) {
        packet of = {.sequence = i, .fill = (guint8)i, .marker = i % 4 == 3};
        push_with(&s, of, i % 3, profiles[i % 2], &blocks[i % 2]);
        CHECK(request(&s, MEDIA, i));
        GstBuffer *again = next_buffer(s.media), *same = extend(make_packet(of), i % 3, profiles[i % 2], &blocks[i % 2]);
        CHECK(again && same_octets(again, same) && GST_BUFFER_FLAG_IS_SET(again, GST_RTP_BUFFER_FLAG_RETRANSMISSION));
        gst_clear_buffer(&again);
        gst_buffer_unref(same);
    }
    drop_chain(&s, elements);
}

/* ---- odd extensions */

/* Any octets, of which most are heads of elements, and at times more words than the library takes. */
static block draw_odd(GRand *drawn) {
    static const guint8 heads[] = {0, 0x30, 0x31, 3, 1, 2, 0xf0, 0x3f, 0xff, 0x50, 5};
    block b = {.length = 4 * (guint)(g_rand_int_range(drawn, 0, 20) ? g_rand_int_range(drawn, 0, 18) : g_rand_int_range(drawn, 0, MOST))};
    for (guint i = 0; i < b.length; i++)
        b.octets[i] = g_rand_int_range(drawn, 0, 5) ? heads[g_rand_int_range(drawn, 0, G_N_ELEMENTS(heads))] : (guint8)g_rand_int(drawn);
    return b;
}

/* Whatever an extension is, its packet comes again with its number and payload, and with an extension that is no longer. */
static gboolean is_sound(GstBuffer *again, packet of, const block *sent) {
    GstRTPBuffer rtp = GST_RTP_BUFFER_INIT;
    guint16 profile;
    gpointer octets;
    guint words = 0;
    if (!again || !gst_rtp_buffer_map(again, GST_MAP_READ, &rtp)) return FALSE;
    const guint8 *payload = gst_rtp_buffer_get_payload(&rtp);
    gboolean is = gst_rtp_buffer_get_payload_len(&rtp) == of.length + 2 && GST_READ_UINT16_BE(payload) == of.sequence;
    for (guint i = 0; i < of.length && is; i++) is = payload[2 + i] == of.fill;
    is = is && gst_rtp_buffer_get_extension_data(&rtp, &profile, &octets, &words) && 4 * words <= sent->length;
    gst_rtp_buffer_unmap(&rtp);
    return is;
}

static void test_odd(void) {
    static const guint16 profiles[] = {SHORT, LONG, 0x100f, 0x1234};
    static const guint ids[] = {0, 3, 3, 3, 5, 14, 15, 255}, order[] = {0, 2, 1, 3};
    GRand *drawn = g_rand_new_with_seed(11);
    sender s = make_sender();
    packet of = {0};
    for (guint i = 0; i < 2000; i++) {
        if (i % 50 == 0) g_signal_emit_by_name(s.element, "clear-extensions");
        tell_both(s.element, ids[g_rand_int_range(drawn, 0, G_N_ELEMENTS(ids))], ids[g_rand_int_range(drawn, 0, G_N_ELEMENTS(ids))]);
        of.length = (guint)g_rand_int_range(drawn, 1, 30);
        of.fill = (guint8)i;
        of.sequence = (guint16)(i - i % 4 + order[i % 4]);
        guint16 profile = profiles[g_rand_int_range(drawn, 0, G_N_ELEMENTS(profiles))];
        block b = draw_odd(drawn);
        push_with(&s, of, (guint)g_rand_int_range(drawn, 0, 16), profile, &b);
        gst_harness_push(s.feedback, make_nack(of.sequence, 0));
        if (b.length > 4 * GOZDRIT_MAX_EXTENSION_WORDS) continue;
        GstBuffer *again = next_buffer(s.media);
        CHECK(is_sound(again, of, &b));
        gst_clear_buffer(&again);
    }
    CHECK(is_silent(s.media));
    drop_sender(&s);
    g_rand_free(drawn);
}

void test_extensions(void) {
    GstRTPHeaderExtension *known = gst_rtp_header_extension_create_from_uri(REPAIRED_URI);
    if (!known) return; /* GStreamer's good plugins have it */
    gst_object_unref(known);
    test_rows();
    test_longest();
    test_none();
    test_signals();
    test_refused();
    test_told();
    test_caps();
    test_beside();
    test_far_side();
    test_odd();
}
