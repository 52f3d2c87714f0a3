/* A sender in the place of rtprtxsend: its properties, caps and events. */
#include "checks.h"

#include <string.h>

#define MS(n) ((n) * (GstClockTime)GST_MSECOND)

/* A sender with a property that is a map, before its caps. */
static sender make_mapped(const gchar *property, const gchar *map) {
    sender s = make_sender();
    gst_element_set_state(s.element, GST_STATE_NULL);
    gst_util_set_object_arg(G_OBJECT(s.element), property, map);
    gst_element_set_state(s.element, GST_STATE_PLAYING);
    gst_harness_set_src_caps_str(s.media, CAPS);
    return s;
}

static void pass(sender *s, packet of) {
    CHECK(gst_harness_push(s->media, make_packet(of)) == GST_FLOW_OK);
    CHECK(comes(s->media, of));
}

/* What the next buffer is: its type, SSRC and number, and the number that a retransmission stands for. */
typedef struct seen {
    guint type;
    guint32 ssrc;
    guint16 number, original;
} seen;

static seen next_seen(sender *s) {
    GstBuffer *buffer = next_buffer(s->media);
    guint8 octets[14] = {0};
    if (buffer) gst_buffer_extract(buffer, 0, octets, sizeof octets);
    gst_clear_buffer(&buffer);
    return (seen){octets[1] & 127, GST_READ_UINT32_BE(octets + 8), GST_READ_UINT16_BE(octets + 2), GST_READ_UINT16_BE(octets + 12)};
}

/* A field of the caps that came, or -1. */
static gint64 caps_field(sender *s, const gchar *name) {
    GstCaps *caps = gst_pad_get_current_caps(s->media->sinkpad);
    gint number = -1;
    guint positive;
    gboolean is_positive = gst_structure_get_uint(gst_caps_get_structure(caps, 0), name, &positive);
    if (!is_positive) gst_structure_get_int(gst_caps_get_structure(caps, 0), name, &number);
    gst_caps_unref(caps);
    return is_positive ? (gint64)positive : number;
}

/* Three types in one stream, each with a type of its retransmissions. What the map has not goes out, and is not kept. */
static void test_types(void) {
    static const guint8 types[] = {96, 98, 100, 102}, rtx[] = {97, 36, 101, 0};
    sender s = make_mapped("payload-type-map", "map,96=(uint)97,98=(uint)36,100=(uint)101");
    CHECK(caps_field(&s, "rtx-payload") == 97 && caps_field(&s, "rtx-payload-type") == 97);
    for (guint16 i = 0; i < 12; i++) pass(&s, (packet){.sequence = i, .type = types[i % 4]});
    gst_harness_push(s.feedback, make_nack(0, 0x7ff));
    for (guint16 i = 0; i < 12; i++) {
        if (i % 4 == 3) continue;
        seen repair = next_seen(&s);
        CHECK(repair.type == rtx[i % 4] && repair.original == i && repair.ssrc == RTX);
    }
    CHECK(is_silent(s.media) && count_of(s.element, "unknown") == 3 && count_of(s.element, "sent") == 9);
    gst_harness_set_src_caps_str(s.media, "application/x-rtp,media=video,clock-rate=90000,encoding-name=X,payload=102,ssrc=(uint)286331153");
    CHECK(caps_field(&s, "rtx-payload") == -1 && caps_field(&s, "rtcp-fb-nack") == -1 && caps_field(&s, "rtx-ssrc") == RTX);
    pass(&s, (packet){.sequence = 4, .ssrc = 5, .type = 102}); /* a stream of nothing that is kept */
    CHECK(request(&s, 5, 4) && is_silent(s.media) && count_of(s.element, "sent") == 9);
    GstStructure *map = NULL;
    guint to = 0;
    g_object_get(s.element, "payload-type-map", &map, NULL);
    CHECK(map && gst_structure_get_uint(map, "98", &to) && to == 36);
    if (map) gst_structure_free(map);
    drop_sender(&s);
}

/* The SSRCs of the retransmissions that a map has. None of these is drawn, and none of these is changed. */
static void test_ssrcs(void) {
    sender s = make_mapped("ssrc-map", "map,286331153=(uint)1001,5=(uint)1002");
    CHECK(caps_field(&s, "rtx-ssrc") == 1001);
    for (guint stream = 0; stream < 3; stream++) {
        guint32 ssrc = stream == 0 ? MEDIA : 4 + stream;
        pass(&s, (packet){.sequence = 9, .ssrc = ssrc});
        CHECK(request(&s, ssrc, 9));
        seen repair = next_seen(&s);
        CHECK(stream < 2 ? repair.ssrc == 1001 + stream : repair.ssrc != 1001 && repair.ssrc != 1002 && repair.ssrc != 0);
    }
    guint before = gst_harness_upstream_events_in_queue(s.media);
    GstStructure *told = gst_structure_new("GstRTPCollision", "ssrc", G_TYPE_UINT, 1001, NULL);
    gst_harness_push_upstream_event(s.media, gst_event_new_custom(GST_EVENT_CUSTOM_UPSTREAM, told));
    CHECK(gst_harness_upstream_events_in_queue(s.media) == before + 1);
    drop_sender(&s);
}

/* A packet is too old by its timestamp, where a map or the caps say the clock rate. */
static void test_rates(void) {
    static const gchar *const maps[] = {"map,96=(uint)90000", "map,96=(uint)45000", "map,97=(uint)90000"};
    for (guint i = 0; i < G_N_ELEMENTS(maps); i++) {
        sender s = make_mapped("clock-rate-map", maps[i]);
        gst_element_set_state(s.element, GST_STATE_NULL);
        g_object_set(s.element, "max-size-time", 200, NULL);
        gst_element_set_state(s.element, GST_STATE_PLAYING);
        gst_harness_set_src_caps_str(s.media, i == 2 ? "application/x-rtp,media=video,encoding-name=X,ssrc=(uint)286331153" : CAPS);
        for (guint16 j = 0; j < 30; j++) pass(&s, (packet){.sequence = j, .pts = MS(20) * j});
        gst_harness_push(s.feedback, make_nack(0, 0xffff));
        gst_harness_push(s.feedback, make_nack(17, 0xfff));
        guint16 first = i == 0 ? 19 : i == 1 ? 24 : 0; /* 10 packets before the last one, 5 by half the rate, and all */
        for (guint16 j = first; j < 30; j++) CHECK(next_seen(&s).original == j);
        CHECK(is_silent(s.media) && count_of(s.element, "expired") == first);
        drop_sender(&s);
    }
}

/* As many as the library keeps, where none or more are said: it is told once. */
static void test_most(void) {
    static const guint sizes[] = {0, 20000, 8192};
    for (guint i = 0; i < G_N_ELEMENTS(sizes); i++) {
        sender s = make_sender();
        GstBus *bus = bus_of(s.element);
        gst_element_set_state(s.element, GST_STATE_NULL);
        g_object_set(s.element, "max-size-packets", sizes[i], NULL);
        gst_element_set_state(s.element, GST_STATE_PLAYING);
        gst_harness_set_src_caps_str(s.media, CAPS);
        CHECK(posted(bus, GST_MESSAGE_WARNING) == (i < 2) && !posted(bus, GST_MESSAGE_WARNING));
        for (guint16 j = 0; j < 8200; j++) gst_harness_push(s.media, make_packet((packet){.sequence = j}));
        for (guint16 j = 0; j < 8200; j++) gst_buffer_unref(next_buffer(s.media));
        gst_harness_push(s.feedback, make_nack(7, 1));
        CHECK(next_seen(&s).original == 8 && is_silent(s.media) && !posted(bus, GST_MESSAGE_WARNING | GST_MESSAGE_ERROR));
        drop_bus(s.element, bus);
        drop_sender(&s);
    }
}

/* The caps tell the first retransmission's number, and properties how many there were. */
static void test_counts(void) {
    sender s = make_sender();
    guint requests, packets;
    gint64 first = caps_field(&s, "rtx-seqnum-offset");
    send_five(&s);
    CHECK(request(&s, MEDIA, 1) && request(&s, MEDIA, 77));
    CHECK(next_seen(&s).number == first);
    g_object_get(s.element, "num-rtx-requests", &requests, "num-rtx-packets", &packets, NULL);
    CHECK(requests == 2 && packets == 1);
    gst_harness_push(s.feedback, make_nack(3, 1));
    CHECK(next_seen(&s).number == (guint16)(first + 1) && next_seen(&s).number == (guint16)(first + 2));
    g_object_get(s.element, "num-rtx-requests", &requests, "num-rtx-packets", &packets, NULL);
    CHECK(requests == 4 && packets == 3);
    drop_sender(&s);
}

/* Retransmissions of a sender before this one go through, whatever type they have. */
static void test_flagged(void) {
    sender s = make_sender();
    GstBus *bus = bus_of(s.element);
    send_five(&s);
    GstBuffer *repair = make_repair((packet){.sequence = 3, .ssrc = 77}, 500);
    GST_BUFFER_FLAG_SET(repair, GST_RTP_BUFFER_FLAG_RETRANSMISSION);
    CHECK(gst_harness_push(s.media, repair) == GST_FLOW_OK);
    GstBuffer *out = next_buffer(s.media);
    CHECK(out == repair && GST_BUFFER_FLAG_IS_SET(out, GST_RTP_BUFFER_FLAG_RETRANSMISSION));
    gst_clear_buffer(&out);
    CHECK(!posted(bus, GST_MESSAGE_ERROR | GST_MESSAGE_WARNING) && count_of(s.element, "sent") == 5);
    drop_bus(s.element, bus);
    drop_sender(&s);
}

/* Behind rtprtxsend itself this one answers what it has, and each request is answered once. */
static void test_chain(void) {
    GstElement *elements[2];
    guint packets;
    sender s;
    if (!make_chain(&s, "rtprtxsend", "gozdritsend", elements)) return;
    gst_util_set_object_arg(G_OBJECT(elements[0]), "payload-type-map", "map,96=(uint)97");
    gst_harness_set_src_caps_str(s.media, CAPS);
    send_five(&s);
    CHECK(request(&s, MEDIA, 2) && next_seen(&s).original == 2 && is_silent(s.media));
    g_object_get(elements[0], "num-rtx-packets", &packets, NULL);
    CHECK(packets == 0);
    drop_chain(&s, elements);
}

/* Three types of one stream through this one and rtprtxreceive, which makes each packet of its retransmission again. */
static void test_far_side(void) {
    static const guint8 types[] = {96, 98, 100};
    GstElement *elements[2];
    sender s;
    if (!make_chain(&s, "gozdritsend", "rtprtxreceive", elements)) return;
    for (guint i = 0; i < 2; i++)
        gst_util_set_object_arg(G_OBJECT(elements[i]), "payload-type-map", "map,96=(uint)97,98=(uint)36,100=(uint)101");
    gst_harness_set_src_caps_str(s.media, CAPS);
    for (guint16 i = 0; i < 12; i++) pass(&s, (packet){.sequence = i, .type = types[i % 3], .fill = (guint8)i, .marker = i % 2});
    for (guint16 i = 0; i < 12; i++) {
        GstBuffer *same = make_packet((packet){.sequence = i, .type = types[i % 3], .fill = (guint8)i, .marker = i % 2});
        CHECK(request(&s, MEDIA, i));
        GstBuffer *again = next_buffer(s.media);
        CHECK(again && same_octets(again, same) && GST_BUFFER_FLAG_IS_SET(again, GST_RTP_BUFFER_FLAG_RETRANSMISSION));
        gst_clear_buffer(&again);
        gst_buffer_unref(same);
    }
    drop_chain(&s, elements);
}

/* Whether a property of one element is the other's too. */
static gboolean has_property(GstElement *element, const GParamSpec *theirs) {
    const GParamSpec *ours = g_object_class_find_property(G_OBJECT_GET_CLASS(element), theirs->name);
    return ours && ours->value_type == theirs->value_type && (ours->flags & G_PARAM_READWRITE) == (theirs->flags & G_PARAM_READWRITE);
}

static gboolean has_signal(GstElement *element, guint id) {
    GSignalQuery ours, theirs;
    g_signal_query(id, &theirs);
    g_signal_query(g_signal_lookup(theirs.signal_name, G_OBJECT_TYPE(element)), &ours);
    gboolean is = ours.signal_id != 0 && ours.signal_flags == theirs.signal_flags && ours.return_type == theirs.return_type;
    is = is && ours.n_params == theirs.n_params;
    for (guint i = 0; is && i < ours.n_params; i++) is = ours.param_types[i] == theirs.param_types[i];
    return is;
}

/* All properties and signals of rtprtxsend are this one's too, with the same types. */
static void test_face(void) {
    GstElement *ours = gst_element_factory_make("gozdritsend", NULL), *theirs = gst_element_factory_make("rtprtxsend", NULL);
    guint properties = 0, signals = 0;
    if (theirs) {
        GParamSpec **specs = g_object_class_list_properties(G_OBJECT_GET_CLASS(theirs), &properties);
        guint *ids = g_signal_list_ids(G_OBJECT_TYPE(theirs), &signals);
        for (guint i = 0; i < properties; i++)
            if (!CHECK(has_property(ours, specs[i]))) g_print("%s\n", specs[i]->name);
        for (guint i = 0; i < signals; i++)
            if (!CHECK(has_signal(ours, ids[i]))) g_print("%s\n", g_signal_name(ids[i]));
        CHECK(properties >= 9 && signals == 2);
        g_free(specs);
        g_free(ids);
        gst_object_unref(theirs);
    }
    gst_object_unref(ours);
}

/* Who builds pipelines by themselves take it for nothing that they look for. */
static void test_factory(void) {
    GstElementFactory *factory = gst_element_factory_find("gozdritsend");
    CHECK(gst_plugin_feature_get_rank(GST_PLUGIN_FEATURE(factory)) == GST_RANK_NONE);
    CHECK(g_str_equal(gst_element_factory_get_metadata(factory, GST_ELEMENT_METADATA_KLASS), "Filter/Network/RTP"));
    CHECK(!gst_element_factory_list_is_type(factory, GST_ELEMENT_FACTORY_TYPE_DECODABLE | GST_ELEMENT_FACTORY_TYPE_ENCODER |
                                                         GST_ELEMENT_FACTORY_TYPE_MUXER | GST_ELEMENT_FACTORY_TYPE_PAYLOADER |
                                                         GST_ELEMENT_FACTORY_TYPE_SRC | GST_ELEMENT_FACTORY_TYPE_SINK));
    gst_object_unref(factory);
}

void test_drop_in(void) {
    test_face();
    test_factory();
    test_types();
    test_ssrcs();
    test_rates();
    test_most();
    test_counts();
    test_flagged();
    test_chain();
    test_far_side();
}
