/* Payload types in a jitter buffer's place: how it is known, and what goes out there. */
#include "checks.h"

#define MS(n) ((n) * (GstClockTime)GST_MSECOND)

/* Writes a timestamp of another clock rate into a packet. */
static GstBuffer *at_rate(packet of, guint rate) {
    guint8 octets[4];
    GstBuffer *buffer = make_packet(of);
    GST_WRITE_UINT32_BE(octets, (guint32)gst_util_uint64_scale_round(of.pts, rate, GST_SECOND));
    gst_buffer_fill(buffer, 4, octets, sizeof octets);
    return buffer;
}

/* Takes a buffer, and gives whether it is that one, with that time. */
static gboolean is_same(GstHarness *harness, GstBuffer *sent, GstClockTime pts) {
    GstBuffer *out = next_buffer(harness);
    gboolean is = out && same_octets(out, sent) && GST_BUFFER_PTS(out) == pts;
    gst_clear_buffer(&out);
    return is;
}

/* Several types have one sequence, and all go out in it, also where one of them is that of retransmissions elsewhere, or looks as RTCP does. */
static void test_order(void) {
    static const guint8 types[] = {96, 97, 0, 72, 127, 97, 96, 13};
    place p;
    make_place(&p);
    for (guint i = 0; i < G_N_ELEMENTS(types); i++)
        if (i != 3) SEND(&p.r, .sequence = (guint16)(65533 + i), .type = types[i] ? types[i] : 8, .pts = MS(20 * i), .marker = i == 4);
    for (guint i = 0; i < 3; i++) COMES(p.r.media, .sequence = (guint16)(65533 + i), .type = types[i] ? types[i] : 8, .pts = MS(20 * i));
    CHECK(is_silent(p.r.media));
    SEND(&p.r, .sequence = 0, .type = 72, .pts = MS(60));
    for (guint i = 3; i < G_N_ELEMENTS(types); i++)
        COMES(p.r.media, .sequence = (guint16)(65533 + i), .type = types[i], .pts = MS(20 * i), .marker = i == 4);
    CHECK(p.asked[96] == 1 && p.asked[97] == 1 && p.asked[8] == 1 && p.asked[72] == 1 && p.asked[127] == 1 && p.asked[13] == 1);
    CHECK(count_of(p.r.element, "sessions") == 1 && count_of(p.r.element, "other-types") == 0 && count_of(p.r.element, "strays") == 0);
    drop_place(&p);
}

/* A stream may begin with any of them. */
static void test_first(void) {
    static const guint8 types[] = {97, 72, 0, 127};
    for (guint i = 0; i < G_N_ELEMENTS(types); i++) {
        place p;
        make_place(&p);
        GstBuffer *first = make_packet((packet){.sequence = 5});
        gst_buffer_memset(first, 1, types[i], 1);
        gst_harness_push(p.r.media, gst_buffer_ref(first));
        CHECK(is_same(p.r.media, first, 0));
        SEND(&p.r, .sequence = 6);
        COMES(p.r.media, .sequence = 6);
        gst_buffer_unref(first);
        drop_place(&p);
    }
}

/* Each type has the clock rate that is answered for it, or that is its own everywhere; else the packet has the time with which it came. */
static void test_rates(void) {
    static const struct { guint8 type; guint rate; gboolean is_late; } packets[] = {
        {96, 90000, FALSE}, {98, 48000, FALSE}, {98, 48000, TRUE}, {96, 90000, TRUE}, {8, 8000, FALSE}, {8, 8000, TRUE}, {98, 48000, TRUE},
        {99, 1000, FALSE}, {99, 1000, TRUE}};
    GstSegment segment;
    place p;
    make_place(&p);
    p.answers[98] = "application/x-rtp,media=audio,payload=98,clock-rate=48000";
    p.answers[99] = "application/x-rtp,media=audio,payload=98,clock-rate=48000"; /* of another type */
    for (guint i = 0; i < G_N_ELEMENTS(packets); i++) {
        packet of = {.sequence = (guint16)(10 + i), .type = packets[i].type, .pts = MS(1000 + 20 * i)};
        GstBuffer *sent = at_rate(of, packets[i].rate);
        if (packets[i].is_late) GST_BUFFER_PTS(sent) += MS(7); /* the network held it back */
        gst_harness_push(p.r.media, gst_buffer_ref(sent));
        GstClockTime at = of.pts + (packets[i].is_late && packets[i].type == 99 ? MS(7) : 0);
        if (!CHECK(is_same(p.r.media, sent, at))) g_print("packet %u\n", i);
        gst_buffer_unref(sent);
    }
    gst_segment_init(&segment, GST_FORMAT_TIME);
    gst_harness_push_event(p.r.media, gst_event_new_flush_start());
    gst_harness_push_event(p.r.media, gst_event_new_flush_stop(TRUE));
    gst_harness_push_event(p.r.media, gst_event_new_segment(&segment));
    for (guint i = 0; i < 3; i++) { /* what the times were is forgotten for each rate */
        GstBuffer *sent = at_rate((packet){.sequence = (guint16)(500 + i), .type = packets[i].type, .pts = MS(1000)}, packets[i].rate);
        GST_BUFFER_PTS(sent) = MS(1500);
        gst_harness_push(p.r.media, gst_buffer_ref(sent));
        CHECK(is_same(p.r.media, sent, MS(1500)));
        gst_buffer_unref(sent);
    }
    drop_place(&p);
}

/* What was answered holds until the element begins anew. */
static void test_anew(void) {
    GstSegment segment;
    place p;
    make_place(&p);
    gst_segment_init(&segment, GST_FORMAT_TIME);
    for (gint turn = 1; turn < 3; turn++) {
        SEND(&p.r, .sequence = 1);
        COMES(p.r.media, .sequence = 1);
        CHECK(p.asked[96] == turn);
        gst_element_set_state(p.r.element, GST_STATE_NULL);
        gst_element_set_state(p.r.element, GST_STATE_PLAYING);
        gst_harness_push_event(p.r.media, gst_event_new_stream_start("anew"));
        gst_harness_push_event(p.r.media, gst_event_new_segment(&segment));
    }
    drop_place(&p);
}

/* What looks as RTCP does begins none; and a map of types is that of an element that makes media of retransmissions, as this one does not here. */
static void test_none_first(void) {
    place p;
    make_place(&p);
    gst_util_set_object_arg(G_OBJECT(p.r.element), "payload-type-map", "map,98=(uint)99");
    SEND(&p.r, .sequence = 5, .type = 72, .marker = TRUE);
    CHECK(is_silent(p.r.media) && count_of(p.r.element, "sessions") == 0 && count_of(p.r.element, "strays") == 1);
    SEND(&p.r, .sequence = 6);
    SEND(&p.r, .sequence = 7, .type = 99);
    COMES(p.r.media, .sequence = 6);
    COMES(p.r.media, .sequence = 7, .type = 99);
    drop_place(&p);
}

/* What the caps of the pad tell is not asked for; but it is again where they come anew, or by clear-pt-map. */
static void test_caps(void) {
    place p;
    make_place(&p);
    gst_harness_set_src_caps_str(p.r.media, CAPS);
    SEND(&p.r, .sequence = 1);
    CHECK(p.asked[96] == 0);
    SEND(&p.r, .sequence = 2, .type = 98);
    SEND(&p.r, .sequence = 3, .type = 98);
    CHECK(p.asked[98] == 1);
    g_signal_emit_by_name(p.r.element, "clear-pt-map");
    SEND(&p.r, .sequence = 4);
    SEND(&p.r, .sequence = 5, .type = 98);
    CHECK(p.asked[96] == 0 && p.asked[98] == 2);
    gst_harness_set_src_caps_str(p.r.media, PLACE_CAPS);
    SEND(&p.r, .sequence = 6);
    CHECK(p.asked[96] == 1);
    gst_harness_set_src_caps_str(p.r.media, "application/x-rtp,encoding-name=RTX,payload=97,clock-rate=90000,apt=(string)96");
    SEND(&p.r, .sequence = 7);
    SEND(&p.r, .sequence = 8, .type = 97);
    for (guint16 i = 1; i < 9; i++) COMES(p.r.media, .sequence = i, .type = i == 2 || i == 3 || i == 5 ? 98 : i == 8 ? 97 : 96);
    GstCaps *caps = gst_pad_get_current_caps(p.r.media->sinkpad);
    CHECK(caps && g_strcmp0(gst_structure_get_string(gst_caps_get_structure(caps, 0), "encoding-name"), "RTX") == 0);
    gst_caps_unref(caps);
    CHECK(p.asked[97] == 0 && count_of(p.r.element, "sessions") == 1);
    drop_place(&p);
}

static GstCaps *answer_nothing(GstElement *element, guint type, gpointer data) {
    (void)element, (void)type, (void)data;
    return NULL;
}

/* A handler alone makes it one, or the pad alone that was requested before it began; and it is none any more where both are gone. */
static void test_known_before(void) {
    for (guint pads = 0; pads < 2; pads++) {
        receiver r = {.element = gst_element_factory_make("gozdritrecv", NULL)};
        GstPad *pad = pads ? gst_element_request_pad_simple(r.element, "sink_rtcp") : NULL;
        gulong handler = pads ? 0 : g_signal_connect(r.element, "request-pt-map", G_CALLBACK(answer_nothing), NULL);
        r.media = gst_harness_new_with_element(r.element, "sink", "src");
        gst_harness_set_src_caps_str(r.media, CAPS);
        SEND(&r, .sequence = 10);
        SEND(&r, .sequence = 11, .type = 97);
        COMES(r.media, .sequence = 10);
        COMES(r.media, .sequence = 11, .type = 97);
        gst_element_set_state(r.element, GST_STATE_NULL);
        if (pad) gst_element_release_request_pad(r.element, pad);
        else g_signal_handler_disconnect(r.element, handler);
        g_clear_object(&pad);
        gst_element_set_state(r.element, GST_STATE_PLAYING);
        gst_harness_set_src_caps_str(r.media, CAPS);
        SEND(&r, .sequence = 10);
        SEND(&r, .sequence = 11, .type = 97);
        COMES(r.media, .sequence = 10);
        CHECK(is_silent(r.media));
        gst_harness_teardown(r.media);
        gst_object_unref(r.element);
    }
}

/* The pad makes it one where it is requested before the first packet. The first packets that are lost are known by what is answered. */
static void test_known(void) {
    receiver r = {.element = gst_element_factory_make("gozdritrecv", NULL)};
    r.media = gst_harness_new_with_element(r.element, "sink", "src");
    GstPad *pad = gst_element_request_pad_simple(r.element, "sink_rtcp");
    CHECK(pad && !gst_element_request_pad(r.element, gst_element_get_pad_template(r.element, "sink_rtcp"), NULL, NULL)); /* a second one */
    gst_harness_set_src_caps_str(r.media, CAPS);
    SEND(&r, .sequence = 10);
    SEND(&r, .sequence = 11, .type = 97);
    COMES(r.media, .sequence = 10);
    COMES(r.media, .sequence = 11, .type = 97);
    gst_element_release_request_pad(r.element, pad);
    gst_object_unref(pad);
    pad = gst_element_request_pad_simple(r.element, "sink_rtcp");
    CHECK(pad != NULL);
    gst_element_release_request_pad(r.element, pad);
    gst_object_unref(pad);
    gst_harness_teardown(r.media);
    gst_object_unref(r.element);
    place p;
    make_place(&p);
    p.answers[98] = "application/x-rtp,payload=98,clock-rate=90000,seqnum-base=(uint)20";
    SEND(&p.r, .sequence = 22, .type = 98);
    TICKS(&p.r, 200);
    COMES(p.r.media, .sequence = 22, .type = 98);
    CHECK(count_of(p.r.element, "num-lost") == 2);
    drop_place(&p);
}

/* Another SSRC begins a stream of its own, where two of its packets came, and packets of the one before go first. */
static void test_other_stream(void) {
    place p;
    make_place(&p);
    gst_harness_set_src_caps_str(p.r.media, CAPS); /* whose SSRC is not looked at */
    SEND(&p.r, .sequence = 10);
    SEND(&p.r, .sequence = 12);
    SEND(&p.r, .sequence = 500, .ssrc = 7, .type = 98);
    COMES(p.r.media, .sequence = 10);
    CHECK(is_silent(p.r.media));
    SEND(&p.r, .sequence = 501, .ssrc = 7);
    COMES(p.r.media, .sequence = 12);
    COMES(p.r.media, .sequence = 500, .ssrc = 7, .type = 98);
    COMES(p.r.media, .sequence = 501, .ssrc = 7);
    CHECK(count_of(p.r.element, "sessions") == 2 && count_of(p.r.element, "passed") == 0);
    drop_place(&p);
}

void test_pt_map(void) {
    test_order();
    test_first();
    test_rates();
    test_anew();
    test_none_first();
    test_caps();
    test_known_before();
    test_known();
    test_other_stream();
}
