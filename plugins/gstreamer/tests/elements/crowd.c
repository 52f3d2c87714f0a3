/* Several streams through one receiver: how many there may be, and what concerns all of them: events, flushes, states. */
#include "bundle.h"

enum { MOST = 16 };

/* There are sixteen streams at most: one more goes through, which a warning tells once. */
static void fill(receiver *r, GstBus *bus) {
    for (guint stream = 0; stream < MOST + 2; stream++) {
        CHECK(!posted(bus, GST_MESSAGE_WARNING));
        for (guint16 i = 0; i < 2; i++) bundle_send(r, stream, i);
        for (guint16 i = 0; i < 2; i++) CHECK(bundle_goes_out(r, stream, i));
        if (stream == MOST) CHECK(posted(bus, GST_MESSAGE_WARNING));
    }
    CHECK(count_of(r->element, "sessions") == MOST && count_of(r->element, "passed") == 4);
}

/* Where nothing came of one for five seconds, its place is another one's, and its own packets go through from then on, unless there is a place
 * again. */
static void test_places(void) {
    receiver r = make_bundle(ANY_CAPS);
    GstBus *bus = bus_of(r.element);
    fill(&r, bus);
    gst_element_set_state(r.element, GST_STATE_NULL);
    gst_element_set_state(r.element, GST_STATE_PLAYING);
    gst_harness_set_src_caps_str(r.media, ANY_CAPS);
    fill(&r, bus);
    for (guint64 turn = 0; turn < 2; turn++) {
        set_clock_to(&r, 4000 + 1000 * turn - 1);
        for (guint stream = 0; stream < MOST; stream++)
            if (stream != 3) bundle_send(&r, stream, (guint16)(2 + turn));
        for (guint stream = 0; stream < MOST; stream++)
            if (stream != 3) CHECK(bundle_goes_out(&r, stream, (guint16)(2 + turn)));
        bundle_send(&r, MOST, (guint16)(2 + turn));
        CHECK(bundle_goes_out(&r, MOST, (guint16)(2 + turn)) && count_of(r.element, "sessions") == MOST);
    }
    set_clock_to(&r, 5000);
    bundle_send(&r, MOST, 4);
    bundle_send(&r, MOST, 6);
    bundle_send(&r, 3, 2);
    CHECK(bundle_goes_out(&r, MOST, 4) && bundle_goes_out(&r, 3, 2) && count_of(r.element, "sessions") == MOST + 1);
    TICKS(&r, 5020);
    CHECK(bundle_asks(&r, MOST, 5));
    bundle_repair(&r, MOST, 5);
    CHECK(bundle_goes_out(&r, MOST, 5) && bundle_goes_out(&r, MOST, 6));
    CHECK(bundle_count(&r, 3, "media") == G_MAXUINT64 && bundle_count(&r, MOST, "retransmissions") == 1);
    CHECK(count_of(r.element, "media") == 2 * MOST + 2 * (MOST - 1) + 2 && !posted(bus, GST_MESSAGE_WARNING | GST_MESSAGE_ERROR));
    drop_bus(r.element, bus);
    drop_bundle(&r);
}

/* Of several that are gone, that of which nothing came for the longest makes room. */
static void test_longest(void) {
    receiver r = make_bundle(ANY_CAPS);
    for (guint turn = 0; turn < MOST + 1; turn++) {
        set_clock_to(&r, 100 + turn);
        bundle_send(&r, turn % MOST, (guint16)(1 + turn / MOST));
        CHECK(bundle_goes_out(&r, turn % MOST, (guint16)(1 + turn / MOST)));
    }
    set_clock_to(&r, 6000);
    GstBuffer *made = make_packet(bundle_packet(MOST, 0));
    GST_BUFFER_FLAG_SET(made, GST_RTP_BUFFER_FLAG_RETRANSMISSION); /* which begins none */
    gst_harness_push(r.media, made);
    CHECK(bundle_goes_out(&r, MOST, 0) && bundle_count(&r, 1, "media") == 1);
    bundle_send(&r, MOST, 1);
    CHECK(bundle_goes_out(&r, MOST, 1) && bundle_count(&r, MOST, "media") == 1);
    for (guint stream = 0; stream < MOST; stream++) CHECK((bundle_count(&r, stream, "media") == G_MAXUINT64) == (stream == 1));
    drop_bundle(&r);
}

static GstPadProbeReturn note_order(GstPad *pad, GstPadProbeInfo *info, gpointer text) {
    (void)pad;
    if (info->type & GST_PAD_PROBE_TYPE_BUFFER) g_string_append_c(text, 'b');
    else if (gst_event_has_name(info->data, "one")) g_string_append_c(text, 'c');
    else if (gst_event_has_name(info->data, "GstRTPPacketLost")) g_string_append_c(text, 'l');
    else if (GST_EVENT_TYPE(info->data) == GST_EVENT_EOS) g_string_append_c(text, 'e');
    return GST_PAD_PROBE_OK;
}

static void push_one(receiver *r) {
    gst_harness_push_event(r->media, gst_event_new_custom(GST_EVENT_CUSTOM_DOWNSTREAM, gst_structure_new_empty("one")));
}

/* An event goes out behind the packets of all streams that came before it, and so does the end. What is lost for good is told by no event, which
 * could not say of which stream it is. */
static void test_event_order(void) {
    receiver r = make_bundle(ANY_CAPS);
    GString *order = g_string_new(NULL);
    GstPad *src = gst_element_get_static_pad(r.element, "src");
    g_object_set(r.element, "do-lost", TRUE, NULL);
    gst_pad_add_probe(src, GST_PAD_PROBE_TYPE_BUFFER | GST_PAD_PROBE_TYPE_EVENT_DOWNSTREAM, note_order, order, NULL);
    for (guint stream = 0; stream < 3; stream++) bundle_send(&r, stream, 10);
    for (guint stream = 0; stream < 2; stream++) bundle_send(&r, stream, (guint16)(12 + stream));
    push_one(&r);
    bundle_send(&r, 2, 12);
    push_one(&r);
    for (guint stream = 0; stream < 3; stream++) CHECK(bundle_goes_out(&r, stream, 10));
    TICKS(&r, 20);
    CHECK(bundle_asks(&r, 0, 11));
    bundle_repair(&r, 0, 11);
    CHECK(bundle_goes_out(&r, 0, 11) && bundle_goes_out(&r, 0, 12) && is_silent(r.media));
    CHECK(g_str_equal(order->str, "bbbbb"));
    gst_harness_push_event(r.media, gst_event_new_eos());
    TICKS(&r, 80);
    TICKS(&r, 140);
    TICKS(&r, 200);
    GstEvent *ended = next_event(r.media, GST_EVENT_EOS);
    CHECK(ended != NULL);
    if (ended) gst_event_unref(ended);
    CHECK(g_str_equal(order->str, "bbbbbbcbce"));
    gst_object_unref(src);
    drop_bundle(&r);
    g_string_free(order, TRUE);
}

/* A flush forgets what all of them hold, and each goes on. */
static void test_flush(void) {
    GstSegment segment;
    receiver r = make_known();
    GString *order = g_string_new(NULL);
    GstPad *src = gst_element_get_static_pad(r.element, "src");
    gst_pad_add_probe(src, GST_PAD_PROBE_TYPE_BUFFER | GST_PAD_PROBE_TYPE_EVENT_DOWNSTREAM, note_order, order, NULL);
    gst_segment_init(&segment, GST_FORMAT_TIME);
    for (guint stream = 0; stream < 2; stream++) bundle_send(&r, stream, 15);
    push_one(&r);
    CHECK(gst_harness_push_event(r.media, gst_event_new_flush_start()));
    CHECK(gst_harness_push_event(r.media, gst_event_new_flush_stop(TRUE)));
    CHECK(gst_harness_push_event(r.media, gst_event_new_segment(&segment)));
    for (guint stream = 0; stream < 2; stream++) {
        bundle_send(&r, stream, 20);
        CHECK(bundle_goes_out(&r, stream, 20));
        bundle_send(&r, stream, (guint16)(22 + stream));
    }
    TICKS(&r, 40);
    CHECK(bundle_asks(&r, 0, 21) && bundle_asks(&r, 1, 22));
    bundle_repair(&r, 0, 21);
    CHECK(bundle_goes_out(&r, 0, 21) && bundle_goes_out(&r, 0, 22) && count_of(r.element, "sessions") == 2);
    TICKS(&r, 100);
    CHECK(bundle_asks(&r, 1, 21));
    for (guint16 i = 21; i < 23; i++) bundle_repair(&r, 1, i);
    for (guint16 i = 21; i < 24; i++) CHECK(bundle_goes_out(&r, 1, i));
    CHECK(g_str_equal(order->str, "bbbbbbb"));
    gst_object_unref(src);
    drop_bundle(&r);
    g_string_free(order, TRUE);
}

/* Where the caps, or a property, name the one stream or its retransmissions, there is no other. */
static void test_named(void) {
    static const gchar *const names[] = {"ssrc", "rtx-ssrc"};
    for (guint i = 0; i < 4; i++) {
        guint32 ssrc = i % 2 ? bundle_rtx(0) : bundle_ssrc(0);
        gchar *caps = i < 2 ? g_strdup_printf("application/x-rtp,%s=(uint)%u", names[i % 2], ssrc) : g_strdup(ANY_CAPS);
        receiver r = make_bundle(caps);
        if (i >= 2) g_object_set(r.element, names[i % 2], ssrc, NULL);
        for (guint16 number = 10; number < 14; number += 2)
            for (guint stream = 0; stream < 2; stream++) bundle_send(&r, stream, number);
        CHECK(bundle_goes_out(&r, 0, 10) && bundle_goes_out(&r, 1, 10) && bundle_goes_out(&r, 1, 12));
        TICKS(&r, 20);
        CHECK(bundle_asks(&r, 0, 11) && bundle_asks_nothing(&r) && count_of(r.element, "sessions") == 1 && count_of(r.element, "passed") == 2);
        drop_bundle(&r);
        g_free(caps);
    }
}

/* Nor where somebody takes the feedback: what is not the stream's goes nowhere. */
static void test_feedback_taken(void) {
    receiver r = make_receiver(ANY_CAPS);
    gst_util_set_object_arg(G_OBJECT(r.element), "payload-type-map", "map,96=(uint)97,98=(uint)99");
    for (guint stream = 0; stream < 3; stream++) bundle_send(&r, stream, 10);
    CHECK(bundle_goes_out(&r, 0, 10) && is_silent(r.media) && count_of(r.element, "sessions") == 1 && count_of(r.element, "passed") == 0);
    drop_receiver(&r);
}

/* Caps that name a type end the streams of all others, whose places are free then. */
static void test_caps(void) {
    receiver r = make_bundle(ANY_CAPS);
    for (guint16 i = 10; i < 14; i += 2)
        for (guint stream = 0; stream < 3; stream++) bundle_send(&r, stream, i);
    for (guint stream = 0; stream < 3; stream++) CHECK(bundle_goes_out(&r, stream, 10));
    gst_harness_set_src_caps_str(r.media, "application/x-rtp,payload=98");
    CHECK(bundle_goes_out(&r, 0, 12) && bundle_goes_out(&r, 2, 12) && is_silent(r.media));
    for (guint stream = 0; stream < 3; stream++) CHECK((bundle_count(&r, stream, "media") == 2) == (stream == 1));
    bundle_send(&r, 2, 14);
    CHECK(bundle_goes_out(&r, 2, 14) && count_of(r.element, "sessions") == 3 && count_of(r.element, "media") == 6);
    TICKS(&r, 20);
    CHECK(bundle_asks(&r, 1, 11));
    GstPad *reports = gst_element_request_pad_simple(r.element, "sink_rtcp"); /* which makes no jitter buffer of what has begun */
    bundle_repair(&r, 1, 11);
    CHECK(bundle_goes_out(&r, 1, 11) && bundle_goes_out(&r, 1, 12));
    gst_element_release_request_pad(r.element, reports);
    gst_object_unref(reports);
    for (guint stream = 3; stream < 3 + 2 * 16; stream += 2) bundle_send(&r, stream, 1);
    CHECK(count_of(r.element, "sessions") == 3 + 15 && count_of(r.element, "passed") == 2);
    drop_bundle(&r);
}

/* Down and up again there is one stream until another one comes, of which an event tells what is lost; and what was counted is told until then. */
static void test_down_and_up(void) {
    receiver r = make_known();
    gst_element_set_state(r.element, GST_STATE_NULL);
    CHECK(count_of(r.element, "media") == 6 && bundle_count(&r, 0, "media") == G_MAXUINT64);
    g_object_set(r.element, "do-lost", TRUE, "latency", 10, NULL);
    gst_element_set_state(r.element, GST_STATE_PLAYING);
    gst_harness_set_src_caps_str(r.media, ANY_CAPS);
    for (guint16 i = 10; i < 14; i += 2) bundle_send(&r, 1, i);
    CHECK(bundle_goes_out(&r, 1, 10) && bundle_count(&r, 1, "media") == 2 && count_of(r.element, "media") == 2);
    TICKS(&r, 30);
    CHECK(bundle_goes_out(&r, 1, 12));
    GstEvent *lost = next_event(r.media, GST_EVENT_CUSTOM_DOWNSTREAM);
    CHECK(lost && gst_event_has_name(lost, "GstRTPPacketLost"));
    if (lost) gst_event_unref(lost);
    drop_bundle(&r);
}

/* What a jitter buffer behind it asks for goes no further, of each of its streams, but for others'. */
static void test_behind(void) {
    receiver r = make_known();
    while (gst_harness_upstream_events_in_queue(r.media) > 0) gst_event_unref(gst_harness_pull_upstream_event(r.media));
    for (guint stream = 0; stream < 3; stream++) {
        GstStructure *told = gst_structure_new("GstRTPRetransmissionRequest", "seqnum", G_TYPE_UINT, 14, "ssrc", G_TYPE_UINT, bundle_ssrc(stream), NULL);
        CHECK(gst_harness_push_upstream_event(r.media, gst_event_new_custom(GST_EVENT_CUSTOM_UPSTREAM, told)));
        CHECK(gst_harness_upstream_events_in_queue(r.media) == (stream == 2));
    }
    drop_bundle(&r);
}

void test_crowd(void) {
    test_places();
    test_longest();
    test_event_order();
    test_flush();
    test_named();
    test_feedback_taken();
    test_caps();
    test_down_and_up();
    test_behind();
}
