/* What elements noted of packets in their buffers, which a receiver hands on, and which buffers it keeps. */
#include "checks.h"

#define MS(n) ((n) * (GstClockTime)GST_MSECOND)

static gint alive;

static void dropped(gpointer data, GstMiniObject *object) {
    (void)data, (void)object;
    g_atomic_int_dec_and_test(&alive);
}

/* Marks a buffer with a time, which is a meta of GStreamer's core, and counts it until it is gone. */
static GstBuffer *mark(GstBuffer *buffer, guint64 time) {
    GstCaps *caps = gst_caps_new_empty_simple("timestamp/x-test");
    gst_buffer_add_reference_timestamp_meta(buffer, caps, time, GST_CLOCK_TIME_NONE);
    gst_caps_unref(caps);
    GST_BUFFER_DURATION(buffer) = MS(7);
    GST_BUFFER_FLAG_SET(buffer, GST_BUFFER_FLAG_DELTA_UNIT | GST_BUFFER_FLAG_DISCONT);
    gst_mini_object_weak_ref(GST_MINI_OBJECT(buffer), dropped, NULL);
    g_atomic_int_inc(&alive);
    return buffer;
}

static gboolean is_marked(GstBuffer *buffer, guint64 time) {
    GstReferenceTimestampMeta *meta = buffer ? gst_buffer_get_reference_timestamp_meta(buffer, NULL) : NULL;
    return meta && meta->timestamp == time;
}

static void send_marked(receiver *r, packet of) { gst_harness_push(r->media, mark(make_packet(of), of.sequence)); }

/* A packet goes out in its own buffer, with its metas, duration and flags, but for those of the stream. */
static void test_own_buffer(void) {
    receiver r = make_receiver(CAPS);
    for (guint16 i = 10; i < 13; i++) {
        GstBuffer *sent = mark(make_packet((packet){.sequence = i, .pts = MS(i), .marker = i == 11}), i);
        gst_harness_push(r.media, sent);
        GstBuffer *out = next_buffer(r.media);
        CHECK(is_marked(out, i) && is_packet(out, (packet){.sequence = i, .pts = MS(i), .marker = i == 11}));
        CHECK(out == sent && GST_BUFFER_DURATION(out) == MS(7));
        CHECK(out && GST_BUFFER_FLAG_IS_SET(out, GST_BUFFER_FLAG_DELTA_UNIT));
        CHECK(out && GST_BUFFER_FLAG_IS_SET(out, GST_BUFFER_FLAG_DISCONT) == (i == 10));
        CHECK(out && GST_BUFFER_FLAG_IS_SET(out, GST_BUFFER_FLAG_MARKER) == (i == 11));
        gst_clear_buffer(&out);
    }
    CHECK(g_atomic_int_get(&alive) == 0);
    drop_receiver(&r);
}

/* Who else has a buffer keeps it as it is. */
static void test_shared(void) {
    receiver r = make_receiver(CAPS);
    SEND(&r, .sequence = 10, .pts = MS(1000));
    GstBuffer *sent = make_packet((packet){.sequence = 11, .pts = MS(1020)});
    GST_BUFFER_PTS(sent) = MS(1035); /* later than its timestamp says */
    gst_harness_push(r.media, gst_buffer_ref(sent));
    COMES(r.media, .sequence = 10, .pts = MS(1000));
    COMES(r.media, .sequence = 11, .pts = MS(1020));
    CHECK(GST_BUFFER_PTS(sent) == MS(1035));
    gst_buffer_unref(sent);
    drop_receiver(&r);
}

/* What waits keeps what is its own, and a repaired packet has what came with its retransmission. The first of two counts. */
static void test_waiting(void) {
    receiver r = make_receiver(CAPS);
    send_marked(&r, (packet){.sequence = 10});
    send_marked(&r, (packet){.sequence = 12, .pts = MS(20)});
    gst_harness_push(r.media, mark(make_packet((packet){.sequence = 12, .pts = MS(20)}), 99));
    TICKS(&r, 20);
    GstBuffer *nack = next_buffer(r.feedback);
    CHECK(is_nack(nack, 11, 0));
    gst_clear_buffer(&nack);
    gst_harness_push(r.media, mark(make_repair((packet){.sequence = 11, .pts = MS(10)}, 7), 77));
    for (guint16 i = 10; i < 13; i++) {
        GstBuffer *out = next_buffer(r.media);
        CHECK(is_packet(out, (packet){.sequence = i, .pts = MS(10) * (i - 10u)}) && is_marked(out, i == 11 ? 77 : i));
        CHECK(out && GST_BUFFER_DURATION_IS_VALID(out) == (i != 11) && !GST_BUFFER_FLAG_IS_SET(out, GST_RTP_BUFFER_FLAG_RETRANSMISSION));
        gst_clear_buffer(&out);
    }
    CHECK(g_atomic_int_get(&alive) == 0);
    drop_receiver(&r);
}

/* A padded packet goes out without its padding, and with its metas. */
static void test_padded(void) {
    receiver r = make_receiver(CAPS);
    GstBuffer *sent = make_packet((packet){.sequence = 10, .length = 20});
    gst_buffer_memset(sent, 0, 0xa0, 1);
    gst_buffer_memset(sent, 31, 10, 1);
    gst_harness_push(r.media, mark(sent, 5));
    GstBuffer *out = next_buffer(r.media);
    CHECK(is_packet(out, (packet){.sequence = 10, .length = 10}) && is_marked(out, 5));
    CHECK(out && GST_BUFFER_DURATION(out) == MS(7) && GST_BUFFER_FLAG_IS_SET(out, GST_BUFFER_FLAG_DELTA_UNIT));
    gst_clear_buffer(&out);
    drop_receiver(&r);
}

/* Takes all that comes, until nothing came for a while. */
static guint take_all(receiver *r) {
    guint count = 0;
    for (guint waited = 0; waited < 300; waited++) {
        for (GstBuffer *out; (out = gst_harness_try_pull(r->media)); count++, waited = 0) gst_buffer_unref(out);
        g_usleep(1000);
    }
    return count;
}

static GstPadProbeReturn hold(GstPad *pad, GstPadProbeInfo *info, gpointer data) {
    (void)pad, (void)info, (void)data;
    return GST_PAD_PROBE_OK;
}

/* No buffer is kept of what went out, was overrun, flushed, left behind by a restart or another SSRC, or is of another type. */
static void test_kept(void) {
    receiver r = make_receiver("application/x-rtp,media=video,clock-rate=90000,encoding-name=X,payload=96");
    GstPad *src = gst_element_get_static_pad(r.element, "src");
    GstSegment segment;
    gst_segment_init(&segment, GST_FORMAT_TIME);
    gst_element_set_state(r.element, GST_STATE_NULL);
    g_object_set(r.element, "max-size-packets", 16, "latency", 5000, NULL);
    gst_element_set_state(r.element, GST_STATE_PLAYING);
    gst_harness_set_src_caps_str(r.media, "application/x-rtp,media=video,clock-rate=90000,encoding-name=X,payload=96");
    for (guint16 i = 0; i < 20; i++) send_marked(&r, (packet){.sequence = i});
    CHECK(take_all(&r) == 20 && g_atomic_int_get(&alive) == 0);
    send_marked(&r, (packet){.sequence = 20, .type = 13});
    CHECK(take_all(&r) == 0 && g_atomic_int_get(&alive) == 0);
    gulong probe = gst_pad_add_probe(src, GST_PAD_PROBE_TYPE_BLOCK | GST_PAD_PROBE_TYPE_BUFFER, hold, NULL, NULL);
    for (guint16 i = 30; i < 400; i++) send_marked(&r, (packet){.sequence = i});
    CHECK(g_atomic_int_get(&alive) > 16 && count_of(r.element, "overrun") > 300);
    gst_pad_remove_probe(src, probe);
    CHECK(take_all(&r) > 16);
    CHECK(g_atomic_int_get(&alive) == 0);
    send_marked(&r, (packet){.sequence = 402});
    gst_harness_push_event(r.media, gst_event_new_flush_start());
    gst_harness_push_event(r.media, gst_event_new_flush_stop(TRUE));
    gst_harness_push_event(r.media, gst_event_new_segment(&segment));
    CHECK(g_atomic_int_get(&alive) == 0);
    send_marked(&r, (packet){.sequence = 500});
    send_marked(&r, (packet){.sequence = 502});
    set_clock_to(&r, 200);
    for (guint16 i = 0; i < 2; i++) send_marked(&r, (packet){.sequence = 30000 + i, .pts = MS(i), .offset = 77777}); /* restarts */
    CHECK(count_of(r.element, "restarts") == 1 && take_all(&r) == 3 && g_atomic_int_get(&alive) == 0);
    send_marked(&r, (packet){.sequence = 30003});
    for (guint16 i = 0; i < 2; i++) send_marked(&r, (packet){.sequence = 3 + i, .ssrc = 7}); /* a stranger's are not kept */
    CHECK(g_atomic_int_get(&alive) == 1);
    set_clock_to(&r, 1200);
    for (guint16 i = 0; i < 2; i++) send_marked(&r, (packet){.sequence = 5 + i, .ssrc = 7});
    CHECK(count_of(r.element, "sessions") == 2 && take_all(&r) == 3 && g_atomic_int_get(&alive) == 0);
    send_marked(&r, (packet){.sequence = 9, .ssrc = 7});
    gst_object_unref(src);
    drop_receiver(&r);
    CHECK(g_atomic_int_get(&alive) == 0);
}

void test_metas(void) {
    test_own_buffer();
    test_shared();
    test_waiting();
    test_padded();
    test_kept();
}
