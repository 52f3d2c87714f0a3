/* What a receiver forgets at a flush, and flushes while it is stopped. */
#include "checks.h"

#define MS(n) ((n) * (GstClockTime)GST_MSECOND)

static void flush(receiver *r) {
    GstSegment segment;
    gst_segment_init(&segment, GST_FORMAT_TIME);
    gst_harness_push_event(r->media, gst_event_new_flush_start());
    gst_harness_push_event(r->media, gst_event_new_flush_stop(TRUE));
    gst_harness_push_event(r->media, gst_event_new_segment(&segment));
}

static GstPadProbeReturn hold(GstPad *pad, GstPadProbeInfo *info, gpointer data) {
    (void)pad, (void)info, (void)data;
    return GST_PAD_PROBE_OK;
}

/* What was to go out, as downstream stood still. */
static void test_ready(void) {
    receiver r = make_receiver(CAPS);
    GstPad *src = gst_element_get_static_pad(r.element, "src");
    SEND(&r, .sequence = 10);
    COMES(r.media, .sequence = 10);
    gulong probe = gst_pad_add_probe(src, GST_PAD_PROBE_TYPE_BLOCK | GST_PAD_PROBE_TYPE_BUFFER, hold, NULL, NULL);
    for (guint16 i = 11; i < 20; i++) SEND(&r, .sequence = i);
    CHECK(is_silent(r.media));
    flush(&r);
    gst_pad_remove_probe(src, probe);
    SEND(&r, .sequence = 500);
    COMES(r.media, .sequence = 500);
    CHECK(is_silent(r.media));
    gst_object_unref(src);
    drop_receiver(&r);
}

static gboolean has_come(GstHarness *h, const gchar *name) {
    for (GstEvent *event; (event = gst_harness_try_pull_event(h)); gst_event_unref(event)) {
        if (!gst_event_has_name(event, name)) continue;
        gst_event_unref(event);
        return TRUE;
    }
    return FALSE;
}

/* An event that waits for packets. */
static void test_event(void) {
    receiver r = make_receiver(CAPS);
    SEND(&r, .sequence = 10);
    SEND(&r, .sequence = 12);
    COMES(r.media, .sequence = 10);
    gst_harness_push_event(r.media, gst_event_new_custom(GST_EVENT_CUSTOM_DOWNSTREAM, gst_structure_new_empty("one")));
    flush(&r);
    gst_harness_push_event(r.media, gst_event_new_custom(GST_EVENT_CUSTOM_DOWNSTREAM, gst_structure_new_empty("two")));
    SEND(&r, .sequence = 70);
    COMES(r.media, .sequence = 70);
    CHECK(!has_come(r.media, "one"));
    drop_receiver(&r);
}

/* Where the packets' times lie. */
static void test_times_anew(void) {
    receiver r = make_receiver(CAPS);
    SEND(&r, .sequence = 10, .pts = MS(1000));
    COMES(r.media, .sequence = 10, .pts = MS(1000));
    flush(&r);
    SEND(&r, .sequence = 11, .pts = MS(1500), .offset = (guint32)-(480 * RATE / 1000)); /* 20 ms on, by its timestamp */
    COMES(r.media, .sequence = 11, .pts = MS(1500), .offset = (guint32)-(480 * RATE / 1000));
    drop_receiver(&r);
}

/* What a stranger sent, who would have the session with one packet more. */
static void test_ssrc(void) {
    receiver r = make_receiver("application/x-rtp,media=video,clock-rate=90000,encoding-name=X,payload=96");
    SEND(&r, .sequence = 10);
    COMES(r.media, .sequence = 10);
    for (guint16 i = 0; i < 9; i++) SEND(&r, .sequence = 500 + i, .ssrc = 7);
    flush(&r);
    SEND(&r, .sequence = 509, .ssrc = 7);
    SEND(&r, .sequence = 11);
    COMES(r.media, .sequence = 11);
    CHECK(count_of(r.element, "sessions") == 1);
    drop_receiver(&r);
}

/* A query that would have to wait for the packets before it is not answered. */
static void test_query(void) {
    receiver r = make_receiver(CAPS);
    GstQuery *query = gst_query_new_drain();
    CHECK(!gst_pad_peer_query(r.media->srcpad, query));
    gst_query_unref(query);
    drop_receiver(&r);
}

/* A flush that ends while the pads are made inactive begins no task: nobody would end it. */
static void test_inactive(void) {
    receiver r = make_receiver(CAPS);
    GstPad *pads[] = {gst_element_get_static_pad(r.element, "src"), gst_element_get_static_pad(r.element, "feedback_src")};
    gst_harness_push_event(r.media, gst_event_new_flush_start());
    for (guint i = 0; i < G_N_ELEMENTS(pads); i++) gst_pad_set_active(pads[i], FALSE);
    gst_harness_push_event(r.media, gst_event_new_flush_stop(TRUE));
    for (guint i = 0; i < G_N_ELEMENTS(pads); i++) {
        CHECK(gst_pad_get_task_state(pads[i]) == GST_TASK_STOPPED);
        gst_object_unref(pads[i]);
    }
    drop_receiver(&r);
}

static gboolean stopped;

static gpointer flush_on(gpointer sink) {
    while (!g_atomic_int_get(&stopped)) {
        gst_pad_send_event(sink, gst_event_new_flush_start());
        gst_pad_send_event(sink, gst_event_new_flush_stop(TRUE));
    }
    return NULL;
}

/* The same at any moment. Who hangs here waits for a task. */
static void test_stops(void) {
    for (gulong i = 0; i < 100; i++) {
        GstElement *element = gst_element_factory_make("gozdritrecv", NULL);
        GstPad *sink = gst_element_get_static_pad(element, "sink");
        g_atomic_int_set(&stopped, FALSE);
        gst_element_set_state(element, GST_STATE_PLAYING);
        GThread *thread = g_thread_new("flush", flush_on, sink);
        g_usleep(i * 37 % 1000);
        CHECK(gst_element_set_state(element, GST_STATE_NULL) == GST_STATE_CHANGE_SUCCESS);
        g_atomic_int_set(&stopped, TRUE);
        g_thread_join(thread);
        gst_object_unref(sink);
        gst_object_unref(element);
    }
}

void test_flushes(void) {
    test_ready();
    test_event();
    test_times_anew();
    test_ssrc();
    test_query();
    test_inactive();
    test_stops();
}
