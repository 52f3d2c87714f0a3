/* The stream of a receiver: its events, flushes, end, errors, and a downstream that stands still. */
#include "checks.h"

#define MS(n) ((n) * (GstClockTime)GST_MSECOND)

/* Moves the clock on, until a packet is asked for. */
static gboolean asks_for(receiver *r, guint16 sequence) {
    if (!gst_harness_wait_for_clock_id_waits(r->media, 1, 2) || !gst_harness_crank_single_clock_wait(r->media)) return FALSE;
    GstBuffer *nack = next_buffer(r->feedback);
    gboolean asks = is_nack(nack, sequence, 0);
    gst_clear_buffer(&nack);
    return asks;
}

/* An event goes out behind all packets that came before it, also where one of them is missing. */
static void test_event_order(void) {
    receiver r = make_receiver(CAPS);
    SEND(&r, .sequence = 0);
    SEND(&r, .sequence = 2);
    gst_harness_push_event(r.media, gst_event_new_custom(GST_EVENT_CUSTOM_DOWNSTREAM, gst_structure_new_empty("one")));
    SEND(&r, .sequence = 3);
    COMES(r.media, .sequence = 0);
    CHECK(is_silent(r.media));
    guint events = gst_harness_events_received(r.media);
    CHECK(asks_for(&r, 1));
    REPAIR(&r, 9, .sequence = 1);
    COMES(r.media, .sequence = 1);
    COMES(r.media, .sequence = 2);
    COMES(r.media, .sequence = 3);
    CHECK(events == 3 && gst_harness_events_received(r.media) == 4);
    drop_receiver(&r);
}

static GstPadProbeReturn note_order(GstPad *pad, GstPadProbeInfo *info, gpointer text) {
    (void)pad;
    if (info->type & GST_PAD_PROBE_TYPE_BUFFER) g_string_append_c(text, 'b');
    else if (gst_event_has_name(info->data, "GstRTPPacketLost")) g_string_append_c(text, 'l');
    else if (gst_event_has_name(info->data, "one")) g_string_append_c(text, 'c');
    else if (GST_EVENT_TYPE(info->data) == GST_EVENT_EOS) g_string_append_c(text, 'e');
    return GST_PAD_PROBE_OK;
}

/* The same, what is lost, and the end: in the order of the pad. What is missing is waited for until its patience is over. */
static void test_end(void) {
    receiver r = make_receiver(CAPS);
    GString *order = g_string_new(NULL);
    GstPad *src = gst_element_get_static_pad(r.element, "src");
    g_object_set(r.element, "rtx-max-retries", 1, NULL);
    gst_pad_add_probe(src, GST_PAD_PROBE_TYPE_BUFFER | GST_PAD_PROBE_TYPE_EVENT_DOWNSTREAM, note_order, order, NULL);
    SEND(&r, .sequence = 0);
    SEND(&r, .sequence = 2);
    gst_harness_push_event(r.media, gst_event_new_custom(GST_EVENT_CUSTOM_DOWNSTREAM, gst_structure_new_empty("one")));
    SEND(&r, .sequence = 4);
    gst_harness_push_event(r.media, gst_event_new_eos());
    TICKS(&r, 20);
    COMES(r.media, .sequence = 0);
    CHECK(is_silent(r.media));
    CHECK(g_str_equal(order->str, "b"));
    TICKS(&r, 200);
    COMES(r.media, .sequence = 2);
    COMES(r.media, .sequence = 4);
    GstEvent *ended = next_event(r.media, GST_EVENT_EOS), *feedback_ended = next_event(r.feedback, GST_EVENT_EOS);
    CHECK(ended && feedback_ended);
    if (ended) gst_event_unref(ended);
    if (feedback_ended) gst_event_unref(feedback_ended);
    CHECK(g_str_equal(order->str, "blbclbe"));
    gst_object_unref(src);
    drop_receiver(&r);
    g_string_free(order, TRUE);
}

/* What the window drops is told before the event that came behind it, and what is dropped later, behind it. */
static void test_dropped_order(void) {
    receiver r = make_receiver(CAPS);
    GString *order = g_string_new(NULL);
    GstPad *src = gst_element_get_static_pad(r.element, "src");
    gst_element_set_state(r.element, GST_STATE_NULL);
    g_object_set(r.element, "max-size-packets", 4, NULL);
    gst_element_set_state(r.element, GST_STATE_PLAYING);
    gst_harness_set_src_caps_str(r.media, CAPS);
    gst_pad_add_probe(src, GST_PAD_PROBE_TYPE_BUFFER | GST_PAD_PROBE_TYPE_EVENT_DOWNSTREAM, note_order, order, NULL);
    SEND(&r, .sequence = 0);
    COMES(r.media, .sequence = 0);
    SEND(&r, .sequence = 3);
    gst_harness_push_event(r.media, gst_event_new_custom(GST_EVENT_CUSTOM_DOWNSTREAM, gst_structure_new_empty("one")));
    SEND(&r, .sequence = 8);
    SEND(&r, .sequence = 7);
    SEND(&r, .sequence = 6);
    SEND(&r, .sequence = 5);
    for (guint16 i = 5; i < 9; i++) COMES(r.media, .sequence = i);
    CHECK(g_str_equal(order->str, "blllclbbbb"));
    gst_object_unref(src);
    drop_receiver(&r);
    g_string_free(order, TRUE);
}

/* A flush forgets what is held, and another stream may follow; so it is after the end. */
static void test_flush(void) {
    receiver r = make_receiver(CAPS);
    GstSegment segment;
    gst_segment_init(&segment, GST_FORMAT_TIME);
    for (guint16 turn = 0; turn < 2; turn++) {
        SEND(&r, .sequence = 0);
        SEND(&r, .sequence = 2);
        COMES(r.media, .sequence = 0);
        if (turn == 1) {
            CHECK(asks_for(&r, 1));
            REPAIR(&r, 1, .sequence = 1);
            COMES(r.media, .sequence = 1);
            COMES(r.media, .sequence = 2);
            gst_harness_push_event(r.media, gst_event_new_eos());
            GstEvent *ended = next_event(r.feedback, GST_EVENT_EOS);
            CHECK(ended != NULL);
            if (ended) gst_event_unref(ended);
        }
        CHECK(gst_harness_push_event(r.media, gst_event_new_flush_start()));
        CHECK(SEND(&r, .sequence = 3) == GST_FLOW_FLUSHING);
        CHECK(gst_harness_push_event(r.media, gst_event_new_flush_stop(TRUE)));
        CHECK(gst_harness_push_event(r.media, gst_event_new_segment(&segment)));
        CHECK(SEND(&r, .sequence = 500) == GST_FLOW_OK);
        COMES(r.media, .sequence = 500);
        SEND(&r, .sequence = 502);
        CHECK(asks_for(&r, 501));
        CHECK(gst_harness_push_event(r.media, gst_event_new_flush_start()));
        CHECK(gst_harness_push_event(r.media, gst_event_new_flush_stop(TRUE)));
        CHECK(gst_harness_push_event(r.media, gst_event_new_segment(&segment)));
    }
    drop_receiver(&r);
}

static GstPadProbeReturn block(GstPad *pad, GstPadProbeInfo *info, gpointer data) {
    (void)pad, (void)info, (void)data;
    return GST_PAD_PROBE_OK;
}

/* While downstream takes nothing, what is missing is asked for none the less, and no more is kept than the window has. */
static void test_standstill(void) {
    receiver r = make_receiver(CAPS);
    GstPad *src = gst_element_get_static_pad(r.element, "src");
    gst_element_set_state(r.element, GST_STATE_NULL);
    g_object_set(r.element, "max-size-packets", 64, NULL);
    gst_element_set_state(r.element, GST_STATE_PLAYING);
    gst_harness_set_src_caps_str(r.media, CAPS);
    gulong probe = gst_pad_add_probe(src, GST_PAD_PROBE_TYPE_BLOCK | GST_PAD_PROBE_TYPE_BUFFER, block, NULL, NULL);
    for (guint16 i = 0; i < 10; i++) SEND(&r, .sequence = i);
    SEND(&r, .sequence = 11);
    TICKS(&r, 20);
    GstBuffer *nack = next_buffer(r.feedback);
    CHECK(is_nack(nack, 10, 0));
    gst_clear_buffer(&nack);
    REPAIR(&r, 1, .sequence = 10);
    for (guint16 i = 12; i < 1000; i++) SEND(&r, .sequence = i);
    guint64 overrun = count_of(r.element, "overrun");
    CHECK(overrun > 800 && overrun < 900);
    gst_pad_remove_probe(src, probe);
    for (guint16 i = 0; i < 64; i++) COMES(r.media, .sequence = i);
    gboolean last = FALSE;
    for (GstBuffer *next = NULL; !last && (next = next_buffer(r.media)); gst_buffer_unref(next))
        last = is_packet(next, (packet){.sequence = 999});
    CHECK(last);
    gst_object_unref(src);
    drop_receiver(&r);
}

/* The same where all that downstream may have is ready for it, and what is missing came behind it. */
static void test_full(void) {
    receiver r = make_receiver(CAPS);
    GstPad *src = gst_element_get_static_pad(r.element, "src");
    gst_element_set_state(r.element, GST_STATE_NULL);
    g_object_set(r.element, "max-size-packets", 8, NULL);
    gst_element_set_state(r.element, GST_STATE_PLAYING);
    gst_harness_set_src_caps_str(r.media, CAPS);
    gulong probe = gst_pad_add_probe(src, GST_PAD_PROBE_TYPE_BLOCK | GST_PAD_PROBE_TYPE_BUFFER, block, NULL, NULL);
    for (guint16 i = 0; i < 12; i++) SEND(&r, .sequence = i);
    CHECK(is_silent(r.feedback) && !gst_harness_wait_for_clock_id_waits(r.media, 1, 0));
    SEND(&r, .sequence = 13);
    TICKS(&r, 20);
    GstBuffer *nack = next_buffer(r.feedback);
    CHECK(is_nack(nack, 12, 0));
    gst_clear_buffer(&nack);
    for (guint64 at = 40; at <= 80; at += 20) TICKS(&r, at);
    nack = next_buffer(r.feedback);
    CHECK(is_nack(nack, 12, 0));
    gst_clear_buffer(&nack);
    REPAIR(&r, 1, .sequence = 12);
    gst_pad_remove_probe(src, probe);
    for (guint16 i = 0; i < 14; i++) COMES(r.media, .sequence = i);
    gst_object_unref(src);
    drop_receiver(&r);
}

static GstFlowReturn refuse(GstPad *pad, GstObject *parent, GstBuffer *buffer) {
    (void)pad, (void)parent;
    gst_buffer_unref(buffer);
    return GST_FLOW_NOT_NEGOTIATED;
}

/* What downstream answers reaches upstream; and where nothing comes any more, it is posted. */
static void test_error(void) {
    receiver r = make_receiver(CAPS);
    GstBus *bus = bus_of(r.element);
    gst_pad_set_chain_function(r.media->sinkpad, refuse);
    GstFlowReturn flow = GST_FLOW_OK;
    for (guint16 i = 0; i < 2000 && flow == GST_FLOW_OK; i++) {
        flow = SEND(&r, .sequence = i);
        g_usleep(1000);
    }
    CHECK(flow == GST_FLOW_NOT_NEGOTIATED && !posted(bus, GST_MESSAGE_ERROR));
    CHECK(!gst_harness_push_event(r.media, gst_event_new_custom(GST_EVENT_CUSTOM_DOWNSTREAM, gst_structure_new_empty("one"))));
    drop_bus(r.element, bus);
    drop_receiver(&r);
    r = make_receiver(CAPS);
    bus = bus_of(r.element);
    g_object_set(r.element, "rtx-max-retries", 1, NULL);
    SEND(&r, .sequence = 0);
    COMES(r.media, .sequence = 0);
    gst_pad_set_chain_function(r.media->sinkpad, refuse);
    SEND(&r, .sequence = 2);
    gst_harness_push_event(r.media, gst_event_new_eos());
    TICKS(&r, 20);
    TICKS(&r, 200);
    GstMessage *message = gst_bus_timed_pop_filtered(bus, 2 * GST_SECOND, GST_MESSAGE_ERROR);
    CHECK(message != NULL);
    if (message) gst_message_unref(message);
    drop_bus(r.element, bus);
    drop_receiver(&r);
}

static GstFlowReturn want_no_more(GstPad *pad, GstObject *parent, GstBuffer *buffer) {
    (void)pad, (void)parent;
    gst_buffer_unref(buffer);
    return GST_FLOW_EOS;
}

/* Pushes packets until upstream is told that no more are wanted, and gives how many were taken; 0 where it is not told. */
static guint16 push_until_bounded(receiver *r) {
    GstFlowReturn flow = GST_FLOW_OK;
    guint16 taken = 0;
    for (; taken < 1000 && flow == GST_FLOW_OK; taken++) {
        flow = SEND(r, .sequence = taken);
        g_usleep(1000);
    }
    return flow == GST_FLOW_EOS ? (guint16)(taken - 1) : 0;
}

static gboolean ends(receiver *r) {
    GstEvent *ended = next_event(r->media, GST_EVENT_EOS);
    if (ended) gst_event_unref(ended);
    return ended != NULL;
}

/* What wants no more packets, as `fakesink num-buffers`, still gets the end. */
static void test_bounded(void) {
    receiver r = make_receiver(CAPS);
    gst_pad_set_chain_function(r.media->sinkpad, want_no_more);
    CHECK(push_until_bounded(&r) > 0);
    CHECK(gst_harness_push_event(r.media, gst_event_new_eos()));
    CHECK(ends(&r));
    drop_receiver(&r);
}

/* The same where the end came already, and waits for a packet that is missing. */
static void test_bounded_late(void) {
    receiver r = make_receiver(CAPS);
    g_object_set(r.element, "rtx-max-retries", 1, NULL);
    SEND(&r, .sequence = 0);
    COMES(r.media, .sequence = 0);
    gst_pad_set_chain_function(r.media->sinkpad, want_no_more);
    SEND(&r, .sequence = 2);
    SEND(&r, .sequence = 3);
    gst_harness_push_event(r.media, gst_event_new_eos());
    TICKS(&r, 20);
    TICKS(&r, 200);
    CHECK(ends(&r));
    drop_receiver(&r);
}

/* Another segment may be wanted again. */
static void test_wanted_again(void) {
    receiver r = make_receiver(CAPS);
    GstSegment segment;
    gst_segment_init(&segment, GST_FORMAT_TIME);
    GstPadChainFunction chain = GST_PAD_CHAINFUNC(r.media->sinkpad);
    gst_pad_set_chain_function(r.media->sinkpad, want_no_more);
    guint16 next = push_until_bounded(&r);
    CHECK(next > 0);
    gst_pad_set_chain_function(r.media->sinkpad, chain);
    CHECK(SEND(&r, .sequence = next) == GST_FLOW_EOS);
    CHECK(gst_harness_push_event(r.media, gst_event_new_segment(&segment)));
    CHECK(SEND(&r, .sequence = next) == GST_FLOW_OK);
    COMES(r.media, .sequence = next);
    drop_receiver(&r);
}

/* Events that wait for packets are bounded, and none is lost. */
static void test_many_events(void) {
    enum { EVENTS = 5000 };
    receiver r = make_receiver(CAPS);
    SEND(&r, .sequence = 0);
    COMES(r.media, .sequence = 0);
    for (guint16 i = 0; i < EVENTS; i++) {
        if (i % 100 == 0) SEND(&r, .sequence = (guint16)(2 + i / 100));
        gst_harness_push_event(r.media, gst_event_new_custom(GST_EVENT_CUSTOM_DOWNSTREAM, gst_structure_new_empty("one")));
    }
    for (gint i = 0; i < 2000 && gst_harness_events_received(r.media) < 3 + EVENTS - 2000; i++) g_usleep(1000);
    CHECK(gst_harness_events_received(r.media) >= 3 + EVENTS - 2000 && gst_harness_events_received(r.media) < 3 + EVENTS);
    CHECK(asks_for(&r, 1));
    REPAIR(&r, 9, .sequence = 1);
    for (guint16 i = 1; i < 2 + EVENTS / 100; i++) COMES(r.media, .sequence = i);
    for (gint i = 0; i < 2000 && gst_harness_events_received(r.media) < 3 + EVENTS; i++) g_usleep(1000);
    CHECK(gst_harness_events_received(r.media) == 3 + EVENTS);
    drop_receiver(&r);
}

static gboolean has_event(GstHarness *h, GstEventType type) {
    GstEvent *event = next_event(h, type);
    if (event) gst_event_unref(event);
    return event != NULL;
}

/* A stream behind the end of another one, without a flush between: what is lost of it is asked for as well, in a stream of feedback
 * that begins anew, and given up in time. */
static void test_behind_the_end(void) {
    receiver r = make_receiver(CAPS);
    GstSegment segment;
    gst_segment_init(&segment, GST_FORMAT_TIME);
    for (guint16 first = 0; first < 30; first += 10) {
        SEND(&r, .sequence = first);
        SEND(&r, .sequence = first + 2);
        COMES(r.media, .sequence = first);
        CHECK(asks_for(&r, first + 1));
        REPAIR(&r, first, .sequence = first + 1);
        COMES(r.media, .sequence = first + 1);
        COMES(r.media, .sequence = first + 2);
        for (guint16 i = 3; i < 10; i++) SEND(&r, .sequence = first + i);
        for (guint16 i = 3; i < 10; i++) COMES(r.media, .sequence = first + i);
        CHECK(gst_harness_push_event(r.media, gst_event_new_eos()));
        CHECK(has_event(r.feedback, GST_EVENT_EOS) && ends(&r));
        CHECK(gst_harness_push_event(r.media, gst_event_new_stream_start("another")));
        gst_harness_set_src_caps_str(r.media, CAPS);
        CHECK(gst_harness_push_event(r.media, gst_event_new_segment(&segment)));
        CHECK(has_event(r.feedback, GST_EVENT_STREAM_START) && has_event(r.feedback, GST_EVENT_SEGMENT));
    }
    SEND(&r, .sequence = 31);
    for (gint i = 0; i < 40 && count_of(r.element, "gaps") == 0; i++)
        if (gst_harness_wait_for_clock_id_waits(r.media, 1, 2)) gst_harness_crank_single_clock_wait(r.media);
    COMES(r.media, .sequence = 31);
    drop_receiver(&r);
}

void test_streams(void) {
    test_event_order();
    test_end();
    test_dropped_order();
    test_flush();
    test_standstill();
    test_full();
    test_error();
    test_bounded();
    test_bounded_late();
    test_wanted_again();
    test_many_events();
    test_behind_the_end();
}
