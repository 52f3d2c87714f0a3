/* What a sender makes of feedback, and of the end of its stream. */
#include "checks.h"

static void test_nacks(void) {
    sender s = make_sender();
    CHECK(gst_harness_push(s.feedback, make_nack(1, 0)) == GST_FLOW_OK); /* before anything was sent */
    send_five(&s);
    gst_harness_push(s.feedback, make_nack(1, 2));
    CHECK(repair_comes(&s, (packet){.sequence = 1, .fill = 1}));
    CHECK(repair_comes(&s, (packet){.sequence = 3, .fill = 3}));
    gst_harness_push(s.feedback, make_nack(7, 0)); /* never sent */
    gst_harness_push(s.feedback, gst_buffer_new_memdup("noise", 5));
    CHECK(is_silent(s.media));
    CHECK(count_of(s.element, "retransmissions") == 2 && count_of(s.element, "nacks") == 2);
    CHECK(count_of(s.element, "unknown") == 1 && count_of(s.element, "media") + count_of(s.element, "refused") == 1);
    drop_sender(&s);
}

/* What lies behind the history is not retransmitted, and one packet only so often. */
static void test_limits(void) {
    sender s = make_sender();
    gst_element_set_state(s.element, GST_STATE_NULL);
    g_object_set(s.element, "max-size-packets", 2, "rtx-max-repeats", 1, NULL);
    gst_element_set_state(s.element, GST_STATE_PLAYING);
    send_five(&s);
    gst_harness_push(s.feedback, make_nack(2, 1));
    CHECK(repair_comes(&s, (packet){.sequence = 3, .fill = 3}));
    gst_harness_push(s.feedback, make_nack(3, 0));
    CHECK(is_silent(s.media));
    CHECK(count_of(s.element, "exhausted") == 1 && count_of(s.element, "unknown") == 1);
    drop_sender(&s);
}

/* NACKs of the one reporter that is heard. */
static void test_reporter(void) {
    sender s = make_sender();
    g_object_set(s.element, "receiver-ssrc", 9, NULL);
    send_five(&s);
    gst_harness_push(s.feedback, make_nack(1, 0));
    CHECK(is_silent(s.media));
    CHECK(count_of(s.element, "refused") == 1);
    drop_sender(&s);
}

static void names_at(sender *s, guint64 at, guint16 pid, guint16 blp) {
    gst_harness_set_time(s->media, at * GST_MSECOND);
    gst_harness_push(s->feedback, make_nack(pid, blp));
}

/* A packet is not retransmitted again too soon, and not past its time. */
static void test_in_time(void) {
    sender s = make_sender();
    gst_element_set_state(s.element, GST_STATE_NULL);
    g_object_set(s.element, "rtx-min-interval", 50, "max-size-time", 200, NULL);
    gst_element_set_state(s.element, GST_STATE_PLAYING);
    send_five(&s);
    names_at(&s, 40, 1, 0);
    CHECK(repair_comes(&s, (packet){.sequence = 1, .fill = 1}));
    names_at(&s, 89, 1, 1);
    CHECK(repair_comes(&s, (packet){.sequence = 2, .fill = 2}));
    CHECK(is_silent(s.media));
    names_at(&s, 90, 1, 0);
    CHECK(repair_comes(&s, (packet){.sequence = 1, .fill = 1}));
    names_at(&s, 200, 3, 0);
    CHECK(repair_comes(&s, (packet){.sequence = 3, .fill = 3}));
    names_at(&s, 201, 4, 0);
    CHECK(is_silent(s.media));
    CHECK(count_of(s.element, "retransmissions") == 4);
    CHECK(count_of(s.element, "early") == 1 && count_of(s.element, "expired") == 1);
    drop_sender(&s);
}

/* A type of the retransmissions that is below 64, beside media that has the one by which the library knows them else. */
static void test_low_type(void) {
    GstHarness *media = gst_harness_new_with_padnames("gozdritsend", "sink", "src");
    GstHarness *feedback = gst_harness_new_with_element(media->element, "feedback_sink", NULL);
    guint8 octets[2] = {0};
    g_object_set(media->element, "rtx-payload-type", 36, NULL);
    gst_harness_set_src_caps_str(media, CAPS);
    gst_harness_set_src_caps_str(feedback, "application/x-rtcp");
    CHECK(gst_harness_push(media, make_packet((packet){.sequence = 7, .type = RTX_TYPE, .marker = TRUE})) == GST_FLOW_OK);
    COMES(media, .sequence = 7, .type = RTX_TYPE, .marker = TRUE);
    gst_harness_push(feedback, make_nack(7, 0));
    GstBuffer *repair = next_buffer(media);
    if (repair) gst_buffer_extract(repair, 0, octets, sizeof octets);
    CHECK(repair && octets[1] == (128 | 36));
    gst_clear_buffer(&repair);
    gst_harness_teardown(feedback);
    gst_harness_teardown(media);
}

/* What an rtpsession behind the element tells of a NACK is answered like one; what it tells of other streams goes on upstream. */
static void test_requests(void) {
    sender s = make_sender();
    CHECK(gst_harness_upstream_events_in_queue(s.media) == 1); /* that it was linked */
    send_five(&s);
    CHECK(request(&s, MEDIA, 2) && repair_comes(&s, (packet){.sequence = 2, .fill = 2}));
    CHECK(request(&s, MEDIA, 77) && is_silent(s.media));
    CHECK(gst_harness_upstream_events_in_queue(s.media) == 1);
    request(&s, 5, 2);
    CHECK(gst_harness_upstream_events_in_queue(s.media) == 2 && is_silent(s.media));
    CHECK(count_of(s.element, "nacks") == 2 && count_of(s.element, "unknown") == 1);
    drop_sender(&s);
}

/* Whether a collision of an SSRC is kept from upstream. */
static gboolean avoids(sender *s, guint32 ssrc) {
    guint before = gst_harness_upstream_events_in_queue(s->media);
    GstStructure *told = gst_structure_new("GstRTPCollision", "ssrc", G_TYPE_UINT, ssrc, NULL);
    gst_harness_push_upstream_event(s->media, gst_event_new_custom(GST_EVENT_CUSTOM_UPSTREAM, told));
    return gst_harness_upstream_events_in_queue(s->media) == before;
}

/* Where the SSRC of the retransmissions collides they have another one, by caps and in what goes out, of packets that went before too. */
static void test_collision(void) {
    sender s = make_sender();
    send_five(&s);
    CHECK(!avoids(&s, RTX) && rtx_ssrc_of(s.media) == RTX); /* a property says which it is */
    gst_element_set_state(s.element, GST_STATE_NULL);
    g_object_set(s.element, "rtx-ssrc", G_MAXUINT32, NULL);
    gst_element_set_state(s.element, GST_STATE_PLAYING);
    gst_harness_set_src_caps_str(s.media, CAPS);
    send_five(&s);
    guint before = rtx_ssrc_of(s.media);
    CHECK(!avoids(&s, MEDIA) && !avoids(&s, before + 1) && rtx_ssrc_of(s.media) == before);
    CHECK(request(&s, MEDIA, 1) && repair_comes(&s, (packet){.sequence = 1, .fill = 1, .ssrc = before}));
    CHECK(avoids(&s, before) && rtx_ssrc_of(s.media) != before);
    CHECK(request(&s, MEDIA, 3) && repair_comes(&s, (packet){.sequence = 3, .fill = 3, .ssrc = rtx_ssrc_of(s.media)}));
    drop_sender(&s);
}

static GstFlowReturn take_media(GstPad *pad, GstObject *parent, GstBuffer *buffer) {
    (void)parent;
    g_async_queue_push(gst_pad_get_element_private(pad), buffer);
    return GST_FLOW_OK;
}

/* A pad of the test's, linked to an element's, that pushes a stream of these caps. */
static GstPad *source_to(GstElement *element, const gchar *name, const gchar *text) {
    GstPad *pad = gst_pad_new(NULL, GST_PAD_SRC), *to = gst_element_get_static_pad(element, name);
    GstCaps *caps = gst_caps_from_string(text);
    GstSegment segment;
    if (!to) to = gst_element_request_pad_simple(element, name);
    gst_segment_init(&segment, GST_FORMAT_TIME);
    CHECK(gst_pad_link(pad, to) == GST_PAD_LINK_OK);
    gst_pad_set_active(pad, TRUE);
    gst_pad_push_event(pad, gst_event_new_stream_start(name));
    gst_pad_push_event(pad, gst_event_new_caps(caps));
    gst_pad_push_event(pad, gst_event_new_segment(&segment));
    gst_caps_unref(caps);
    gst_object_unref(to);
    return pad;
}

/* The same with an rtpsession itself, where there is one: a datagram of RTCP with a NACK brings the packet again. */
static void test_rtpsession(void) {
    GError *error = NULL;
    GstElement *bin = gst_parse_launch("gozdritsend name=send ! session.send_rtp_sink rtpsession name=session rtp-profile=avpf", &error);
    if (error) { /* there is no rtpsession */
        g_error_free(error);
        gst_clear_object(&bin);
        return;
    }
    GAsyncQueue *came = g_async_queue_new_full((GDestroyNotify)gst_buffer_unref);
    GstElement *send = gst_bin_get_by_name(GST_BIN(bin), "send"), *session = gst_bin_get_by_name(GST_BIN(bin), "session");
    GstPad *from = gst_element_get_static_pad(session, "send_rtp_src"), *sink = gst_pad_new(NULL, GST_PAD_SINK);
    gst_pad_set_element_private(sink, came);
    gst_pad_set_chain_function(sink, take_media);
    gst_pad_set_active(sink, TRUE);
    CHECK(gst_pad_link(from, sink) == GST_PAD_LINK_OK);
    gst_element_set_state(bin, GST_STATE_PLAYING);
    GstPad *media = source_to(send, "sink", CAPS), *rtcp = source_to(session, "recv_rtcp_sink", "application/x-rtcp");
    for (guint16 i = 0; i < 3; i++) CHECK(gst_pad_push(media, make_packet((packet){.sequence = i, .fill = (guint8)i})) == GST_FLOW_OK);
    CHECK(gst_pad_push(rtcp, make_nack(1, 0)) == GST_FLOW_OK);
    for (guint16 i = 0; i < 4; i++) {
        GstBuffer *buffer = g_async_queue_timeout_pop(came, 2 * G_USEC_PER_SEC);
        guint8 octets[14] = {0};
        if (buffer) gst_buffer_extract(buffer, 0, octets, sizeof octets);
        CHECK(buffer && (octets[1] & 127) == (i < 3 ? TYPE : RTX_TYPE));
        CHECK(i < 3 ? GST_READ_UINT16_BE(octets + 2) == i : GST_READ_UINT16_BE(octets + 12) == 1);
        gst_clear_buffer(&buffer);
    }
    gst_element_set_state(bin, GST_STATE_NULL);
    GstPad *pads[] = {media, rtcp, sink};
    for (guint i = 0; i < G_N_ELEMENTS(pads); i++) {
        gst_pad_set_active(pads[i], FALSE);
        gst_object_unref(pads[i]);
    }
    gst_object_unref(from);
    gst_object_unref(send);
    gst_object_unref(session);
    gst_object_unref(bin);
    g_async_queue_unref(came);
}

void test_feedback(void) {
    test_nacks();
    test_in_time();
    test_limits();
    test_reporter();
    test_low_type();
    test_requests();
    test_collision();
    test_rtpsession();
}

static gpointer end_stream(gpointer harness) {
    gst_harness_push_event(harness, gst_event_new_eos());
    return NULL;
}

static gboolean has_ended(GstHarness *h) {
    GstEvent *event = next_event(h, GST_EVENT_EOS);
    if (event) gst_event_unref(event);
    return event != NULL;
}

/* At the end the last packet is repeated, feedback is answered, and then the end goes on. */
static void test_end(void) {
    sender s = make_sender();
    g_object_set(s.element, "rtx-max-repeats", 3, "eos-delay", 400, NULL);
    send_five(&s);
    GThread *thread = g_thread_new("end", end_stream, s.media);
    CHECK(repair_comes(&s, (packet){.sequence = 4, .fill = 4}));
    gst_harness_push(s.feedback, make_nack(2, 0));
    CHECK(repair_comes(&s, (packet){.sequence = 2, .fill = 2}));
    for (gint i = 0; i < 3; i++) {
        CHECK(gst_harness_events_in_queue(s.media) == 3); /* the stream's beginning, no end */
        CHECK(gst_harness_crank_single_clock_wait(s.media));
        if (i < 2) CHECK(repair_comes(&s, (packet){.sequence = 4, .fill = 4}));
    }
    CHECK(gst_harness_crank_single_clock_wait(s.media));
    CHECK(has_ended(s.media));
    g_thread_join(thread);
    GstTestClock *clock = gst_harness_get_testclock(s.media);
    CHECK(gst_clock_get_time(GST_CLOCK(clock)) == 400 * GST_MSECOND);
    gst_object_unref(clock);
    CHECK(is_silent(s.media));
    drop_sender(&s);
}

/* A flush ends the wait, and so does the way to NULL. */
static void test_interrupted_end(void) {
    sender s = make_sender();
    send_five(&s);
    GThread *thread = g_thread_new("end", end_stream, s.media);
    CHECK(gst_harness_wait_for_clock_id_waits(s.media, 1, 2));
    gst_harness_push_event(s.media, gst_event_new_flush_start());
    g_thread_join(thread);
    gst_harness_push_event(s.media, gst_event_new_flush_stop(TRUE));
    drop_sender(&s);
    s = make_sender();
    send_five(&s);
    thread = g_thread_new("end", end_stream, s.media);
    CHECK(gst_harness_wait_for_clock_id_waits(s.media, 1, 2));
    gst_element_set_state(s.element, GST_STATE_NULL);
    g_thread_join(thread);
    drop_sender(&s);
}

/* Where nobody can ask, nothing is waited for. */
static void test_end_without_feedback(void) {
    GstHarness *h = gst_harness_new_with_padnames("gozdritsend", "sink", "src");
    gst_harness_set_src_caps_str(h, CAPS);
    gst_harness_push(h, make_packet((packet){.sequence = 4}));
    gst_harness_push_event(h, gst_event_new_eos());
    COMES(h, .sequence = 4);
    CHECK(has_ended(h));
    gst_harness_teardown(h);
}

void test_tail(void) {
    test_end();
    test_interrupted_end();
    test_end_without_feedback();
}
