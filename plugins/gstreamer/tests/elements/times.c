/* The times of packets, latency, and clocks. */
#include "checks.h"

#define MS(n) ((n) * (GstClockTime)GST_MSECOND)

static GstClockTime next_pts(receiver *r) {
    GstBuffer *buffer = next_buffer(r->media);
    GstClockTime pts = buffer ? GST_BUFFER_PTS(buffer) : GST_CLOCK_TIME_NONE;
    gst_clear_buffer(&buffer);
    return pts;
}

/* Sends a packet whose timestamp stands for `of`, at the time `at`. */
static void send_at(receiver *r, guint16 sequence, GstClockTime of, GstClockTime at) {
    GstBuffer *buffer = make_packet((packet){.sequence = sequence, .pts = of, .offset = 0xffffff00});
    GST_BUFFER_PTS(buffer) = GST_BUFFER_DTS(buffer) = at;
    gst_harness_push(r->media, buffer);
}

/* What the network does to arrivals is not in the times; they follow the earliest arrival. The timestamp wraps. */
static void test_jitter(void) {
    receiver r = make_receiver(CAPS);
    send_at(&r, 0, 0, MS(1000));
    send_at(&r, 1, MS(20), MS(1035));
    send_at(&r, 2, MS(40), MS(1041));
    send_at(&r, 3, MS(60), MS(1055)); /* 5 ms earlier than the first one */
    send_at(&r, 4, MS(80), MS(1095));
    CHECK(next_pts(&r) == MS(1000));
    CHECK(next_pts(&r) == MS(1020));
    CHECK(next_pts(&r) == MS(1040));
    CHECK(next_pts(&r) == MS(1055));
    CHECK(next_pts(&r) == MS(1075));
    drop_receiver(&r);
}

/* A far clock that is slower by one in a thousand: after 30 seconds the times are late by no more than the last spans. */
static void test_skew(void) {
    receiver r = make_receiver(CAPS);
    GstClockTime at = 0, pts = 0;
    for (guint16 i = 0; i < 1500; i++) {
        at = MS(20) * i + MS(20) * i / 1000;
        send_at(&r, i, MS(20) * i, at);
        pts = next_pts(&r);
    }
    CHECK(pts <= at && at - pts < MS(8)); /* without it, 30 ms */
    drop_receiver(&r);
}

/* Timestamps that jump are another stream's, and begin where the packet came. */
static void test_jump(void) {
    receiver r = make_receiver(CAPS);
    send_at(&r, 0, 0, MS(1000));
    send_at(&r, 1, MS(3000), MS(1020));
    send_at(&r, 2, MS(3020), MS(1040));
    CHECK(next_pts(&r) == MS(1000));
    CHECK(next_pts(&r) == MS(1020));
    CHECK(next_pts(&r) == MS(1040));
    drop_receiver(&r);
}

/* Without a clock rate the times are those of the arrivals; static types have one. */
static void test_rates(void) {
    receiver r = make_receiver("application/x-rtp");
    send_at(&r, 0, 0, MS(1000));
    send_at(&r, 1, MS(20), MS(1035));
    CHECK(next_pts(&r) == MS(1000));
    CHECK(next_pts(&r) == MS(1035));
    drop_receiver(&r);
    r = make_receiver("application/x-rtp,payload=26");
    for (guint16 i = 0; i < 2; i++) {
        GstBuffer *buffer = make_packet((packet){.sequence = i, .pts = MS(20) * i, .type = 26});
        GST_BUFFER_PTS(buffer) = MS(35) * i;
        gst_harness_push(r.media, buffer);
    }
    CHECK(next_pts(&r) == 0);
    CHECK(next_pts(&r) == MS(20));
    drop_receiver(&r);
}

/* A packet without a time came now, by the clock. */
static void test_untimed(void) {
    receiver r = make_receiver(CAPS);
    set_clock_to(&r, 700);
    send_at(&r, 0, 0, GST_CLOCK_TIME_NONE);
    CHECK(next_pts(&r) == MS(700));
    drop_receiver(&r);
}

/* The latency is added to what is upstream, and a change of it is told. */
static void test_latency(void) {
    receiver r = make_receiver(CAPS);
    GstBus *bus = bus_of(r.element);
    gst_harness_set_upstream_latency(r.media, MS(30));
    CHECK(gst_harness_query_latency(r.media) == MS(230));
    g_object_set(r.element, "latency", 500, NULL);
    CHECK(gst_harness_query_latency(r.media) == MS(530));
    CHECK(posted(bus, GST_MESSAGE_LATENCY));
    SEND(&r, .sequence = 0);
    SEND(&r, .sequence = 2);
    for (guint64 at = 20; at <= 440; at += 60) TICKS(&r, at);
    TICKS(&r, 500);
    COMES(r.media, .sequence = 0);
    COMES(r.media, .sequence = 2);
    drop_bus(r.element, bus);
    drop_receiver(&r);
}

/* A source that is not live, and that keeps no more than 50 ms. */
static gboolean answer_query(GstPad *pad, GstObject *parent, GstQuery *query) {
    if (GST_QUERY_TYPE(query) != GST_QUERY_LATENCY) return gst_pad_query_default(pad, parent, query);
    gst_query_set_latency(query, FALSE, 0, MS(50));
    return TRUE;
}

/* Whether what is upstream of a pad tells this latency, without a longest one. */
static gboolean is_latency(GstPad *pad, gboolean wanted_live, GstClockTime wanted) {
    GstQuery *query = gst_query_new_latency();
    GstClockTime least = 0, most = 0;
    gboolean live = FALSE, answered = gst_pad_peer_query(pad, query);
    gst_query_parse_latency(query, &live, &least, &most);
    gst_query_unref(query);
    return answered && live == wanted_live && least == wanted && most == GST_CLOCK_TIME_NONE;
}

/* What waits for packets is live, and keeps as much as comes, whatever is upstream; feedback waits for nothing. */
static void test_live(void) {
    receiver r = make_receiver(CAPS);
    gst_pad_set_query_function(r.media->srcpad, answer_query);
    CHECK(is_latency(r.media->sinkpad, TRUE, MS(200)));
    CHECK(is_latency(r.feedback->sinkpad, FALSE, 0));
    drop_receiver(&r);
}

/* A latency that becomes shorter while a packet is waited for ends the wait. */
static void test_shorter(void) {
    receiver r = make_receiver(CAPS);
    SEND(&r, .sequence = 0);
    SEND(&r, .sequence = 2);
    COMES(r.media, .sequence = 0);
    CHECK(is_silent(r.media));
    g_object_set(r.element, "latency", 0, NULL);
    COMES(r.media, .sequence = 2);
    drop_receiver(&r);
}

/* Another clock takes the place of the one before: what is waited for is due after as long as before. */
static void test_clock(void) {
    receiver r = make_receiver(CAPS);
    GstClock *clock = gst_test_clock_new_with_start_time(MS(5000));
    SEND(&r, .sequence = 0);
    SEND(&r, .sequence = 2);
    CHECK(gst_harness_wait_for_clock_id_waits(r.media, 1, 2));
    gst_element_set_clock(r.element, clock);
    GstClockID id;
    gst_test_clock_wait_for_next_pending_id(GST_TEST_CLOCK(clock), &id);
    CHECK(gst_clock_id_get_time(id) == MS(5020));
    gst_clock_id_unref(id);
    CHECK(gst_test_clock_crank(GST_TEST_CLOCK(clock)));
    GstBuffer *nack = next_buffer(r.feedback);
    CHECK(is_nack(nack, 1, 0));
    gst_clear_buffer(&nack);
    drop_receiver(&r);
    gst_object_unref(clock);
}

/* Times of 2^63 and more, which no stream has, are none to a receiver: they move those of the packets behind them by nothing. */
static void test_huge(void) {
    static const GstClockTime huge[] = {G_GUINT64_CONSTANT(1) << 63, G_MAXUINT64 - 1, (G_GUINT64_CONSTANT(1) << 62) + 1};
    for (guint i = 0; i < G_N_ELEMENTS(huge); i++) {
        receiver r = make_receiver(CAPS);
        send_at(&r, 0, 0, MS(1000));
        send_at(&r, 1, MS(20), huge[i]);
        send_at(&r, 2, MS(40), MS(1040));
        CHECK(next_pts(&r) == MS(1000));
        CHECK(next_pts(&r) == MS(1020));
        CHECK(next_pts(&r) == MS(1040));
        drop_receiver(&r);
    }
}

static gint criticals, halted;

static void count_criticals(const gchar *domain, GLogLevelFlags level, const gchar *text, gpointer data) {
    if (level & G_LOG_LEVEL_CRITICAL) g_atomic_int_inc(&criticals);
    g_log_default_handler(domain, level, text, data);
}

/* Clocks that come and go, of which the last reference is the element's. */
static gpointer change_clocks(gpointer element) {
    while (!g_atomic_int_get(&halted)) {
        GstClock *clock = gst_test_clock_new();
        gst_element_set_clock(element, clock);
        gst_object_unref(clock);
    }
    return NULL;
}

/* Packets without a time, which came now, while the clock changes and goes. */
static void test_clocks(void) {
    GstElement *element = gst_element_factory_make("gozdritrecv", NULL);
    GstHarness *h = gst_harness_new_with_element(element, "sink", "src");
    GLogFunc before = g_log_set_default_handler(count_criticals, NULL);
    gst_harness_set_src_caps_str(h, CAPS);
    g_atomic_int_set(&halted, FALSE);
    GThread *thread = g_thread_new("clocks", change_clocks, element);
    for (guint16 i = 0; i < 20000; i++) {
        GstBuffer *buffer = make_packet((packet){.sequence = i});
        GST_BUFFER_PTS(buffer) = GST_BUFFER_DTS(buffer) = GST_CLOCK_TIME_NONE;
        gst_harness_push(h, buffer);
        for (GstBuffer *out; (out = gst_harness_try_pull(h)); gst_buffer_unref(out)) continue;
    }
    g_atomic_int_set(&halted, TRUE);
    g_thread_join(thread);
    CHECK(g_atomic_int_get(&criticals) == 0);
    g_log_set_default_handler(before, NULL);
    gst_harness_teardown(h);
    gst_object_unref(element);
}

void test_times(void) {
    test_huge();
    test_clocks();
    test_jitter();
    test_skew();
    test_jump();
    test_rates();
    test_untimed();
    test_latency();
    test_live();
    test_shorter();
    test_clock();
}
