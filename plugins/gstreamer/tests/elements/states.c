/* States: many changes, and many streams at once, each with a lossy path of its own. */
#include "checks.h"

enum { STREAMS = 8, PACKETS = 2000, CHANGES = 10000 };

/* A path that drops one in ten packets each way. Its state is that of a generator. */
static GstPadProbeReturn lose(GstPad *pad, GstPadProbeInfo *info, gpointer state) {
    guint32 *drawn = state;
    (void)pad, (void)info;
    *drawn = *drawn * 1664525 + 1013904223;
    return (*drawn >> 16) % 10 == 0 ? GST_PAD_PROBE_DROP : GST_PAD_PROBE_OK;
}

/* A sender and a receiver, whose feedback goes back. */
typedef struct pair {
    GstElement *pipeline, *send, *recv, *source, *sink;
    GstPad *back[2]; /* the way of feedback, which is in no bin: a bin warns of a loop */
    guint32 drawn[2];
    guint64 came, wrong, next;
} pair;

static void on_packet(GstElement *sink, GstBuffer *buffer, GstPad *pad, pair *p) {
    guint8 octets[20];
    (void)sink, (void)pad;
    gst_buffer_extract(buffer, 0, octets, sizeof octets);
    guint64 index = GST_READ_UINT64_BE(octets + 12);
    p->wrong += index < p->next || GST_BUFFER_PTS(buffer) != index * GST_MSECOND;
    p->next = index + 1;
    p->came++;
}

static GstFlowReturn go_back(GstPad *pad, GstObject *parent, GstBuffer *buffer) {
    (void)parent;
    return gst_pad_push(gst_pad_get_element_private(pad), buffer);
}

static gboolean go_back_event(GstPad *pad, GstObject *parent, GstEvent *event) {
    (void)parent;
    return gst_pad_push_event(gst_pad_get_element_private(pad), event);
}

/* Feedback goes from the receiver to the sender. */
static void link_back(pair *p) {
    GstPad *from = gst_element_get_static_pad(p->recv, "feedback_src"), *to = gst_element_get_static_pad(p->send, "feedback_sink");
    p->back[0] = gst_pad_new(NULL, GST_PAD_SINK);
    p->back[1] = gst_pad_new(NULL, GST_PAD_SRC);
    gst_pad_set_element_private(p->back[0], p->back[1]);
    gst_pad_set_chain_function(p->back[0], go_back);
    gst_pad_set_event_function(p->back[0], go_back_event);
    CHECK(gst_pad_link_full(from, p->back[0], GST_PAD_LINK_CHECK_NOTHING) == GST_PAD_LINK_OK);
    CHECK(gst_pad_link_full(p->back[1], to, GST_PAD_LINK_CHECK_NOTHING) == GST_PAD_LINK_OK);
    for (gint i = 0; i < 2; i++) gst_pad_set_active(p->back[i], TRUE);
    gst_object_unref(from);
    gst_object_unref(to);
}

static void drop_pair(pair *p) {
    CHECK(gst_element_set_state(p->pipeline, GST_STATE_NULL) == GST_STATE_CHANGE_SUCCESS);
    gst_object_unref(p->pipeline);
    for (gint i = 0; i < 2; i++) {
        gst_pad_set_active(p->back[i], FALSE);
        gst_object_unref(p->back[i]);
    }
}

static void link_pads(GstElement *from, const gchar *out, GstElement *to, const gchar *in) {
    CHECK(gst_element_link_pads(from, out, to, in));
}

static void make_pair(pair *p, guint32 seed) {
    p->pipeline = gst_pipeline_new(NULL);
    p->source = gst_element_factory_make("appsrc", NULL);
    p->send = gst_element_factory_make("gozdritsend", NULL);
    p->recv = gst_element_factory_make("gozdritrecv", NULL);
    p->sink = gst_element_factory_make("fakesink", NULL);
    p->drawn[0] = seed, p->drawn[1] = seed + 1;
    GstCaps *caps = gst_caps_from_string(CAPS ",seqnum-offset=(uint)65000");
    g_object_set(p->source, "caps", caps, "format", GST_FORMAT_TIME, "block", TRUE, "max-bytes", (guint64)20000, NULL);
    gst_caps_unref(caps);
    g_object_set(p->sink, "signal-handoffs", TRUE, "sync", FALSE, NULL);
    g_signal_connect(p->sink, "handoff", G_CALLBACK(on_packet), p);
    gst_bin_add_many(GST_BIN(p->pipeline), p->source, p->send, p->recv, p->sink, NULL);
    link_pads(p->source, "src", p->send, "sink");
    link_pads(p->send, "src", p->recv, "sink");
    link_pads(p->recv, "src", p->sink, "sink");
    link_back(p);
    GstPad *ways[2] = {gst_element_get_static_pad(p->send, "src"), gst_element_get_static_pad(p->recv, "feedback_src")};
    for (gint i = 0; i < 2; i++) {
        gst_pad_add_probe(ways[i], GST_PAD_PROBE_TYPE_BUFFER, lose, &p->drawn[i], NULL);
        gst_object_unref(ways[i]);
    }
}

/* Sends a millisecond's packet after the other, and the end. */
static gpointer feed(gpointer data) {
    pair *p = data;
    GstFlowReturn flow;
    for (guint64 i = 0; i < PACKETS; i++) {
        GstBuffer *buffer = make_packet((packet){.sequence = (guint16)(65000 + i), .pts = i * GST_MSECOND});
        guint8 octets[8];
        GST_WRITE_UINT64_BE(octets, i);
        gst_buffer_fill(buffer, 12, octets, sizeof octets);
        g_signal_emit_by_name(p->source, "push-buffer", buffer, &flow);
        gst_buffer_unref(buffer);
        g_usleep(500);
    }
    g_signal_emit_by_name(p->source, "end-of-stream", &flow);
    return NULL;
}

static void finish_pair(pair *p) {
    GstBus *bus = gst_element_get_bus(p->pipeline);
    GstMessage *message = gst_bus_timed_pop_filtered(bus, 20 * GST_SECOND, GST_MESSAGE_EOS | GST_MESSAGE_ERROR);
    CHECK(message && GST_MESSAGE_TYPE(message) == GST_MESSAGE_EOS);
    if (message) gst_message_unref(message);
    guint64 gaps = count_of(p->recv, "gaps"), repaired = count_of(p->recv, "retransmissions");
    if (!CHECK(p->came + gaps == PACKETS && gaps <= 5 && repaired >= 100 && p->wrong == 0))
        g_print("came %u, gaps %u, repaired %u, wrong %u\n", (guint)p->came, (guint)gaps, (guint)repaired, (guint)p->wrong);
    CHECK(count_of(p->recv, "overrun") == 0 && count_of(p->send, "sent") == PACKETS);
    gst_object_unref(bus);
    drop_pair(p);
}

/* Eight streams at once, with losses both ways: each comes whole but for a few packets, in order, with its times. */
static void test_many_streams(void) {
    static pair pairs[STREAMS];
    GThread *threads[STREAMS];
    for (guint32 i = 0; i < STREAMS; i++) make_pair(&pairs[i], i * 7919 + 1);
    for (guint i = 0; i < STREAMS; i++) gst_element_set_state(pairs[i].pipeline, GST_STATE_PLAYING);
    for (guint i = 0; i < STREAMS; i++) threads[i] = g_thread_new("feed", feed, &pairs[i]);
    for (guint i = 0; i < STREAMS; i++) g_thread_join(threads[i]);
    for (guint i = 0; i < STREAMS; i++) finish_pair(&pairs[i]);
}

/* States in any order, while packets come, until there were so many changes. VALGRIND makes fewer of them. */
static void test_changes(void) {
    static pair p;
    guint32 drawn = 5;
    guint changes = g_getenv("CHANGES") ? (guint)g_ascii_strtoull(g_getenv("CHANGES"), NULL, 10) : CHANGES;
    make_pair(&p, 3);
    g_object_set(p.send, "eos-delay", 0, NULL);
    gboolean went = TRUE;
    for (guint i = 0; i < changes; i++) {
        GstFlowReturn flow;
        drawn = drawn * 1664525 + 1013904223;
        went &= gst_element_set_state(p.pipeline, (GstState)(GST_STATE_NULL + (drawn >> 16) % 4)) != GST_STATE_CHANGE_FAILURE;
        for (guint16 number = 0; number < 4; number++) {
            GstBuffer *buffer = make_packet((packet){.sequence = (guint16)(i * 4 + number)});
            g_signal_emit_by_name(p.source, "push-buffer", buffer, &flow);
            gst_buffer_unref(buffer);
        }
        if ((drawn >> 20) % 16 == 0) g_signal_emit_by_name(p.source, "end-of-stream", &flow);
    }
    CHECK(went);
    drop_pair(&p);
}

static void on_nack(GstElement *sink, GstBuffer *buffer, GstPad *pad, gint *nacks) {
    (void)sink, (void)buffer, (void)pad;
    g_atomic_int_inc(nacks);
}

#define LIVE_END "appsrc name=source is-live=true format=time caps=" CAPS ",seqnum-base=(uint)10" \
    " ! gozdritrecv name=recv latency=5000 ! fakesink "

/* A live pipeline, whose sink of NACKs is named. */
static GstElement *make_live(void) {
    return gst_parse_launch(LIVE_END "recv.feedback_src ! fakesink name=sink signal-handoffs=true", NULL);
}

/* The same with the receiver in one bin, and the sink in another. */
static GstElement *make_live_in_bins(void) {
    GstElement *pipeline = gst_pipeline_new(NULL), *left = gst_parse_bin_from_description(LIVE_END, FALSE, NULL);
    GstElement *right = gst_parse_bin_from_description("fakesink name=sink signal-handoffs=true", TRUE, NULL);
    GstElement *recv = gst_bin_get_by_name(GST_BIN(left), "recv");
    GstPad *feedback = gst_element_get_static_pad(recv, "feedback_src");
    gst_element_add_pad(left, gst_ghost_pad_new("feedback", feedback));
    gst_bin_add_many(GST_BIN(pipeline), left, right, NULL);
    CHECK(gst_element_link_pads(left, "feedback", right, "sink"));
    gst_object_unref(feedback);
    gst_object_unref(recv);
    return pipeline;
}

/* Whether the first packet, which was lost, is asked for in a live pipeline, while the media's sink waits for it. `least` becomes how
 * long the pipeline took to begin, in microseconds, if that is less. */
static gboolean asks_for_the_first(GstElement *pipeline, gint64 *least) {
    gint nacks = 0;
    GstFlowReturn flow;
    GstElement *source = gst_bin_get_by_name(GST_BIN(pipeline), "source"), *sink = gst_bin_get_by_name(GST_BIN(pipeline), "sink");
    g_signal_connect(sink, "handoff", G_CALLBACK(on_nack), &nacks);
    gint64 began = g_get_monotonic_time();
    gst_element_set_state(pipeline, GST_STATE_PLAYING);
    *least = MIN(*least, g_get_monotonic_time() - began);
    GstBuffer *buffer = make_packet((packet){.sequence = 11});
    g_signal_emit_by_name(source, "push-buffer", buffer, &flow);
    gst_buffer_unref(buffer);
    for (gint i = 0; i < 1000 && g_atomic_int_get(&nacks) == 0; i++) g_usleep(1000);
    gst_element_set_state(pipeline, GST_STATE_NULL);
    gst_object_unref(source);
    gst_object_unref(sink);
    gst_object_unref(pipeline);
    return nacks > 0;
}

/* The sink of NACKs goes on to PLAYING by itself. Were that a race, one of so many would lose it; and it is not waited for in vain. */
static void test_first_frame(void) {
    gint64 least = G_MAXINT64;
    gboolean each = TRUE;
    for (gint i = 0; i < 20; i++) each &= asks_for_the_first(make_live(), &least);
    CHECK(each);
    for (gint i = 0; i < 20; i++) each &= asks_for_the_first(make_live_in_bins(), &least);
    CHECK(each);
    CHECK(least < 90000);
}

void test_states(void) {
    test_first_frame();
    test_many_streams();
    test_changes();
}
