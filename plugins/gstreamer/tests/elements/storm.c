/* Both elements where everything happens at once: odd packets, losses, reordering before and behind the sender, strangers, streams that end
 * or begin anew, other caps and properties, flushes, changes of state, reports and the end, each at a drawn moment; half of the receivers are in a
 * jitter buffer's place, and those whose feedback nobody takes have a map else, and repair several streams; to half of the others nobody names a stream, and
 * packets come from several addresses. What comes out has to be RTP. Who
 * hangs is killed after a while, and what sanitizers find ends the program. STORM is for how many seconds (else 2), and SEED draws. */
#include "checks.h"

#include <gst/net/gstnetaddressmeta.h>
#include <string.h>
#include <unistd.h>

enum { HANGS = 30 }; /* seconds */

typedef struct storm {
    GstElement *pipeline, *send, *recv;
    GstPad *source;  /* pushes to the sender */
    GstPad *back[2]; /* the way of feedback, which is in no bin: a bin warns of a loop */
    GMutex pushing;  /* what is pushed in one piece */
    GMutex path;     /* the state of the path: */
    GRand *drawn;
    GstBuffer *behind; /* a packet that the next one overtakes */
    gint stopped, renewed; /* renewed: the next packet wants the events of a stream before it */
    gboolean in_place;     /* the receiver is a jitter buffer's, or else */
    gboolean several;      /* repairs several streams */
    gboolean is_open;      /* hears whoever sends */
    gint wrong;
    guint32 seed;
} storm;

/* ---- the path from the sender to the receiver */

/* Writes something into a packet's header. */
static GstBuffer *spoil(GstBuffer *buffer, GRand *drawn) {
    buffer = gst_buffer_make_writable(buffer);
    gst_buffer_memset(buffer, (gsize)g_rand_int_range(drawn, 0, 12), (guint8)g_rand_int(drawn), 1);
    return buffer;
}

/* Most packets come from one address. */
static GstBuffer *from_somewhere(GstBuffer *buffer, GRand *drawn) {
    static const gchar *const addresses[] = {"192.0.2.1", "192.0.2.2", "2001:db8::1"};
    gint draw = g_rand_int_range(drawn, 0, 40);
    if (draw == 3) return buffer;
    GSocketAddress *address = g_inet_socket_address_new_from_string(addresses[draw < 3 ? draw : 0], 6004);
    buffer = gst_buffer_make_writable(buffer);
    gst_buffer_add_net_address_meta(buffer, address);
    g_object_unref(address);
    return buffer;
}

static GstPadProbeReturn pass_path(GstPad *pad, GstPadProbeInfo *info, gpointer data) {
    storm *s = data;
    GstPadProbeReturn done = GST_PAD_PROBE_OK;
    (void)pad;
    g_mutex_lock(&s->path);
    gint draw = g_rand_int_range(s->drawn, 0, 1000);
    if (s->is_open) GST_PAD_PROBE_INFO_DATA(info) = from_somewhere(GST_PAD_PROBE_INFO_BUFFER(info), s->drawn);
    GstBuffer *buffer = GST_PAD_PROBE_INFO_BUFFER(info);
    if (draw < 100) {
        done = GST_PAD_PROBE_DROP;
    } else if (draw < 150) { /* it comes when the next one is held back */
        GST_PAD_PROBE_INFO_DATA(info) = s->behind;
        s->behind = buffer;
        if (!GST_PAD_PROBE_INFO_DATA(info)) done = GST_PAD_PROBE_HANDLED;
    } else if (draw < 160) {
        GST_PAD_PROBE_INFO_DATA(info) = spoil(buffer, s->drawn);
    }
    g_mutex_unlock(&s->path);
    return done;
}

/* Caps that name no stream, as an rtpsession's. */
static GstPadProbeReturn hide_caps(GstPad *pad, GstPadProbeInfo *info, gpointer data) {
    (void)pad, (void)data;
    if (GST_EVENT_TYPE(info->data) != GST_EVENT_CAPS) return GST_PAD_PROBE_OK;
    GstCaps *caps = gst_caps_new_empty_simple("application/x-rtp");
    gst_event_unref(info->data);
    info->data = gst_event_new_caps(caps);
    gst_caps_unref(caps);
    return GST_PAD_PROBE_OK;
}

/* ---- what is sent */

static void begin_stream(storm *s, guint32 ssrc, guint8 type) {
    GstSegment segment;
    gst_segment_init(&segment, GST_FORMAT_TIME);
    gchar *text = g_strdup_printf("application/x-rtp,media=video,clock-rate=90000,encoding-name=X,payload=%u,ssrc=(uint)%u", type, ssrc);
    GstCaps *caps = gst_caps_from_string(text);
    gst_pad_push_event(s->source, gst_event_new_stream_start("storm"));
    gst_pad_push_event(s->source, gst_event_new_caps(caps));
    gst_pad_push_event(s->source, gst_event_new_segment(&segment));
    gst_caps_unref(caps);
    g_free(text);
}

/* An extension of either form, of any octets, most of which are short elements, padding or ids that programs tell. */
static void draw_extension(GstRTPBuffer *rtp, GRand *drawn) {
    guint16 profile = g_rand_boolean(drawn) ? 0xbede : 0x1000;
    guint words = (guint)g_rand_int_range(drawn, 0, g_rand_int_range(drawn, 0, 4) ? 17 : 300);
    gpointer octets;
    gst_rtp_buffer_set_extension_data(rtp, profile, (guint16)words);
    gst_rtp_buffer_get_extension_data(rtp, &profile, &octets, &words);
    for (guint i = 0; i < 4 * words; i++)
        ((guint8 *)octets)[i] = (guint8)(g_rand_int_range(drawn, 0, 4) << (g_rand_boolean(drawn) ? 4 : 0) | g_rand_int_range(drawn, 0, 3));
}

/* A packet with CSRCs, an extension, padding or many octets; or no packet at all. */
static GstBuffer *make_odd(packet of, GRand *drawn) {
    GstRTPBuffer rtp = GST_RTP_BUFFER_INIT;
    if (g_rand_int_range(drawn, 0, 4) == 0) return gst_buffer_new_memdup("octets", 6);
    guint length = (guint)g_rand_int_range(drawn, 0, GOZDRIT_MAX_PAYLOAD + 10);
    GstBuffer *buffer =
        gst_rtp_buffer_new_allocate(length, (guint8)g_rand_int_range(drawn, 0, 256), (guint8)g_rand_int_range(drawn, 0, 16));
    gst_rtp_buffer_map(buffer, GST_MAP_READWRITE, &rtp);
    gst_rtp_buffer_set_payload_type(&rtp, of.type);
    gst_rtp_buffer_set_ssrc(&rtp, of.ssrc);
    gst_rtp_buffer_set_seq(&rtp, of.sequence);
    gst_rtp_buffer_set_timestamp(&rtp, timestamp_of(of));
    draw_extension(&rtp, drawn);
    gst_rtp_buffer_unmap(&rtp);
    GST_BUFFER_PTS(buffer) = g_rand_boolean(drawn) ? of.pts : (G_GUINT64_CONSTANT(1) << g_rand_int_range(drawn, 60, 64)) + g_rand_int(drawn);
    return buffer;
}

static GstBuffer *make_any(packet of, GRand *drawn) { return g_rand_int_range(drawn, 0, 20) ? make_packet(of) : make_odd(of, drawn); }

static void push_some(storm *s, packet *of, GRand *drawn) {
    gint draw = g_rand_int_range(drawn, 0, 300);
    if (draw == 0) of->sequence = (guint16)g_rand_int(drawn);
    if (draw == 1) of->ssrc = g_rand_int(drawn);
    if (draw == 2) of->type = (guint8)g_rand_int_range(drawn, 96, 100);
    if (draw == 3) gst_pad_push_event(s->source, gst_event_new_eos());
    if (draw < 5 || g_atomic_int_compare_and_exchange(&s->renewed, TRUE, FALSE)) begin_stream(s, of->ssrc, of->type);
    GstBufferList *list = draw < 50 ? gst_buffer_list_new() : NULL;
    for (gint i = 0; i < (list ? 5 : 1); i++, of->sequence++, of->pts += GST_MSECOND) {
        packet next = *of;
        if (g_rand_int_range(drawn, 0, 10) == 0) next.sequence = (guint16)(next.sequence + g_rand_int_range(drawn, -9, 10));
        if (g_rand_int_range(drawn, 0, 10) == 0) next.ssrc += (guint32)g_rand_int_range(drawn, 0, 100);
        else if (s->several) next.ssrc += of->sequence / 4 % 3; /* three that go on */
        GstBuffer *buffer = make_any(next, drawn);
        if (list) gst_buffer_list_insert(list, -1, buffer);
        else gst_pad_push(s->source, buffer);
    }
    if (list) gst_pad_push_list(s->source, list);
}

static gpointer feed(gpointer data) {
    storm *s = data;
    GRand *drawn = g_rand_new_with_seed(s->seed + 1);
    packet next = {.ssrc = MEDIA, .type = TYPE, .sequence = 65000};
    while (!g_atomic_int_get(&s->stopped)) {
        g_mutex_lock(&s->pushing);
        push_some(s, &next, drawn);
        g_mutex_unlock(&s->pushing);
        if (g_rand_int_range(drawn, 0, 4) == 0) g_usleep(300);
    }
    g_rand_free(drawn);
    return NULL;
}

static gpointer flush(gpointer data) {
    storm *s = data;
    GRand *drawn = g_rand_new_with_seed(s->seed + 2);
    while (!g_atomic_int_get(&s->stopped)) {
        gst_pad_push_event(s->source, gst_event_new_flush_start());
        g_usleep((gulong)g_rand_int_range(drawn, 0, 300));
        g_mutex_lock(&s->pushing);
        gst_pad_push_event(s->source, gst_event_new_flush_stop(TRUE));
        g_atomic_int_set(&s->renewed, TRUE);
        g_mutex_unlock(&s->pushing);
        for (gint i = g_rand_int_range(drawn, 0, 200); i > 0 && !g_atomic_int_get(&s->stopped); i--) g_usleep(1000);
    }
    g_rand_free(drawn);
    return NULL;
}

/* ---- reports, which come by a pad that comes and goes */

static void push_reports(GstPad *from, GRand *drawn) {
    GstSegment segment;
    gst_segment_init(&segment, GST_FORMAT_TIME);
    gst_pad_push_event(from, gst_event_new_stream_start("reports"));
    gst_pad_push_event(from, gst_event_new_segment(&segment));
    for (gint i = g_rand_int_range(drawn, 0, 20); i > 0; i--) {
        guint8 octets[28] = {0x80, 200, 0, 6, 0x11, 0x11, 0x11, 0x11};
        GST_WRITE_UINT32_BE(octets + 8, g_rand_int(drawn));
        GST_WRITE_UINT32_BE(octets + 16, (guint32)g_rand_int_range(drawn, 0, 900000));
        if (g_rand_int_range(drawn, 0, 10) == 0) octets[g_rand_int_range(drawn, 0, 28)] = (guint8)g_rand_int(drawn);
        gst_pad_push(from, gst_buffer_new_memdup(octets, sizeof octets));
    }
}

static gpointer report(gpointer data) {
    storm *s = data;
    GRand *drawn = g_rand_new_with_seed(s->seed + 3);
    while (s->in_place && !g_atomic_int_get(&s->stopped)) {
        GstPad *to = gst_element_request_pad_simple(s->recv, "sink_rtcp"), *from = gst_pad_new(NULL, GST_PAD_SRC);
        guint64 last;
        gst_pad_link_full(from, to, GST_PAD_LINK_CHECK_NOTHING);
        gst_pad_set_active(from, TRUE);
        push_reports(from, drawn);
        gst_element_release_request_pad(s->recv, to);
        gst_pad_set_active(from, FALSE);
        gst_object_unref(from);
        gst_object_unref(to);
        if (g_rand_int_range(drawn, 0, 20) == 0) g_signal_emit_by_name(s->recv, "clear-pt-map");
        if (g_rand_int_range(drawn, 0, 20) == 0) g_signal_emit_by_name(s->recv, "set-active", g_rand_boolean(drawn), (guint64)5, &last);
        g_usleep((gulong)g_rand_int_range(drawn, 0, 3000));
    }
    g_rand_free(drawn);
    return NULL;
}

static GstCaps *answer(GstElement *element, guint type, gpointer data) {
    (void)element, (void)data;
    if (type == TYPE + 1) return NULL;
    return gst_caps_new_simple("application/x-rtp", "clock-rate", G_TYPE_INT, type == TYPE ? RATE : 8000, "clock-base", G_TYPE_UINT, 0, "npt-stop",
                               G_TYPE_UINT64, (guint64)GST_SECOND, NULL);
}

/* What an rtpbin does with what it is told. */
static void on_sync(GstElement *element, GstStructure *told, gpointer data) {
    guint64 base = 0;
    (void)data;
    gst_structure_get_uint64(told, "base-rtptime", &base);
    g_object_set(element, "ts-offset", (gint64)(base % 1000) * 1000, NULL);
}

/* ---- what comes */

static void on_packet(GstElement *sink, GstBuffer *buffer, GstPad *pad, storm *s) {
    GstRTPBuffer rtp = GST_RTP_BUFFER_INIT;
    (void)sink, (void)pad;
    if (gst_rtp_buffer_map(buffer, GST_MAP_READ, &rtp)) gst_rtp_buffer_unmap(&rtp);
    else g_atomic_int_inc(&s->wrong);
}

static GstFlowReturn go_back(GstPad *pad, GstObject *parent, GstBuffer *buffer) {
    (void)parent;
    return gst_pad_push(gst_pad_get_element_private(pad), buffer);
}

static gboolean go_back_event(GstPad *pad, GstObject *parent, GstEvent *event) {
    (void)parent;
    return gst_pad_push_event(gst_pad_get_element_private(pad), event);
}

/* ---- a pipeline */

static void link_pads(GstPad *from, GstPad *to) { CHECK(gst_pad_link_full(from, to, GST_PAD_LINK_CHECK_NOTHING) == GST_PAD_LINK_OK); }

static void make_pads(storm *s) {
    GstPad *pads[] = {gst_element_get_static_pad(s->send, "sink"), gst_element_get_static_pad(s->send, "feedback_sink"),
                      gst_element_get_static_pad(s->recv, "feedback_src"), gst_element_get_static_pad(s->send, "src")};
    s->source = gst_pad_new(NULL, GST_PAD_SRC);
    s->back[0] = gst_pad_new(NULL, GST_PAD_SINK);
    s->back[1] = gst_pad_new(NULL, GST_PAD_SRC);
    gst_pad_set_element_private(s->back[0], s->back[1]);
    gst_pad_set_chain_function(s->back[0], go_back);
    gst_pad_set_event_function(s->back[0], go_back_event);
    link_pads(s->source, pads[0]);
    link_pads(s->back[1], pads[1]);
    s->in_place = g_rand_boolean(s->drawn);
    if (s->in_place) {
        g_signal_connect(s->recv, "request-pt-map", G_CALLBACK(answer), s);
        g_signal_connect(s->recv, "handle-sync", G_CALLBACK(on_sync), s);
    }
    gboolean is_linked = g_rand_boolean(s->drawn); /* else what is asked for goes upstream by events */
    s->several = !is_linked && !s->in_place;
    if (is_linked) link_pads(pads[2], s->back[0]);
    if (s->several) gst_util_set_object_arg(G_OBJECT(s->recv), "payload-type-map", "map,96=(uint)97,98=(uint)97");
    s->is_open = is_linked && !s->in_place && g_rand_boolean(s->drawn);
    if (s->several || s->is_open) gst_pad_add_probe(pads[3], GST_PAD_PROBE_TYPE_EVENT_DOWNSTREAM, hide_caps, NULL, NULL);
    gst_pad_add_probe(pads[3], GST_PAD_PROBE_TYPE_BUFFER, pass_path, s, NULL);
    gst_pad_set_active(s->source, TRUE);
    for (gint i = 0; i < 2; i++) gst_pad_set_active(s->back[i], TRUE);
    for (guint i = 0; i < G_N_ELEMENTS(pads); i++) gst_object_unref(pads[i]);
}

static void make_storm(storm *s, guint32 seed) {
    *s = (storm){.seed = seed, .drawn = g_rand_new_with_seed(seed), .renewed = TRUE};
    g_mutex_init(&s->pushing);
    g_mutex_init(&s->path);
    s->pipeline = gst_parse_launch("gozdritsend name=send eos-delay=20 silence-delay=5 ! gozdritrecv name=recv rtx-delay=1"
                                   " do-lost=true max-size-packets=64 ! fakesink name=sink signal-handoffs=true sync=false", NULL);
    s->send = gst_bin_get_by_name(GST_BIN(s->pipeline), "send");
    s->recv = gst_bin_get_by_name(GST_BIN(s->pipeline), "recv");
    GstElement *sink = gst_bin_get_by_name(GST_BIN(s->pipeline), "sink");
    g_signal_connect(sink, "handoff", G_CALLBACK(on_packet), s);
    gst_object_unref(sink);
    make_pads(s);
}

static void drop_storm(storm *s) {
    gst_pad_set_active(s->source, FALSE);
    gst_object_unref(s->send);
    gst_object_unref(s->recv);
    gst_object_unref(s->pipeline);
    gst_object_unref(s->source);
    for (gint i = 0; i < 2; i++) {
        gst_pad_set_active(s->back[i], FALSE);
        gst_object_unref(s->back[i]);
    }
    gst_clear_buffer(&s->behind);
    g_rand_free(s->drawn);
    g_mutex_clear(&s->path);
    g_mutex_clear(&s->pushing);
}

/* Tells the sender an extension of a simulcast, at times one that has no place in the short form, or has it forget all. */
static void tell_extension(GstElement *send, GRand *drawn) {
    const gchar *uri = g_rand_boolean(drawn) ? GST_RTP_HDREXT_BASE "sdes:rtp-stream-id" : GST_RTP_HDREXT_BASE "sdes:repaired-rtp-stream-id";
    GstRTPHeaderExtension *extension = gst_rtp_header_extension_create_from_uri(uri);
    if (g_rand_int_range(drawn, 0, 4) == 0) g_signal_emit_by_name(send, "clear-extensions");
    if (!extension) return;
    gst_rtp_header_extension_set_id(extension, (guint)g_rand_int_range(drawn, 1, g_rand_int_range(drawn, 0, 4) ? 4 : 256));
    g_signal_emit_by_name(send, "add-extension", extension);
    gst_object_unref(extension);
}

/* Changes of states and of properties, and looks at what was counted. */
static void change(storm *s, GRand *drawn) {
    static const GstState states[] = {GST_STATE_PLAYING, GST_STATE_PLAYING, GST_STATE_PAUSED, GST_STATE_READY, GST_STATE_NULL};
    GstState state = states[g_rand_int_range(drawn, 0, G_N_ELEMENTS(states))];
    gst_element_set_state(s->pipeline, state); /* a pipeline that is under way fails at times, and its elements don't */
    CHECK(GST_STATE_RETURN(s->send) != GST_STATE_CHANGE_FAILURE && GST_STATE_RETURN(s->recv) != GST_STATE_CHANGE_FAILURE);
    g_atomic_int_set(&s->renewed, TRUE);
    g_object_set(s->recv, "latency", g_rand_int_range(drawn, 0, 80), "rtx-retry-timeout", g_rand_int_range(drawn, -1, 8), NULL);
    g_object_set(s->recv, "do-retransmission", g_rand_boolean(drawn), "drop-on-latency", g_rand_boolean(drawn), "post-drop-messages",
                 g_rand_boolean(drawn), "drop-messages-interval", g_rand_int_range(drawn, 0, 50), "add-reference-timestamp-meta",
                 g_rand_boolean(drawn), "max-ts-offset-adjustment", (guint64)g_rand_int_range(drawn, 0, 1000), NULL);
    g_object_set(s->send, "silence-delay", g_rand_int_range(drawn, 0, 20), NULL);
    tell_extension(s->send, drawn);
    CHECK(count_of(s->recv, "media") != G_MAXUINT64 && count_of(s->send, "sent") != G_MAXUINT64);
    g_usleep((gulong)g_rand_int_range(drawn, 0, 30000));
}

static void run_storm(guint32 seed) {
    storm s;
    GRand *drawn = g_rand_new_with_seed(seed);
    make_storm(&s, seed);
    CHECK(gst_element_set_state(s.pipeline, GST_STATE_PLAYING) != GST_STATE_CHANGE_FAILURE);
    GThread *threads[] = {g_thread_new("feed", feed, &s), g_thread_new("flush", flush, &s), g_thread_new("report", report, &s)};
    for (gint i = g_rand_int_range(drawn, 1, 12); i > 0; i--) change(&s, drawn);
    gboolean stops_first = g_rand_boolean(drawn);
    if (!stops_first) CHECK(gst_element_set_state(s.pipeline, GST_STATE_NULL) == GST_STATE_CHANGE_SUCCESS);
    g_atomic_int_set(&s.stopped, TRUE);
    for (guint i = 0; i < G_N_ELEMENTS(threads); i++) g_thread_join(threads[i]);
    if (stops_first) CHECK(gst_element_set_state(s.pipeline, GST_STATE_NULL) == GST_STATE_CHANGE_SUCCESS);
    CHECK(s.wrong == 0);
    drop_storm(&s);
    g_rand_free(drawn);
}

/* Packets that come while an element begins or ends have no segment before them, of which GStreamer warns. */
static void log_others(const gchar *domain, GLogLevelFlags level, const gchar *text, gpointer data) {
    if (!strstr(text, "Got data flow before")) g_log_default_handler(domain, level, text, data);
}

static guint32 number_of(const gchar *name, guint32 otherwise) {
    const gchar *text = g_getenv(name);
    return text ? (guint32)g_ascii_strtoull(text, NULL, 10) : otherwise;
}

void test_storm(void) {
    gint64 until = g_get_monotonic_time() + number_of("STORM", 2) * G_TIME_SPAN_SECOND;
    guint32 seed = number_of("SEED", 1), rounds = 0;
    GLogFunc before = g_log_set_default_handler(log_others, NULL);
    while (g_get_monotonic_time() < until) {
        alarm(HANGS);
        run_storm(seed + 1000 * rounds++);
    }
    alarm(0);
    g_log_set_default_handler(before, NULL);
}
