#include "checks.h"

#include <string.h>

static guint passed, failed;

gboolean check(gboolean holds, const gchar *what, const gchar *file, gint line) {
    static GMutex lock;
    g_mutex_lock(&lock);
    if (holds) passed++;
    else failed++;
    g_mutex_unlock(&lock);
    if (!holds) g_print("FAILED: %s:%d: %s\n", file, line, what);
    return holds;
}

/* ---- packets */

guint32 timestamp_of(packet of) { return of.offset + (guint32)gst_util_uint64_scale_round(of.pts, RATE, GST_SECOND); }

GstBuffer *make_packet(packet of) {
    GstRTPBuffer rtp = GST_RTP_BUFFER_INIT;
    guint length = of.length > 0 ? of.length : 10;
    GstBuffer *buffer = gst_rtp_buffer_new_allocate(length, 0, 0);
    gst_rtp_buffer_map(buffer, GST_MAP_WRITE, &rtp);
    gst_rtp_buffer_set_payload_type(&rtp, of.type ? of.type : TYPE);
    gst_rtp_buffer_set_ssrc(&rtp, of.ssrc ? of.ssrc : MEDIA);
    gst_rtp_buffer_set_seq(&rtp, of.sequence);
    gst_rtp_buffer_set_timestamp(&rtp, timestamp_of(of));
    gst_rtp_buffer_set_marker(&rtp, of.marker);
    memset(gst_rtp_buffer_get_payload(&rtp), of.fill, length);
    gst_rtp_buffer_unmap(&rtp);
    GST_BUFFER_PTS(buffer) = GST_BUFFER_DTS(buffer) = of.pts;
    return buffer;
}

GstBuffer *make_repair(packet of, guint16 sequence) {
    guint16 original = of.sequence;
    GstMapInfo map;
    of.length = (of.length > 0 ? of.length : 10) + 2;
    of.sequence = sequence;
    of.ssrc = of.ssrc ? of.ssrc : RTX;
    of.type = RTX_TYPE;
    GstBuffer *buffer = make_packet(of);
    gst_buffer_map(buffer, &map, GST_MAP_WRITE);
    GST_WRITE_UINT16_BE(map.data + 12, original);
    gst_buffer_unmap(buffer, &map);
    GST_BUFFER_PTS(buffer) = GST_BUFFER_DTS(buffer) = 999 * GST_SECOND; /* when it came: of no meaning for the media */
    return buffer;
}

GstBuffer *make_nack(guint16 pid, guint16 blp) {
    guint8 octets[16] = {0x81, 205, 0, 3, 0x33, 0x33, 0x33, 0x33, 0x11, 0x11, 0x11, 0x11};
    GST_WRITE_UINT16_BE(octets + 12, pid);
    GST_WRITE_UINT16_BE(octets + 14, blp);
    return gst_buffer_new_memdup(octets, sizeof octets);
}

gboolean same_octets(GstBuffer *a, GstBuffer *b) {
    GstMapInfo map;
    gst_buffer_map(a, &map, GST_MAP_READ);
    gboolean same = gst_buffer_get_size(b) == map.size && gst_buffer_memcmp(b, 0, map.data, map.size) == 0;
    gst_buffer_unmap(a, &map);
    return same;
}

gboolean is_packet(GstBuffer *buffer, packet of) {
    GstBuffer *same = make_packet(of);
    gboolean is = buffer && same_octets(buffer, same) && GST_BUFFER_PTS(buffer) == of.pts;
    gst_buffer_unref(same);
    return is;
}

gboolean is_nack(GstBuffer *buffer, guint16 pid, guint16 blp) {
    guint8 octets[16] = {0};
    if (!buffer || gst_buffer_get_size(buffer) != sizeof octets) return FALSE;
    gst_buffer_extract(buffer, 0, octets, sizeof octets);
    return octets[0] == 0x81 && octets[1] == 205 && GST_READ_UINT32_BE(octets + 8) == MEDIA &&
           GST_READ_UINT16_BE(octets + 12) == pid && GST_READ_UINT16_BE(octets + 14) == blp;
}

/* ---- what an element tells */

guint64 count_of(GstElement *element, const gchar *name) {
    GstStructure *stats;
    guint64 count = G_MAXUINT64;
    g_object_get(element, "stats", &stats, NULL);
    gst_structure_get_uint64(stats, name, &count);
    gst_structure_free(stats);
    return count;
}

GstBuffer *next_buffer(GstHarness *harness) {
    for (gint i = 0; i < 2000; i++) {
        GstBuffer *buffer = gst_harness_buffers_in_queue(harness) > 0 ? gst_harness_try_pull(harness) : NULL;
        if (buffer) return buffer;
        g_usleep(1000);
    }
    return NULL;
}

GstEvent *next_event(GstHarness *harness, GstEventType type) {
    for (gint i = 0; i < 2000; i++) {
        GstEvent *event = gst_harness_try_pull_event(harness);
        if (event && GST_EVENT_TYPE(event) == type) return event;
        if (event) gst_event_unref(event);
        else g_usleep(1000);
    }
    return NULL;
}

gboolean comes(GstHarness *harness, packet of) {
    GstBuffer *buffer = next_buffer(harness);
    gboolean is = is_packet(buffer, of);
    gst_clear_buffer(&buffer);
    return is;
}

gboolean is_silent(GstHarness *harness) {
    g_usleep(20000);
    return gst_harness_buffers_in_queue(harness) == 0;
}

GstBus *bus_of(GstElement *element) {
    GstBus *bus = gst_bus_new();
    gst_element_set_bus(element, bus);
    return bus;
}

gboolean posted(GstBus *bus, GstMessageType type) {
    GstMessage *message = gst_bus_pop_filtered(bus, type);
    if (message) gst_message_unref(message);
    return message != NULL;
}

void drop_bus(GstElement *element, GstBus *bus) {
    gst_element_set_bus(element, NULL);
    gst_object_unref(bus);
}

/* ---- a receiver */

receiver make_receiver(const gchar *caps) {
    receiver r;
    r.element = gst_element_factory_make("gozdritrecv", NULL);
    /* The packets of the tests are small, and few. */
    g_object_set(r.element, "do-lost", TRUE, "rtx-retry-timeout", 60, "nack-budget", FALSE, NULL);
    r.media = gst_harness_new_with_element(r.element, "sink", "src");
    r.feedback = gst_harness_new_with_element(r.element, NULL, "feedback_src");
    gst_harness_set_src_caps_str(r.media, caps);
    return r;
}

void drop_receiver(receiver *r) {
    gst_harness_teardown(r->feedback);
    gst_harness_teardown(r->media);
    gst_object_unref(r->element);
}

gboolean ticks(receiver *r, guint64 at) {
    if (!gst_harness_wait_for_clock_id_waits(r->media, 1, 2)) return FALSE;
    GstTestClock *clock = gst_harness_get_testclock(r->media);
    gboolean due = gst_test_clock_get_next_entry_time(clock) == at * GST_MSECOND;
    if (!due) g_print("due: %" GST_TIME_FORMAT "\n", GST_TIME_ARGS(gst_test_clock_get_next_entry_time(clock)));
    gst_object_unref(clock);
    return gst_harness_crank_single_clock_wait(r->media) && due;
}

void set_clock_to(receiver *r, guint64 at) { gst_harness_set_time(r->media, at * GST_MSECOND); }

/* ---- a receiver in a jitter buffer's place */

static GstCaps *answer(GstElement *element, guint type, place *p) {
    guint latency;
    g_object_get(element, "latency", &latency, NULL); /* who answers may ask the element */
    g_atomic_int_inc(&p->asked[type & 127]);
    return p->answers[type & 127] ? gst_caps_from_string(p->answers[type & 127]) : NULL;
}

void make_place(place *p) {
    *p = (place){.r.element = gst_element_factory_make("gozdritrecv", NULL)};
    p->answers[TYPE] = "application/x-rtp,media=video,payload=96,clock-rate=90000,encoding-name=X";
    g_object_set(p->r.element, "rtx-retry-timeout", 60, NULL);
    g_signal_connect(p->r.element, "request-pt-map", G_CALLBACK(answer), p);
    p->r.media = gst_harness_new_with_element(p->r.element, "sink", "src");
    p->reports = gst_harness_new_with_element(p->r.element, "sink_rtcp", NULL);
    gst_harness_set_src_caps_str(p->r.media, PLACE_CAPS);
    gst_harness_set_src_caps_str(p->reports, "application/x-rtcp");
}

void drop_place(place *p) {
    gst_harness_teardown(p->reports);
    gst_harness_teardown(p->r.media);
    gst_object_unref(p->r.element);
}

/* ---- a sender. Its clock stands where no test sets it, so a packet may be retransmitted again at once. */

sender make_sender(void) {
    sender s;
    s.element = gst_element_factory_make("gozdritsend", NULL);
    g_object_set(s.element, "rtx-ssrc", RTX, "silence-delay", 0, "rtx-min-interval", 0, NULL);
    s.media = gst_harness_new_with_element(s.element, "sink", "src");
    s.feedback = gst_harness_new_with_element(s.element, "feedback_sink", NULL);
    gst_harness_set_src_caps_str(s.media, CAPS);
    gst_harness_set_src_caps_str(s.feedback, "application/x-rtcp");
    return s;
}

sender make_history(guint packets) {
    sender s = make_sender();
    gst_element_set_state(s.element, GST_STATE_NULL);
    g_object_set(s.element, "max-size-packets", packets, NULL);
    gst_element_set_state(s.element, GST_STATE_PLAYING);
    gst_harness_set_src_caps_str(s.media, CAPS);
    return s;
}

void drop_sender(sender *s) {
    gst_harness_teardown(s->feedback);
    gst_harness_teardown(s->media);
    gst_object_unref(s->element);
}

void send_five(sender *s) {
    for (guint16 i = 0; i < 5; i++) gst_harness_push(s->media, make_packet((packet){.sequence = i, .fill = (guint8)i}));
    for (guint16 i = 0; i < 5; i++) COMES(s->media, .sequence = i, .fill = (guint8)i);
}

gboolean repair_comes(sender *s, packet of) {
    GstBuffer *buffer = next_buffer(s->media);
    if (!buffer) return FALSE;
    guint8 octets[4];
    gst_buffer_extract(buffer, 0, octets, sizeof octets);
    GstBuffer *repair = make_repair(of, GST_READ_UINT16_BE(octets + 2));
    gboolean is = same_octets(buffer, repair) && !GST_BUFFER_PTS_IS_VALID(buffer) &&
                  GST_BUFFER_FLAG_IS_SET(buffer, GST_RTP_BUFFER_FLAG_RETRANSMISSION);
    gst_buffer_unref(repair);
    gst_buffer_unref(buffer);
    return is;
}

gboolean make_chain(sender *s, const gchar *first, const gchar *second, GstElement *elements[2]) {
    static const gchar *const names[] = {"sink", "src"};
    GstElement *bin = gst_bin_new(NULL);
    elements[0] = gst_element_factory_make(first, NULL);
    elements[1] = gst_element_factory_make(second, NULL);
    for (guint i = 0; i < 2; i++)
        if (elements[i]) gst_bin_add(GST_BIN(bin), gst_object_ref(elements[i]));
    if (!elements[0] || !elements[1]) {
        for (guint i = 0; i < 2; i++) gst_clear_object(&elements[i]);
        gst_object_unref(gst_object_ref_sink(bin));
        return FALSE;
    }
    CHECK(gst_element_link_pads(elements[0], "src", elements[1], "sink"));
    for (guint i = 0; i < 2; i++) {
        GstPad *pad = gst_element_get_static_pad(elements[i], names[i]);
        gst_element_add_pad(bin, gst_ghost_pad_new(names[i], pad));
        gst_object_unref(pad);
    }
    *s = (sender){.media = gst_harness_new_with_element(bin, "sink", "src"), .element = bin};
    return TRUE;
}

void drop_chain(sender *s, GstElement *elements[2]) {
    gst_harness_teardown(s->media);
    for (guint i = 0; i < 2; i++) gst_object_unref(elements[i]);
    gst_object_unref(s->element);
}

gboolean request(sender *s, guint32 ssrc, guint16 number) {
    GstStructure *told = gst_structure_new("GstRTPRetransmissionRequest", "seqnum", G_TYPE_UINT, (guint)number, "ssrc", G_TYPE_UINT, ssrc,
                                           "payload-type", G_TYPE_UINT, TYPE, NULL);
    return gst_harness_push_upstream_event(s->media, gst_event_new_custom(GST_EVENT_CUSTOM_UPSTREAM, told));
}

guint rtx_ssrc_of(GstHarness *h) {
    GstCaps *caps = gst_pad_get_current_caps(h->sinkpad);
    guint ssrc = 0;
    gst_structure_get_uint(gst_caps_get_structure(caps, 0), "rtx-ssrc", &ssrc);
    gst_caps_unref(caps);
    return ssrc;
}

/* ---- all tests, or those that are named */

int main(int count, char **words) {
    static const struct { const gchar *name; void (*test)(void); } tests[] = {
        {"send", test_send},       {"feedback", test_feedback}, {"tail", test_tail},         {"receive", test_receive},
        {"times", test_times},     {"streams", test_streams},   {"restarts", test_restarts}, {"states", test_states},
        {"flushes", test_flushes}, {"caps", test_rtx_caps},      {"silence", test_silence}, {"storm", test_storm},
        {"numbers", test_numbers}, {"metas", test_metas}, {"keyunits", test_key_units},
        {"place", test_place}, {"drops", test_drops}, {"ptmap", test_pt_map}, {"reports", test_reports}, {"offsets", test_offsets},
        {"dropin", test_drop_in}, {"auxiliary", test_auxiliary}, {"histories", test_histories}, {"extensions", test_extensions},
        {"logs", test_logs},       {"path", test_path}, {"bundle", test_bundle}, {"crowd", test_crowd},
        {"strangers", test_claims}, {"addresses", test_addresses}, {"peers", test_peers}, {"budget", test_budget},
    };
    gst_init(NULL, NULL);
    for (guint i = 0; i < G_N_ELEMENTS(tests); i++) {
        gboolean wanted = count == 1;
        for (gint word = 1; word < count; word++) wanted |= g_str_equal(words[word], tests[i].name);
        if (wanted) tests[i].test();
    }
    gst_deinit();
    g_print("%u passed, %u failed\n", passed, failed);
    return failed > 0;
}
