/* Sender reports that come to a jitter buffer's place, and what is told of them, beside what rtpjitterbuffer tells. */
#include "checks.h"

#include <gst/rtp/gstrtcpbuffer.h>

#define MS(n) ((n) * (GstClockTime)GST_MSECOND)

/* 2026-11-28, in seconds since 1900. */
static const guint32 NTP = 4004812800u;

static const gchar NAME[] = "a@b";

typedef struct report {
    guint32 ssrc, timestamp;
    guint32 seconds; /* since NTP */
    gboolean has_name;
} report;

static GstBuffer *make_report(report of) {
    GstBuffer *buffer = gst_rtcp_buffer_new(1000);
    GstRTCPBuffer rtcp = GST_RTCP_BUFFER_INIT;
    GstRTCPPacket packet;
    gst_rtcp_buffer_map(buffer, GST_MAP_READWRITE, &rtcp);
    gst_rtcp_buffer_add_packet(&rtcp, GST_RTCP_TYPE_SR, &packet);
    gst_rtcp_packet_sr_set_sender_info(&packet, of.ssrc ? of.ssrc : MEDIA, (guint64)(NTP + of.seconds) << 32, of.timestamp, 1, 10);
    if (of.has_name) {
        gst_rtcp_buffer_add_packet(&rtcp, GST_RTCP_TYPE_SDES, &packet);
        gst_rtcp_packet_sdes_add_item(&packet, of.ssrc ? of.ssrc : MEDIA);
        gst_rtcp_packet_sdes_add_entry(&packet, GST_RTCP_SDES_CNAME, sizeof NAME - 1, (const guint8 *)NAME);
    }
    gst_rtcp_buffer_unmap(&rtcp);
    return buffer;
}

/* ---- what is told */

typedef struct heard {
    GstStructure *last;
    guint count;
} heard;

/* Who hears it may ask the element, as an rtpbin does. */
static void on_sync(GstElement *element, GstStructure *told, heard *h) {
    gint64 offset;
    g_object_get(element, "ts-offset", &offset, NULL);
    if (h->last) gst_structure_free(h->last);
    h->last = gst_structure_copy(told);
    h->count++;
}

static void drop_heard(heard *h) { g_clear_pointer(&h->last, gst_structure_free); }

static guint64 number_of(const heard *h, const gchar *name) {
    guint64 number = 0;
    guint less = 0;
    if (h->last && gst_structure_get_uint64(h->last, name, &number)) return number;
    return h->last && gst_structure_get_uint(h->last, name, &less) ? less : 0;
}

/* The time here that what was told says of the report's timestamp. */
static guint64 time_of(const heard *h) {
    guint64 units = number_of(h, "sr-ext-rtptime") - number_of(h, "base-rtptime");
    return number_of(h, "base-time") + gst_util_uint64_scale(units, GST_SECOND, number_of(h, "clock-rate"));
}

#define REPORT(p, ...) gst_harness_push((p)->reports, make_report((report){__VA_ARGS__}))

/* The fields. */
static void test_told(void) {
    heard h = {0};
    place p;
    make_place(&p);
    g_signal_connect(p.r.element, "handle-sync", G_CALLBACK(on_sync), &h);
    SEND(&p.r, .sequence = 1, .pts = MS(1000), .offset = 4294960000u);
    SEND(&p.r, .sequence = 2, .pts = MS(1100), .offset = 4294960000u);
    CHECK(h.count == 0);
    REPORT(&p, .timestamp = timestamp_of((packet){.pts = MS(1060), .offset = 4294960000u}), .seconds = 3, .has_name = TRUE);
    CHECK(h.count == 1 && time_of(&h) == MS(1060) && number_of(&h, "clock-rate") == RATE && number_of(&h, "ssrc") == MEDIA);
    CHECK((guint32)number_of(&h, "base-rtptime") == timestamp_of((packet){.pts = MS(1000), .offset = 4294960000u}));
    CHECK(number_of(&h, "base-time") == MS(1000) && number_of(&h, "clock-base") == G_MAXUINT64);
    CHECK(number_of(&h, "sr-ntpnstime") == (guint64)(NTP + 3u) * GST_SECOND);
    CHECK(h.last && g_strcmp0(gst_structure_get_string(h.last, "cname"), NAME) == 0);
    CHECK(h.last && gst_structure_has_field_typed(h.last, "sr-buffer", GST_TYPE_BUFFER) && gst_structure_has_name(h.last, "application/x-rtp-sync"));
    REPORT(&p, .timestamp = timestamp_of((packet){.pts = MS(1000)}) - 9000, .seconds = 1); /* older than all that came */
    REPORT(&p, .ssrc = 7, .timestamp = timestamp_of((packet){.pts = MS(1060)}), .seconds = 4);
    gst_harness_push(p.reports, make_nack(1, 0)); /* no report */
    gst_harness_push(p.reports, gst_buffer_new_memdup("noise", 5));
    CHECK(h.count == 1);
    drop_heard(&h);
    drop_place(&p);
}

/* The name may come by caps; times are running times. */
static void test_names(void) {
    heard h = {0};
    GstSegment segment;
    place p;
    make_place(&p);
    g_signal_connect(p.r.element, "handle-sync", G_CALLBACK(on_sync), &h);
    gst_segment_init(&segment, GST_FORMAT_TIME);
    segment.base = MS(50);
    gst_harness_push_event(p.r.media, gst_event_new_segment(&segment));
    p.answers[96] = "application/x-rtp,payload=96,clock-rate=90000,clock-base=(uint)77,ssrc-286331153-cname=(string)c,ssrc-7-cname=(string)d";
    SEND(&p.r, .sequence = 1, .pts = MS(1000));
    REPORT(&p, .timestamp = timestamp_of((packet){.pts = MS(1020)}));
    CHECK(h.last && g_strcmp0(gst_structure_get_string(h.last, "cname"), "c") == 0);
    CHECK(number_of(&h, "base-time") == MS(1050) && number_of(&h, "clock-base") == 77 && time_of(&h) == MS(1070));
    drop_heard(&h);
    drop_place(&p);
}

/* One that comes before the first packet is told behind it; a flush forgets it. */
static void test_early(void) {
    for (guint flushed = 0; flushed < 2; flushed++) {
        heard h = {0};
        GstSegment segment;
        place p;
        make_place(&p);
        gst_segment_init(&segment, GST_FORMAT_TIME);
        g_signal_connect(p.r.element, "handle-sync", G_CALLBACK(on_sync), &h);
        REPORT(&p, .timestamp = timestamp_of((packet){.pts = MS(1000), .offset = 2147480000u}), .has_name = TRUE);
        CHECK(h.count == 0);
        if (flushed) {
            GstEvent *began = next_event(p.r.media, GST_EVENT_SEGMENT); /* what a stream begins with has gone out */
            if (began) gst_event_unref(began);
            gst_harness_push_event(p.r.media, gst_event_new_flush_start());
            gst_harness_push_event(p.r.media, gst_event_new_flush_stop(TRUE));
            gst_harness_push_event(p.r.media, gst_event_new_segment(&segment));
        }
        SEND(&p.r, .sequence = 1, .pts = MS(1000), .offset = 2147480000u);
        CHECK(h.count == !flushed);
        if (!flushed) CHECK(time_of(&h) == MS(1000));
        SEND(&p.r, .sequence = 2, .pts = MS(1020), .offset = 2147480000u);
        CHECK(h.count == !flushed);
        drop_heard(&h);
        drop_place(&p);
    }
}

/* One that lies too far ahead is told without its timestamp, unless any may; and one that comes too soon behind the last is not told. */
static void test_limits(void) {
    heard h = {0};
    place p;
    make_place(&p);
    g_signal_connect(p.r.element, "handle-sync", G_CALLBACK(on_sync), &h);
    SEND(&p.r, .sequence = 1, .pts = MS(1000));
    REPORT(&p, .timestamp = timestamp_of((packet){.pts = MS(2000)}), .seconds = 1);
    CHECK(h.count == 1 && time_of(&h) == MS(2000));
    REPORT(&p, .timestamp = timestamp_of((packet){.pts = MS(2001)}), .seconds = 2);
    CHECK(h.count == 2 && number_of(&h, "sr-ext-rtptime") == G_MAXUINT64);
    g_object_set(p.r.element, "max-rtcp-rtp-time-diff", 2000, NULL);
    REPORT(&p, .timestamp = timestamp_of((packet){.pts = MS(2500)}), .seconds = 3);
    CHECK(h.count == 3 && time_of(&h) == MS(2500));
    g_object_set(p.r.element, "max-rtcp-rtp-time-diff", -1, "sync-interval", 3000, NULL);
    REPORT(&p, .timestamp = timestamp_of((packet){.pts = MS(60000)}), .seconds = 5);
    CHECK(h.count == 3);
    REPORT(&p, .timestamp = timestamp_of((packet){.pts = MS(60000)}), .seconds = 6);
    CHECK(h.count == 4 && time_of(&h) == MS(60000));
    drop_heard(&h);
    drop_place(&p);
}

/* A receiver whose feedback is taken is no jitter buffer for its pad of reports: it takes retransmissions, and tells reports all the same. */
static void test_alone(void) {
    for (guint late = 0; late < 2; late++) { /* the pad is there as it begins, or behind that */
        heard h = {0};
        receiver r = make_receiver(CAPS);
        place p = {.reports = gst_harness_new_with_element(r.element, "sink_rtcp", NULL)};
        if (!late) gst_element_set_state(r.element, GST_STATE_NULL);
        gst_element_set_state(r.element, GST_STATE_PLAYING);
        gst_harness_set_src_caps_str(p.reports, "application/x-rtcp");
        g_signal_connect(r.element, "handle-sync", G_CALLBACK(on_sync), &h);
        gst_harness_set_src_caps_str(r.media, CAPS ",ssrc-286331153-cname=(string)c");
        SEND(&r, .sequence = 10, .pts = MS(1000));
        SEND(&r, .sequence = 12, .pts = MS(1040));
        TICKS(&r, 20);
        GstBuffer *nack = next_buffer(r.feedback);
        CHECK(is_nack(nack, 11, 0));
        gst_clear_buffer(&nack);
        for (guint16 i = 0; i < 3; i++) REPAIR(&r, (guint16)(7 + i), .sequence = 11, .pts = MS(1020));
        for (guint16 i = 10; i < 13; i++) COMES(r.media, .sequence = i, .pts = MS(1000) + MS(20) * (i - 10u));
        REPORT(&p, .timestamp = timestamp_of((packet){.pts = MS(1030)}), .seconds = 3);
        CHECK(h.count == 1 && time_of(&h) == MS(1030) && g_strcmp0(gst_structure_get_string(h.last, "cname"), "c") == 0);
        CHECK(count_of(r.element, "sessions") == 1);
        drop_heard(&h);
        gst_harness_teardown(p.reports);
        drop_receiver(&r);
    }
}

/* How far that is, is by the clock rate. */
static void test_rate(void) {
    heard h = {0};
    place p;
    make_place(&p);
    p.answers[96] = "application/x-rtp,payload=96,clock-rate=45000";
    g_signal_connect(p.r.element, "handle-sync", G_CALLBACK(on_sync), &h);
    SEND(&p.r, .sequence = 1, .pts = MS(1000));
    REPORT(&p, .timestamp = RATE + 45000);
    CHECK(number_of(&h, "clock-rate") == 45000 && number_of(&h, "sr-ext-rtptime") != G_MAXUINT64 && time_of(&h) == MS(2000));
    REPORT(&p, .timestamp = RATE + 45001);
    CHECK(h.count == 2 && number_of(&h, "sr-ext-rtptime") == G_MAXUINT64);
    drop_heard(&h);
    drop_place(&p);
}

/* ---- beside GStreamer's own */

/* What an element tells of one stream and its reports, by handle-sync: four numbers for each. */
static guint told_by(const gchar *name, guint64 told[][4], guint most) {
    static const struct { guint pts, report, seconds; } steps[] = {
        {1000, 0, 0}, {1020, 1010, 1}, {1040, 990, 2}, {1060, 3000, 3}, {1080, 1090, 4}, {1100, 1050, 5}, {1120, 1120, 9}};
    heard h = {0};
    GstElement *element = gst_element_factory_make(name, NULL);
    if (!element) return 0;
    GstHarness *media = gst_harness_new_with_element(element, "sink", "src"), *reports = gst_harness_new_with_element(element, "sink_rtcp", NULL);
    g_object_set(element, "sync-interval", 2000, NULL);
    g_signal_connect(element, "handle-sync", G_CALLBACK(on_sync), &h);
    gst_harness_set_src_caps_str(media, CAPS ",clock-base=(uint)55");
    gst_harness_set_src_caps_str(reports, "application/x-rtcp");
    for (guint i = 0; i < G_N_ELEMENTS(steps); i++) {
        GstBuffer *buffer = make_packet((packet){.sequence = (guint16)i, .pts = MS(steps[i].pts)});
        gst_harness_push(media, buffer);
        report of = {.timestamp = timestamp_of((packet){.pts = MS(steps[i].report)}), .seconds = steps[i].seconds, .has_name = TRUE};
        if (i > 0) gst_harness_push(reports, make_report(of));
        if (!h.last || h.count > most) continue;
        guint64 own[] = {time_of(&h), number_of(&h, "sr-ntpnstime"), number_of(&h, "clock-base"), (guint32)number_of(&h, "base-rtptime")};
        if (number_of(&h, "sr-ext-rtptime") == G_MAXUINT64) own[0] = G_MAXUINT64;
        for (guint k = 0; k < 4; k++) told[h.count - 1][k] = own[k];
    }
    guint count = h.count;
    drop_heard(&h);
    gst_harness_teardown(reports);
    gst_harness_teardown(media);
    gst_object_unref(element);
    return count;
}

/* Both tell the same, of the same reports. */
static void test_as_theirs(void) {
    guint64 ours[8][4] = {{0}}, theirs[8][4] = {{0}};
    guint count = told_by("rtpjitterbuffer", theirs, 8);
    if (count == 0) return;
    CHECK(count >= 3 && told_by("gozdritrecv", ours, 8) == count);
    for (guint i = 0; i < count; i++)
        for (guint k = 0; k < 4; k++)
            if (!CHECK(ours[i][k] == theirs[i][k])) g_print("%u %u: %" G_GUINT64_FORMAT " %" G_GUINT64_FORMAT "\n", i, k, ours[i][k], theirs[i][k]);
}

/* ---- the far side's time in packets */

static guint64 reference_of(GstBuffer *buffer) {
    GstReferenceTimestampMeta *meta = buffer ? gst_buffer_get_reference_timestamp_meta(buffer, NULL) : NULL;
    return meta && gst_structure_has_name(gst_caps_get_structure(meta->reference, 0), "timestamp/x-ntp") ? meta->timestamp : 0;
}

/* Packets that go out behind a report have it, before its timestamp and behind it, where that is wanted. */
static void test_meta(void) {
    static const guint at[] = {1000, 1500, 1600, 1700};
    place p;
    make_place(&p);
    g_object_set(p.r.element, "add-reference-timestamp-meta", TRUE, NULL);
    for (guint16 i = 0; i < G_N_ELEMENTS(at); i++) {
        if (i == 1) REPORT(&p, .timestamp = timestamp_of((packet){.pts = MS(1550)}), .seconds = 10);
        if (i == 2) REPORT(&p, .ssrc = 7, .timestamp = 5, .seconds = 11); /* another stream's */
        if (i == 3) g_object_set(p.r.element, "add-reference-timestamp-meta", FALSE, NULL);
        SEND(&p.r, .sequence = i, .pts = MS(at[i]));
        GstBuffer *out = next_buffer(p.r.media);
        guint64 wanted = i == 0 || i == 3 ? 0 : (guint64)(NTP + 10u) * GST_SECOND + MS(at[i]) - MS(1550);
        CHECK(reference_of(out) == wanted);
        gst_clear_buffer(&out);
    }
    drop_place(&p);
}

/* ---- the pad goes while reports come */

typedef struct pushing {
    GstPad *source;
    gint stopped;
} pushing;

static gpointer push(gpointer data) {
    pushing *to = data;
    for (guint i = 0; !g_atomic_int_get(&to->stopped); i++) gst_pad_push(to->source, make_report((report){.timestamp = i * 90, .seconds = i}));
    return NULL;
}

static void test_release(void) {
    place p;
    make_place(&p);
    SEND(&p.r, .sequence = 1);
    gst_harness_teardown(p.reports);
    for (guint turn = 0; turn < 30; turn++) {
        GstPad *pad = gst_element_request_pad_simple(p.r.element, "sink_rtcp");
        pushing to = {.source = gst_pad_new(NULL, GST_PAD_SRC)};
        GstSegment segment;
        if (!CHECK(pad != NULL)) break;
        CHECK(gst_pad_link_full(to.source, pad, GST_PAD_LINK_CHECK_NOTHING) == GST_PAD_LINK_OK);
        gst_pad_set_active(to.source, TRUE);
        gst_segment_init(&segment, GST_FORMAT_TIME);
        gst_pad_push_event(to.source, gst_event_new_stream_start("reports"));
        gst_pad_push_event(to.source, gst_event_new_segment(&segment));
        GThread *thread = g_thread_new("reports", push, &to);
        SEND(&p.r, .sequence = (guint16)(2 + turn), .pts = MS(turn));
        g_usleep(500);
        gst_element_release_request_pad(p.r.element, pad);
        g_atomic_int_set(&to.stopped, TRUE);
        g_thread_join(thread);
        gst_pad_set_active(to.source, FALSE);
        gst_object_unref(pad);
        gst_object_unref(to.source);
    }
    gst_harness_teardown(p.r.media);
    gst_object_unref(p.r.element);
}

void test_reports(void) {
    test_told();
    test_names();
    test_early();
    test_limits();
    test_alone();
    test_rate();
    test_as_theirs();
    test_meta();
    test_release();
}
