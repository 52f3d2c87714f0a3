/* What is added to the times of packets in a jitter buffer's place, and where a stream ends. */
#include "checks.h"

#define MS(n) ((n) * (GstClockTime)GST_MSECOND)

/* Whether the next packet is that one, with this time, and with the flag by which a jump of the times is told or without. */
static gboolean comes_at(place *p, guint16 number, GstClockTime at, gboolean has_moved) {
    GstBuffer *out = next_buffer(p->r.media);
    guint8 octets[4] = {0};
    if (!out) return FALSE;
    gst_buffer_extract(out, 0, octets, sizeof octets);
    gboolean is = GST_READ_UINT16_BE(octets + 2) == number && GST_BUFFER_PTS(out) == at && GST_BUFFER_DTS(out) == at &&
                  GST_BUFFER_FLAG_IS_SET(out, GST_BUFFER_FLAG_RESYNC) == has_moved;
    if (!is) g_print("%u at %" GST_TIME_FORMAT "\n", GST_READ_UINT16_BE(octets + 2), GST_TIME_ARGS(GST_BUFFER_PTS(out)));
    gst_buffer_unref(out);
    return is;
}

static gint64 offset_of(place *p) {
    gint64 offset;
    g_object_get(p->r.element, "ts-offset", &offset, NULL);
    return offset;
}

/* An offset is added at once, and none is before 0. */
static void test_offset(void) {
    place p;
    make_place(&p);
    SEND(&p.r, .sequence = 1, .pts = MS(1000));
    CHECK(comes_at(&p, 1, MS(1000), FALSE));
    g_object_set(p.r.element, "ts-offset", (gint64)MS(300), NULL);
    for (guint16 i = 2; i < 4; i++) {
        SEND(&p.r, .sequence = i, .pts = MS(980) + i * MS(20));
        CHECK(comes_at(&p, i, MS(1280) + i * MS(20), i == 2));
    }
    CHECK(offset_of(&p) == (gint64)MS(300));
    g_object_set(p.r.element, "ts-offset", -(gint64)MS(100), NULL);
    SEND(&p.r, .sequence = 4, .pts = MS(1060));
    CHECK(comes_at(&p, 4, MS(960), TRUE));
    g_object_set(p.r.element, "ts-offset", G_MININT64, NULL);
    SEND(&p.r, .sequence = 5, .pts = MS(1080));
    CHECK(comes_at(&p, 5, 0, TRUE));
    g_object_set(p.r.element, "ts-offset", G_MAXINT64, NULL);
    SEND(&p.r, .sequence = 6, .pts = MS(1100));
    GstBuffer *out = next_buffer(p.r.media);
    CHECK(out && GST_BUFFER_PTS(out) > (G_GUINT64_CONSTANT(1) << 60) && GST_CLOCK_TIME_IS_VALID(GST_BUFFER_PTS(out)));
    gst_clear_buffer(&out);
    drop_place(&p);
}

/* With a largest step, by that with each frame, and not within one. */
static void test_steps(void) {
    static const gint64 offsets[] = {40, 80, 100, 100, 60, 20};
    place p;
    make_place(&p);
    g_object_set(p.r.element, "max-ts-offset-adjustment", (guint64)MS(40), "ts-offset", (gint64)MS(100), NULL);
    CHECK(offset_of(&p) == 0);
    for (guint16 i = 0; i < G_N_ELEMENTS(offsets); i++) {
        if (i == 4) g_object_set(p.r.element, "ts-offset", (gint64)MS(20), NULL);
        GstClockTime at = MS(1000) + i * MS(20);
        SEND(&p.r, .sequence = (guint16)(2 * i), .pts = at);
        SEND(&p.r, .sequence = (guint16)(2 * i + 1), .pts = at);
        CHECK(comes_at(&p, (guint16)(2 * i), at + (GstClockTime)offsets[i] * GST_MSECOND, i == 0 || i == 4));
        CHECK(comes_at(&p, (guint16)(2 * i + 1), at + (GstClockTime)offsets[i] * GST_MSECOND, FALSE));
        CHECK(offset_of(&p) == offsets[i] * GST_MSECOND);
    }
    drop_place(&p);
}

/* What goes out later may come later, and what is told to be lost has the offset too. */
static void test_latency(void) {
    place p;
    make_place(&p);
    g_object_set(p.r.element, "ts-offset", (gint64)MS(300), "do-lost", TRUE, NULL);
    SEND(&p.r, .sequence = 1, .pts = MS(1000));
    SEND(&p.r, .sequence = 3, .pts = MS(1040));
    CHECK(comes_at(&p, 1, MS(1300), TRUE));
    TICKS(&p.r, 500);
    CHECK(comes_at(&p, 3, MS(1340), FALSE));
    guint64 at = 0;
    GstEvent *lost = next_event(p.r.media, GST_EVENT_CUSTOM_DOWNSTREAM);
    CHECK(lost && gst_structure_get_uint64(gst_event_get_structure(lost), "timestamp", &at) && at == MS(1320));
    if (lost) gst_event_unref(lost);
    g_object_set(p.r.element, "ts-offset", -(gint64)MS(150), NULL);
    SEND(&p.r, .sequence = 5, .pts = MS(1080));
    TICKS(&p.r, 550);
    CHECK(comes_at(&p, 5, MS(930), TRUE));
    drop_place(&p);
}

/* So is what is missing already, where the offset moves as a frame goes out. */
static void test_moving(void) {
    guint64 last;
    place p;
    make_place(&p);
    g_signal_emit_by_name(p.r.element, "set-active", FALSE, (guint64)0, &last);
    SEND(&p.r, .sequence = 1, .pts = MS(1000));
    SEND(&p.r, .sequence = 3, .pts = MS(1040));
    g_object_set(p.r.element, "max-ts-offset-adjustment", (guint64)MS(100), "ts-offset", -(gint64)MS(150), NULL);
    g_usleep(20000); /* its timer waits for the latency as it was */
    g_signal_emit_by_name(p.r.element, "set-active", TRUE, (guint64)0, &last);
    CHECK(comes_at(&p, 1, MS(900), TRUE));
    g_usleep(20000);
    TICKS(&p.r, 100);
    CHECK(comes_at(&p, 3, MS(890), FALSE));
    drop_place(&p);
}

/* One clock: no packet moves the times but the first. Else the earliest does. */
static void test_synced(void) {
    for (guint synced = 0; synced < 2; synced++) {
        place p;
        make_place(&p);
        gst_util_set_object_arg(G_OBJECT(p.r.element), "mode", synced ? "synced" : "slave");
        SEND(&p.r, .sequence = 1, .pts = MS(1000));
        CHECK(comes_at(&p, 1, MS(1000), FALSE));
        GstBuffer *early = make_packet((packet){.sequence = 2, .pts = MS(1020)});
        GST_BUFFER_PTS(early) = GST_BUFFER_DTS(early) = MS(1010);
        gst_harness_push(p.r.media, early);
        GstBuffer *out = next_buffer(p.r.media);
        CHECK(out && GST_BUFFER_PTS(out) == (synced ? MS(1020) : MS(1010)));
        gst_clear_buffer(&out);
        drop_place(&p);
    }
}

static void count(GstElement *element, gint *stops) {
    (void)element;
    g_atomic_int_inc(stops);
}

/* Where the caps say when the stream ends, that is told once, when all before it has gone out: the latency behind the moment when its packet is
 * to come, by what the last one that came says. */
static void test_stop(void) {
    for (guint answered = 0; answered < 2; answered++) {
        gint stops = 0;
        place p;
        make_place(&p);
        g_signal_connect(p.r.element, "on-npt-stop", G_CALLBACK(count), &stops);
        const gchar *caps = "application/x-rtp,payload=96,clock-rate=90000,clock-base=(uint)4294967250,npt-start=(guint64)5000000000,"
                            "npt-stop=(guint64)6000000000";
        if (answered) p.answers[96] = caps;
        else gst_harness_set_src_caps_str(p.r.media, caps);
        for (guint16 i = 0; i < 3; i++) SEND(&p.r, .sequence = i, .pts = MS(300) * i, .offset = 4294967250u);
        for (guint16 i = 0; i < 3; i++) COMES(p.r.media, .sequence = i, .pts = MS(300) * i, .offset = 4294967250u);
        TICKS(&p.r, 600); /* 400 ms are left, and 200 ms of latency */
        for (gint i = 0; i < 2000 && g_atomic_int_get(&stops) == 0; i++) g_usleep(1000);
        SEND(&p.r, .sequence = 3, .pts = MS(990), .offset = 4294967250u);
        set_clock_to(&p.r, 5000);
        g_usleep(20000);
        CHECK(g_atomic_int_get(&stops) == 1);
        drop_place(&p);
    }
}

/* While the stream is paused no end comes nearer. */
static void test_pause(void) {
    gint stops = 0;
    place p;
    make_place(&p);
    p.answers[96] = "application/x-rtp,payload=96,clock-rate=90000,clock-base=(uint)0,npt-stop=(guint64)1000000000";
    g_signal_connect(p.r.element, "on-npt-stop", G_CALLBACK(count), &stops);
    SEND(&p.r, .sequence = 0);
    gst_element_set_state(p.r.element, GST_STATE_PAUSED);
    SEND(&p.r, .sequence = 1, .pts = MS(100));
    g_usleep(20000);
    GstTestClock *clock = gst_harness_get_testclock(p.r.media);
    CHECK(gst_test_clock_peek_id_count(clock) == 0); /* its timer waits for nothing */
    gst_object_unref(clock);
    set_clock_to(&p.r, 5000);
    gst_element_set_state(p.r.element, GST_STATE_PLAYING);
    g_usleep(20000);
    CHECK(g_atomic_int_get(&stops) == 0);
    SEND(&p.r, .sequence = 2, .pts = MS(200));
    TICKS(&p.r, 6000);
    for (gint i = 0; i < 2000 && g_atomic_int_get(&stops) == 0; i++) g_usleep(1000);
    CHECK(g_atomic_int_get(&stops) == 1);
    drop_place(&p);
}

void test_offsets(void) {
    test_offset();
    test_steps();
    test_latency();
    test_moving();
    test_synced();
    test_stop();
    test_pause();
}
