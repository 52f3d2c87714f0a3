/* What a sender does where no packet comes. */
#include "checks.h"

#define MS(n) ((n) * (GstClockTime)GST_MSECOND)

static sender make_silent(guint delay) {
    sender s = make_sender();
    g_object_set(s.element, "silence-delay", delay, NULL);
    return s;
}

/* Waits until the sender waits, and moves the clock on to what it waits for, which is to be so many milliseconds. */
static gboolean waits_for(sender *s, guint64 at) {
    if (!gst_harness_wait_for_clock_id_waits(s->media, 1, 2)) return FALSE;
    GstTestClock *clock = gst_harness_get_testclock(s->media);
    gboolean due = gst_test_clock_get_next_entry_time(clock) == MS(at);
    gst_object_unref(clock);
    return gst_harness_crank_single_clock_wait(s->media) && due;
}

/* It waits for no moment. */
static gboolean waits_for_none(sender *s) {
    GstTestClock *clock = gst_harness_get_testclock(s->media);
    g_usleep(20000);
    gboolean none = gst_test_clock_peek_id_count(clock) == 0;
    gst_object_unref(clock);
    return none;
}

/* The last packet is repeated once, and again after another one. */
static void test_once(void) {
    sender s = make_silent(100);
    CHECK(waits_for_none(&s));
    send_five(&s);
    CHECK(waits_for(&s, 100));
    CHECK(repair_comes(&s, (packet){.sequence = 4, .fill = 4}));
    CHECK(waits_for_none(&s) && is_silent(s.media));
    gst_harness_set_time(s.media, MS(500));
    gst_harness_push(s.media, make_packet((packet){.sequence = 5, .fill = 5}));
    COMES(s.media, .sequence = 5, .fill = 5);
    CHECK(waits_for(&s, 600));
    CHECK(repair_comes(&s, (packet){.sequence = 5, .fill = 5}));
    drop_sender(&s);
}

/* Where packets come, none is repeated. */
static void test_flow(void) {
    sender s = make_silent(100);
    send_five(&s);
    CHECK(gst_harness_wait_for_clock_id_waits(s.media, 1, 2));
    gst_harness_set_time(s.media, MS(70));
    gst_harness_push(s.media, make_packet((packet){.sequence = 5, .fill = 5}));
    COMES(s.media, .sequence = 5, .fill = 5);
    CHECK(waits_for(&s, 100));
    CHECK(is_silent(s.media));
    CHECK(waits_for(&s, 170));
    CHECK(repair_comes(&s, (packet){.sequence = 5, .fill = 5}));
    drop_sender(&s);
}

/* Never, where it is not wanted, or where nobody can ask; and a flush ends the wait. */
static void test_never(void) {
    sender s = make_silent(0);
    send_five(&s);
    CHECK(waits_for_none(&s));
    g_object_set(s.element, "silence-delay", 50, NULL);
    CHECK(gst_harness_wait_for_clock_id_waits(s.media, 1, 2));
    gst_harness_push_event(s.media, gst_event_new_flush_start());
    CHECK(waits_for_none(&s));
    gst_harness_push_event(s.media, gst_event_new_flush_stop(TRUE));
    drop_sender(&s);
    GstHarness *h = gst_harness_new_with_padnames("gozdritsend", "sink", "src");
    gst_harness_set_src_caps_str(h, CAPS);
    gst_harness_push(h, make_packet((packet){.sequence = 4}));
    COMES(h, .sequence = 4);
    CHECK(gst_harness_crank_single_clock_wait(h));
    CHECK(is_silent(h));
    gst_harness_teardown(h);
}

/* Moves the clock to a moment, and waits until the task has done what is due by then. */
static void passes_to(sender *s, GstClockTime at) {
    GstTestClock *clock = gst_harness_get_testclock(s->media);
    for (;;) {
        for (guint i = 0; i < 200 && gst_test_clock_peek_id_count(clock) == 0; i++) g_usleep(1000); /* until the task has looked */
        if (gst_test_clock_peek_id_count(clock) == 0 || gst_test_clock_get_next_entry_time(clock) > at) break;
        gst_harness_crank_single_clock_wait(s->media);
    }
    if (gst_clock_get_time(GST_CLOCK(clock)) < at) gst_test_clock_set_time(clock, at);
    gst_object_unref(clock);
}

/* Whether the last packet is repeated at that moment, and at none before. */
static gboolean repeats_at(sender *s, GstClockTime at) {
    guint64 before = count_of(s->element, "retransmissions");
    passes_to(s, at - 1);
    if (count_of(s->element, "retransmissions") != before) return FALSE;
    passes_to(s, at);
    for (guint i = 0; i < 1000 && count_of(s->element, "retransmissions") == before; i++) g_usleep(1000);
    return count_of(s->element, "retransmissions") == before + 1;
}

/* Frames that come slowly, each some packets: how far apart they lie is learnt from the first one, and what is no silence is none. Where
 * one comes, the last packet is repeated, a quarter of that later. */
static void test_slow(guint64 apart, guint frames) {
    sender s = make_silent(100);
    guint16 number = 0;
    for (guint i = 0; i < frames; i++) {
        for (guint j = 0; j < 2; j++, number++) gst_harness_push(s.media, make_packet((packet){.sequence = number, .pts = MS(apart) * i}));
        if (i + 1 < frames) passes_to(&s, MS(apart) * (i + 1));
    }
    CHECK(count_of(s.element, "sent") == number && count_of(s.element, "retransmissions") == 1);
    CHECK(repeats_at(&s, MS(apart) * frames + MS(apart) / 4));
    CHECK(count_of(s.element, "retransmissions") == 2 && waits_for_none(&s));
    drop_sender(&s);
}

/* What was learnt of slow frames is forgotten where packets come fast for a second, or behind a silence. */
static void test_forgets(void) {
    sender s = make_silent(100);
    gst_harness_push(s.media, make_packet((packet){.sequence = 0}));
    CHECK(repeats_at(&s, MS(100)));
    guint16 number = 1;
    for (guint64 at = 200; at <= 1220; at += 20, number++) {
        passes_to(&s, MS(at));
        gst_harness_push(s.media, make_packet((packet){.sequence = number}));
    }
    CHECK(repeats_at(&s, MS(1220 + 100)));
    passes_to(&s, MS(1500)); /* 280 ms: once more as above */
    gst_harness_push(s.media, make_packet((packet){.sequence = number}));
    CHECK(repeats_at(&s, MS(1500 + 350)));
    passes_to(&s, MS(5000));
    gst_harness_push(s.media, make_packet((packet){.sequence = number + 1u}));
    CHECK(repeats_at(&s, MS(5000 + 100)));
    drop_sender(&s);
}

static gpointer end_stream(gpointer harness) {
    gst_harness_push_event(harness, gst_event_new_eos());
    return NULL;
}

/* Behind the end of the stream, the tail is all that is waited for. */
static void test_end(void) {
    sender s = make_silent(100);
    g_object_set(s.element, "rtx-max-repeats", 1, "eos-delay", 400, NULL);
    send_five(&s);
    CHECK(gst_harness_wait_for_clock_id_waits(s.media, 1, 2));
    GThread *thread = g_thread_new("end", end_stream, s.media);
    CHECK(repair_comes(&s, (packet){.sequence = 4, .fill = 4}));
    CHECK(waits_for(&s, 200));
    CHECK(waits_for(&s, 400));
    g_thread_join(thread);
    CHECK(waits_for_none(&s) && is_silent(s.media));
    drop_sender(&s);
}

void test_silence(void) {
    test_once();
    test_flow();
    test_never();
    test_slow(125, 32);
    test_slow(200, 32);
    test_forgets();
    test_end();
}
