/* How soon a sender retransmits a packet again: by default that follows the path, as the library has it. */
#include "checks.h"

static void set_time(sender *s, guint64 at) { gst_harness_set_time(s->media, at * GST_MSECOND); }

/* A sender with an interval, or where that is less than -1 with the usual one. It sent 21 packets, one in ten milliseconds. */
static sender make_paced(gint interval) {
    sender s = {.element = gst_element_factory_make("gozdritsend", NULL)};
    g_object_set(s.element, "rtx-ssrc", RTX, "silence-delay", 0, NULL);
    if (interval >= -1) g_object_set(s.element, "rtx-min-interval", interval, NULL);
    s.media = gst_harness_new_with_element(s.element, "sink", "src");
    s.feedback = gst_harness_new_with_element(s.element, "feedback_sink", NULL);
    gst_harness_set_src_caps_str(s.media, CAPS);
    gst_harness_set_src_caps_str(s.feedback, "application/x-rtcp");
    for (guint16 i = 0; i < 21; i++) {
        set_time(&s, 10 * (guint64)i);
        CHECK(gst_harness_push(s.media, make_packet((packet){.sequence = i})) == GST_FLOW_OK);
        COMES(s.media, .sequence = i);
    }
    return s;
}

/* A packet is asked for at a moment, by a NACK or as an rtpsession does. */
static void ask(sender *s, gboolean by_event, guint64 at, guint16 number) {
    set_time(s, at);
    if (by_event) CHECK(request(s, MEDIA, number));
    else gst_harness_push(s->feedback, make_nack(number, 0));
}

/* The first NACK comes 30 ms after the packet behind the one that it names; those for twelve others come 200 ms later and more, which raises
 * what an answer takes by eighths, to 137 ms. What that has beyond twice 30 ms is taken for a queue: 77 ms. */
static sender make_queued(gint interval, gboolean by_event) {
    sender s = make_paced(interval);
    ask(&s, by_event, 210, 17);
    CHECK(repair_comes(&s, (packet){.sequence = 17}));
    for (guint16 i = 0; i < 12; i++) {
        ask(&s, by_event, 400, i);
        CHECK(repair_comes(&s, (packet){.sequence = i}));
    }
    return s;
}

/* So long after its last retransmission a packet is retransmitted again, and not earlier, whoever asks. */
static void test_interval(gint interval, guint64 least) {
    for (gint by_event = 0; by_event < 2; by_event++) {
        sender s = make_queued(interval, by_event);
        if (least > 0) {
            ask(&s, by_event, 400 + least - 1, 3);
            CHECK(is_silent(s.media) && count_of(s.element, "early") == 1);
        }
        ask(&s, by_event, 400 + least, 3);
        CHECK(repair_comes(&s, (packet){.sequence = 3}) && count_of(s.element, "retransmissions") == 14);
        drop_sender(&s);
    }
}

/* Before anything was measured it is ten milliseconds, so a NACK that leaves twice is answered once. */
static void test_unmeasured(void) {
    sender s = make_paced(-2);
    ask(&s, FALSE, 240, 19);
    CHECK(repair_comes(&s, (packet){.sequence = 19}));
    ask(&s, FALSE, 249, 19);
    CHECK(is_silent(s.media) && count_of(s.element, "early") == 1);
    ask(&s, FALSE, 250, 19);
    CHECK(repair_comes(&s, (packet){.sequence = 19}));
    drop_sender(&s);
}

/* What a property says stays as it says. */
void test_path(void) {
    test_unmeasured();
    test_interval(-2, 77);
    test_interval(-1, 77);
    test_interval(30, 30);
    test_interval(0, 0);
}
