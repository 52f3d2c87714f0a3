/* What a receiver in a jitter buffer's place drops and tells of, and what it holds. */
#include "checks.h"

#define MS(n) ((n) * (GstClockTime)GST_MSECOND)

static guint field_of(const GstStructure *told, const gchar *name) {
    guint value = G_MAXUINT;
    if (told) gst_structure_get_uint(told, name, &value);
    return value;
}

/* ---- what is dropped */

static gboolean tells(GstBus *bus, guint number, GstClockTime at, const gchar *reason, guint late, guint on_latency) {
    GstMessage *message = gst_bus_timed_pop_filtered(bus, 2 * GST_SECOND, GST_MESSAGE_ELEMENT);
    const GstStructure *told = message ? gst_message_get_structure(message) : NULL;
    GstClockTime timestamp = 0;
    if (!told) return FALSE;
    gboolean is = gst_structure_has_name(told, "drop-msg") && gst_structure_get_clock_time(told, "timestamp", &timestamp) && timestamp == at &&
                  field_of(told, "seqnum") == number && field_of(told, "num-too-late") == late &&
                  field_of(told, "num-drop-on-latency") == on_latency &&
                  g_strcmp0(gst_structure_get_string(told, "reason"), reason) == 0;
    if (!is) {
        gchar *text = gst_structure_to_string(told);
        g_print("%s\n", text);
        g_free(text);
    }
    gst_message_unref(message);
    return is;
}

/* What came too late is told where that is wanted, the first and then one message in each interval. */
static void test_late(void) {
    place p;
    make_place(&p);
    GstBus *bus = bus_of(p.r.element);
    for (guint turn = 0; turn < 2; turn++) {
        for (guint16 i = 0; i < 3; i++) SEND(&p.r, .sequence = 10, .pts = MS(1000));
        COMES(p.r.media, .sequence = 10, .pts = MS(1000));
        if (turn == 0) CHECK(!posted(bus, GST_MESSAGE_ELEMENT));
        else CHECK(tells(bus, 10, MS(1000), "too-late", 1, 0) && !posted(bus, GST_MESSAGE_ELEMENT));
        if (turn == 1) break;
        gst_element_set_state(p.r.element, GST_STATE_NULL);
        CHECK(count_of(p.r.element, "num-pushed") == 1);
        g_object_set(p.r.element, "post-drop-messages", TRUE, "drop-messages-interval", 100, NULL);
        gst_element_set_state(p.r.element, GST_STATE_PLAYING);
        CHECK(count_of(p.r.element, "num-pushed") == 0);
        gst_harness_set_src_caps_str(p.r.media, PLACE_CAPS);
    }
    set_clock_to(&p.r, 99);
    SEND(&p.r, .sequence = 9, .pts = MS(980));
    CHECK(!posted(bus, GST_MESSAGE_ELEMENT));
    set_clock_to(&p.r, 100);
    SEND(&p.r, .sequence = 8, .pts = MS(960));
    CHECK(tells(bus, 8, MS(960), "too-late", 3, 0));
    CHECK(count_of(p.r.element, "num-late") == 4);
    drop_bus(p.r.element, bus);
    drop_place(&p);
}

static GstPadProbeReturn hold(GstPad *pad, GstPadProbeInfo *info, gpointer data) {
    (void)pad, (void)info, (void)data;
    return GST_PAD_PROBE_OK;
}

/* While downstream stands still no more than the latency is kept by drop-on-latency, and all without it. Events stay. */
static void test_drop_on_latency(void) {
    for (guint drops = 0; drops < 2; drops++) {
        place p;
        make_place(&p);
        GstBus *bus = bus_of(p.r.element);
        g_object_set(p.r.element, "drop-on-latency", drops, "post-drop-messages", TRUE, NULL);
        SEND(&p.r, .sequence = 9);
        COMES(p.r.media, .sequence = 9);
        GstPad *src = gst_element_get_static_pad(p.r.element, "src");
        gulong probe = gst_pad_add_probe(src, GST_PAD_PROBE_TYPE_BLOCK | GST_PAD_PROBE_TYPE_BUFFER, hold, NULL, NULL);
        SEND(&p.r, .sequence = 10, .pts = MS(20)); /* is on its way */
        g_usleep(20000);
        gst_harness_push_event(p.r.media, gst_event_new_custom(GST_EVENT_CUSTOM_DOWNSTREAM, gst_structure_new_empty("mark")));
        for (guint16 i = 11; i < 41; i++) SEND(&p.r, .sequence = i, .pts = MS(20) * (i - 9u));
        CHECK(count_of(p.r.element, "dropped") == (drops ? 20 : 0));
        gst_pad_remove_probe(src, probe);
        COMES(p.r.media, .sequence = 10, .pts = MS(20));
        for (guint16 i = drops ? 31 : 11; i < 41; i++) {
            GstBuffer *out = next_buffer(p.r.media);
            CHECK(is_packet(out, (packet){.sequence = i, .pts = MS(20) * (i - 9u)}));
            CHECK(out && GST_BUFFER_FLAG_IS_SET(out, GST_BUFFER_FLAG_DISCONT) == (drops && i == 31));
            gst_clear_buffer(&out);
        }
        GstEvent *mark = next_event(p.r.media, GST_EVENT_CUSTOM_DOWNSTREAM);
        CHECK(mark != NULL);
        if (mark) gst_event_unref(mark);
        if (drops) CHECK(tells(bus, 11, MS(40), "drop-on-latency", 0, 1));
        CHECK(!posted(bus, GST_MESSAGE_ELEMENT));
        gst_object_unref(src);
        drop_bus(p.r.element, bus);
        drop_place(&p);
    }
}

/* The same where it is the timer that has more to go out: then no packet comes that tells it. */
static void test_dropped_by_timer(void) {
    place p;
    make_place(&p);
    GstBus *bus = bus_of(p.r.element);
    g_object_set(p.r.element, "drop-on-latency", TRUE, "post-drop-messages", TRUE, NULL);
    SEND(&p.r, .sequence = 9);
    COMES(p.r.media, .sequence = 9);
    GstPad *src = gst_element_get_static_pad(p.r.element, "src");
    gulong probe = gst_pad_add_probe(src, GST_PAD_PROBE_TYPE_BLOCK | GST_PAD_PROBE_TYPE_BUFFER, hold, NULL, NULL);
    SEND(&p.r, .sequence = 10, .pts = MS(20)); /* is on its way */
    g_usleep(20000);
    for (guint16 i = 12; i < 24; i++) SEND(&p.r, .sequence = i, .pts = MS(20) * (i - 9u));
    CHECK(!posted(bus, GST_MESSAGE_ELEMENT));
    TICKS(&p.r, 200);
    CHECK(tells(bus, 12, MS(60), "drop-on-latency", 0, 1));
    gst_pad_remove_probe(src, probe);
    gst_object_unref(src);
    drop_bus(p.r.element, bus);
    drop_place(&p);
}

/* And where it is the end that has: the message, which has a reference of the element, does not keep it alive. */
static void test_dropped_at_end(void) {
    place p;
    make_place(&p);
    gpointer element = p.r.element;
    g_object_add_weak_pointer(G_OBJECT(element), &element);
    g_object_set(p.r.element, "drop-on-latency", TRUE, "post-drop-messages", TRUE, NULL);
    SEND(&p.r, .sequence = 9);
    COMES(p.r.media, .sequence = 9);
    GstPad *src = gst_element_get_static_pad(p.r.element, "src");
    gst_pad_add_probe(src, GST_PAD_PROBE_TYPE_BLOCK | GST_PAD_PROBE_TYPE_BUFFER, hold, NULL, NULL);
    SEND(&p.r, .sequence = 10, .pts = MS(20)); /* is on its way */
    g_usleep(20000);
    for (guint16 i = 12; i < 24; i++) SEND(&p.r, .sequence = i, .pts = MS(20) * (i - 9u));
    gst_object_unref(src);
    drop_place(&p);
    CHECK(element == NULL);
}

/* ---- set-active */

static guint64 set_active(place *p, gboolean active, guint64 offset) {
    guint64 last = 0;
    g_signal_emit_by_name(p->r.element, "set-active", active, offset, &last);
    return last;
}

/* Nothing goes out while it is not active, and what does then is later by the offset. It answers when the next packet goes out, or the last
 * one did. */
static void test_active(void) {
    place p;
    make_place(&p);
    CHECK(set_active(&p, TRUE, MS(3)) == GST_CLOCK_TIME_NONE); /* it is so already */
    SEND(&p.r, .sequence = 10, .pts = MS(20));
    COMES(p.r.media, .sequence = 10, .pts = MS(20));
    CHECK(set_active(&p, FALSE, 0) == MS(20));
    for (GstEvent *began; (began = gst_harness_try_pull_event(p.r.media));) gst_event_unref(began);
    gst_harness_push_event(p.r.media, gst_event_new_custom(GST_EVENT_CUSTOM_DOWNSTREAM, gst_structure_new_empty("mark")));
    SEND(&p.r, .sequence = 11, .pts = MS(40));
    SEND(&p.r, .sequence = 12, .pts = MS(60));
    CHECK(is_silent(p.r.media) && gst_harness_events_in_queue(p.r.media) == 0 && set_active(&p, FALSE, MS(5)) == MS(40));
    CHECK(set_active(&p, TRUE, MS(500)) == MS(540));
    for (guint16 i = 11; i < 14; i++) {
        if (i == 13) SEND(&p.r, .sequence = 13, .pts = MS(80));
        GstBuffer *out = next_buffer(p.r.media);
        CHECK(out && GST_BUFFER_PTS(out) == MS(500) + MS(20) * (i - 9u));
        gst_clear_buffer(&out);
    }
    CHECK(set_active(&p, FALSE, 0) == MS(580));
    drop_place(&p); /* while it is held */
}

void test_drops(void) {
    test_late();
    test_drop_on_latency();
    test_dropped_by_timer();
    test_dropped_at_end();
    test_active();
}
