/* A receiver in a jitter buffer's place: what it asks for, keeps and counts. */
#include "checks.h"

#define MS(n) ((n) * (GstClockTime)GST_MSECOND)

/* ---- repairs */

static guint upstream_requests(receiver *r) {
    guint count = 0;
    for (GstEvent *event; (event = gst_harness_try_pull_upstream_event(r->media)); gst_event_unref(event))
        if (gst_event_has_name(event, "GstRTPRetransmissionRequest")) count++;
    return count;
}

/* The next request that comes upstream, or NULL. */
static GstEvent *next_request(receiver *r) {
    for (gint i = 0; i < 2000; i++) {
        GstEvent *event = gst_harness_try_pull_upstream_event(r->media);
        if (event && gst_event_has_name(event, "GstRTPRetransmissionRequest")) return event;
        if (event) gst_event_unref(event);
        else g_usleep(1000);
    }
    return NULL;
}

static guint field_of(const GstStructure *told, const gchar *name) {
    guint value = G_MAXUINT;
    if (told) gst_structure_get_uint(told, name, &value);
    return value;
}

/* A packet that rtprtxreceive made of a retransmission. */
static GstBuffer *flagged(packet of) {
    GstBuffer *buffer = make_packet(of);
    GST_BUFFER_PTS(buffer) = GST_BUFFER_DTS(buffer) = 999 * GST_SECOND;
    GST_BUFFER_FLAG_SET(buffer, GST_RTP_BUFFER_FLAG_RETRANSMISSION);
    return buffer;
}

/* Without do-retransmission nothing is asked for; but what is repaired all the same is taken. */
static void test_silent(void) {
    place p;
    make_place(&p);
    p.answers[97] = "application/x-rtp,media=video,payload=97,clock-rate=90000,encoding-name=Y";
    SEND(&p.r, .sequence = 10);
    SEND(&p.r, .sequence = 12, .pts = MS(40));
    SEND(&p.r, .sequence = 14, .pts = MS(80), .type = 97);
    gst_harness_push(p.r.media, flagged((packet){.sequence = 11, .pts = MS(20), .type = 97, .marker = TRUE}));
    COMES(p.r.media, .sequence = 10);
    GstBuffer *out = next_buffer(p.r.media);
    CHECK(is_packet(out, (packet){.sequence = 11, .pts = MS(20), .type = 97, .marker = TRUE}));
    CHECK(out && !GST_BUFFER_FLAG_IS_SET(out, GST_RTP_BUFFER_FLAG_RETRANSMISSION));
    gst_clear_buffer(&out);
    COMES(p.r.media, .sequence = 12, .pts = MS(40));
    TICKS(&p.r, 200); /* the first thing that its timer waits for */
    COMES(p.r.media, .sequence = 14, .pts = MS(80), .type = 97);
    CHECK(upstream_requests(&p.r) == 0);
    CHECK(count_of(p.r.element, "num-lost") == 1 && count_of(p.r.element, "rtx-success-count") == 1);
    drop_place(&p);
}

/* What somebody behind it asks for all the same goes on upstream. */
static void test_asked_behind(void) {
    place p;
    make_place(&p);
    SEND(&p.r, .sequence = 10);
    COMES(p.r.media, .sequence = 10);
    GstStructure *told = gst_structure_new("GstRTPRetransmissionRequest", "seqnum", G_TYPE_UINT, 11, "ssrc", G_TYPE_UINT, MEDIA, NULL);
    CHECK(gst_harness_push_upstream_event(p.r.media, gst_event_new_custom(GST_EVENT_CUSTOM_UPSTREAM, told)));
    CHECK(upstream_requests(&p.r) == 1);
    drop_place(&p);
}

/* With it, by events, with the type of the last packet that came. */
static void test_asks(void) {
    place p;
    make_place(&p);
    g_object_set(p.r.element, "do-retransmission", TRUE, NULL);
    SEND(&p.r, .sequence = 10);
    SEND(&p.r, .sequence = 12, .type = 98);
    TICKS(&p.r, 20);
    GstEvent *request = next_request(&p.r);
    const GstStructure *told = request ? gst_event_get_structure(request) : NULL;
    CHECK(field_of(told, "seqnum") == 11 && field_of(told, "ssrc") == MEDIA && field_of(told, "payload-type") == 98);
    CHECK(field_of(told, "delay") == 20 && field_of(told, "deadline") == 200);
    if (request) gst_event_unref(request);
    gst_harness_push(p.r.media, flagged((packet){.sequence = 11}));
    for (guint16 i = 10; i < 13; i++) COMES(p.r.media, .sequence = i, .type = i == 12 ? 98 : 96);
    g_object_set(p.r.element, "do-retransmission", FALSE, NULL);
    SEND(&p.r, .sequence = 14);
    TICKS(&p.r, 220);
    COMES(p.r.media, .sequence = 14);
    CHECK(upstream_requests(&p.r) == 0);
    drop_place(&p);
}

/* An event is not lost, so each ask is one. */
static void test_asks_once(void) {
    place p;
    make_place(&p);
    g_object_set(p.r.element, "do-retransmission", TRUE, "rtx-retry-timeout", -1, NULL);
    SEND(&p.r, .sequence = 10);
    SEND(&p.r, .sequence = 12);
    for (guint at = 20; at < 200; at += 60) {
        TICKS(&p.r, at);
        GstEvent *request = next_request(&p.r);
        CHECK(field_of(request ? gst_event_get_structure(request) : NULL, "delay") == at);
        if (request) gst_event_unref(request);
    }
    drop_place(&p);
}

/* But where more than one in eight of the last second's packets is lost, so is what rtpsession makes of an event: each ask is two then. Here it is
 * the last one of so many. */
static void test_asks_twice(guint16 many, gboolean is_much) {
    place p;
    make_place(&p);
    g_object_set(p.r.element, "do-retransmission", TRUE, "rtx-retry-timeout", -1, "latency", 60, "rtx-max-retries", 1, NULL);
    for (guint16 i = 0; i <= 3 * many; i++) {
        guint at = 100 * i;
        if (i % many == many - 1) continue;
        set_clock_to(&p.r, at);
        SEND(&p.r, .sequence = i, .pts = MS(at));
        if (i % many > 0 || i == 0) continue;
        TICKS(&p.r, at + 6);
        GstEvent *request = next_request(&p.r);
        CHECK(field_of(request ? gst_event_get_structure(request) : NULL, "seqnum") == i - 1u);
        if (request) gst_event_unref(request);
        TICKS(&p.r, at + 60);
        CHECK(upstream_requests(&p.r) == (is_much && i == 3 * many));
    }
    drop_place(&p);
}

/* Who took the pad of feedback is asked, whatever do-retransmission says. */
static void test_feedback_is_taken(void) {
    place p;
    make_place(&p);
    p.r.feedback = gst_harness_new_with_element(p.r.element, NULL, "feedback_src");
    SEND(&p.r, .sequence = 10);
    SEND(&p.r, .sequence = 12, .type = 98);
    TICKS(&p.r, 20);
    GstBuffer *nack = next_buffer(p.r.feedback);
    CHECK(is_nack(nack, 11, 0));
    gst_clear_buffer(&nack);
    gst_harness_push(p.r.media, flagged((packet){.sequence = 11}));
    for (guint16 i = 10; i < 13; i++) COMES(p.r.media, .sequence = i, .type = i == 12 ? 98 : 96);
    CHECK(upstream_requests(&p.r) == 0);
    gst_harness_teardown(p.r.feedback);
    drop_place(&p);
}

/* ---- what is more than the library takes */

/* Of two lengths, and with an extension. It ends its frame. */
static GstBuffer *long_packet(guint16 sequence, gint kind) {
    GstBuffer *buffer = make_packet((packet){.sequence = sequence, .fill = 7, .marker = TRUE, .length = kind == 0 ? GOZDRIT_MAX_PAYLOAD + 1 : 9000});
    GstRTPBuffer rtp = GST_RTP_BUFFER_INIT;
    if (kind < 2) return buffer;
    gst_buffer_unref(buffer);
    buffer = make_packet((packet){.sequence = sequence, .fill = 7, .marker = TRUE});
    gst_rtp_buffer_map(buffer, GST_MAP_READWRITE, &rtp);
    gst_rtp_buffer_set_extension_data(&rtp, 0xbede, GOZDRIT_MAX_EXTENSION_WORDS + 1);
    gst_rtp_buffer_unmap(&rtp);
    GST_BUFFER_PTS(buffer) = 0;
    return buffer;
}

static gboolean is_same(GstHarness *harness, GstBuffer *sent) {
    GstBuffer *out = next_buffer(harness);
    gboolean is = out && same_octets(out, sent) && GST_BUFFER_PTS(out) == 0 && !GST_BUFFER_FLAG_IS_SET(out, GST_RTP_BUFFER_FLAG_RETRANSMISSION) &&
                  GST_BUFFER_FLAG_IS_SET(out, GST_BUFFER_FLAG_MARKER);
    gst_clear_buffer(&out);
    return is;
}

/* Such a packet keeps its place, as it came, also where it was repaired, or is the first one; and nothing is told of it. */
static void test_long(void) {
    for (gint kind = 0; kind < 3; kind++) {
        GstBuffer *first = long_packet(10, kind), *second = long_packet(12, kind), *repair = long_packet(11, kind);
        place p;
        make_place(&p);
        GstBus *bus = bus_of(p.r.element);
        GST_BUFFER_FLAG_SET(repair, GST_RTP_BUFFER_FLAG_RETRANSMISSION);
        gst_harness_push(p.r.media, gst_buffer_ref(first));
        CHECK(is_same(p.r.media, first));
        gst_harness_push(p.r.media, gst_buffer_ref(second));
        SEND(&p.r, .sequence = 13);
        CHECK(is_silent(p.r.media));
        gst_harness_push(p.r.media, gst_buffer_ref(repair));
        CHECK(is_same(p.r.media, repair));
        CHECK(is_same(p.r.media, second));
        COMES(p.r.media, .sequence = 13);
        CHECK(!posted(bus, GST_MESSAGE_WARNING) && count_of(p.r.element, "refused") == 0 && count_of(p.r.element, "num-lost") == 0);
        drop_bus(p.r.element, bus);
        drop_place(&p);
        gst_buffer_unref(first);
        gst_buffer_unref(second);
        gst_buffer_unref(repair);
    }
}

/* What is long and no RTP packet is dropped. */
static void test_long_noise(void) {
    static const guint8 firsts[] = {0x00, 0xa0, 0x9f};
    place p;
    make_place(&p);
    SEND(&p.r, .sequence = 9);
    COMES(p.r.media, .sequence = 9);
    for (guint i = 0; i < G_N_ELEMENTS(firsts); i++) {
        GstBuffer *buffer = make_packet((packet){.sequence = 10, .length = 2000});
        gst_buffer_memset(buffer, 0, firsts[i], 1);
        if (i == 2) gst_buffer_memset(buffer, 12 + 60, 255, 4); /* an extension that is longer than the packet */
        gst_harness_push(p.r.media, buffer);
    }
    CHECK(is_silent(p.r.media) && count_of(p.r.element, "refused") == 3);
    drop_place(&p);
}

/* ---- properties and counts */

static guint warnings_of(GstBus *bus) {
    guint count = 0;
    while (posted(bus, GST_MESSAGE_WARNING)) count++;
    return count;
}

/* What is not here is refused, and all else stays as it is set. */
static void test_refused(void) {
    static const gchar *const refused[][3] = {{"mode", "buffer", "slave"}, {"mode", "none", "slave"}, {"rfc7273-sync", "true", "false"},
                                              {"max-dropout-time", "59999", "60000"}, {"max-misorder-time", "1", "2000"}};
    static const gchar *const taken[][2] = {{"mode", "synced"}, {"mode", "slave"}, {"rfc7273-sync", "false"}, {"max-dropout-time", "60000"},
                                            {"max-misorder-time", "2000"}, {"do-retransmission", "true"}, {"ts-offset", "-5"},
                                            {"drop-on-latency", "true"}, {"max-rtcp-rtp-time-diff", "-1"}, {"sync-interval", "7"},
                                            {"max-ts-offset-adjustment", "0"}, {"add-reference-timestamp-meta", "true"},
                                            {"post-drop-messages", "true"}, {"drop-messages-interval", "9"}, {"do-lost", "true"}};
    place p;
    make_place(&p);
    GstBus *bus = bus_of(p.r.element);
    for (guint i = 0; i < G_N_ELEMENTS(refused); i++) {
        GValue value = G_VALUE_INIT;
        gst_util_set_object_arg(G_OBJECT(p.r.element), refused[i][0], refused[i][1]);
        g_object_get_property(G_OBJECT(p.r.element), refused[i][0], &value);
        gchar *text = gst_value_serialize(&value);
        if (!CHECK(warnings_of(bus) == 1 && g_str_equal(text, refused[i][2]))) g_print("%s is %s\n", refused[i][0], text);
        g_free(text);
        g_value_unset(&value);
    }
    for (guint i = 0; i < G_N_ELEMENTS(taken); i++) {
        GValue value = G_VALUE_INIT;
        gst_util_set_object_arg(G_OBJECT(p.r.element), taken[i][0], taken[i][1]);
        g_object_get_property(G_OBJECT(p.r.element), taken[i][0], &value);
        gchar *text = gst_value_serialize(&value);
        if (!CHECK(warnings_of(bus) == 0 && g_str_equal(text, taken[i][1]))) g_print("%s is %s\n", taken[i][0], text);
        g_free(text);
        g_value_unset(&value);
    }
    gint percent = 0;
    g_object_get(p.r.element, "percent", &percent, NULL);
    CHECK(percent == 100);
    drop_bus(p.r.element, bus);
    drop_place(&p);
}

/* A window of any number, and of more than the library keeps, is the most that it keeps. */
static void test_window(void) {
    static const guint windows[] = {0, G_MAXUINT, GOZDRIT_MAX_STORE + 1, GOZDRIT_MAX_STORE};
    for (guint i = 0; i < G_N_ELEMENTS(windows); i++) {
        receiver r = make_receiver(CAPS);
        GstBus *bus = bus_of(r.element);
        gst_element_set_state(r.element, GST_STATE_NULL);
        g_object_set(r.element, "max-size-packets", windows[i], "latency", 60000, NULL);
        gst_element_set_state(r.element, GST_STATE_PLAYING);
        gst_harness_set_src_caps_str(r.media, CAPS);
        SEND(&r, .sequence = 0);
        for (guint k = 2; k < 8190; k++) SEND(&r, .sequence = (guint16)k);
        CHECK(count_of(r.element, "overrun") == 0 && warnings_of(bus) == (i < 3));
        SEND(&r, .sequence = 8200);
        CHECK(count_of(r.element, "overrun") > 0 && count_of(r.element, "num-lost") == 8); /* 1 to 8 had to go */
        drop_bus(r.element, bus);
        drop_receiver(&r);
    }
}

/* The counts that rtpjitterbuffer has, of its types. */
static void test_counts(void) {
    static const gchar *const names[] = {"num-pushed", "num-lost", "num-late", "num-duplicates", "avg-jitter", "rtx-count", "rtx-success-count",
                                         "rtx-rtt"};
    place p;
    make_place(&p);
    g_object_set(p.r.element, "do-retransmission", TRUE, "rtx-retry-timeout", -1, NULL);
    SEND(&p.r, .sequence = 10, .pts = MS(1000));
    GstBuffer *late = make_packet((packet){.sequence = 12, .pts = MS(1040)});
    GST_BUFFER_PTS(late) = GST_BUFFER_DTS(late) = MS(1056);
    gst_harness_push(p.r.media, late);
    SEND(&p.r, .sequence = 12, .pts = MS(1040)); /* is there twice */
    TICKS(&p.r, 20);
    GstEvent *request = next_request(&p.r);
    CHECK(request != NULL);
    if (request) gst_event_unref(request);
    set_clock_to(&p.r, 60);
    gst_harness_push(p.r.media, flagged((packet){.sequence = 11, .pts = MS(1020)}));
    for (guint16 i = 10; i < 13; i++) COMES(p.r.media, .sequence = i, .pts = MS(1000) + MS(20) * (i - 10u));
    SEND(&p.r, .sequence = 15, .pts = MS(1080));
    SEND(&p.r, .sequence = 9, .pts = MS(980)); /* too late */
    for (gint i = 0; i < 2000 && count_of(p.r.element, "num-lost") < 2; i++) {
        gst_harness_crank_single_clock_wait(p.r.media);
        g_usleep(100);
    }
    COMES(p.r.media, .sequence = 15, .pts = MS(1080));
    CHECK(count_of(p.r.element, "num-pushed") == 4 && count_of(p.r.element, "num-lost") == 2 && count_of(p.r.element, "num-late") == 1);
    CHECK(count_of(p.r.element, "num-duplicates") == 1 && count_of(p.r.element, "rtx-success-count") == 1);
    guint64 asked = count_of(p.r.element, "rtx-count");
    CHECK(asked > count_of(p.r.element, "nacks") && asked == count_of(p.r.element, "nacked"));
    CHECK(count_of(p.r.element, "rtx-rtt") == MS(40));
    /* 16 ms late, and then 16 ms early of 24 (RFC 3550, section 6.4.1): see rtpjitterbuffer's */
    GstStructure *stats, *theirs;
    GstElement *other = gst_element_factory_make("rtpjitterbuffer", NULL);
    gdouble each = -1;
    g_object_get(p.r.element, "stats", &stats, NULL);
    CHECK(gst_structure_get_double(stats, "rtx-per-packet", &each) && each == (gdouble)asked);
    CHECK(count_of(p.r.element, "avg-jitter") > MS(1) && count_of(p.r.element, "avg-jitter") < MS(3));
    if (other) {
        g_object_get(other, "stats", &theirs, NULL);
        for (guint i = 0; i < G_N_ELEMENTS(names); i++)
            CHECK(gst_structure_get_field_type(stats, names[i]) == gst_structure_get_field_type(theirs, names[i]));
        CHECK(gst_structure_n_fields(theirs) == G_N_ELEMENTS(names) + 1);
        gst_structure_free(theirs);
        gst_object_unref(other);
    }
    gst_structure_free(stats);
    drop_place(&p);
}

void test_place(void) {
    test_silent();
    test_asked_behind();
    test_asks();
    test_asks_once();
    test_asks_twice(4, TRUE);
    test_asks_twice(10, FALSE);
    test_feedback_is_taken();
    test_long();
    test_long_noise();
    test_refused();
    test_window();
    test_counts();
}
