/* What a receiver makes of packets: their order, asks, repairs, and what is lost for good. */
#include "checks.h"

#include <string.h>

#define MS(n) ((n) * (GstClockTime)GST_MSECOND)

/* A packet that has everything goes out as it came, but for its padding. */
static void test_whole_packet(void) {
    receiver r = make_receiver(CAPS);
    GstRTPBuffer rtp = GST_RTP_BUFFER_INIT;
    static const guint8 words[8] = {1, 2, 3, 4, 5, 6};
    GstBuffer *buffer = make_packet((packet){.sequence = 65535, .fill = 7, .marker = TRUE, .length = 100});
    gst_rtp_buffer_map(buffer, GST_MAP_READWRITE, &rtp);
    gst_rtp_buffer_add_extension_onebyte_header(&rtp, 3, words, 6);
    gst_rtp_buffer_unmap(&rtp);
    GST_BUFFER_PTS(buffer) = 5 * GST_SECOND;
    GST_BUFFER_DTS(buffer) = 4 * GST_SECOND;
    gst_harness_push(r.media, gst_buffer_ref(buffer));
    GstBuffer *out = next_buffer(r.media);
    if (CHECK(out != NULL)) {
        CHECK(same_octets(out, buffer));
        CHECK(GST_BUFFER_PTS(out) == 5 * GST_SECOND && GST_BUFFER_DTS(out) == 4 * GST_SECOND);
        CHECK(GST_BUFFER_FLAG_IS_SET(out, GST_BUFFER_FLAG_MARKER) && GST_BUFFER_FLAG_IS_SET(out, GST_BUFFER_FLAG_DISCONT));
        gst_buffer_unref(out);
    }
    gst_buffer_unref(buffer);
    drop_receiver(&r);
}

/* Packets are put into their order, and each comes once; what comes in time is not asked for. */
static void test_order(void) {
    receiver r = make_receiver(CAPS);
    static const guint16 sent[] = {65534, 0, 65535, 65535, 3, 2, 1, 0};
    for (guint i = 0; i < G_N_ELEMENTS(sent); i++) SEND(&r, .sequence = sent[i], .fill = (guint8)sent[i]);
    for (guint16 i = 65534; i != 4; i++) COMES(r.media, .sequence = i, .fill = (guint8)i);
    CHECK(is_silent(r.media) && is_silent(r.feedback));
    /* It may wait for the moment when it would have asked for what was passed over; then nothing is missing, and for none. */
    if (gst_harness_wait_for_clock_id_waits(r.media, 1, 0)) TICKS(&r, 20);
    CHECK(is_silent(r.feedback) && !gst_harness_wait_for_clock_id_waits(r.media, 1, 0));
    CHECK(count_of(r.element, "duplicate") + count_of(r.element, "late") == 2 && count_of(r.element, "nacks") == 0);
    drop_receiver(&r);
}

/* What is missing is taken however far behind it comes, and is no stream that begins anew. */
static void test_far_behind(void) {
    receiver r = make_receiver(CAPS);
    for (guint16 i = 0; i < 400; i++)
        if (i != 100) SEND(&r, .sequence = i, .fill = (guint8)i);
    SEND(&r, .sequence = 100, .fill = 100);
    for (guint16 i = 0; i < 400; i++) COMES(r.media, .sequence = i, .fill = (guint8)i);
    CHECK(is_silent(r.media) && count_of(r.element, "held-back") == 0 && count_of(r.element, "restarts") == 0);
    drop_receiver(&r);
}

/* A missing packet is asked for when the delay is over and at each retry, and its repair has the times of its frame. */
static void test_repair(void) {
    receiver r = make_receiver(CAPS);
    GstBuffer *nack;
    SEND(&r, .sequence = 10, .pts = MS(40));
    COMES(r.media, .sequence = 10, .pts = MS(40));
    SEND(&r, .sequence = 12, .pts = MS(80), .fill = 12);
    SEND(&r, .sequence = 14, .pts = MS(120), .fill = 14);
    TICKS(&r, 20);
    nack = next_buffer(r.feedback);
    CHECK(is_nack(nack, 11, 2));
    gst_clear_buffer(&nack);
    REPAIR(&r, 50, .sequence = 11, .pts = MS(80), .fill = 11);
    COMES(r.media, .sequence = 11, .pts = MS(80), .fill = 11);
    COMES(r.media, .sequence = 12, .pts = MS(80), .fill = 12);
    CHECK(is_silent(r.media));
    TICKS(&r, 80);
    nack = next_buffer(r.feedback);
    CHECK(is_nack(nack, 13, 0));
    gst_clear_buffer(&nack);
    REPAIR(&r, 51, .sequence = 13, .pts = MS(100), .fill = 13);
    COMES(r.media, .sequence = 13, .pts = MS(100), .fill = 13);
    COMES(r.media, .sequence = 14, .pts = MS(120), .fill = 14);
    CHECK(count_of(r.element, "retransmissions") == 2 && count_of(r.element, "nacked") == 3);
    drop_receiver(&r);
}

static gboolean is_lost(GstHarness *h, guint sequence, GstClockTime at, GstClockTime span) {
    GstEvent *event = next_event(h, GST_EVENT_CUSTOM_DOWNSTREAM);
    guint number = 0;
    guint64 timestamp = 0, duration = 0;
    if (!event) return FALSE;
    const GstStructure *s = gst_event_get_structure(event);
    gboolean is = gst_structure_has_name(s, "GstRTPPacketLost") &&
                  gst_structure_get(s, "seqnum", G_TYPE_UINT, &number, "timestamp", G_TYPE_UINT64, &timestamp, "duration",
                                    G_TYPE_UINT64, &duration, NULL) &&
                  number == sequence && timestamp == at && duration == span;
    gst_event_unref(event);
    return is;
}

/* What is not repaired is given up when its patience is over, and told; what is behind it goes on, marked. */
static void test_loss(void) {
    receiver r = make_receiver(CAPS);
    SEND(&r, .sequence = 10);
    COMES(r.media, .sequence = 10);
    SEND(&r, .sequence = 13, .pts = MS(90));
    for (guint64 at = 20; at <= 200; at += 60) TICKS(&r, at);
    GstBuffer *out = next_buffer(r.media);
    CHECK(is_packet(out, (packet){.sequence = 13, .pts = MS(90)}));
    CHECK(out && GST_BUFFER_FLAG_IS_SET(out, GST_BUFFER_FLAG_DISCONT));
    gst_clear_buffer(&out);
    CHECK(is_lost(r.media, 11, MS(30), MS(30)));
    CHECK(is_lost(r.media, 12, MS(60), MS(30)));
    SEND(&r, .sequence = 14, .pts = MS(120));
    out = next_buffer(r.media);
    CHECK(is_packet(out, (packet){.sequence = 14, .pts = MS(120)}) && !GST_BUFFER_FLAG_IS_SET(out, GST_BUFFER_FLAG_DISCONT));
    gst_clear_buffer(&out);
    CHECK(gst_harness_buffers_in_queue(r.feedback) == 4 - 1); /* at 20, 80 and 140; 200 is the end of patience */
    CHECK(count_of(r.element, "gaps") == 2 && count_of(r.element, "played") == 3);
    drop_receiver(&r);
}

/* Nothing is told where nobody wants it. */
static void test_loss_untold(void) {
    receiver r = make_receiver(CAPS);
    g_object_set(r.element, "do-lost", FALSE, "latency", 0, NULL);
    SEND(&r, .sequence = 10);
    guint events = gst_harness_events_received(r.media);
    SEND(&r, .sequence = 12);
    COMES(r.media, .sequence = 10);
    COMES(r.media, .sequence = 12);
    CHECK(gst_harness_events_received(r.media) == MAX(events, 3));
    drop_receiver(&r);
}

static GstPadProbeReturn hold(GstPad *pad, GstPadProbeInfo *info, gpointer data) {
    (void)pad, (void)info, (void)data;
    return GST_PAD_PROBE_OK;
}

/* What the window has no room for is told as lost too. The events that begin the stream, which are still to go out here,
 * take no room of it. */
static void test_overrun(void) {
    receiver r = make_receiver(CAPS);
    GstPad *src = gst_element_get_static_pad(r.element, "src");
    gst_element_set_state(r.element, GST_STATE_NULL);
    g_object_set(r.element, "max-size-packets", 2, NULL);
    gulong probe = gst_pad_add_probe(src, GST_PAD_PROBE_TYPE_BLOCK_DOWNSTREAM, hold, NULL, NULL);
    gst_element_set_state(r.element, GST_STATE_PLAYING);
    gst_harness_set_src_caps_str(r.media, CAPS);
    SEND(&r, .sequence = 10);
    SEND(&r, .sequence = 12);
    SEND(&r, .sequence = 13, .pts = MS(40));
    gst_pad_remove_probe(src, probe);
    COMES(r.media, .sequence = 10);
    COMES(r.media, .sequence = 12);
    CHECK(is_lost(r.media, 11, 0, 0));
    CHECK(count_of(r.element, "overrun") == 1);
    gst_object_unref(src);
    drop_receiver(&r);
}

/* Packets that are no media of this session. */
static void test_others(void) {
    receiver r = make_receiver(CAPS);
    GstBus *bus = bus_of(r.element);
    gst_harness_push(r.media, make_nack(1, 0));
    SEND(&r, .sequence = 10);
    gst_harness_push(r.media, make_nack(1, 0));
    gst_harness_push(r.media, gst_buffer_new_memdup("noise", 5));
    SEND(&r, .sequence = 11, .ssrc = 77);
    SEND(&r, .sequence = 12, .ssrc = 77);
    SEND(&r, .sequence = 11, .type = 72); /* RTCP, by RFC 5761, section 4 */
    CHECK(!posted(bus, GST_MESSAGE_WARNING));
    SEND(&r, .sequence = 11, .length = GOZDRIT_MAX_PAYLOAD + 1);
    CHECK(posted(bus, GST_MESSAGE_WARNING));
    SEND(&r, .sequence = 11, .length = GOZDRIT_MAX_PAYLOAD);
    COMES(r.media, .sequence = 10);
    COMES(r.media, .sequence = 11, .length = GOZDRIT_MAX_PAYLOAD);
    CHECK(count_of(r.element, "strays") == 1 && count_of(r.element, "rtcp") == 1);
    CHECK(count_of(r.element, "refused") == 5 && count_of(r.element, "sessions") == 1);
    drop_bus(r.element, bus);
    drop_receiver(&r);
}

/* Packets of the stream with another payload type, as comfort noise or events of a telephone have one, have their place in it: nothing waits
 * for them, and nobody asks for them. Where the caps say the type they go nowhere, which is told once, and else out as they came. */
static void test_other_types(void) {
    static const guint8 types[] = {96, 13, 96, 101, 8, 96};
    for (gint is_free = 0; is_free < 2; is_free++) {
        receiver r = make_receiver(is_free ? "application/x-rtp,media=video,clock-rate=90000,encoding-name=X" : CAPS);
        GstBus *bus = bus_of(r.element);
        for (guint16 i = 0; i < G_N_ELEMENTS(types); i++) SEND(&r, .sequence = i, .pts = MS(i), .type = types[i]);
        for (guint16 i = 0; i < G_N_ELEMENTS(types); i++)
            if (is_free || types[i] == 96) COMES(r.media, .sequence = i, .pts = MS(i), .type = types[i]);
        CHECK(is_silent(r.media) && count_of(r.element, "gaps") == 0 && count_of(r.element, "nacked") == 0);
        CHECK(posted(bus, GST_MESSAGE_WARNING) == !is_free && !posted(bus, GST_MESSAGE_WARNING | GST_MESSAGE_ERROR));
        CHECK(count_of(r.element, "other-types") == (is_free ? 0 : 3) && count_of(r.element, "media") == G_N_ELEMENTS(types));
        drop_bus(r.element, bus);
        drop_receiver(&r);
    }
}

/* A session that can't be is told. */
static void test_refused(void) {
    receiver r = make_receiver("application/x-rtp,clock-rate=90000,payload=97");
    GstBus *bus = bus_of(r.element);
    CHECK(SEND(&r, .sequence = 10, .type = 97) == GST_FLOW_ERROR);
    CHECK(posted(bus, GST_MESSAGE_ERROR));
    drop_bus(r.element, bus);
    drop_receiver(&r);
}

/* The next NACK, which leaves twice, since its times follow the path. */
static void leaves_twice(receiver *r, guint16 number, guint16 mask) {
    for (int i = 0; i < 2; i++) {
        GstBuffer *nack = next_buffer(r->feedback);
        CHECK(is_nack(nack, number, mask));
        gst_clear_buffer(&nack);
    }
}

/* Once a round trip is known, a packet is asked for as it is noticed to be missing, and as often as fits. Before, it is asked for behind a tenth
 * of a short latency, so that an answer has its time and a round trip can be known at all. */
static void test_retry(guint latency, guint64 wait) {
    guint64 first = MIN(20, latency / 10);
    receiver r = make_receiver(CAPS);
    g_object_set(r.element, "rtx-retry-timeout", -1, "latency", latency, NULL);
    SEND(&r, .sequence = 10);
    SEND(&r, .sequence = 12);
    TICKS(&r, first);
    leaves_twice(&r, 11, 0);
    set_clock_to(&r, first + 10); /* the answer to that ask */
    REPAIR(&r, 50, .sequence = 11);
    CHECK(count_of(r.element, "rtx-round-trip") == MS(10));
    SEND(&r, .sequence = 14);
    leaves_twice(&r, 13, 0);
    TICKS(&r, first + 10 + wait);
    drop_receiver(&r);
}

/* Frames lie nearly as far apart as the latency: one that is repaired within that since it was missed goes out. */
static void test_slow_frames(void) {
    enum { APART = 33, FRAMES = 40, AT = APART * (FRAMES - 1) }; /* the last but one is lost */
    receiver r = make_receiver(CAPS);
    g_object_set(r.element, "rtx-retry-timeout", -1, "latency", 40, NULL);
    for (guint16 i = 0; i < FRAMES; i++) {
        if (i == FRAMES - 2) continue;
        set_clock_to(&r, APART * i);
        SEND(&r, .sequence = i, .pts = MS(APART * i));
        if (i < FRAMES - 2) COMES(r.media, .sequence = i, .pts = MS(APART * i));
    }
    for (int i = 0; i < 2; i++) {
        TICKS(&r, AT + (i == 0 ? 4 : 24));
        leaves_twice(&r, FRAMES - 2, 0);
    }
    set_clock_to(&r, AT + 30);
    REPAIR(&r, 50, .sequence = FRAMES - 2, .pts = MS(AT - APART));
    COMES(r.media, .sequence = FRAMES - 2, .pts = MS(AT - APART));
    COMES(r.media, .sequence = FRAMES - 1, .pts = MS(AT));
    drop_receiver(&r);
}

/* Of a stream with many packets in a latency, what was lost in a long silence is given up at once but for the last of it. */
static void test_outage(void) {
    enum { APART = 10, BEFORE = 110, AT = 2100 };
    receiver r = make_receiver(CAPS);
    g_object_set(r.element, "rtx-retry-timeout", -1, "latency", 100, NULL);
    for (guint16 i = 0; i < BEFORE; i++) {
        set_clock_to(&r, APART * i);
        SEND(&r, .sequence = i, .pts = MS(APART * i));
        COMES(r.media, .sequence = i, .pts = MS(APART * i));
    }
    set_clock_to(&r, AT);
    SEND(&r, .sequence = AT / APART, .pts = MS(AT));
    TICKS(&r, AT + APART);
    GstBuffer *nack = next_buffer(r.feedback);
    guint8 octets[14] = {0};
    if (nack) gst_buffer_extract(nack, 0, octets, sizeof octets);
    CHECK(GST_READ_UINT16_BE(octets + 12) >= (AT - 100) / APART);
    gst_clear_buffer(&nack);
    drop_receiver(&r);
}

/* A packet that stood behind another one in a NACK, and is asked for again, shows no round trip. */
static void test_in_doubt(void) {
    receiver r = make_receiver(CAPS);
    g_object_set(r.element, "rtx-retry-timeout", -1, "latency", 1000, NULL);
    SEND(&r, .sequence = 10);
    SEND(&r, .sequence = 13);
    TICKS(&r, 20);
    leaves_twice(&r, 11, 1);
    set_clock_to(&r, 30);
    REPAIR(&r, 50, .sequence = 11);
    TICKS(&r, 20 + 20);
    leaves_twice(&r, 12, 0);
    set_clock_to(&r, 44);
    REPAIR(&r, 51, .sequence = 12);
    CHECK(count_of(r.element, "retransmissions") == 2);
    CHECK(count_of(r.element, "rtx-round-trip") == MS(10));
    drop_receiver(&r);
}

void test_receive(void) {
    test_whole_packet();
    test_order();
    test_far_behind();
    test_repair();
    test_loss();
    test_loss_untold();
    test_overrun();
    test_others();
    test_other_types();
    test_refused();
    /* an answer takes the trip of 10, its variation of 5 and 5, and NACKs lie no closer: as many as fit before the last answer that
     * is in time, and evenly */
    test_retry(1000, (1000 - 20) / 49);
    test_retry(110, (110 - 20) / 4);
    test_retry(50, 50 - 20);
    test_slow_frames();
    test_outage();
    test_in_doubt();
}
