/* A receiver whose far side begins anew, and what caps say of a session. */
#include "checks.h"

#define MS(n) ((n) * (GstClockTime)GST_MSECOND)
#define FREE_CAPS "application/x-rtp,media=video,clock-rate=90000,encoding-name=X,payload=96"

/* How long nothing of a stream came, in milliseconds, when two packets behind a jump are believed: the library's default. */
enum { IDLE = 200 };

/* Numbers and timestamps that jump, under the same SSRC: nothing of the new stream is lost. */
static void test_jump(void) {
    receiver r = make_receiver(CAPS);
    SEND(&r, .sequence = 10, .pts = MS(20));
    set_clock_to(&r, IDLE);
    SEND(&r, .sequence = 30000, .pts = MS(40), .offset = 12345678);
    SEND(&r, .sequence = 30001, .pts = MS(60), .offset = 12345678);
    COMES(r.media, .sequence = 10, .pts = MS(20));
    GstBuffer *out = next_buffer(r.media);
    CHECK(is_packet(out, (packet){.sequence = 30000, .pts = MS(40), .offset = 12345678}));
    CHECK(out && GST_BUFFER_FLAG_IS_SET(out, GST_BUFFER_FLAG_DISCONT));
    gst_clear_buffer(&out);
    COMES(r.media, .sequence = 30001, .pts = MS(60), .offset = 12345678);
    CHECK(count_of(r.element, "restarts") == 1);
    drop_receiver(&r);
}

/* An event that waits for a packet of the stream before does not wait for one of the new stream. */
static void test_event(void) {
    receiver r = make_receiver(CAPS);
    g_object_set(r.element, "latency", 5 * IDLE, NULL);
    SEND(&r, .sequence = 10);
    SEND(&r, .sequence = 12);
    gst_harness_push_event(r.media, gst_event_new_custom(GST_EVENT_CUSTOM_DOWNSTREAM, gst_structure_new_empty("one")));
    set_clock_to(&r, IDLE);
    SEND(&r, .sequence = 30000);
    SEND(&r, .sequence = 30001);
    COMES(r.media, .sequence = 10);
    COMES(r.media, .sequence = 30000);
    COMES(r.media, .sequence = 30001);
    GstEvent *event = next_event(r.media, GST_EVENT_CUSTOM_DOWNSTREAM);
    CHECK(event != NULL);
    if (event) gst_event_unref(event);
    drop_receiver(&r);
}

/* A stream that begins anew ahead or behind, and loses packets: it is heard as soon as the old one has been silent for a while. */
static void test_lossy_jump(void) {
    static const guint16 begins[] = {40000, 100, 29000};
    for (guint i = 0; i < G_N_ELEMENTS(begins); i++) {
        receiver r = make_receiver(CAPS);
        guint sent = 0;
        SEND(&r, .sequence = 30000);
        COMES(r.media, .sequence = 30000);
        for (; sent < 100 && count_of(r.element, "restarts") == 0; sent++) {
            set_clock_to(&r, 20 * (sent + 1));
            if (sent % 3 != 1) SEND(&r, .sequence = (guint16)(begins[i] + sent));
        }
        CHECK(sent <= IDLE / 20 + 1);
        COMES(r.media, .sequence = begins[i]);
        drop_receiver(&r);
    }
}

/* Ten packets in sequence of another SSRC take the place of a stream whose SSRC nobody named and of which fewer came, and nine do not. What was held
 * goes out first. */
static void test_ssrc(void) {
    receiver r = make_receiver(FREE_CAPS);
    SEND(&r, .sequence = 10);
    SEND(&r, .sequence = 12);
    for (guint16 i = 0; i < 9; i++) {
        SEND(&r, .sequence = 500 + i, .ssrc = 7);
        SEND(&r, .sequence = 700 + i, .ssrc = 8 + i);
    }
    COMES(r.media, .sequence = 10);
    CHECK(is_silent(r.media) && count_of(r.element, "strays") == 18);
    SEND(&r, .sequence = 510, .ssrc = 7, .fill = 1);
    SEND(&r, .sequence = 511, .ssrc = 7, .fill = 2);
    COMES(r.media, .sequence = 12);
    COMES(r.media, .sequence = 510, .ssrc = 7, .fill = 1);
    COMES(r.media, .sequence = 511, .ssrc = 7, .fill = 2);
    CHECK(count_of(r.element, "sessions") == 2 && count_of(r.element, "gaps") == 1 && count_of(r.element, "media") == 4);
    SEND(&r, .sequence = 1, .ssrc = 9); /* the end finds what it claims */
    drop_receiver(&r);
}

/* The caps tell the first number: what is lost before the first packet that comes is asked for. */
static void test_first(void) {
    receiver r = make_receiver(CAPS ",seqnum-base=(uint)65535,rtx-ssrc=(uint)572662306,rtx-payload-type=97");
    SEND(&r, .sequence = 1);
    TICKS(&r, 20);
    GstBuffer *nack = next_buffer(r.feedback);
    CHECK(is_nack(nack, 65535, 1));
    gst_clear_buffer(&nack);
    REPAIR(&r, 1, .sequence = 0, .ssrc = 99); /* not the one that the caps name */
    REPAIR(&r, 1, .sequence = 65535);
    REPAIR(&r, 2, .sequence = 0);
    COMES(r.media, .sequence = 65535);
    COMES(r.media, .sequence = 0);
    COMES(r.media, .sequence = 1);
    CHECK(count_of(r.element, "refused") == 1);
    drop_receiver(&r);
}

/* An attribute of SDP names both SSRCs. */
static void test_group(void) {
    receiver r = make_receiver(FREE_CAPS ",a-ssrc-group=(string)\"FID 286331153 572662306\"");
    SEND(&r, .sequence = 1, .ssrc = 5);
    SEND(&r, .sequence = 2, .ssrc = 5);
    SEND(&r, .sequence = 3);
    SEND(&r, .sequence = 5);
    TICKS(&r, 20);
    REPAIR(&r, 1, .sequence = 4, .ssrc = 99);
    REPAIR(&r, 1, .sequence = 4);
    COMES(r.media, .sequence = 3);
    COMES(r.media, .sequence = 4);
    COMES(r.media, .sequence = 5);
    CHECK(count_of(r.element, "strays") == 2 && count_of(r.element, "refused") == 1);
    drop_receiver(&r);
}

/* Caps with another type or SSRC begin another session; what is held goes out first, and the new caps behind it. */
static void test_caps(void) {
    receiver r = make_receiver(CAPS);
    SEND(&r, .sequence = 10);
    SEND(&r, .sequence = 12);
    gst_harness_set_src_caps_str(r.media, "application/x-rtp,clock-rate=8000,payload=101,ssrc=(uint)9");
    SEND(&r, .sequence = 13);
    SEND(&r, .sequence = 90, .ssrc = 9, .type = 101);
    COMES(r.media, .sequence = 10);
    COMES(r.media, .sequence = 12);
    GstBuffer *out = next_buffer(r.media);
    CHECK(is_packet(out, (packet){.sequence = 90, .ssrc = 9, .type = 101}));
    gst_clear_buffer(&out);
    GstCaps *caps = gst_pad_get_current_caps(r.media->sinkpad);
    gint rate = 0;
    CHECK(gst_structure_get_int(gst_caps_get_structure(caps, 0), "clock-rate", &rate) && rate == 8000);
    gst_caps_unref(caps);
    CHECK(count_of(r.element, "strays") == 1);
    drop_receiver(&r);
}

/* An SSRC that is said to be the retransmissions' or the receiver's own is no stream of media, whatever type its packets have. */
static void test_taken_ssrc(void) {
    receiver r = make_receiver(FREE_CAPS);
    GstBus *bus = bus_of(r.element);
    g_object_set(r.element, "rtx-ssrc", RTX, "receiver-ssrc", REPORTER, NULL);
    for (guint turn = 0; turn < 2; turn++) { /* before there is a session, and in one */
        for (guint16 i = 0; i < 3; i++) {
            CHECK(SEND(&r, .sequence = 500 + i, .ssrc = RTX) == GST_FLOW_OK);
            CHECK(SEND(&r, .sequence = 700 + i, .ssrc = REPORTER) == GST_FLOW_OK);
        }
        SEND(&r, .sequence = (guint16)(10 + turn));
        COMES(r.media, .sequence = (guint16)(10 + turn));
    }
    CHECK(!posted(bus, GST_MESSAGE_ERROR) && count_of(r.element, "sessions") == 1 && count_of(r.element, "strays") == 6);
    drop_bus(r.element, bus);
    drop_receiver(&r);
}

/* What is a jump, the library says: 3000 places ahead, and 100 behind where nothing is missing. */
static void test_bounds(void) {
    static const struct { guint16 number; gboolean is_jump; } next[] = {{2999, FALSE}, {6001, TRUE}, {5998, FALSE}, {5899, FALSE}, {5898, TRUE}};
    receiver r = make_receiver(CAPS);
    guint64 held = 0;
    SEND(&r, .sequence = 0);
    for (guint i = 0; i < G_N_ELEMENTS(next); i++) {
        if (i == 3) for (guint16 j = 5999 - 1024; j < 5998; j++) SEND(&r, .sequence = j, .fill = 1);
        SEND(&r, .sequence = next[i].number, .pts = MS(i + 1u));
        if (next[i].is_jump) held++;
        CHECK(count_of(r.element, "held-back") == held);
    }
    drop_receiver(&r);
}

void test_restarts(void) {
    test_bounds();
    test_jump();
    test_lossy_jump();
    test_event();
    test_ssrc();
    test_first();
    test_group();
    test_caps();
    test_taken_ssrc();
}
