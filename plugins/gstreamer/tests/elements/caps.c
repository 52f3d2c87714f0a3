/* What caps tell a receiver of the retransmissions, and of NACKs. */
#include "checks.h"

#define MS(n) ((n) * (GstClockTime)GST_MSECOND)
#define BARE "application/x-rtp,media=video,clock-rate=90000,encoding-name=X"

/* A retransmission of another type. */
static GstBuffer *repair_of_type(packet of, guint16 sequence, guint8 type) {
    GstBuffer *buffer = make_repair(of, sequence);
    gst_buffer_memset(buffer, 1, type, 1);
    return buffer;
}

/* Whether the packet 11, which is missing, is repaired by a retransmission of that SSRC and type. */
static gboolean repairs(receiver *r, guint32 ssrc, guint8 type) {
    guint64 before = count_of(r->element, "retransmissions");
    gst_harness_push(r->media, repair_of_type((packet){.sequence = 11, .ssrc = ssrc}, 1, type));
    return count_of(r->element, "retransmissions") == before + 1;
}

/* The type of the retransmissions, by the name that rtprtxsend gives it. */
static void test_rtx_payload(void) {
    receiver r = make_receiver(BARE ",payload=96,rtx-payload=99,rtx-ssrc=(uint)5");
    SEND(&r, .sequence = 10);
    SEND(&r, .sequence = 12);
    CHECK(!repairs(&r, 5, 97) && !repairs(&r, 6, 99) && repairs(&r, 5, 99));
    drop_receiver(&r);
}

/* A type below 64, as browsers agree on: retransmissions have it, and those that the library knows them by are none. */
static void test_low_type(void) {
    static const guint8 media[] = {96, 97, 98};
    for (guint i = 0; i < G_N_ELEMENTS(media); i++) {
        gchar *caps = g_strdup_printf(BARE ",payload=%u,rtx-payload=36%s", media[i], i > 0 ? ",rtx-ssrc=(uint)5" : "");
        receiver r = make_receiver(caps);
        GstBus *bus = bus_of(r.element);
        SEND(&r, .sequence = 10, .type = media[i]);
        SEND(&r, .sequence = 12, .type = media[i]);
        COMES(r.media, .sequence = 10, .type = media[i]);
        TICKS(&r, 20);
        GstBuffer *nack = next_buffer(r.feedback);
        CHECK(is_nack(nack, 11, 0));
        gst_clear_buffer(&nack);
        CHECK(!repairs(&r, 5, 97) && !repairs(&r, 5, 98) && repairs(&r, 5, 36));
        COMES(r.media, .sequence = 11, .type = media[i]);
        CHECK(!posted(bus, GST_MESSAGE_ERROR | GST_MESSAGE_WARNING));
        drop_bus(r.element, bus);
        drop_receiver(&r);
        g_free(caps);
    }
}

/* Caps of the retransmissions by themselves, as SDP has them: behind those of the media, and before its packets. */
static void test_apt(void) {
    static const gchar *const rtx =
        "application/x-rtp,media=video,clock-rate=90000,encoding-name=RTX,payload=99,apt=(string)96,ssrc=(uint)5";
    receiver r = make_receiver(BARE);
    gst_harness_set_src_caps_str(r.media, rtx);
    SEND(&r, .sequence = 10, .type = 100); /* not the type that `apt` names */
    CHECK(count_of(r.element, "sessions") == 0);
    SEND(&r, .sequence = 10);
    SEND(&r, .sequence = 12);
    CHECK(!repairs(&r, 5, 97) && !repairs(&r, 6, 99));
    gst_harness_set_src_caps_str(r.media, rtx);
    CHECK(repairs(&r, 5, 99));
    gst_harness_set_src_caps_str(r.media, BARE);
    for (guint16 i = 10; i < 13; i++) COMES(r.media, .sequence = i);
    CHECK(count_of(r.element, "sessions") == 1);
    for (GstEvent *event; (event = gst_harness_try_pull_event(r.media)); gst_event_unref(event)) {
        GstCaps *caps;
        if (GST_EVENT_TYPE(event) != GST_EVENT_CAPS) continue;
        gst_event_parse_caps(event, &caps);
        CHECK(g_str_equal(gst_structure_get_string(gst_caps_get_structure(caps, 0), "encoding-name"), "X"));
    }
    drop_receiver(&r);
}

/* Downstream of a depayloader's kind, which takes caps of its media alone: those of the retransmissions come as well, as a funnel has
 * both, and no others. */
static void test_depayloader(void) {
    static const gchar *const rtx = "application/x-rtp,media=video,clock-rate=90000,encoding-name=RTX,payload=99,apt=(string)96";
    static const gchar *const other = "application/x-rtp,media=video,clock-rate=90000,encoding-name=Y,payload=96";
    receiver r = make_receiver(BARE ",payload=96");
    gst_harness_set_sink_caps_str(r.media, "application/x-rtp,media=video,encoding-name=X");
    GstCaps *caps[] = {gst_caps_from_string(rtx), gst_caps_from_string(other), gst_caps_from_string(BARE ",payload=96")};
    GstPad *sink = gst_pad_get_peer(r.media->srcpad);
    for (guint i = 0; i < G_N_ELEMENTS(caps); i++) {
        GstCaps *left = gst_pad_peer_query_caps(r.media->srcpad, caps[i]);
        CHECK(gst_caps_is_empty(left) == (i == 1) && gst_pad_query_accept_caps(sink, caps[i]) == (i != 1));
        gst_caps_unref(left);
    }
    SEND(&r, .sequence = 10);
    CHECK(gst_pad_push_event(r.media->srcpad, gst_event_new_caps(caps[0])));
    CHECK(gst_harness_push(r.media, repair_of_type((packet){.sequence = 9}, 1, 99)) == GST_FLOW_OK);
    CHECK(gst_pad_push_event(r.media->srcpad, gst_event_new_caps(caps[2])));
    CHECK(SEND(&r, .sequence = 11) == GST_FLOW_OK);
    for (guint16 i = 10; i < 12; i++) COMES(r.media, .sequence = i);
    for (guint i = 0; i < G_N_ELEMENTS(caps); i++) gst_caps_unref(caps[i]);
    gst_object_unref(sink);
    drop_receiver(&r);
}

/* Where NACKs are not wanted, what is missing is waited for, and not asked for. */
static void test_no_nack(void) {
    receiver r = make_receiver(CAPS ",rtcp-fb-nack=(boolean)false");
    SEND(&r, .sequence = 10);
    SEND(&r, .sequence = 12, .pts = MS(40));
    TICKS(&r, 200);
    COMES(r.media, .sequence = 10);
    COMES(r.media, .sequence = 12, .pts = MS(40));
    CHECK(is_silent(r.feedback) && count_of(r.element, "nacks") == 0 && count_of(r.element, "gaps") == 1);
    gst_harness_set_src_caps_str(r.media, CAPS ",rtcp-fb-nack=(boolean)true");
    set_clock_to(&r, 300);
    SEND(&r, .sequence = 14, .pts = MS(80));
    TICKS(&r, 320);
    GstBuffer *nack = next_buffer(r.feedback);
    CHECK(is_nack(nack, 13, 0));
    gst_clear_buffer(&nack);
    drop_receiver(&r);
}

void test_rtx_caps(void) {
    test_rtx_payload();
    test_low_type();
    test_depayloader();
    test_apt();
    test_no_nack();
}
