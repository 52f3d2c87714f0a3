/* Requests for a key frame: PLI and FIR at a sender, and what a receiver makes of them. */
#include "checks.h"

#include <string.h>

static const guint8 PLI[12] = {0x81, 206, 0, 2, 0x33, 0x33, 0x33, 0x33, 0x11, 0x11, 0x11, 0x11};

/* A FIR for MEDIA, and for another SSRC before that. */
static GstBuffer *make_fir(guint8 number) {
    guint8 octets[28] = {0x84, 206, 0, 6, 0x33, 0x33, 0x33, 0x33, 0, 0, 0, 0, 0, 0, 0, 9, 1, 0, 0, 0, 0x11, 0x11, 0x11, 0x11, number};
    return gst_buffer_new_memdup(octets, sizeof octets);
}

/* The next GstForceKeyUnit that comes from the sender: its `all-headers`, or -1 where none comes. */
static gint next_key_unit(GstHarness *media, guint32 ssrc) {
    for (GstEvent *event; (event = gst_harness_try_pull_upstream_event(media)); gst_event_unref(event)) {
        const GstStructure *told = gst_event_get_structure(event);
        gboolean full = FALSE;
        guint got = 0;
        if (!told || !gst_structure_has_name(told, "GstForceKeyUnit")) continue;
        CHECK(gst_structure_get_boolean(told, "all-headers", &full));
        CHECK((gst_structure_get_uint(told, "ssrc", &got) && got == ssrc) || ssrc == 0);
        gst_event_unref(event);
        return full;
    }
    return -1;
}

static void hear(sender *s, gconstpointer octets, gsize length) {
    CHECK(gst_harness_push(s->feedback, gst_buffer_new_memdup(octets, length)) == GST_FLOW_OK);
}

/* A PLI and a FIR for a stream go upstream; a FIR that is repeated does not, nor what is for another one, or is cut short. */
static void test_sender(void) {
    sender s = make_sender();
    guint8 other[12];
    hear(&s, PLI, sizeof PLI); /* before anything was sent */
    CHECK(next_key_unit(s.media, MEDIA) == -1);
    send_five(&s);
    hear(&s, PLI, sizeof PLI);
    CHECK(next_key_unit(s.media, MEDIA) == FALSE && next_key_unit(s.media, MEDIA) == -1);
    for (guint8 i = 0; i < 4; i++) {
        gst_harness_push(s.feedback, make_fir(i / 2));
        CHECK(next_key_unit(s.media, MEDIA) == (i % 2 == 0 ? TRUE : -1));
    }
    GstBuffer *fir = make_fir(1); /* of another reporter */
    gst_buffer_memset(fir, 4, 9, 1);
    gst_harness_push(s.feedback, fir);
    CHECK(next_key_unit(s.media, MEDIA) == TRUE);
    memcpy(other, PLI, sizeof other);
    other[11] = 9;
    hear(&s, other, sizeof other);
    hear(&s, PLI, 11);
    CHECK(next_key_unit(s.media, MEDIA) == -1);
    CHECK(count_of(s.element, "key-requests") == 4 && count_of(s.element, "retransmissions") == 0);
    drop_sender(&s);
}

/* Behind a report and beside a NACK, which is answered, in one datagram. */
static void test_compound(void) {
    sender s = make_sender();
    guint8 octets[8 + 16 + 12] = {0x80, 201, 0, 1, 0x33, 0x33, 0x33, 0x33};
    GstBuffer *nack = make_nack(2, 0);
    gst_buffer_extract(nack, 0, octets + 8, 16);
    gst_buffer_unref(nack);
    memcpy(octets + 24, PLI, sizeof PLI);
    send_five(&s);
    hear(&s, octets, sizeof octets);
    CHECK(repair_comes(&s, (packet){.sequence = 2, .fill = 2}) && next_key_unit(s.media, MEDIA) == FALSE);
    drop_sender(&s);
}

/* Only the reporter that is heard asks. The SSRC is that which the stream has upstream. */
static void test_reporter(void) {
    sender s = make_sender();
    gst_element_set_state(s.element, GST_STATE_NULL);
    g_object_set(s.element, "receiver-ssrc", REPORTER, "ssrc", MEDIA, NULL);
    gst_element_set_state(s.element, GST_STATE_PLAYING);
    gst_harness_set_src_caps_str(s.media, "application/x-rtp,media=video,clock-rate=90000,encoding-name=X,payload=96,ssrc=(uint)77");
    gst_harness_push(s.media, make_packet((packet){.sequence = 1, .ssrc = 77}));
    COMES(s.media, .sequence = 1);
    guint8 stranger[12];
    memcpy(stranger, PLI, sizeof stranger);
    stranger[4] = 1;
    hear(&s, stranger, sizeof stranger);
    CHECK(next_key_unit(s.media, 77) == -1);
    hear(&s, PLI, sizeof PLI);
    CHECK(next_key_unit(s.media, 77) == FALSE);
    drop_sender(&s);
}

/* An event of downstream, as depayloaders and decoders send it. */
static void want_key(receiver *r, gint full) {
    GstStructure *told = gst_structure_new_empty("GstForceKeyUnit");
    if (full >= 0) gst_structure_set(told, "all-headers", G_TYPE_BOOLEAN, full, NULL);
    gst_harness_push_upstream_event(r->media, gst_event_new_custom(GST_EVENT_CUSTOM_UPSTREAM, told));
}

/* The next datagram of feedback, which has so many octets. */
static gboolean asks_by(receiver *r, gconstpointer octets, gsize length) {
    GstBuffer *asks = next_buffer(r->feedback);
    gboolean is = asks && gst_buffer_get_size(asks) == length && gst_buffer_memcmp(asks, 0, octets, length) == 0;
    gst_clear_buffer(&asks);
    return is;
}

/* What downstream wants leaves as a PLI, or as a FIR whose number rises; before there is a stream it goes on upstream. */
static void test_receiver(void) {
    receiver r = make_receiver(CAPS ",rtcp-fb-nack-pli=true,rtcp-fb-ccm-fir=true");
    guint8 fir[20] = {0x84, 206, 0, 4, 0x33, 0x33, 0x33, 0x33, 0, 0, 0, 0, 0x11, 0x11, 0x11, 0x11};
    g_object_set(r.element, "receiver-ssrc", REPORTER, NULL);
    want_key(&r, FALSE);
    CHECK(next_key_unit(r.media, 0) == FALSE && is_silent(r.feedback));
    SEND(&r, .sequence = 10);
    COMES(r.media, .sequence = 10);
    want_key(&r, -1);
    CHECK(asks_by(&r, PLI, sizeof PLI));
    for (guint8 i = 0; i < 2; i++) {
        fir[16] = i;
        want_key(&r, TRUE);
        CHECK(asks_by(&r, fir, sizeof fir));
    }
    CHECK(next_key_unit(r.media, 0) == -1);
    CHECK(count_of(r.element, "key-requests") == 3 && is_silent(r.feedback));
    drop_receiver(&r);
}

/* It leaves as what the caps allow: as a PLI also where all headers are wanted, and else upstream. */
static void test_allowed(void) {
    static const gchar *const caps[] = {CAPS, CAPS ",rtcp-fb-nack-pli=false", CAPS ",rtcp-fb-nack-pli=true", CAPS ",rtcp-fb-ccm-fir=true"};
    static const gint upstream[][2] = {{FALSE, TRUE}, {FALSE, TRUE}, {-1, -1}, {FALSE, -1}};
    static const guint asks[] = {0, 0, 2, 1};
    for (guint i = 0; i < G_N_ELEMENTS(caps); i++) {
        receiver r = make_receiver(caps[i]);
        SEND(&r, .sequence = 10);
        for (gint full = FALSE; full <= TRUE; full++) {
            want_key(&r, full);
            CHECK(next_key_unit(r.media, 0) == upstream[i][full]);
            if (upstream[i][full] >= 0) continue;
            GstBuffer *buffer = next_buffer(r.feedback);
            CHECK(buffer && gst_buffer_get_size(buffer) == (i == 2 ? 12 : 20));
            gst_clear_buffer(&buffer);
        }
        CHECK(count_of(r.element, "key-requests") == asks[i] && is_silent(r.feedback));
        drop_receiver(&r);
    }
}

/* Where nobody takes feedback, it goes on upstream too. */
static void test_no_feedback(void) {
    GstHarness *h = gst_harness_new_with_padnames("gozdritrecv", "sink", "src");
    receiver r = {.media = h};
    gst_harness_set_src_caps_str(h, CAPS ",rtcp-fb-nack-pli=true,rtcp-fb-ccm-fir=true");
    gst_harness_push(h, make_packet((packet){.sequence = 10}));
    COMES(h, .sequence = 10);
    want_key(&r, TRUE);
    CHECK(next_key_unit(h, 0) == TRUE);
    gst_harness_teardown(h);
}

void test_key_units(void) {
    test_sender();
    test_compound();
    test_reporter();
    test_receiver();
    test_allowed();
    test_no_feedback();
}
