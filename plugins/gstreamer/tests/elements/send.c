/* What a sender makes of packets and caps. */
#include "checks.h"

#include <string.h>

static GstHarness *make_media(void) {
    GstHarness *h = gst_harness_new_with_padnames("gozdritsend", "sink", "src");
    gst_harness_set_src_caps_str(h, CAPS);
    return h;
}

/* A packet that has everything that one can have goes out as it came in, and with its times. */
static void test_whole_packet(void) {
    GstHarness *h = make_media();
    GstRTPBuffer rtp = GST_RTP_BUFFER_INIT;
    static const guint8 word[4] = {1, 2, 3, 4};
    GstBuffer *buffer = gst_rtp_buffer_new_allocate(20, 5, 2);
    gst_rtp_buffer_map(buffer, GST_MAP_READWRITE, &rtp);
    gst_rtp_buffer_set_payload_type(&rtp, TYPE);
    gst_rtp_buffer_set_ssrc(&rtp, MEDIA);
    gst_rtp_buffer_set_seq(&rtp, 65535);
    gst_rtp_buffer_set_timestamp(&rtp, 0xfffffff0);
    gst_rtp_buffer_set_marker(&rtp, TRUE);
    gst_rtp_buffer_set_csrc(&rtp, 0, 7);
    gst_rtp_buffer_set_csrc(&rtp, 1, 0xffffffff);
    gst_rtp_buffer_add_extension_onebyte_header(&rtp, 3, word, sizeof word);
    memset(gst_rtp_buffer_get_payload(&rtp), 0x5a, 20);
    gst_rtp_buffer_unmap(&rtp);
    GST_BUFFER_PTS(buffer) = 5 * GST_SECOND;
    GST_BUFFER_DTS(buffer) = 4 * GST_SECOND;
    GST_BUFFER_DURATION(buffer) = GST_MSECOND;
    GST_BUFFER_FLAG_SET(buffer, GST_BUFFER_FLAG_DELTA_UNIT);
    gst_harness_push(h, gst_buffer_ref(buffer));
    GstBuffer *out = next_buffer(h);
    if (CHECK(out != NULL)) {
        gst_rtp_buffer_map(buffer, GST_MAP_READ, &rtp);
        CHECK(gst_rtp_buffer_get_padding(&rtp) && gst_rtp_buffer_get_extension(&rtp));
        gst_rtp_buffer_unmap(&rtp);
        GstMapInfo map;
        gst_buffer_map(out, &map, GST_MAP_READ);
        CHECK(map.size == gst_buffer_get_size(buffer) && gst_buffer_memcmp(buffer, 0, map.data, map.size - 5) == 0);
        CHECK(map.data[map.size - 1] == 5); /* the padding's other octets may be any */
        gst_buffer_unmap(out, &map);
        CHECK(GST_BUFFER_PTS(out) == 5 * GST_SECOND && GST_BUFFER_DTS(out) == 4 * GST_SECOND);
        CHECK(GST_BUFFER_DURATION(out) == GST_MSECOND && GST_BUFFER_FLAG_IS_SET(out, GST_BUFFER_FLAG_DELTA_UNIT));
        gst_buffer_unref(out);
    }
    gst_buffer_unref(buffer);
    gst_harness_teardown(h);
}

/* Numbers stay as they came. */
static void test_gap(void) {
    GstHarness *h = make_media();
    gst_harness_push(h, make_packet((packet){.sequence = 65535}));
    gst_harness_push(h, make_packet((packet){.sequence = 0, .fill = 1}));
    gst_harness_push(h, make_packet((packet){.sequence = 9, .fill = 2}));
    COMES(h, .sequence = 65535);
    COMES(h, .sequence = 0, .fill = 1);
    COMES(h, .sequence = 9, .fill = 2);
    CHECK(count_of(h->element, "sent") == 3 && count_of(h->element, "octets") == 30);
    gst_harness_teardown(h);
}

/* The payloaders give lists, which go out as lists. */
static void test_list(void) {
    GstHarness *h = make_media();
    GstBufferList *list = gst_buffer_list_new();
    for (guint16 i = 0; i < 5; i++) gst_buffer_list_add(list, make_packet((packet){.sequence = i, .fill = (guint8)i}));
    CHECK(gst_pad_push_list(h->srcpad, list) == GST_FLOW_OK);
    for (guint16 i = 0; i < 5; i++) COMES(h, .sequence = i, .fill = (guint8)i);
    CHECK(is_silent(h));
    gst_harness_teardown(h);
}

static gboolean has(const GstStructure *s, const gchar *text) {
    GstStructure *wanted = gst_structure_from_string(text, NULL);
    gboolean is = gst_structure_is_subset(s, wanted);
    gst_structure_free(wanted);
    return is;
}

/* What the caps of a payloader become, and properties that say otherwise. */
static void test_caps(void) {
    GstHarness *h = gst_harness_new_with_padnames("gozdritsend", "sink", "src");
    g_object_set(h->element, "rtx-ssrc", RTX, "rtx-payload-type", 99, NULL);
    gst_element_set_state(h->element, GST_STATE_READY);
    gst_harness_play(h);
    gst_harness_set_src_caps_str(h, CAPS ",seqnum-offset=(uint)300");
    gst_harness_push(h, make_packet((packet){.sequence = 302}));
    COMES(h, .sequence = 302);
    GstCaps *caps = gst_pad_get_current_caps(h->sinkpad);
    const GstStructure *s = gst_caps_get_structure(caps, 0);
    CHECK(has(s, "application/x-rtp,media=video,clock-rate=90000,encoding-name=X,payload=96,ssrc=(uint)286331153"));
    CHECK(has(s, "application/x-rtp,rtcp-fb-nack=true,rtx-ssrc=(uint)572662306,seqnum-base=(uint)300"));
    CHECK(has(s, "application/x-rtp,rtx-payload-type=99,rtx-payload=99,rtcp-fb-nack-pli=true,rtcp-fb-ccm-fir=true"));
    gst_caps_unref(caps);
    gst_harness_teardown(h);
}

/* The number that the payloader began with is told, and where the first packet that comes lies far from it, that packet's. */
static void test_first(void) {
    static const guint16 firsts[] = {65530, 10, 5000, 65000};
    for (guint i = 0; i < G_N_ELEMENTS(firsts); i++) {
        GstHarness *h = gst_harness_new_with_padnames("gozdritsend", "sink", "src");
        guint told = G_MAXUINT;
        gst_harness_set_src_caps_str(h, i % 2 ? CAPS ",seqnum-offset=(uint)65530" : "application/x-rtp,clock-rate=90000,seqnum-offset=(uint)65530");
        for (guint16 j = 0; j < 3; j++) {
            gst_harness_push(h, make_packet((packet){.sequence = (guint16)(firsts[i] + j)}));
            COMES(h, .sequence = (guint16)(firsts[i] + j));
            GstCaps *caps = gst_pad_get_current_caps(h->sinkpad);
            CHECK(gst_structure_get_uint(gst_caps_get_structure(caps, 0), "seqnum-base", &told) && told == (i < 2 ? 65530 : firsts[i]));
            gst_caps_unref(caps);
        }
        gst_harness_teardown(h);
    }
}

/* Another SSRC and first number than the payloader's. */
static void test_own_ssrc(void) {
    GstHarness *h = gst_harness_new_with_padnames("gozdritsend", "sink", "src");
    g_object_set(h->element, "ssrc", 5, "seqnum-offset", 7, NULL);
    gst_harness_set_src_caps_str(h, CAPS);
    gst_harness_push(h, make_packet((packet){.sequence = 100}));
    COMES(h, .sequence = 7, .ssrc = 5);
    GstCaps *caps = gst_pad_get_current_caps(h->sinkpad);
    CHECK(has(gst_caps_get_structure(caps, 0), "application/x-rtp,ssrc=(uint)5,seqnum-base=(uint)7"));
    gst_caps_unref(caps);
    gst_harness_teardown(h);
}

/* A payloader that goes on with another type: its numbers are its own, and the counts go on. */
static void test_renegotiation(void) {
    GstHarness *h = make_media();
    gst_harness_push(h, make_packet((packet){.sequence = 10}));
    gst_harness_set_src_caps_str(h, "application/x-rtp,media=video,clock-rate=90000,encoding-name=Y,payload=100,ssrc=(uint)286331153");
    gst_harness_push(h, make_packet((packet){.sequence = 500, .type = 100}));
    COMES(h, .sequence = 10);
    COMES(h, .sequence = 500, .type = 100);
    CHECK(count_of(h->element, "sent") == 2);
    gst_harness_teardown(h);
}

/* A packet that is too long to be kept goes out as it came, and so do those beside it, of which a NACK brings each. One warning tells
 * it. */
static void test_too_long(void) {
    sender s = make_sender();
    GstBus *bus = bus_of(s.element);
    send_five(&s);
    CHECK(gst_harness_push(s.media, make_packet((packet){.sequence = 5, .length = GOZDRIT_MAX_PAYLOAD})) == GST_FLOW_OK);
    COMES(s.media, .sequence = 5, .length = GOZDRIT_MAX_PAYLOAD);
    CHECK(!posted(bus, GST_MESSAGE_ERROR | GST_MESSAGE_WARNING));
    for (guint16 i = 0; i < 2; i++) {
        CHECK(gst_harness_push(s.media, make_packet((packet){.sequence = 6 + i, .length = GOZDRIT_MAX_PAYLOAD + 1, .fill = 3})) == GST_FLOW_OK);
        COMES(s.media, .sequence = 6 + i, .length = GOZDRIT_MAX_PAYLOAD + 1, .fill = 3);
        CHECK(posted(bus, GST_MESSAGE_WARNING) == (i == 0) && !posted(bus, GST_MESSAGE_ERROR | GST_MESSAGE_WARNING));
    }
    CHECK(gst_harness_push(s.media, make_packet((packet){.sequence = 8, .fill = 4})) == GST_FLOW_OK);
    COMES(s.media, .sequence = 8, .fill = 4);
    gst_harness_push(s.feedback, make_nack(4, 31)); /* 4 to 9: of these it has not the long ones and the last */
    CHECK(repair_comes(&s, (packet){.sequence = 4, .fill = 4}));
    CHECK(repair_comes(&s, (packet){.sequence = 5, .length = GOZDRIT_MAX_PAYLOAD}));
    CHECK(repair_comes(&s, (packet){.sequence = 8, .fill = 4}));
    CHECK(is_silent(s.media));
    CHECK(count_of(s.element, "sent") == 7 && count_of(s.element, "passed") == 2);
    drop_bus(s.element, bus);
    drop_sender(&s);
}

/* One that is too long, and one that no session can have, in the middle of a list: those beside them go out. */
static void test_list_with_others(void) {
    GstHarness *h = make_media();
    GstBufferList *list = gst_buffer_list_new();
    gst_buffer_list_add(list, make_packet((packet){.sequence = 0}));
    gst_buffer_list_add(list, make_packet((packet){.sequence = 1, .length = GOZDRIT_MAX_PAYLOAD + 1}));
    gst_buffer_list_add(list, make_packet((packet){.sequence = 2}));
    gst_buffer_list_add(list, make_packet((packet){.sequence = 3, .type = RTX_TYPE}));
    CHECK(gst_pad_push_list(h->srcpad, list) == GST_FLOW_ERROR);
    COMES(h, .sequence = 0);
    COMES(h, .sequence = 1, .length = GOZDRIT_MAX_PAYLOAD + 1);
    COMES(h, .sequence = 2);
    CHECK(is_silent(h));
    gst_harness_teardown(h);
}

/* What can't be sent is told. */
static void test_refused(void) {
    GstHarness *h = make_media();
    GstBus *bus = bus_of(h->element);
    for (guint i = 0; i < 3; i++) {
        CHECK(gst_harness_push(h, gst_buffer_new_memdup("no packet of RTP", 16)) == GST_FLOW_OK);
        CHECK(posted(bus, GST_MESSAGE_WARNING) == (i == 0) && !posted(bus, GST_MESSAGE_ERROR | GST_MESSAGE_WARNING));
    }
    CHECK(count_of(h->element, "strays") == 3);
    CHECK(gst_harness_push(h, make_packet((packet){.type = RTX_TYPE})) == GST_FLOW_ERROR);
    CHECK(posted(bus, GST_MESSAGE_ERROR));
    CHECK(is_silent(h));
    drop_bus(h->element, bus);
    gst_harness_teardown(h);
}

void test_send(void) {
    test_whole_packet();
    test_gap();
    test_list();
    test_caps();
    test_first();
    test_own_ssrc();
    test_renegotiation();
    test_too_long();
    test_list_with_others();
    test_refused();
}
