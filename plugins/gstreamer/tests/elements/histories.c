/* Several streams through one sender, and several types in one of them: each has its history. */
#include "checks.h"

/* The streams of the tests: the first is MEDIA. */
static guint32 ssrc_of(guint stream) { return MEDIA + stream; }

static void send_to(sender *s, guint stream, guint16 number) {
    packet of = {.sequence = number, .ssrc = ssrc_of(stream), .fill = (guint8)(number + stream)};
    CHECK(gst_harness_push(s->media, make_packet(of)) == GST_FLOW_OK);
    CHECK(comes(s->media, of));
}

/* Two streams by turns, with other numbers: each packet of either can be asked for, by NACKs and by events, and comes with an SSRC that
 * is its stream's. A stream goes on where it was behind its gaps. */
static void test_streams_by_turns(void) {
    sender s = make_sender();
    guint32 rtx[2] = {RTX, 0};
    gst_harness_set_src_caps_str(s.media, "application/x-rtp,media=video,clock-rate=90000,encoding-name=X,payload=96,ssrc=(uint)286331154");
    rtx[1] = rtx_ssrc_of(s.media);
    CHECK(rtx[1] != RTX && rtx[1] != 0);
    for (guint16 i = 0; i < 20; i++)
        for (guint stream = 0; stream < 2; stream++) send_to(&s, stream, (guint16)(1000 * stream + i));
    for (guint stream = 0; stream < 2; stream++) {
        for (guint16 i = 0; i < 20; i++) {
            guint16 number = (guint16)(1000 * stream + i);
            CHECK(request(&s, ssrc_of(stream), number));
            CHECK(repair_comes(&s, (packet){.sequence = number, .fill = (guint8)(number + stream), .ssrc = rtx[stream]}));
        }
    }
    GstBuffer *nack = make_nack(1003, 0);
    const guint8 other[4] = {0x11, 0x11, 0x11, 0x12};
    gst_buffer_fill(nack, 8, other, sizeof other);
    gst_harness_push(s.feedback, nack);
    CHECK(repair_comes(&s, (packet){.sequence = 1003, .fill = (guint8)1004, .ssrc = rtx[1]}));
    CHECK(count_of(s.element, "sent") == 40 && count_of(s.element, "retransmissions") == 41 && count_of(s.element, "refused") == 0);
    CHECK(count_of(s.element, "nacks") == 41);
    drop_sender(&s);
}

/* A payloader that changes its type, there and back: nothing is forgotten. */
static void test_types(void) {
    sender s = make_sender();
    static const guint8 types[] = {96, 100, 96, 13, 101};
    for (guint16 i = 0; i < 40; i++) {
        packet next = {.sequence = i, .fill = (guint8)i, .type = types[i % G_N_ELEMENTS(types)]};
        CHECK(gst_harness_push(s.media, make_packet(next)) == GST_FLOW_OK);
        CHECK(comes(s.media, next));
    }
    gst_harness_push(s.feedback, make_nack(3, 0xffff));
    for (guint16 i = 3; i < 20; i++) CHECK(repair_comes(&s, (packet){.sequence = i, .fill = (guint8)i}));
    drop_sender(&s);
}

/* There are so many histories at most: the stream that was silent the longest loses its own. */
static void test_many(void) {
    enum { MOST = 64 };
    sender s = make_history(4);
    for (guint stream = 0; stream < MOST; stream++) {
        gst_harness_set_time(s.media, stream * GST_MSECOND);
        send_to(&s, stream, 7);
    }
    gst_harness_set_time(s.media, MOST * GST_MSECOND);
    send_to(&s, 0, 8);
    send_to(&s, MOST, 7);
    CHECK(request(&s, ssrc_of(0), 7) && repair_comes(&s, (packet){.sequence = 7, .fill = 7}));
    guint before = gst_harness_upstream_events_in_queue(s.media);
    request(&s, ssrc_of(1), 7); /* goes on upstream */
    CHECK(gst_harness_upstream_events_in_queue(s.media) == before + 1 && is_silent(s.media));
    CHECK(request(&s, ssrc_of(2), 7));
    GstBuffer *repair = next_buffer(s.media);
    CHECK(repair != NULL);
    gst_clear_buffer(&repair);
    CHECK(count_of(s.element, "sent") == MOST + 2);
    drop_sender(&s);
}

/* A packet of the media with the SSRC that was drawn for another one's retransmissions: these get another one. */
static void test_drawn(void) {
    sender s = make_sender();
    gst_harness_set_src_caps_str(s.media, "application/x-rtp,media=video,clock-rate=90000,encoding-name=X,payload=96,ssrc=(uint)286331154");
    guint32 drawn = rtx_ssrc_of(s.media);
    send_to(&s, 1, 3);
    CHECK(gst_harness_push(s.media, make_packet((packet){.sequence = 3, .ssrc = drawn})) == GST_FLOW_OK);
    COMES(s.media, .sequence = 3, .ssrc = drawn);
    CHECK(request(&s, ssrc_of(1), 3));
    GstBuffer *repair = next_buffer(s.media);
    guint8 octets[12] = {0};
    if (repair) gst_buffer_extract(repair, 0, octets, sizeof octets);
    CHECK(repair && GST_READ_UINT32_BE(octets + 8) != drawn && GST_READ_UINT32_BE(octets + 8) != 0);
    gst_clear_buffer(&repair);
    drop_sender(&s);
}

void test_histories(void) {
    test_streams_by_turns();
    test_types();
    test_many();
    test_drawn();
}
