/* The numbers of what a sender sends, and what it has of packets that come in another order. */
#include "checks.h"

#define MS(n) ((n) * (GstClockTime)GST_MSECOND)

static void push(sender *s, packet of) { CHECK(gst_harness_push(s->media, make_packet(of)) == GST_FLOW_OK); }

/* A packet goes out as it came. */
#define PASSES(s, ...) push((s), (packet){__VA_ARGS__}), COMES((s)->media, __VA_ARGS__)

/* A packet, all of which follows from its number. */
static packet numbered(guint16 number) {
    return (packet){.sequence = number, .fill = (guint8)number, .length = 20 + number % 8u, .marker = number & 1, .pts = MS(number % 16u)};
}

/* What was reordered, doubled and lost before the element is that behind it, and each packet that came can be asked for: the ones that
 * came late too, and one that did not come cannot. The retransmissions' own numbers have no gap. */
static void test_order(void) {
    static const guint16 numbers[] = {65534, 0, 65535, 1, 1, 4, 3, 5};
    sender s = make_sender();
    guint16 first = 0;
    for (guint i = 0; i < G_N_ELEMENTS(numbers); i++)
        push(&s, numbered(numbers[i])), CHECK(comes(s.media, numbered(numbers[i])));
    gst_harness_push(s.feedback, make_nack(65534, 0x7f));
    for (guint16 i = 65534; i != 6; i++) {
        guint8 octets[4] = {0};
        if (i == 2) continue;
        GstBuffer *next = next_buffer(s.media);
        if (next) gst_buffer_extract(next, 0, octets, sizeof octets);
        guint16 number = GST_READ_UINT16_BE(octets + 2);
        if (i == 65534) first = number;
        CHECK((guint16)(number - first) == (guint16)(i - 65534 - (i < 10 && i > 2)));
        GstBuffer *repair = make_repair(numbered(i), number);
        CHECK(next && same_octets(next, repair) && GST_BUFFER_FLAG_IS_SET(next, GST_RTP_BUFFER_FLAG_RETRANSMISSION));
        gst_buffer_unref(repair);
        gst_clear_buffer(&next);
    }
    CHECK(is_silent(s.media));
    CHECK(count_of(s.element, "sent") == 7 && count_of(s.element, "octets") == 7 * 20 + 6 + 7 + 0 + 1 + 4 + 3 + 5);
    CHECK(count_of(s.element, "unknown") == 1 && count_of(s.element, "retransmissions") == 7);
    drop_sender(&s);
}

/* A late packet with CSRCs, an extension and padding is retransmitted with the first two. */
static void test_whole_late(void) {
    sender s = make_sender();
    GstRTPBuffer rtp = GST_RTP_BUFFER_INIT;
    static const guint8 word[4] = {1, 2, 3, 4};
    GstBuffer *buffer = gst_rtp_buffer_new_allocate(20, 5, 2);
    gst_rtp_buffer_map(buffer, GST_MAP_READWRITE, &rtp);
    gst_rtp_buffer_set_payload_type(&rtp, TYPE);
    gst_rtp_buffer_set_ssrc(&rtp, MEDIA);
    gst_rtp_buffer_set_seq(&rtp, 11);
    gst_rtp_buffer_set_timestamp(&rtp, 0xfffffff0);
    gst_rtp_buffer_set_csrc(&rtp, 0, 7);
    gst_rtp_buffer_set_csrc(&rtp, 1, 0xffffffff);
    gst_rtp_buffer_add_extension_onebyte_header(&rtp, 3, word, sizeof word);
    gst_rtp_buffer_unmap(&rtp);
    PASSES(&s, .sequence = 10);
    PASSES(&s, .sequence = 12);
    gst_harness_push(s.media, gst_buffer_ref(buffer));
    GstBuffer *out = next_buffer(s.media);
    CHECK(out == buffer); /* the very one */
    gst_clear_buffer(&out);
    gst_harness_push(s.feedback, make_nack(11, 0));
    out = next_buffer(s.media);
    if (CHECK(out && gst_rtp_buffer_map(out, GST_MAP_READ, &rtp))) {
        CHECK(!gst_rtp_buffer_get_padding(&rtp) && gst_rtp_buffer_get_extension(&rtp) && gst_rtp_buffer_get_csrc_count(&rtp) == 2);
        CHECK(gst_rtp_buffer_get_csrc(&rtp, 1) == 0xffffffff && gst_rtp_buffer_get_payload_len(&rtp) == 22);
        CHECK(gst_rtp_buffer_get_ssrc(&rtp) == RTX && gst_rtp_buffer_get_payload_type(&rtp) == RTX_TYPE);
        CHECK(GST_READ_UINT16_BE(gst_rtp_buffer_get_payload(&rtp)) == 11 && gst_rtp_buffer_get_timestamp(&rtp) == 0xfffffff0);
        gst_rtp_buffer_unmap(&rtp);
    }
    gst_clear_buffer(&out);
    gst_buffer_unref(buffer);
    drop_sender(&s);
}

/* A late packet obeys the rules of the others. */
static void test_late_rules(void) {
    sender s = make_sender();
    gst_element_set_state(s.element, GST_STATE_NULL);
    g_object_set(s.element, "rtx-max-repeats", 2, "rtx-min-interval", 50, "max-size-time", 200, NULL);
    gst_element_set_state(s.element, GST_STATE_PLAYING);
    gst_harness_set_src_caps_str(s.media, CAPS);
    PASSES(&s, .sequence = 10);
    PASSES(&s, .sequence = 13);
    PASSES(&s, .sequence = 12, .fill = 2);
    PASSES(&s, .sequence = 11, .fill = 1);
    for (guint64 at = 0; at <= 100; at += 25) { /* twice, as far apart as may be */
        gst_harness_set_time(s.media, MS(at));
        gst_harness_push(s.feedback, make_nack(11, 0));
        if (at == 0 || at == 50) CHECK(repair_comes(&s, (packet){.sequence = 11, .fill = 1}));
        CHECK(is_silent(s.media));
    }
    gst_harness_set_time(s.media, MS(201));
    gst_harness_push(s.feedback, make_nack(12, 0));
    CHECK(is_silent(s.media) && count_of(s.element, "expired") == 1);
    drop_sender(&s);
}

/* What lies behind the history is gone, late packets too, and no more of them is kept. */
static void test_bound(void) {
    sender s = make_history(8);
    PASSES(&s, .sequence = 0);
    for (guint16 i = 2; i < 10; i += 2) PASSES(&s, .sequence = i, .fill = (guint8)i);
    for (guint16 i = 1; i < 8; i += 2) PASSES(&s, .sequence = i, .fill = (guint8)i);
    PASSES(&s, .sequence = 0); /* 9 places behind the next one */
    gst_harness_push(s.feedback, make_nack(0, 0xff));
    for (guint16 i = 1; i < 9; i++) CHECK(repair_comes(&s, (packet){.sequence = i, .fill = (guint8)i}));
    for (guint16 i = 9; i < 13; i++) PASSES(&s, .sequence = i, .fill = (guint8)i);
    gst_harness_push(s.feedback, make_nack(0, 0xffff));
    for (guint16 i = 5; i < 13; i++) CHECK(repair_comes(&s, (packet){.sequence = i, .fill = (guint8)i}));
    CHECK(is_silent(s.media));
    drop_sender(&s);
}

/* One packet far away changes nothing, and two in sequence are where the stream goes on, of which both are kept. */
static void test_jump(void) {
    static const guint16 jumps[] = {30000, 1000 + 8, 900};
    for (guint i = 0; i < G_N_ELEMENTS(jumps); i++) {
        sender s = make_history(8);
        PASSES(&s, .sequence = 999, .fill = 1);
        PASSES(&s, .sequence = jumps[i], .fill = 2);
        PASSES(&s, .sequence = 1000, .fill = 3);
        PASSES(&s, .sequence = jumps[i] + 1u, .fill = 4); /* alone, since the stream went on */
        gst_harness_push(s.feedback, make_nack(999, 1));
        CHECK(repair_comes(&s, (packet){.sequence = 999, .fill = 1}) && repair_comes(&s, (packet){.sequence = 1000, .fill = 3}));
        PASSES(&s, .sequence = jumps[i], .fill = 5);
        PASSES(&s, .sequence = jumps[i] + 1u, .fill = 6);
        gst_harness_push(s.feedback, make_nack(999, 1));
        gst_harness_push(s.feedback, make_nack(jumps[i], 1));
        CHECK(repair_comes(&s, (packet){.sequence = jumps[i], .fill = 5}) && repair_comes(&s, (packet){.sequence = jumps[i] + 1u, .fill = 6}));
        CHECK(is_silent(s.media) && count_of(s.element, "sent") == 4);
        drop_sender(&s);
    }
}

/* A stream that begins anew with lower numbers that the history has: its packets have other timestamps. */
static void test_lower(void) {
    sender s = make_sender();
    for (guint16 i = 0; i < 50; i++) PASSES(&s, .sequence = i, .pts = MS(20) * i, .fill = 1);
    for (guint16 i = 10; i < 20; i++) PASSES(&s, .sequence = i, .pts = MS(20) * i, .fill = 2, .offset = 123456);
    gst_harness_push(s.feedback, make_nack(10, 0x1ff));
    for (guint16 i = 10; i < 20; i++) CHECK(repair_comes(&s, (packet){.sequence = i, .pts = MS(20) * i, .fill = 2, .offset = 123456}));
    CHECK(is_silent(s.media));
    drop_sender(&s);
}

/* With a first number of the property's, the numbers behind it lie as far from it as they came. */
static void test_shift(void) {
    sender s = make_sender();
    g_object_set(s.element, "seqnum-offset", 65535, "ssrc", 5, NULL);
    static const guint16 numbers[] = {100, 102, 101, 105};
    for (guint i = 0; i < G_N_ELEMENTS(numbers); i++) {
        push(&s, (packet){.sequence = numbers[i], .fill = (guint8)i});
        COMES(s.media, .sequence = (guint16)(numbers[i] - 101), .fill = (guint8)i, .ssrc = 5);
    }
    push(&s, (packet){.sequence = 7000, .ssrc = 77}); /* another stream takes its place, behind it */
    COMES(s.media, .sequence = 5, .ssrc = 5);
    drop_sender(&s);
}

void test_numbers(void) {
    test_order();
    test_whole_late();
    test_late_rules();
    test_bound();
    test_jump();
    test_lower();
    test_shift();
}
