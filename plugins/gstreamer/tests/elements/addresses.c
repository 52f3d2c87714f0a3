/* Who is heard where the address of each packet is known, as udpsrc tells it. */
#include "strangers.h"

#define HOME "192.0.2.1"
#define ELSEWHERE "198.51.100.7"

/* Ten packets in sequence of one SSRC are no stream where each comes from another address or port, and ten of one address are. */
static void test_by_address(void) {
    for (gint by_port = 0; by_port < 2; by_port++) {
        scene s = make_scene();
        sender_of held = {.ssrc = 7, .gap = 100000, .from = HOME}, own = {.ssrc = MEDIA, .gap = 10, .number = 100, .from = ELSEWHERE};
        play(&s, 1, 1, &held);
        for (guint16 i = 0; i < 30; i++) {
            gchar *address = g_strdup_printf("198.51.100.%u", 10 + i);
            if (by_port) own.port = (guint16)(1000 + i);
            else own.from = address;
            send_now(&s, &own);
            g_free(address);
        }
        CHECK(count_of(s.r.element, "sessions") == 1 && count_of(s.r.element, "claims") == 30);
        own.from = "2001:db8::7";
        play(&s, 92, 1, &own);
        CHECK(count_of(s.r.element, "sessions") == 2 && all_come(&s, 7, 0, 1) && all_come(&s, MEDIA, 139, 1));
        drop_receiver(&s.r);
    }
}

/* The address of an IPv4 socket and that which an IPv6 socket says for it are one. */
static void test_mapped(void) {
    scene s = make_scene();
    sender_of own = {.ssrc = MEDIA, .gap = 20, .from = HOME};
    play(&s, 100, 1, &own);
    own.from = "::ffff:" HOME;
    play(&s, 200, 1, &own);
    own.from = NULL; /* one that is not known is nobody else's */
    play(&s, 300, 1, &own);
    CHECK(all_come(&s, MEDIA, 0, 15) && count_of(s.r.element, "strays") == 0);
    drop_receiver(&s.r);
}

/* Who copies the SSRC and goes on ahead of the numbers, from another address or port, gets nothing through beside the stream's sender, at any
 * rate. */
static void test_copies(void) {
    static const guint64 gaps[] = {1, 7, 20, 90, 300};
    for (guint i = 0; i < 2 * G_N_ELEMENTS(gaps); i++) {
        scene s = make_scene();
        gboolean is_slow = i >= G_N_ELEMENTS(gaps);
        guint64 gap = is_slow ? 400 : 20;
        sender_of own = {.ssrc = MEDIA, .gap = gap, .from = HOME};
        sender_of copy = {.ssrc = MEDIA, .gap = gaps[i % G_N_ELEMENTS(gaps)], .number = 1, .from = i % 2 ? ELSEWHERE : HOME, .port = 9, .fill = 1};
        play(&s, 10 * gap, 1, &own);
        copy.number = own.number;
        copy.next = s.now + gap / 2;
        play(&s, 40 * gap, 2, &own, &copy);
        CHECK(all_come(&s, MEDIA, 0, 40) && is_silent(s.r.media) && is_silent(s.r.feedback));
        CHECK(count_of(s.r.element, "sessions") == 1 && count_of(s.r.element, "restarts") == 0 && count_of(s.r.element, "held-back") == 0);
        drop_receiver(&s.r);
    }
}

/* A sender that is at another address from one packet to the next is heard there as soon as nothing came from the old one for a tenth of a second,
 * which is four of its gaps or more, with the fourth packet or a later one; the ones before are asked for. */
static void test_moves(void) {
    scene s = make_scene();
    sender_of own = {.ssrc = MEDIA, .gap = 20, .from = HOME};
    play(&s, 4000, 1, &own); /* 0 to 199, the last one at 3980 */
    own.from = ELSEWHERE;
    play(&s, 4080, 1, &own); /* 200 to 203, of which each comes before 4080 */
    CHECK(all_come(&s, MEDIA, 0, 200) && is_silent(s.r.media) && count_of(s.r.element, "strays") == 4);
    play(&s, 4081, 1, &own); /* 204 comes at 4080 */
    CHECK(count_of(s.r.element, "sessions") == 1 && count_of(s.r.element, "strays") == 4 && count_of(s.r.element, "media") == 201);
    TICKS(&s.r, 4100);
    GstBuffer *nack = next_buffer(s.r.feedback);
    CHECK(is_nack(nack, 200, 7));
    gst_clear_buffer(&nack);
    for (guint16 i = 200; i < 204; i++) REPAIR(&s.r, i, .sequence = i, .pts = (3980 + 20 * (i - 199u)) * GST_MSECOND);
    s.now = 4100;
    play(&s, 4200, 1, &own);
    CHECK(all_come(&s, MEDIA, 200, 10) && count_of(s.r.element, "gaps") == 0 && count_of(s.r.element, "strays") == 4);
    drop_receiver(&s.r);
}

/* One packet, or three, show nobody elsewhere; nor do four that lie 3000 ahead of what came. */
static void test_too_few(void) {
    for (guint16 ahead = 0; ahead < 2; ahead++) {
        scene s = make_scene();
        sender_of own = {.ssrc = MEDIA, .gap = 20, .from = HOME}, copy = {.ssrc = MEDIA, .gap = 20, .from = ELSEWHERE, .fill = 1};
        play(&s, 4000, 1, &own);
        play(&s, 4300, 0);
        copy.number = (guint16)(ahead ? 199 + 3000 : 200);
        play(&s, ahead ? 4400 : 4341, 1, &copy);
        CHECK(all_come(&s, MEDIA, 0, 200) && is_silent(s.r.media) && count_of(s.r.element, "strays") == (ahead ? 5 : 3));
        own.next = s.now;
        play(&s, s.now + 20, 1, &own);
        CHECK(all_come(&s, MEDIA, 200, 1));
        drop_receiver(&s.r);
    }
}

/* Nor do those that came while its own sender sent. */
static void test_pause(void) {
    scene s = make_scene();
    sender_of own = {.ssrc = MEDIA, .gap = 20, .from = HOME}, copy = {.ssrc = MEDIA, .gap = 60, .number = 2000, .from = ELSEWHERE, .fill = 1};
    play(&s, 4000, 2, &own, &copy);
    play(&s, 4160, 1, &copy);
    own.next = s.now;
    play(&s, 4400, 2, &own, &copy);
    CHECK(all_come(&s, MEDIA, 0, 212) && is_silent(s.r.media) && count_of(s.r.element, "sessions") == 1);
    drop_receiver(&s.r);
}

/* Nor do those of the first gap of a slow stream, of which nothing is known before. */
static void test_first_gap(void) {
    scene s = make_scene();
    sender_of own = {.ssrc = MEDIA, .gap = 200, .from = HOME}, copy = {.ssrc = MEDIA, .gap = 35, .number = 1, .from = ELSEWHERE, .fill = 1};
    play(&s, 1, 1, &own);
    copy.next = 10;
    play(&s, 190, 1, &copy);
    play(&s, 400, 1, &own);
    CHECK(all_come(&s, MEDIA, 0, 2) && is_silent(s.r.media) && count_of(s.r.element, "strays") == 6 && count_of(s.r.element, "sessions") == 1);
    drop_receiver(&s.r);
}

/* Behind a pause of .9 s the mean gap of a fast stream is that of a quarter of a second for a while, and no more: 303 ms are silence here. */
static void test_moves_behind_a_pause(void) {
    scene s = make_scene();
    sender_of own = {.ssrc = MEDIA, .gap = 20, .from = HOME};
    play(&s, 4000, 1, &own);
    play(&s, 4900, 0);
    own.next = 4900;
    play(&s, 5000, 1, &own);
    own.from = ELSEWHERE;
    play(&s, 5281, 1, &own);
    CHECK(count_of(s.r.element, "media") == 205 && count_of(s.r.element, "sessions") == 1);
    play(&s, 5301, 1, &own);
    CHECK(count_of(s.r.element, "media") == 206 && count_of(s.r.element, "sessions") == 1);
    drop_receiver(&s.r);
}

/* A stream of five a second is quiet for four of its own gaps, 800 ms, before it is elsewhere. */
static void test_slow_moves(void) {
    scene s = make_scene();
    sender_of own = {.ssrc = MEDIA, .gap = 200, .from = HOME}, copy = {.ssrc = MEDIA, .gap = 20, .number = 31, .from = ELSEWHERE, .fill = 1};
    play(&s, 6000, 1, &own); /* the last one, 29, at 5800 */
    play(&s, 6000 + 500, 1, &copy);
    CHECK(all_come(&s, MEDIA, 0, 30) && is_silent(s.r.media));
    play(&s, 6000 + 580, 1, &copy);
    CHECK(count_of(s.r.element, "media") == 30);
    play(&s, 6000 + 621, 1, &copy);
    CHECK(count_of(s.r.element, "media") > 30 && count_of(s.r.element, "sessions") == 1);
    drop_receiver(&s.r);
}

/* Behind a second of silence a stream under the same SSRC, at other numbers and from elsewhere, is heard with its first packet, as a session of its
 * own. */
static void test_anew(void) {
    scene s = make_scene();
    sender_of own = {.ssrc = MEDIA, .gap = 20, .from = HOME};
    play(&s, 200, 1, &own);
    own = (sender_of){.ssrc = MEDIA, .gap = 20, .number = 30000, .from = ELSEWHERE, .fill = 1};
    play(&s, 1180, 0);
    play(&s, 1400, 1, &own);
    CHECK(all_come(&s, MEDIA, 0, 10) && all_come_filled(&s, MEDIA, 30000, 11, 1) && count_of(s.r.element, "sessions") == 2);
    CHECK(is_silent(s.r.feedback) && count_of(s.r.element, "gaps") == 0 && count_of(s.r.element, "strays") == 0);
    drop_receiver(&s.r);
}

/* A retransmission may come from elsewhere, as by a socket of its own. */
static void test_repair(void) {
    scene s = make_scene();
    sender_of own = {.ssrc = MEDIA, .gap = 1, .from = HOME};
    play(&s, 2, 1, &own);
    own.number = 3;
    play(&s, 3, 1, &own);
    TICKS(&s.r, 22);
    GstBuffer *nack = next_buffer(s.r.feedback), *repair = make_repair((packet){.sequence = 2}, 1);
    CHECK(is_nack(nack, 2, 0));
    gst_clear_buffer(&nack);
    tell_address(repair, ELSEWHERE, 5);
    gst_harness_push(s.r.media, repair);
    CHECK(all_come(&s, MEDIA, 0, 4) && count_of(s.r.element, "strays") == 0);
    drop_receiver(&s.r);
}

/* Octets of any kind, some of which look as the stream does. */
static GstBuffer *draw_octets(GRand *drawn) {
    guint8 octets[64];
    gsize length = (gsize)g_rand_int_range(drawn, 1, sizeof octets);
    for (gsize i = 0; i < sizeof octets; i++) octets[i] = (guint8)g_rand_int(drawn);
    if (g_rand_boolean(drawn)) octets[0] = 0x80;
    if (g_rand_boolean(drawn)) octets[1] = g_rand_boolean(drawn) ? TYPE : RTX_TYPE;
    if (g_rand_boolean(drawn)) GST_WRITE_UINT32_BE(octets + 8, MEDIA);
    return gst_buffer_new_memdup(octets, length);
}

/* Whatever comes from elsewhere, nothing of it ends the pipeline, or the stream. */
static void test_any(void) {
    scene s = make_scene();
    GstBus *bus = bus_of(s.r.element);
    GRand *drawn = g_rand_new_with_seed(3);
    sender_of own = {.ssrc = MEDIA, .gap = 20, .from = HOME};
    gboolean all_taken = TRUE;
    for (guint64 turn = 1; turn <= 200; turn++) {
        play(&s, 20 * turn, 1, &own);
        for (guint i = 0; i < 10; i++) {
            GstBuffer *any = draw_octets(drawn);
            tell_address(any, ELSEWHERE, 9);
            all_taken &= gst_harness_push(s.r.media, any) == GST_FLOW_OK;
        }
    }
    CHECK(all_taken && all_come(&s, MEDIA, 0, 200) && is_silent(s.r.media) && is_silent(s.r.feedback));
    CHECK(!posted(bus, GST_MESSAGE_ERROR) && count_of(s.r.element, "sessions") == 1 && count_of(s.r.element, "held-back") == 0);
    g_rand_free(drawn);
    drop_bus(s.r.element, bus);
    drop_receiver(&s.r);
}

/* What sorts streams before the element has said who is heard: an rtpsession, or an rtpbin. */
static void test_sorted(void) {
    for (gint in_place = 0; in_place < 2; in_place++) {
        place p;
        if (in_place) make_place(&p);
        else p.r = (receiver){.element = gst_element_factory_make("gozdritrecv", NULL)};
        if (!in_place) p.r.media = gst_harness_new_with_element(p.r.element, "sink", "src");
        if (!in_place) gst_harness_set_src_caps_str(p.r.media, FREE_CAPS);
        scene s = {.r = p.r};
        sender_of own = {.ssrc = MEDIA, .gap = 20, .from = HOME};
        play(&s, 400, 1, &own);
        own.from = ELSEWHERE;
        play(&s, 600, 1, &own);
        CHECK(all_come(&s, MEDIA, 0, 30) && count_of(s.r.element, "strays") == 0 && count_of(s.r.element, "claims") == 0);
        if (in_place) drop_place(&p);
        else gst_harness_teardown(p.r.media);
        if (!in_place) gst_object_unref(p.r.element);
    }
}

void test_addresses(void) {
    test_by_address();
    test_mapped();
    test_copies();
    test_moves();
    test_too_few();
    test_pause();
    test_first_gap();
    test_moves_behind_a_pause();
    test_slow_moves();
    test_anew();
    test_repair();
    test_sorted();
    test_any();
}
