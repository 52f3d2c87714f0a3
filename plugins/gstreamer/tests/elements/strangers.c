/* Who is heard where nobody named the SSRC of the stream, and anybody may send. */
#include "strangers.h"

/* ---- beside a stream that goes on nothing else is heard */

static void test_singles(void) {
    scene s = make_scene();
    sender_of own = {.ssrc = MEDIA, .gap = 20}, flood = {.gap = 1, .draws = 1, .seed = 5};
    play(&s, 5000, 2, &own, &flood);
    CHECK(all_come(&s, MEDIA, 0, 250) && is_silent(s.r.media) && is_silent(s.r.feedback));
    CHECK(count_of(s.r.element, "sessions") == 1 && count_of(s.r.element, "strays") == 5000 && count_of(s.r.element, "nacks") == 0);
    drop_receiver(&s.r);
}

/* Two in sequence each tenth of a second, of one SSRC and of another one each time. */
static void test_pairs(void) {
    for (guint draws = 0; draws < 4; draws += 2) {
        scene s = make_scene();
        sender_of own = {.ssrc = MEDIA, .gap = 20}, pairs = {.ssrc = 7, .gap = 100, .burst = 2, .draws = draws, .seed = 6};
        play(&s, 3000, 2, &own, &pairs);
        CHECK(all_come(&s, MEDIA, 0, 150) && is_silent(s.r.media) && count_of(s.r.element, "sessions") == 1);
        drop_receiver(&s.r);
    }
}

/* Another stream, at any rate, from the same address or another one, where that is known. */
static void test_other_streams(void) {
    GRand *drawn = g_rand_new_with_seed(1);
    for (gint turn = 0; turn < 12; turn++) {
        scene s = make_scene();
        sender_of own = {.ssrc = MEDIA, .gap = 20, .from = turn % 3 ? "192.0.2.1" : NULL};
        sender_of other = {.ssrc = 7, .gap = (guint64)g_rand_int_range(drawn, 1, turn % 2 ? 10 : 200), .from = turn % 3 == 2 ? "192.0.2.2" : own.from};
        play(&s, 200, 1, &own); /* who streams first has the session */
        play(&s, 4000, 2, &own, &other);
        CHECK(all_come(&s, MEDIA, 0, 200) && is_silent(s.r.media) && count_of(s.r.element, "sessions") == 1);
        drop_receiver(&s.r);
    }
    g_rand_free(drawn);
}

/* A stream of two packets a second keeps its place beside single ones, and, where ten of it came, beside a stream. */
static void test_slow(void) {
    for (gint is_stream = 0; is_stream < 2; is_stream++) {
        scene s = make_scene();
        sender_of own = {.ssrc = MEDIA, .gap = 500}, other = {.ssrc = 7, .gap = is_stream ? 20 : 5, .draws = is_stream ? 0 : 1, .seed = 7};
        if (is_stream) play(&s, 5000, 1, &own);
        play(&s, 15000, 2, &own, &other);
        CHECK(all_come(&s, MEDIA, 0, 30) && is_silent(s.r.media) && count_of(s.r.element, "sessions") == 1);
        drop_receiver(&s.r);
    }
}

/* ---- a session falls */

/* A stream that stops gives way behind a second of silence, to the first packet that comes then. What that stream sent before is not asked for. */
static void test_gives_way(void) {
    scene s = make_scene();
    sender_of own = {.ssrc = MEDIA, .gap = 20}, next = {.ssrc = 9, .gap = 20, .number = 65500};
    play(&s, 1000, 1, &own);
    play(&s, 1300, 0);
    play(&s, 1980, 1, &next); /* the last one came at 980: a second behind that it is 1980 */
    CHECK(all_come(&s, MEDIA, 0, 50) && is_silent(s.r.media) && count_of(s.r.element, "sessions") == 1);
    play(&s, 3000, 1, &next);
    CHECK(all_come(&s, 9, (guint16)(65500 + 34), 51) && is_silent(s.r.media) && is_silent(s.r.feedback));
    CHECK(count_of(s.r.element, "sessions") == 2 && count_of(s.r.element, "gaps") == 0 && count_of(s.r.element, "strays") == 34);
    drop_receiver(&s.r);
}

/* One packet is enough then. */
static void test_one_behind_silence(void) {
    scene s = make_scene();
    sender_of own = {.ssrc = MEDIA, .gap = 20}, one = {.ssrc = 9, .gap = 5000};
    play(&s, 100, 1, &own);
    play(&s, 1080, 0);
    play(&s, 1090, 1, &one);
    CHECK(all_come(&s, MEDIA, 0, 5) && all_come(&s, 9, 0, 1));
    drop_receiver(&s.r);
}

/* Who came first with one packet, or with one now and then, loses the place to the tenth packet of a stream, and none of it is asked for in vain. */
static void test_first(void) {
    for (gint goes_on = 0; goes_on < 2; goes_on++) {
        scene s = make_scene();
        sender_of first = {.ssrc = 7, .gap = goes_on ? 90 : 100000}, own = {.ssrc = MEDIA, .gap = 20, .number = 300};
        play(&s, 1, 1, &first);
        play(&s, 181, 2, &own, &first);
        CHECK(count_of(s.r.element, "sessions") == 1);
        play(&s, 1001, 1, &own);
        CHECK(all_come(&s, 7, 0, goes_on ? 3 : 1) && all_come(&s, MEDIA, 309, 41) && is_silent(s.r.media) && is_silent(s.r.feedback));
        CHECK(count_of(s.r.element, "sessions") == 2 && count_of(s.r.element, "gaps") == 0);
        drop_receiver(&s.r);
    }
}

/* A stream that has become one packet each .8 seconds gives way to another stream, with that one's packet by which 9 * ms > 5000 * (packets + 2),
 * since its first. */
static void test_weak(void) {
    scene s = make_scene();
    sender_of own = {.ssrc = MEDIA, .gap = 20}, other = {.ssrc = 7, .gap = 100};
    play(&s, 1001, 2, &own, &other); /* what the other one sent begins anew at each second packet of it, and so at 1000 */
    own.gap = 800;
    own.next = 1800; /* and at 2600 */
    play(&s, 3300, 2, &own, &other);
    CHECK(count_of(s.r.element, "sessions") == 1); /* at 3200: 9 * 2200 = 19800 */
    play(&s, 3301, 2, &own, &other);
    CHECK(count_of(s.r.element, "sessions") == 2); /* at 3300: 9 * 2300 = 20700 > 5000 * (2 + 2) */
    CHECK(all_come(&s, MEDIA, 0, 53) && all_come(&s, 7, 33, 1));
    drop_receiver(&s.r);
}

/* Who sends two packets a second is heard with the tenth, though five others a millisecond send one each, and eight as soon as two of his came: these push
 * out none that goes on. */
static void test_flood(void) {
    scene s = make_scene();
    sender_of held = {.ssrc = 7, .gap = 900}, own = {.ssrc = MEDIA, .gap = 500}, flood = {.gap = 1, .burst = 5, .draws = 1, .seed = 8};
    play(&s, 1, 1, &held);
    play(&s, 700, 2, &held, &flood); /* 3072 of these are kept by then */
    play(&s, 1201, 3, &own, &held, &flood);
    flood.burst = 8;
    play(&s, 5200, 3, &own, &held, &flood);
    CHECK(count_of(s.r.element, "sessions") == 1);
    play(&s, 5201, 3, &own, &held, &flood);
    CHECK(count_of(s.r.element, "sessions") == 2);
    CHECK(all_come(&s, 7, 0, 6) && all_come(&s, MEDIA, 9, 1) && is_silent(s.r.media));
    drop_receiver(&s.r);
}

/* What others counted beside a session that fell takes none of the next one. */
static void test_two(void) {
    scene s = make_scene();
    sender_of held = {.ssrc = 7, .gap = 100000}, one = {.ssrc = 8, .gap = 20}, two = {.ssrc = 9, .gap = 20};
    play(&s, 1, 1, &held);
    play(&s, 2000, 2, &one, &two);
    CHECK(all_come(&s, 7, 0, 1) && all_come(&s, 8, 9, 91) && is_silent(s.r.media) && count_of(s.r.element, "sessions") == 2);
    drop_receiver(&s.r);
}

/* ---- what goes on with a claim */

/* Nine packets, and one more: it is the tenth up to two seconds behind the ninth, and up to 2999 ahead of it. */
static void test_sequence(void) {
    static const struct { guint64 wait; guint16 ahead; gboolean falls; } cases[] = {
        {2000, 1, TRUE}, {2001, 1, FALSE}, {20, 2999, TRUE}, {20, 3000, FALSE}, {20, 0, FALSE}, {20, 65535, FALSE}};
    for (guint i = 0; i < G_N_ELEMENTS(cases); i++) {
        scene s = make_scene();
        sender_of held = {.ssrc = 7, .gap = 900}, own = {.ssrc = MEDIA, .gap = 2, .number = 100};
        play(&s, 1, 1, &held);
        play(&s, 19, 2, &own, &held); /* 100 to 108, the last one at 17 */
        play(&s, 17 + cases[i].wait, 1, &held);
        own.number = (guint16)(108 + cases[i].ahead);
        send_now(&s, &own);
        CHECK(count_of(s.r.element, "sessions") == (cases[i].falls ? 2 : 1));
        drop_receiver(&s.r);
    }
}

/* A claim that was not gone on with for a second begins anew with whatever comes, and before that such a packet counts for nothing. */
static void test_stale(void) {
    for (gint is_stale = 0; is_stale < 2; is_stale++) {
        scene s = make_scene();
        sender_of held = {.ssrc = 7, .gap = 900}, own = {.ssrc = MEDIA, .gap = 10, .number = 100};
        play(&s, 1, 1, &held);
        send_now(&s, &own); /* at 1 */
        play(&s, is_stale ? 1001 : 909, 1, &held);
        own.number = 40000;
        own.next = s.now;
        play(&s, s.now + 91, 2, &own, &held);
        CHECK(count_of(s.r.element, "sessions") == (is_stale ? 2 : 1));
        drop_receiver(&s.r);
    }
}

/* ---- the table */

static void test_bound(void) {
    scene s = make_scene();
    sender_of own = {.ssrc = MEDIA, .gap = 20}, flood = {.gap = 1, .burst = 5, .draws = 1, .seed = 9};
    play(&s, 1000, 2, &own, &flood);
    CHECK(count_of(s.r.element, "claims") == 3072);
    flood.burst = flood.draws = 2; /* in sequence of each */
    play(&s, 6000, 2, &own, &flood);
    CHECK(count_of(s.r.element, "claims") <= 3072 + 1024 && count_of(s.r.element, "claims") > 4000);
    CHECK(all_come(&s, MEDIA, 0, 300) && is_silent(s.r.media));
    gst_harness_push_event(s.r.media, gst_event_new_flush_start());
    gst_harness_push_event(s.r.media, gst_event_new_flush_stop(TRUE));
    CHECK(count_of(s.r.element, "claims") == 0);
    drop_receiver(&s.r);
}

/* ---- what is told */

/* Strangers are told once in ten seconds, and none of them ends the pipeline. */
static void test_told(void) {
    scene s = make_scene();
    GstBus *bus = bus_of(s.r.element);
    sender_of own = {.ssrc = MEDIA, .gap = 20}, other = {.ssrc = 7, .gap = 100, .next = 100, .from = "2001:db8::1"};
    for (guint64 turn = 0; turn < 3; turn++) {
        play(&s, 10000 * turn + 100, 2, &own, &other);
        CHECK(!posted(bus, GST_MESSAGE_WARNING | GST_MESSAGE_ERROR));
        play(&s, 10000 * turn + 101, 2, &own, &other);
        CHECK(posted(bus, GST_MESSAGE_WARNING) && !posted(bus, GST_MESSAGE_WARNING | GST_MESSAGE_ERROR));
    }
    CHECK(count_of(s.r.element, "strays") == 201);
    drop_bus(s.r.element, bus);
    drop_receiver(&s.r);
}

/* Where an SSRC is named no other one is heard, however long that is silent, and nothing is counted of it. */
static void test_named(void) {
    scene s = {.r = make_receiver(CAPS)};
    sender_of own = {.ssrc = MEDIA, .gap = 20, .from = "192.0.2.1"}, other = {.ssrc = 7, .gap = 20};
    play(&s, 1000, 1, &own);
    play(&s, 4000, 1, &other);
    own.from = "192.0.2.2";
    own.next = s.now;
    play(&s, 5000, 1, &own);
    CHECK(all_come(&s, MEDIA, 0, 100) && is_silent(s.r.media) && count_of(s.r.element, "sessions") == 1);
    CHECK(count_of(s.r.element, "strays") == 0 && count_of(s.r.element, "claims") == 0);
    drop_receiver(&s.r);
}

void test_claims(void) {
    test_singles();
    test_pairs();
    test_other_streams();
    test_slow();
    test_gives_way();
    test_one_behind_silence();
    test_first();
    test_weak();
    test_flood();
    test_two();
    test_sequence();
    test_stale();
    test_bound();
    test_told();
    test_named();
}
