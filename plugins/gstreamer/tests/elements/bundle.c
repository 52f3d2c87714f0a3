/* Several streams through one receiver that stands between an rtpsession and its jitter buffers, and whose map tells media from retransmissions. */
#include "bundle.h"

#define MS(n) ((n) * (GstClockTime)GST_MSECOND)
#define TYPES "map,96=(uint)97,98=(uint)99"

guint32 bundle_ssrc(guint stream) { return 100 + stream; }
guint32 bundle_rtx(guint stream) { return 200 + stream; }
guint8 bundle_type(guint stream) { return stream % 2 ? 98 : 96; }

packet bundle_packet(guint stream, guint16 number) {
    return (packet){.sequence = number, .ssrc = bundle_ssrc(stream), .type = bundle_type(stream), .fill = (guint8)(number + 7 * stream),
                    .offset = 0x0a000000 * (stream + 1) + 3000 * (guint32)number};
}

receiver make_bundle(const gchar *caps) {
    receiver r = {.element = gst_element_factory_make("gozdritrecv", NULL)};
    g_object_set(r.element, "rtx-retry-timeout", 60, NULL);
    gst_util_set_object_arg(G_OBJECT(r.element), "payload-type-map", TYPES);
    r.media = gst_harness_new_with_element(r.element, "sink", "src");
    gst_harness_set_src_caps_str(r.media, caps);
    return r;
}

void drop_bundle(receiver *r) {
    gst_harness_teardown(r->media);
    gst_object_unref(r->element);
}

void bundle_send(receiver *r, guint stream, guint16 number) {
    CHECK(gst_harness_push(r->media, make_packet(bundle_packet(stream, number))) == GST_FLOW_OK);
}

void bundle_repair_as(receiver *r, guint stream, guint16 number, guint32 ssrc) {
    packet lost = bundle_packet(stream, number);
    lost.ssrc = ssrc;
    GstBuffer *repair = make_repair(lost, (guint16)(number + 1000));
    gst_buffer_memset(repair, 1, (guint8)(bundle_type(stream) + 1), 1);
    CHECK(gst_harness_push(r->media, repair) == GST_FLOW_OK);
}

void bundle_repair(receiver *r, guint stream, guint16 number) { bundle_repair_as(r, stream, number, bundle_rtx(stream)); }

gboolean bundle_goes_out(receiver *r, guint stream, guint16 number) { return comes(r->media, bundle_packet(stream, number)); }

static guint bundle_field(const GstStructure *told, const gchar *name) {
    guint value = G_MAXUINT;
    gst_structure_get_uint(told, name, &value);
    return value;
}

static gboolean is_request(const GstEvent *event) { return gst_event_has_name((GstEvent *)event, "GstRTPRetransmissionRequest"); }

gboolean bundle_asks(receiver *r, guint stream, guint number) {
    for (gint i = 0; i < 2000; i++) {
        GstEvent *event = gst_harness_try_pull_upstream_event(r->media);
        gboolean is_one = event && is_request(event);
        const GstStructure *told = is_one ? gst_event_get_structure(event) : NULL;
        gboolean is_it = told && bundle_field(told, "ssrc") == bundle_ssrc(stream) && bundle_field(told, "seqnum") == number &&
                         bundle_field(told, "payload-type") == bundle_type(stream);
        if (event) gst_event_unref(event);
        else g_usleep(1000);
        if (is_one) return is_it;
    }
    return FALSE;
}

gboolean bundle_asks_nothing(receiver *r) {
    g_usleep(20000);
    for (GstEvent *event; (event = gst_harness_try_pull_upstream_event(r->media));) {
        gboolean is_one = is_request(event);
        gst_event_unref(event);
        if (is_one) return FALSE;
    }
    return TRUE;
}

guint64 bundle_count(receiver *r, guint stream, const gchar *name) {
    GstStructure *stats;
    guint64 count = G_MAXUINT64;
    g_object_get(r->element, "stats", &stats, NULL);
    const GValue *all = gst_structure_get_value(stats, "streams");
    for (guint i = 0; all && i < gst_value_array_get_size(all); i++) {
        const GstStructure *one = gst_value_get_structure(gst_value_array_get_value(all, i));
        if (bundle_field(one, "ssrc") == bundle_ssrc(stream)) gst_structure_get_uint64(one, name, &count);
    }
    gst_structure_free(stats);
    return count;
}

/* Two and three streams by turns, each with losses of its own: each is asked for by its SSRC and type, and goes out whole and in its order. */
static void test_by_turns(guint streams) {
    receiver r = make_bundle(ANY_CAPS);
    for (guint16 i = 0; i < 4; i++)
        for (guint stream = 0; stream < streams; stream++)
            if (i == 0 || i == 3 || i == 1 + stream % 2) bundle_send(&r, stream, (guint16)(1000 * stream + i));
    for (guint stream = 0; stream < streams; stream++) CHECK(bundle_goes_out(&r, stream, (guint16)(1000 * stream)));
    for (guint stream = 0; stream < streams; stream += 2) CHECK(bundle_goes_out(&r, stream, (guint16)(1000 * stream + 1)));
    CHECK(is_silent(r.media));
    TICKS(&r, 20);
    for (guint stream = 0; stream < streams; stream++) CHECK(bundle_asks(&r, stream, 1000 * stream + 2 - stream % 2));
    for (guint stream = streams; stream-- > 0;) {
        bundle_repair(&r, stream, (guint16)(1000 * stream + 2 - stream % 2));
        for (guint16 i = (guint16)(2 - stream % 2); i < 4; i++) CHECK(bundle_goes_out(&r, stream, (guint16)(1000 * stream + i)));
    }
    CHECK(is_silent(r.media) && bundle_asks_nothing(&r));
    CHECK(count_of(r.element, "sessions") == streams && count_of(r.element, "retransmissions") == streams);
    CHECK(count_of(r.element, "media") == 3 * streams && count_of(r.element, "passed") == 0);
    for (guint stream = 0; stream < streams; stream++)
        CHECK(bundle_count(&r, stream, "media") == 3 && bundle_count(&r, stream, "retransmissions") == 1 &&
              bundle_count(&r, stream, "nacked") == 1 && bundle_count(&r, stream, "played") == 4);
    CHECK(bundle_count(&r, streams, "media") == G_MAXUINT64);
    drop_bundle(&r);
}

/* What one stream waits for holds no other one up, and what it gives up is its own. */
static void test_given_up(void) {
    receiver r = make_bundle(ANY_CAPS);
    for (guint stream = 0; stream < 2; stream++) bundle_send(&r, stream, 10);
    bundle_send(&r, 0, 12);
    for (guint16 i = 11; i < 15; i++) bundle_send(&r, 1, i);
    CHECK(bundle_goes_out(&r, 0, 10));
    for (guint16 i = 10; i < 15; i++) CHECK(bundle_goes_out(&r, 1, i));
    TICKS(&r, 20);
    TICKS(&r, 80);
    TICKS(&r, 140);
    TICKS(&r, 200);
    CHECK(bundle_goes_out(&r, 0, 12) && bundle_count(&r, 0, "gaps") == 1 && bundle_count(&r, 1, "gaps") == 0);
    drop_bundle(&r);
}

/* A latency that is set meanwhile is that of each. */
static void test_latency(void) {
    receiver r = make_bundle(ANY_CAPS);
    for (guint16 i = 10; i < 14; i += 2)
        for (guint stream = 0; stream < 2; stream++) bundle_send(&r, stream, (guint16)(i + 100 * stream));
    for (guint stream = 0; stream < 2; stream++) CHECK(bundle_goes_out(&r, stream, (guint16)(10 + 100 * stream)));
    g_object_set(r.element, "latency", 50, NULL);
    TICKS(&r, 20);
    TICKS(&r, 50);
    for (guint stream = 0; stream < 2; stream++) CHECK(bundle_goes_out(&r, stream, (guint16)(12 + 100 * stream)));
    drop_bundle(&r);
}

/* Two streams that lost the same number at once: until the SSRC of either's retransmissions is known, an answer could be either's, so one of them
 * asks (RFC 4588, section 5.3), and the other one behind the answer. From then on both ask at once. */
static void test_same_number(void) {
    receiver r = make_bundle(ANY_CAPS);
    for (guint16 i = 10; i < 13; i += 2)
        for (guint stream = 0; stream < 2; stream++) bundle_send(&r, stream, i);
    for (guint stream = 0; stream < 2; stream++) CHECK(bundle_goes_out(&r, stream, 10));
    TICKS(&r, 20);
    CHECK(bundle_asks(&r, 0, 11) && bundle_asks_nothing(&r));
    bundle_repair(&r, 1, 11); /* nobody asked for it, and it is none of the other one's */
    CHECK(is_silent(r.media) && count_of(r.element, "unasked") == 1);
    bundle_repair(&r, 0, 11);
    CHECK(bundle_goes_out(&r, 0, 11) && bundle_goes_out(&r, 0, 12));
    TICKS(&r, 80);
    CHECK(bundle_asks(&r, 1, 11) && bundle_asks_nothing(&r));
    bundle_repair(&r, 1, 11);
    CHECK(bundle_goes_out(&r, 1, 11) && bundle_goes_out(&r, 1, 12));
    for (guint stream = 0; stream < 2; stream++) bundle_send(&r, stream, 14);
    TICKS(&r, 100);
    CHECK(bundle_asks(&r, 0, 13) && bundle_asks(&r, 1, 13));
    for (guint stream = 2; stream-- > 0;) {
        bundle_repair(&r, stream, 13);
        CHECK(bundle_goes_out(&r, stream, 13) && bundle_goes_out(&r, stream, 14));
    }
    drop_bundle(&r);
}

/* Who asked and got no answer, or whose packet came by itself, holds the other one up no longer. */
static void test_unanswered(void) {
    receiver r = make_bundle(ANY_CAPS);
    for (guint stream = 0; stream < 2; stream++) bundle_send(&r, stream, 10);
    bundle_send(&r, 0, 12);
    for (guint stream = 0; stream < 2; stream++) CHECK(bundle_goes_out(&r, stream, 10));
    TICKS(&r, 20);
    CHECK(bundle_asks(&r, 0, 11));
    TICKS(&r, 80);
    CHECK(bundle_asks(&r, 0, 11));
    set_clock_to(&r, 100);
    bundle_send(&r, 1, 12);
    TICKS(&r, 120);
    TICKS(&r, 140);
    CHECK(bundle_asks(&r, 0, 11));
    TICKS(&r, 180);
    CHECK(bundle_asks_nothing(&r));
    TICKS(&r, 200);
    CHECK(bundle_goes_out(&r, 0, 12));
    TICKS(&r, 240);
    CHECK(bundle_asks(&r, 1, 11));
    drop_bundle(&r);
}

static void test_came_late(void) {
    receiver r = make_bundle(ANY_CAPS);
    for (guint16 i = 10; i < 13; i += 2)
        for (guint stream = 0; stream < 2; stream++) bundle_send(&r, stream, i);
    TICKS(&r, 20);
    CHECK(bundle_asks(&r, 0, 11) && bundle_asks_nothing(&r));
    bundle_send(&r, 0, 11);
    TICKS(&r, 80);
    CHECK(bundle_asks(&r, 1, 11));
    drop_bundle(&r);
}

/* Who knows the SSRC of its retransmissions asks at once, also for what another one asks for that has still to learn it. */
static void test_known_asks(void) {
    receiver r = make_bundle(ANY_CAPS);
    for (guint stream = 0; stream < 2; stream++) bundle_send(&r, stream, 10);
    bundle_send(&r, 1, 12);
    for (guint stream = 0; stream < 2; stream++) CHECK(bundle_goes_out(&r, stream, 10));
    TICKS(&r, 20);
    CHECK(bundle_asks(&r, 1, 11));
    bundle_repair(&r, 1, 11);
    CHECK(bundle_goes_out(&r, 1, 11) && bundle_goes_out(&r, 1, 12));
    for (guint stream = 0; stream < 2; stream++) bundle_send(&r, stream, 14);
    TICKS(&r, 40);
    for (guint number = 11; number < 14; number++) CHECK(bundle_asks(&r, 0, number));
    CHECK(bundle_asks(&r, 1, 13));
    drop_bundle(&r);
}

/* Where a map says which SSRCs the retransmissions have, both ask at once, and an answer with another one is nobody's. */
static void test_ssrc_map(void) {
    receiver r = make_bundle(ANY_CAPS);
    gst_util_set_object_arg(G_OBJECT(r.element), "ssrc-map", "map,100=(uint)200,101=(uint)201");
    bundle_send(&r, 0, 9);
    SEND(&r, .sequence = 9, .ssrc = bundle_rtx(1), .type = bundle_type(1)); /* no media */
    CHECK(bundle_goes_out(&r, 0, 9) && is_silent(r.media) && count_of(r.element, "sessions") == 1);
    for (guint16 i = 10; i < 13; i += 2)
        for (guint stream = 0; stream < 2; stream++) bundle_send(&r, stream, i);
    for (guint stream = 0; stream < 2; stream++) CHECK(bundle_goes_out(&r, stream, 10));
    TICKS(&r, 20);
    CHECK(bundle_asks(&r, 0, 11) && bundle_asks(&r, 1, 11));
    bundle_repair(&r, 1, 11);
    CHECK(bundle_goes_out(&r, 1, 11) && bundle_goes_out(&r, 1, 12));
    bundle_repair(&r, 0, 11);
    CHECK(bundle_goes_out(&r, 0, 11) && bundle_goes_out(&r, 0, 12));
    drop_bundle(&r);
}

receiver make_known(void) {
    receiver r = make_bundle(ANY_CAPS);
    for (guint16 i = 10; i < 14; i++)
        for (guint stream = 0; stream < 2; stream++)
            if (i != 11 + stream) bundle_send(&r, stream, i);
    CHECK(bundle_goes_out(&r, 0, 10) && bundle_goes_out(&r, 1, 10) && bundle_goes_out(&r, 1, 11));
    TICKS(&r, 20);
    for (guint stream = 0; stream < 2; stream++) {
        CHECK(bundle_asks(&r, stream, 11 + stream));
        bundle_repair(&r, stream, (guint16)(11 + stream));
        for (guint16 i = (guint16)(11 + stream); i < 14; i++) CHECK(bundle_goes_out(&r, stream, i));
    }
    return r;
}

/* Retransmissions that no stream asked for go nowhere, whatever their SSRC, while a stream could take them for its own; then they go through, as
 * what is not known does. So do packets whose type the map has not. */
static void test_strangers(void) {
    receiver r = make_bundle(ANY_CAPS);
    for (guint stream = 0; stream < 2; stream++) {
        bundle_send(&r, stream, 10);
        CHECK(bundle_goes_out(&r, stream, 10));
    }
    bundle_repair_as(&r, 0, 9, 77);
    bundle_repair_as(&r, 1, 11, 78);
    CHECK(is_silent(r.media) && count_of(r.element, "unasked") == 2 && count_of(r.element, "passed") == 0);
    gst_element_set_state(r.element, GST_STATE_NULL);
    gst_element_set_state(r.element, GST_STATE_PLAYING);
    CHECK(count_of(r.element, "unasked") == 0);
    drop_bundle(&r);
    r = make_known();
    bundle_repair_as(&r, 0, 9, 77);
    GstBuffer *through = next_buffer(r.media);
    CHECK(through && gst_buffer_get_size(through) == 24);
    gst_clear_buffer(&through);
    for (guint i = 0; i < 2; i++) {
        SEND(&r, .sequence = 3, .ssrc = 7 + i, .type = i == 0 ? 13 : 100);
        COMES(r.media, .sequence = 3, .ssrc = 7 + i, .type = i == 0 ? 13 : 100);
    }
    GstBuffer *made = make_packet(bundle_packet(5, 3));
    GST_BUFFER_FLAG_SET(made, GST_RTP_BUFFER_FLAG_RETRANSMISSION); /* no stream begins with a repair */
    gst_harness_push(r.media, made);
    CHECK(bundle_goes_out(&r, 5, 3));
    GstBuffer *cut = make_packet((packet){.sequence = 4, .ssrc = bundle_rtx(0), .type = bundle_type(1)});
    gst_buffer_memset(cut, 0, 0x8f, 1); /* it has no room for so many CSRCs */
    gst_harness_push(r.media, cut);
    gst_harness_push(r.media, make_nack(1, 0));
    gst_harness_push(r.media, gst_buffer_new_memdup("noise", 5));
    CHECK(is_silent(r.media) && count_of(r.element, "passed") == 4 && count_of(r.element, "sessions") == 2);
    set_clock_to(&r, 9000);
    for (guint16 i = 4; i < 6; i++) {
        SEND(&r, .sequence = i, .ssrc = 7, .type = 13);
        COMES(r.media, .sequence = i, .ssrc = 7, .type = 13);
    }
    CHECK(bundle_count(&r, 0, "media") == 3 && bundle_count(&r, 1, "media") == 3);
    drop_bundle(&r);
}

/* An SSRC of two things. Media with that of a stream's retransmissions begin no stream; retransmissions with that of a stream's media are nobody's;
 * and where those of two streams have the same one, the timestamps tell whose they are. */
static void test_collisions(void) {
    receiver r = make_known();
    for (guint16 i = 50; i < 52; i++) {
        SEND(&r, .sequence = i, .ssrc = bundle_rtx(0), .type = bundle_type(1));
        COMES(r.media, .sequence = i, .ssrc = bundle_rtx(0), .type = bundle_type(1));
    }
    for (guint stream = 0; stream < 2; stream++) bundle_send(&r, stream, 15);
    TICKS(&r, 40);
    for (guint stream = 0; stream < 2; stream++) CHECK(bundle_asks(&r, stream, 14));
    bundle_repair_as(&r, 0, 14, bundle_ssrc(1));
    bundle_repair_as(&r, 1, 14, bundle_ssrc(0));
    CHECK(is_silent(r.media) && count_of(r.element, "sessions") == 2);
    for (guint stream = 0; stream < 2; stream++) {
        bundle_repair(&r, stream, 14);
        CHECK(bundle_goes_out(&r, stream, 14) && bundle_goes_out(&r, stream, 15));
    }
    drop_bundle(&r);
}

static void test_same_rtx_ssrc(void) {
    receiver r = make_bundle(ANY_CAPS);
    for (guint stream = 0; stream < 2; stream++) bundle_send(&r, stream, 10);
    for (guint stream = 0; stream < 2; stream++) CHECK(bundle_goes_out(&r, stream, 10));
    for (guint16 lost = 11; lost < 15; lost += 2) {
        for (guint stream = 0; stream < 2; stream++) bundle_send(&r, stream, (guint16)(lost + 1));
        TICKS(&r, lost == 11 ? 20 : 100);
        CHECK(bundle_asks(&r, 0, lost));
        bundle_repair_as(&r, 0, lost, 77);
        CHECK(bundle_goes_out(&r, 0, lost) && bundle_goes_out(&r, 0, (guint16)(lost + 1)));
        if (lost == 11) TICKS(&r, 80);
        CHECK(bundle_asks(&r, 1, lost));
        bundle_repair_as(&r, 1, lost, 77);
        CHECK(bundle_goes_out(&r, 1, lost) && bundle_goes_out(&r, 1, (guint16)(lost + 1)));
    }
    drop_bundle(&r);
}

/* A stranger answers a stream's first ask. Its SSRC falls with the second retransmission that would have repaired, and the third is taken. */
static void test_source_falls(void) {
    receiver r = make_bundle(ANY_CAPS);
    for (guint stream = 0; stream < 2; stream++) {
        for (guint16 i = 10; i < 13; i += 2) bundle_send(&r, stream, i);
        CHECK(bundle_goes_out(&r, stream, 10));
        TICKS(&r, 20 + 20 * stream);
        CHECK(bundle_asks(&r, stream, 11));
        bundle_repair_as(&r, stream, 11, stream == 0 ? 77 : bundle_rtx(stream));
        CHECK(bundle_goes_out(&r, stream, 11) && bundle_goes_out(&r, stream, 12));
    }
    for (guint16 i = 14; i < 19; i += 2) bundle_send(&r, 0, i);
    TICKS(&r, 60);
    for (guint16 i = 13; i < 18; i += 2) CHECK(bundle_asks(&r, 0, i));
    for (guint16 i = 13; i < 16; i += 2) {
        bundle_repair(&r, 0, i);
        CHECK(bundle_count(&r, 0, "retransmissions") == 1);
    }
    bundle_repair(&r, 0, 17);
    CHECK(bundle_count(&r, 0, "retransmissions") == 2 && bundle_count(&r, 0, "played") == 3);
    for (guint16 i = 13; i < 16; i += 2) bundle_repair(&r, 0, i);
    for (guint i = 0; i < 2000 && bundle_count(&r, 0, "played") < 9; i++) g_usleep(1000);
    CHECK(bundle_count(&r, 0, "retransmissions") == 4 && bundle_count(&r, 0, "played") == 9);
    drop_bundle(&r);
}

/* What is told of one stream alone is so of the first, whichever packet came last. */
static void test_first(void) {
    receiver r = make_bundle("application/x-rtp,clock-rate=90000");
    for (guint i = 0; i < 3; i += 2) {
        for (guint stream = 0; stream < 2; stream++) {
            packet next = bundle_packet(stream, (guint16)(10 + i));
            next.offset = 0;
            next.pts = MS(40) * i;
            GstBuffer *buffer = make_packet(next);
            if (stream == 1) GST_BUFFER_PTS(buffer) += MS(16) * i;
            CHECK(gst_harness_push(r.media, buffer) == GST_FLOW_OK);
        }
    }
    CHECK(count_of(r.element, "avg-jitter") == 0);
    TICKS(&r, 20);
    CHECK(bundle_asks(&r, 0, 11));
    TICKS(&r, 80);
    CHECK(bundle_asks(&r, 0, 11) && count_of(r.element, "avg-jitter") == 0);
    drop_bundle(&r);
}

/* One of three packets of each stream: the second is lost, and the third comes 30 ms early. */
static void send_timed(receiver *r, guint stream, guint i) {
    packet next = bundle_packet(stream, (guint16)(10 + i));
    next.offset = 0;
    next.pts = MS(1000 + 40 * i);
    GstBuffer *buffer = make_packet(next);
    if (i == 2) GST_BUFFER_PTS(buffer) = GST_BUFFER_DTS(buffer) = next.pts - MS(30);
    CHECK(gst_harness_push(r->media, buffer) == GST_FLOW_OK);
}

static void repair_timed(receiver *r, guint stream) {
    packet lost = bundle_packet(stream, 11);
    lost.offset = 0;
    lost.pts = MS(1040);
    lost.ssrc = bundle_rtx(stream);
    GstBuffer *repair = make_repair(lost, 7);
    gst_buffer_memset(repair, 1, (guint8)(bundle_type(stream) + 1), 1);
    gst_harness_push(r->media, repair);
}

/* Each has times of its own: what is repaired has that of its timestamp, where the caps tell the clock rate, by what came, or, where both clocks
 * are one, by the first packet. */
static void test_times_of_each(gboolean is_synced, guint before) {
    receiver r = make_bundle("application/x-rtp,clock-rate=90000");
    GstClockTime sum = 0;
    for (guint i = 0; i < 3; i++) {
        if (i == before) gst_util_set_object_arg(G_OBJECT(r.element), "mode", is_synced ? "synced" : "slave");
        for (guint stream = 0; stream < 2 && i != 1; stream++) send_timed(&r, stream, i);
    }
    for (guint stream = 0; stream < 2; stream++) {
        TICKS(&r, stream == 0 ? 20 : 80);
        CHECK(bundle_asks(&r, stream, 11));
        repair_timed(&r, stream);
    }
    for (guint i = 0; i < 6; i++) {
        GstBuffer *out = next_buffer(r.media);
        CHECK(out != NULL);
        if (out) sum += GST_BUFFER_PTS(out) - MS(1000);
        gst_clear_buffer(&out);
    }
    CHECK(sum == 2 * (is_synced ? MS(40 + 80) : MS(10 + 50)));
    drop_bundle(&r);
}

void test_bundle(void) {
    test_by_turns(2);
    test_by_turns(3);
    test_given_up();
    test_latency();
    test_same_number();
    test_unanswered();
    test_came_late();
    test_known_asks();
    for (guint i = 0; i < 4; i++) test_times_of_each(i % 2 == 1, i / 2);
    test_first();
    test_ssrc_map();
    test_strangers();
    test_collisions();
    test_same_rtx_ssrc();
    test_source_falls();
}
