/* A receiver whose feedback nobody takes, as one between an rtpsession and a jitter buffer. */
#include "checks.h"

#define MS(n) ((n) * (GstClockTime)GST_MSECOND)
#define FREE_CAPS "application/x-rtp,media=video,clock-rate=90000,encoding-name=X"

/* A receiver without a harness of its feedback. */
static receiver make_auxiliary(const gchar *caps) {
    receiver r = {.element = gst_element_factory_make("gozdritrecv", NULL)};
    g_object_set(r.element, "rtx-retry-timeout", 60, NULL);
    r.media = gst_harness_new_with_element(r.element, "sink", "src");
    gst_harness_set_src_caps_str(r.media, caps);
    return r;
}

static void drop_auxiliary(receiver *r) {
    gst_harness_teardown(r->media);
    gst_object_unref(r->element);
}

static guint field_of(const GstStructure *told, const gchar *name) {
    guint value = G_MAXUINT;
    gst_structure_get_uint(told, name, &value);
    return value;
}

/* Whether the next request that comes upstream is for that packet of a stream, so many milliseconds behind its notice, after so many others
 * for it. */
static gboolean asks_for(receiver *r, guint32 ssrc, guint number, guint delay, guint retry) {
    for (gint i = 0; i < 2000; i++) {
        GstEvent *event = gst_harness_try_pull_upstream_event(r->media);
        gboolean is_request = event && gst_event_has_name(event, "GstRTPRetransmissionRequest"), is = FALSE;
        if (is_request) {
            const GstStructure *told = gst_event_get_structure(event);
            is = field_of(told, "seqnum") == number && field_of(told, "ssrc") == ssrc && field_of(told, "delay") == delay &&
                 field_of(told, "retry") == retry && field_of(told, "deadline") == 200 && field_of(told, "avg-rtt") == 60 &&
                 field_of(told, "payload-type") == TYPE;
            if (!is) {
                gchar *text = gst_structure_to_string(told);
                g_print("%s\n", text);
                g_free(text);
            }
        }
        if (event) gst_event_unref(event);
        else g_usleep(1000);
        if (is_request) return is;
    }
    return FALSE;
}

static gboolean asks_upstream(receiver *r, guint number, guint delay, guint retry) { return asks_for(r, MEDIA, number, delay, retry); }

/* What is missing is asked for by events that go upstream, each number by one, and again. */
static void test_asks(void) {
    receiver r = make_auxiliary(CAPS);
    SEND(&r, .sequence = 65534);
    SEND(&r, .sequence = 1);
    TICKS(&r, 20);
    CHECK(asks_upstream(&r, 65535, 20, 0) && asks_upstream(&r, 0, 20, 0));
    REPAIR(&r, 7, .sequence = 65535);
    TICKS(&r, 80);
    CHECK(asks_upstream(&r, 0, 80, 1));
    TICKS(&r, 140);
    CHECK(asks_upstream(&r, 0, 140, 2));
    REPAIR(&r, 8, .sequence = 0);
    for (guint16 i = 65534; i != 2; i++) COMES(r.media, .sequence = i);
    guint requests, packets, taken;
    g_object_get(r.element, "num-rtx-requests", &requests, "num-rtx-packets", &packets, "num-rtx-assoc-packets", &taken, NULL);
    CHECK(requests == 4 && packets == 2 && taken == 2);
    REPAIR(&r, 9, .sequence = 0);
    g_object_get(r.element, "num-rtx-packets", &packets, "num-rtx-assoc-packets", &taken, NULL);
    CHECK(packets == 3 && taken == 2 && is_silent(r.media));
    drop_auxiliary(&r);
}

/* The same in a bin that has a ghost of each pad, of which the feedback's is not linked. */
static void test_in_bin(void) {
    receiver r = {.element = gst_element_factory_make("gozdritrecv", NULL)};
    GstElement *bin = gst_bin_new(NULL);
    static const gchar *const names[] = {"sink", "src", "feedback_src"};
    gst_bin_add(GST_BIN(bin), gst_object_ref(r.element));
    for (guint i = 0; i < G_N_ELEMENTS(names); i++) {
        GstPad *pad = gst_element_get_static_pad(r.element, names[i]);
        gst_element_add_pad(bin, gst_ghost_pad_new(names[i], pad));
        gst_object_unref(pad);
    }
    r.media = gst_harness_new_with_element(bin, "sink", "src");
    gst_harness_set_src_caps_str(r.media, CAPS);
    SEND(&r, .sequence = 10);
    SEND(&r, .sequence = 12);
    TICKS(&r, 20);
    CHECK(asks_upstream(&r, 11, 20, 0));
    drop_auxiliary(&r);
    gst_object_unref(bin);
}

/* Many at once. */
static void test_many(void) {
    receiver r = make_auxiliary(CAPS);
    SEND(&r, .sequence = 10);
    SEND(&r, .sequence = 110);
    TICKS(&r, 20);
    for (guint16 i = 11; i < 110; i++) CHECK(asks_upstream(&r, i, 20, 0));
    drop_auxiliary(&r);
}

/* Streams that it doesn't know go through, in their order, while its own waits; its retransmissions do not, nor what is not RTP. */
static void test_others(void) {
    receiver r = make_auxiliary(FREE_CAPS);
    SEND(&r, .sequence = 10);
    COMES(r.media, .sequence = 10);
    SEND(&r, .sequence = 12);
    static const guint16 numbers[] = {500, 501, 503, 502, 502, 30000};
    for (guint i = 0; i < G_N_ELEMENTS(numbers); i++) {
        guint8 type = i == 3 ? 13 : i == 4 ? RTX_TYPE + 1 : TYPE;
        SEND(&r, .sequence = numbers[i], .ssrc = 7 + i % 2, .pts = MS(i), .type = type);
        COMES(r.media, .sequence = numbers[i], .ssrc = 7 + i % 2, .pts = MS(i), .type = type);
    }
    gst_harness_push(r.media, make_nack(1, 0));
    gst_harness_push(r.media, gst_buffer_new_memdup("noise", 5));
    CHECK(is_silent(r.media));
    TICKS(&r, 20);
    CHECK(asks_upstream(&r, 11, 20, 0));
    REPAIR(&r, 9, .sequence = 11);
    REPAIR(&r, 10, .sequence = 11);
    COMES(r.media, .sequence = 11);
    COMES(r.media, .sequence = 12);
    CHECK(is_silent(r.media) && count_of(r.element, "sessions") == 1 && count_of(r.element, "passed") == 6);
    drop_auxiliary(&r);
}

/* So do packets that can begin no stream of its, and its own of another type: a jitter buffer of each type is behind it. */
static void test_before(void) {
    receiver r = make_auxiliary(CAPS ",rtx-ssrc=(uint)572662306");
    SEND(&r, .sequence = 5, .ssrc = 7);
    SEND(&r, .sequence = 6, .type = 13);
    COMES(r.media, .sequence = 5, .ssrc = 7);
    COMES(r.media, .sequence = 6, .type = 13);
    CHECK(count_of(r.element, "sessions") == 0 && count_of(r.element, "strays") == 0);
    GstBuffer *cut = make_packet((packet){.sequence = 7, .ssrc = 7});
    gst_buffer_memset(cut, 0, 0x8f, 1); /* it has no room for so many CSRCs: it is no RTP */
    gst_harness_push(r.media, cut);
    CHECK(is_silent(r.media) && count_of(r.element, "strays") == 1);
    for (guint16 i = 7; i < 12; i++) {
        SEND(&r, .sequence = i, .type = i % 2 ? TYPE : 13, .pts = MS(i));
        COMES(r.media, .sequence = i, .type = i % 2 ? TYPE : 13, .pts = MS(i));
    }
    CHECK(count_of(r.element, "sessions") == 1 && count_of(r.element, "other-types") == 0);
    drop_auxiliary(&r);
}

/* Another stream is its own where that is gone for five seconds, and not before. */
static void test_gone(void) {
    receiver r = make_auxiliary(FREE_CAPS);
    SEND(&r, .sequence = 10);
    for (guint turn = 0; turn < 2; turn++) {
        set_clock_to(&r, turn == 0 ? 4999 : 5000);
        SEND(&r, .sequence = 500, .ssrc = 7);
        SEND(&r, .sequence = 501, .ssrc = 7);
        CHECK(count_of(r.element, "sessions") == 1 + turn);
    }
    SEND(&r, .sequence = 503, .ssrc = 7);
    TICKS(&r, 5020);
    CHECK(asks_for(&r, 7, 502, 20, 0));
    REPAIR(&r, 9, .sequence = 502);
    COMES(r.media, .sequence = 10);
    for (guint16 i = 0; i < 6; i++) COMES(r.media, .sequence = i < 2 ? 500 + i : 498 + i, .ssrc = 7);
    drop_auxiliary(&r);
}

/* A packet that is flagged was repaired upstream, by rtprtxreceive: it is no packet that came late, and when it came is not its time. */
static void test_flagged(void) {
    receiver r = make_auxiliary(CAPS);
    g_object_set(r.element, "rtx-retry-timeout", -1, NULL);
    SEND(&r, .sequence = 10, .pts = MS(1000));
    SEND(&r, .sequence = 12, .pts = MS(1040), .marker = TRUE);
    TICKS(&r, 20);
    CHECK(asks_upstream(&r, 11, 20, 0));
    set_clock_to(&r, 70);
    GstBuffer *repair = make_packet((packet){.sequence = 11, .pts = MS(1020), .fill = 3, .length = 100});
    GST_BUFFER_PTS(repair) = GST_BUFFER_DTS(repair) = MS(1110);
    GST_BUFFER_FLAG_SET(repair, GST_RTP_BUFFER_FLAG_RETRANSMISSION);
    CHECK(gst_harness_push(r.media, gst_buffer_ref(repair)) == GST_FLOW_OK);
    COMES(r.media, .sequence = 10, .pts = MS(1000));
    GstBuffer *out = next_buffer(r.media);
    CHECK(is_packet(out, (packet){.sequence = 11, .pts = MS(1020), .fill = 3, .length = 100}));
    CHECK(out && !GST_BUFFER_FLAG_IS_SET(out, GST_RTP_BUFFER_FLAG_RETRANSMISSION));
    gst_clear_buffer(&out);
    COMES(r.media, .sequence = 12, .pts = MS(1040), .marker = TRUE);
    CHECK(count_of(r.element, "retransmissions") == 1 && count_of(r.element, "media") == 2);
    CHECK(count_of(r.element, "rtx-round-trip") == MS(50));
    gst_harness_push(r.media, repair); /* once more */
    CHECK(is_silent(r.media) && count_of(r.element, "media") == 2);
    drop_auxiliary(&r);
}

/* Where the caps tell no clock rate, one that was repaired has the time of the next one that came, also if it is of the frame before: no
 * jitter buffer behind takes it for an early one. */
static void test_no_rate(void) {
    receiver r = make_auxiliary("application/x-rtp");
    SEND(&r, .sequence = 10, .pts = MS(1000));
    SEND(&r, .sequence = 13, .pts = MS(1060));
    SEND(&r, .sequence = 14, .pts = MS(1060));
    TICKS(&r, 20);
    CHECK(asks_upstream(&r, 11, 20, 0) && asks_upstream(&r, 12, 20, 0));
    REPAIR(&r, 8, .sequence = 12, .pts = MS(1060));
    REPAIR(&r, 7, .sequence = 11, .pts = MS(1020));
    for (guint16 i = 10; i < 15; i++) {
        GstBuffer *out = next_buffer(r.media);
        CHECK(out && GST_BUFFER_PTS(out) == (i == 10 ? MS(1000) : MS(1060)));
        gst_clear_buffer(&out);
    }
    drop_auxiliary(&r);
}

/* Maps say of which types and SSRCs the retransmissions are. */
static void test_maps(void) {
    receiver r = make_auxiliary(FREE_CAPS);
    gst_util_set_object_arg(G_OBJECT(r.element), "payload-type-map", "map,96=(uint)36,98=(uint)99");
    gst_util_set_object_arg(G_OBJECT(r.element), "ssrc-map", "map,286331153=(uint)5");
    SEND(&r, .sequence = 1, .type = 100); /* none of the map's */
    COMES(r.media, .sequence = 1, .type = 100);
    SEND(&r, .sequence = 1, .ssrc = 5, .type = 36); /* a retransmission first */
    SEND(&r, .sequence = 10);
    SEND(&r, .sequence = 14, .type = 98);
    TICKS(&r, 20);
    for (guint i = 11; i < 14; i++) CHECK(asks_upstream(&r, i, 20, 0));
    static const guint8 types[] = {36, 99, 97};
    for (guint i = 0; i < G_N_ELEMENTS(types); i++) {
        for (guint32 ssrc = 6; ssrc >= 5; ssrc--) {
            GstBuffer *repair = make_repair((packet){.sequence = (guint16)(11 + i), .ssrc = ssrc}, (guint16)(20 + i));
            gst_buffer_memset(repair, 1, types[i], 1);
            gst_harness_push(r.media, repair);
        }
    }
    guint64 taken = count_of(r.element, "retransmissions");
    CHECK(taken == 2);
    REPAIR(&r, 30, .sequence = 13, .ssrc = 5);
    CHECK(count_of(r.element, "retransmissions") == 2);
    TICKS(&r, 80);
    TICKS(&r, 140);
    TICKS(&r, 200);
    guint seen = 0;
    for (GstBuffer *out; (out = next_buffer(r.media)) && seen < 20;) {
        seen += is_packet(out, (packet){.sequence = 10}) || is_packet(out, (packet){.sequence = 11}) ||
                is_packet(out, (packet){.sequence = 12, .type = 98}) || is_packet(out, (packet){.sequence = 14, .type = 98});
        gst_buffer_unref(out);
        if (seen == 4) break;
    }
    CHECK(seen == 4);
    drop_auxiliary(&r);
}

/* What a jitter buffer behind it asks for goes on upstream, but for its own stream's. */
static void test_behind(void) {
    receiver r = make_auxiliary(CAPS);
    SEND(&r, .sequence = 10);
    COMES(r.media, .sequence = 10);
    while (gst_harness_upstream_events_in_queue(r.media) > 0) gst_event_unref(gst_harness_pull_upstream_event(r.media));
    for (guint i = 0; i < 2; i++) {
        GstStructure *told = gst_structure_new("GstRTPRetransmissionRequest", "seqnum", G_TYPE_UINT, 11, "ssrc", G_TYPE_UINT, MEDIA + i, NULL);
        CHECK(gst_harness_push_upstream_event(r.media, gst_event_new_custom(GST_EVENT_CUSTOM_UPSTREAM, told)));
        CHECK(gst_harness_upstream_events_in_queue(r.media) == i);
    }
    drop_auxiliary(&r);
}

static GstPadProbeReturn hold(GstPad *pad, GstPadProbeInfo *info, gpointer data) {
    (void)pad, (void)info, (void)data;
    return GST_PAD_PROBE_OK;
}

/* While downstream stands still, no more than so many packets of other streams are kept. */
static void test_standstill(void) {
    receiver r = make_auxiliary(CAPS);
    GstPad *src = gst_element_get_static_pad(r.element, "src");
    gulong probe = gst_pad_add_probe(src, GST_PAD_PROBE_TYPE_BLOCK | GST_PAD_PROBE_TYPE_BUFFER, hold, NULL, NULL);
    for (guint i = 0; i < 10000; i++) SEND(&r, .sequence = (guint16)i, .ssrc = 7);
    CHECK(count_of(r.element, "dropped") >= 10000 - GOZDRIT_MAX_STORE - 2 && count_of(r.element, "dropped") <= 10000 - GOZDRIT_MAX_STORE);
    gst_pad_remove_probe(src, probe);
    gboolean each = TRUE;
    for (guint16 i = 0; i < GOZDRIT_MAX_STORE && each; i++) each = comes(r.media, (packet){.sequence = i, .ssrc = 7});
    CHECK(each);
    gst_object_unref(src);
    drop_auxiliary(&r);
}

void test_auxiliary(void) {
    test_asks();
    test_in_bin();
    test_many();
    test_others();
    test_before();
    test_gone();
    test_flagged();
    test_no_rate();
    test_maps();
    test_behind();
    test_standstill();
}
