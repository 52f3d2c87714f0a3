/* What a sender says in GStreamer's log: who asks why a packet was not retransmitted finds it there. */
#include "checks.h"

#include <string.h>

static GMutex lock;
static GString *said;

static void on_line(GstDebugCategory *category, GstDebugLevel level, const gchar *file, const gchar *function, gint line, GObject *object,
                    GstDebugMessage *message, gpointer data) {
    (void)level, (void)file, (void)function, (void)line, (void)object, (void)data;
    if (!g_str_equal(gst_debug_category_get_name(category), "gozdrit")) return;
    g_mutex_lock(&lock);
    g_string_append_printf(said, "%s\n", gst_debug_message_get(message));
    g_mutex_unlock(&lock);
}

/* Whether that was said since the last look. */
static gboolean G_GNUC_PRINTF(1, 2) says(const gchar *format, ...) {
    va_list values;
    va_start(values, format);
    gchar *text = g_strdup_vprintf(format, values);
    va_end(values);
    g_mutex_lock(&lock);
    gboolean is = strstr(said->str, text) != NULL;
    if (!is) g_print("%s is not in: %s\n", text, said->str);
    g_string_truncate(said, 0);
    g_mutex_unlock(&lock);
    g_free(text);
    return is;
}

/* Takes the next buffer, and gives its number. */
static guint drop_next(sender *s) {
    GstBuffer *buffer = next_buffer(s->media);
    guint8 octets[4] = {0};
    CHECK(buffer != NULL);
    if (buffer) gst_buffer_extract(buffer, 0, octets, sizeof octets);
    gst_clear_buffer(&buffer);
    return GST_READ_UINT16_BE(octets + 2);
}

static void test_answers(void) {
    sender s = make_sender();
    send_five(&s);
    CHECK(says("SSRC 11111111: a history of 1024 packets from 0 on, retransmitted with SSRC 22222222"));
    gst_harness_push(s.feedback, make_nack(3, 0));
    CHECK(says("SSRC 11111111: 3 is retransmitted as %u of SSRC 22222222\n", drop_next(&s)));
    CHECK(request(&s, MEDIA, 2));
    drop_next(&s);
    CHECK(says("SSRC 11111111: an event asks for 2\nSSRC 11111111: 1 numbers are asked for, 1 more are to be retransmitted"));
    gst_harness_push(s.feedback, make_nack(4, 1));
    drop_next(&s);
    CHECK(says("2 numbers are asked for, 1 more are to be retransmitted, 1 are not in the history"));
    for (guint i = 0; i < 8; i++) gst_harness_push(s.feedback, make_nack(1, 0));
    for (guint i = 0; i < 8; i++) drop_next(&s);
    gst_harness_push(s.feedback, make_nack(1, 0));
    CHECK(says("0 more are to be retransmitted, 0 are not in the history, 1 were as often as they may be"));
    GstBuffer *other = make_nack(1, 0);
    gst_buffer_memset(other, 8, 0x55, 4);
    gst_harness_push(s.feedback, other);
    CHECK(says("feedback is refused: WrongMedia"));
    drop_sender(&s);
}

/* What does not fit the time, by timestamps and by the clock, and what never came. */
static void test_passed_over(void) {
    sender s = make_sender();
    gst_element_set_state(s.element, GST_STATE_NULL);
    g_object_set(s.element, "max-size-time", 1000, "rtx-min-interval", 100, NULL);
    gst_element_set_state(s.element, GST_STATE_PLAYING);
    gst_harness_set_src_caps_str(s.media, CAPS);
    for (guint16 i = 0; i < 4; i++) {
        gst_harness_push(s.media, make_packet((packet){.sequence = (guint16)(i + (i > 1)), .pts = i > 0 ? 2 * GST_SECOND : 0}));
        drop_next(&s);
    }
    gst_harness_push(s.feedback, make_nack(0, 0));
    CHECK(is_silent(s.media) && says("SSRC 11111111: 0 is not retransmitted, it is past its time"));
    gst_harness_push(s.feedback, make_nack(2, 0));
    CHECK(is_silent(s.media) && says("SSRC 11111111: 2 is not retransmitted, it never came"));
    gst_harness_push(s.feedback, make_nack(1, 0));
    drop_next(&s);
    gst_harness_push(s.feedback, make_nack(1, 0));
    CHECK(is_silent(s.media) && says("SSRC 11111111: 1 are not retransmitted again so early, and 0 are past their time"));
    gst_harness_set_time(s.media, 3 * GST_SECOND);
    gst_harness_push(s.feedback, make_nack(1, 0));
    CHECK(is_silent(s.media) && says("0 are not retransmitted again so early, and 1 are past their time"));
    drop_sender(&s);
}

/* What is not kept, what makes room, and an SSRC that another one has. */
static void test_histories_told(void) {
    sender s = make_history(4);
    gst_harness_push(s.media, make_packet((packet){.length = GOZDRIT_MAX_PAYLOAD + 1}));
    drop_next(&s);
    CHECK(says("SSRC 11111111: 0 is not kept, it is too long"));
    for (guint32 i = 0; i < 64; i++) {
        gst_harness_push(s.media, make_packet((packet){.ssrc = MEDIA + 1 + i}));
        drop_next(&s);
    }
    CHECK(says("SSRC 11111111: its history makes room for another one's"));
    gst_harness_set_src_caps_str(s.media, "application/x-rtp,media=video,clock-rate=90000,encoding-name=X,payload=96,ssrc=(uint)286331160");
    guint before = rtx_ssrc_of(s.media);
    GstStructure *told = gst_structure_new("GstRTPCollision", "ssrc", G_TYPE_UINT, before, NULL);
    gst_harness_push_upstream_event(s.media, gst_event_new_custom(GST_EVENT_CUSTOM_UPSTREAM, told));
    CHECK(says("SSRC %08x is another participant's too: retransmissions have %08x\n", before, rtx_ssrc_of(s.media)));
    drop_sender(&s);
}

static void test_silent(void) {
    sender s = make_sender();
    g_object_set(s.element, "silence-delay", 100, NULL);
    gst_harness_push(s.media, make_packet((packet){.sequence = 1}));
    drop_next(&s);
    CHECK(gst_harness_wait_for_clock_id_waits(s.media, 1, 2) && gst_harness_crank_single_clock_wait(s.media));
    drop_next(&s);
    CHECK(says("SSRC 11111111 is silent: its last packet is repeated"));
    drop_sender(&s);
}

/* GStreamer's own log is left out meanwhile. Where it goes to a file, it would be on standard error from then on, so this is not run there. */
void test_logs(void) {
    gst_debug_remove_log_function(gst_debug_log_default);
    gst_debug_add_log_function(on_line, NULL, NULL);
    gst_debug_set_threshold_for_name("gozdrit", GST_LEVEL_LOG);
    said = g_string_new(NULL);
    test_answers();
    test_passed_over();
    test_histories_told();
    test_silent();
    gst_debug_unset_threshold_for_name("gozdrit");
    gst_debug_remove_log_function(on_line);
    gst_debug_add_log_function(gst_debug_log_default, NULL, NULL);
    g_string_free(said, TRUE);
}
