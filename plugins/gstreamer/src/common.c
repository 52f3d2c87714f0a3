#include "common.h"

guint32 draw_ssrc(guint32 one, guint32 other) {
    guint32 drawn;
    do drawn = g_random_int();
    while (drawn == one || drawn == other || drawn == SSRC_UNSET);
    return drawn;
}

guint8 library_rtx_type(guint8 agreed, guint8 media) {
    if (agreed >= 64 || agreed == media) return agreed;
    return media == RTX_TYPE ? RTX_TYPE + 1 : RTX_TYPE;
}

gint64 caps_number(const GstCaps *caps, const gchar *field, gint64 otherwise) {
    const GstStructure *structure = gst_caps_get_structure(caps, 0);
    const gchar *text = gst_structure_get_string(structure, field);
    gint number;
    guint positive;
    gboolean truth;
    if (gst_structure_get_int(structure, field, &number)) return number;
    if (gst_structure_get_uint(structure, field, &positive)) return positive;
    if (gst_structure_get_boolean(structure, field, &truth)) return truth;
    return text && g_ascii_isdigit(*text) ? (gint64)g_ascii_strtoull(text, NULL, 10) : otherwise;
}

gsize packet_head(const guint8 *octets, gsize length) {
    gsize head = 12 + 4 * (gsize)(octets[0] & 15);
    if (octets[0] & 16) head += head + 4 <= length ? 4 + 4 * (gsize)GST_READ_UINT16_BE(octets + head + 2) : length;
    return head <= length ? head : 0;
}

void install_map(GObjectClass *class, guint id, const gchar *name, const gchar *blurb, GParamFlags access) {
    g_object_class_install_property(
        class, id, g_param_spec_boxed(name, NULL, blurb, GST_TYPE_STRUCTURE, access | (GParamFlags)G_PARAM_STATIC_STRINGS));
}

void install_count(GObjectClass *class, guint id, const gchar *name, const gchar *blurb) {
    g_object_class_install_property(
        class, id, g_param_spec_uint(name, NULL, blurb, 0, G_MAXUINT, 0, (GParamFlags)(G_PARAM_READABLE | G_PARAM_STATIC_STRINGS)));
}

void add_counts(gpointer sum, gconstpointer more, gsize size) {
    for (gsize i = 1; i < size / sizeof(guint64); i++) ((guint64 *)sum)[i] += ((const guint64 *)more)[i];
}

void element_time_begin(element_time *time, GstElement *element) {
    element_time_end(time);
    time->clock = gst_element_get_clock(element);
    if (!time->clock) time->clock = gst_system_clock_obtain();
    time->offset = 0;
}

void element_time_switch(element_time *time, GstClock *clock) {
    if (!time->clock || !clock || clock == time->clock) return;
    GstClockTime now = element_time_now(time);
    gst_object_replace((GstObject **)&time->clock, GST_OBJECT(clock));
    time->offset = GST_CLOCK_DIFF(gst_clock_get_time(clock), now);
}

void element_time_end(element_time *time) { gst_object_replace((GstObject **)&time->clock, NULL); }

GstClockTime element_time_now(const element_time *time) {
    return gst_clock_get_time(time->clock) + (GstClockTime)time->offset;
}

GstClockID element_time_id(const element_time *time, GstClockTime when) {
    return gst_clock_new_single_shot_id(time->clock, when - (GstClockTime)time->offset);
}

GstPad *pad_behind(GstPad *pad) {
    GstPad *peer = gst_pad_get_peer(pad);
    while (peer && GST_IS_PROXY_PAD(peer)) {
        GstPad *inside = GST_PAD(gst_proxy_pad_get_internal(GST_PROXY_PAD(peer)));
        gst_object_unref(peer);
        peer = inside ? gst_pad_get_peer(inside) : NULL;
        gst_clear_object(&inside);
    }
    return peer;
}
