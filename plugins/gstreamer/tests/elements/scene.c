#include "strangers.h"

#include <gst/net/gstnetaddressmeta.h>
#include <stdarg.h>

scene make_scene(void) { return (scene){.r = make_receiver(FREE_CAPS)}; }

void tell_address(GstBuffer *buffer, const gchar *from, guint16 port) {
    GInetAddress *host = g_inet_address_new_from_string(from);
    GSocketAddress *address = g_inet_socket_address_new(host, port);
    gst_buffer_add_net_address_meta(buffer, address);
    g_object_unref(address);
    g_object_unref(host);
}

/* The next number that a generator of this state draws. */
static guint32 drawn(guint32 *state) { return *state = *state * 1664525u + 1013904223u; }

void send_now(scene *s, sender_of *who) {
    for (guint i = 0; i < MAX(who->burst, 1); i++) {
        if (who->draws && i % who->draws == 0) {
            who->number = (guint16)(drawn(&who->seed) >> 16);
            who->ssrc = drawn(&who->seed) & ~1u; /* MEDIA's is odd */
        }
        GstBuffer *buffer = make_packet((packet){.sequence = who->number++, .ssrc = who->ssrc, .pts = s->now * GST_MSECOND, .fill = who->fill});
        if (who->from) tell_address(buffer, who->from, who->port ? who->port : 6004);
        gst_harness_push(s->r.media, buffer);
    }
}

void play(scene *s, guint64 until, guint count, ...) {
    sender_of *who[4];
    va_list list;
    va_start(list, count);
    for (guint i = 0; i < count; i++) who[i] = va_arg(list, sender_of *);
    va_end(list);
    for (guint i = 0; i < count; i++) who[i]->next = MAX(who[i]->next, s->now);
    for (; s->now < until; s->now++) {
        gboolean is_set = FALSE;
        for (guint i = 0; i < count; i++) {
            if (who[i]->next != s->now) continue;
            if (!is_set) set_clock_to(&s->r, s->now);
            is_set = TRUE;
            send_now(s, who[i]);
            who[i]->next += who[i]->gap;
        }
    }
    set_clock_to(&s->r, s->now);
}

static gboolean is_of(GstBuffer *buffer, guint32 ssrc, guint16 number, guint8 fill) {
    guint8 octets[13] = {0};
    if (gst_buffer_extract(buffer, 0, octets, sizeof octets) < sizeof octets) return FALSE;
    gboolean is = GST_READ_UINT32_BE(octets + 8) == ssrc && GST_READ_UINT16_BE(octets + 2) == number && octets[12] == fill;
    if (!is) g_print("came: SSRC %u, number %u, filled with %u\n", GST_READ_UINT32_BE(octets + 8), GST_READ_UINT16_BE(octets + 2), octets[12]);
    return is;
}

gboolean all_come_filled(scene *s, guint32 ssrc, guint16 number, guint count, guint8 fill) {
    for (guint i = 0; i < count; i++) {
        GstBuffer *buffer = next_buffer(s->r.media);
        gboolean is = buffer && is_of(buffer, ssrc, (guint16)(number + i), fill);
        if (!buffer) g_print("nothing came behind %u of %u\n", i, count);
        gst_clear_buffer(&buffer);
        if (!is) return FALSE;
    }
    return TRUE;
}

gboolean all_come(scene *s, guint32 ssrc, guint16 number, guint count) { return all_come_filled(s, ssrc, number, count, 0); }
