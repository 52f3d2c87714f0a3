/* Who is heard where nobody named the SSRC of the stream, and anybody may send to the port: claims.c and far_side.c have the rules. */
#include "strangers.h"

#include "common.h"

#include <gst/net/gstnetaddressmeta.h>
#include <string.h>

/* How long the session took nothing when another one may take its place at once, in milliseconds; */
#define QUIET G_GUINT64_CONSTANT(1000)

/* and how long after strangers were told they are told again. */
#define TOLD_AGAIN G_GUINT64_CONSTANT(10000)

/* ---- addresses */

sender_address strangers_address(GstBuffer *buffer) {
    sender_address from = {0};
    GstNetAddressMeta *meta = gst_buffer_get_net_address_meta(buffer);
    if (!meta || !G_IS_INET_SOCKET_ADDRESS(meta->addr)) return from;
    GInetAddress *address = g_inet_socket_address_get_address(G_INET_SOCKET_ADDRESS(meta->addr));
    gsize length = g_inet_address_get_native_size(address);
    if (length > sizeof from.octets) return from;
    if (length == 4) from.octets[10] = from.octets[11] = 255;
    memcpy(from.octets + sizeof from.octets - length, g_inet_address_to_bytes(address), length);
    from.port = g_inet_socket_address_get_port(G_INET_SOCKET_ADDRESS(meta->addr));
    from.is_known = TRUE;
    return from;
}

gchar *strangers_address_text(const sender_address *from) {
    static const guint8 mapped[12] = {[10] = 255, [11] = 255};
    if (!from->is_known) return g_strdup("an address that is not known");
    gboolean is_short = memcmp(from->octets, mapped, sizeof mapped) == 0;
    GInetAddress *address = g_inet_address_new_from_bytes(from->octets + (is_short ? sizeof mapped : 0), is_short ? G_SOCKET_FAMILY_IPV4 : G_SOCKET_FAMILY_IPV6);
    gchar *name = g_inet_address_to_string(address);
    gchar *text = g_strdup_printf(is_short ? "%s:%u" : "[%s]:%u", name, from->port);
    g_free(name);
    g_object_unref(address);
    return text;
}

/* ---- the session */

void strangers_begin(strangers *self, GstBuffer *buffer, guint64 now) {
    claims_begin(&self->claims);
    self->far = far_side_at(strangers_address(buffer));
    self->taken = now;
}

gboolean strangers_is_elsewhere(const strangers *self, GstBuffer *buffer) {
    if (!self->far.at.is_known) return FALSE;
    sender_address from = strangers_address(buffer);
    return from.is_known && !sender_address_is(&from, &self->far.at);
}

void strangers_came(strangers *self, GstBuffer *buffer, guint64 now) {
    if (!self->far.at.is_known) return;
    sender_address from = strangers_address(buffer);
    if (sender_address_is(&from, &self->far.at)) far_side_hear(&self->far, now);
}

void strangers_took(strangers *self, guint64 now) {
    claims_take(&self->claims);
    self->taken = now;
}

/* ---- strangers */

/* What goes on with the session shows its sender elsewhere. A session that took nothing for a while gives way to another one at once, as the relay's
 * does: so the first packet is not lost of a sender that was started again. */
stranger_step strangers_hear(strangers *self, GstBuffer *buffer, const guint8 *octets, gboolean goes_on, guint64 now) {
    claimant by = {strangers_address(buffer), PACKET_SSRC(octets)};
    guint16 number = PACKET_SEQUENCE(octets);
    if (goes_on && far_side_show(&self->far, &by.from, number, now)) return STRANGER_MOVES;
    if (goes_on && far_side_is_quiet(&self->far, now)) return STRANGER_PASSES;
    if (now >= self->taken + QUIET || claims_hear(&self->claims, &by, number, now)) return STRANGER_FALLS;
    return STRANGER_PASSES;
}

stranger_told strangers_drop(strangers *self, GstBuffer *buffer, const guint8 *octets, guint64 now) {
    stranger_told told = {0};
    self->dropped++;
    if (self->has_told && now < self->told + TOLD_AGAIN) return told;
    told = (stranger_told){self->dropped, {strangers_address(buffer), PACKET_SSRC(octets)}};
    self->dropped = 0;
    self->told = now;
    self->has_told = TRUE;
    return told;
}

void strangers_forget(strangers *self) { claims_forget(&self->claims); }

void strangers_reset(strangers *self) {
    strangers_forget(self);
    *self = (strangers){0};
}
