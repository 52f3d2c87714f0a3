#include "peers.h"

#include <gio/gio.h>
#include <gst/net/gstnetaddressmeta.h>
#include <string.h>

/* One of a list. */
typedef struct peer {
    GInetAddressMask *mask; /* of all bits where it is an address */
    guint16 port;           /* 0: any */
} peer;

static void free_peer(gpointer it) {
    peer *self = it;
    g_object_unref(self->mask);
    g_free(self);
}

/* The port behind an address, which ends where that begins; 0: there is none. FALSE: what stands there is no port. An IPv6 address with a port stands in
 * brackets. */
static gboolean cut_port(gchar **text, guint16 *port) {
    gchar *end = NULL, *colon = strrchr(*text, ':');
    guint64 read = 0;
    *port = 0;
    if (**text == '[') {
        if (!(end = strchr(++*text, ']'))) return FALSE;
        colon = end[1] ? end + 1 : NULL;
        *end = 0;
    } else if (!colon || strchr(*text, ':') != colon) {
        return TRUE;
    }
    if (!colon) return TRUE;
    if (*colon != ':' || !g_ascii_string_to_unsigned(colon + 1, 10, 1, G_MAXUINT16, &read, NULL)) return FALSE;
    *colon = 0;
    *port = (guint16)read;
    return TRUE;
}

static peer *read_peer(const gchar *word) {
    gchar *copy = g_strstrip(g_strdup(word)), *text = copy;
    guint16 port = 0;
    GInetAddressMask *mask = cut_port(&text, &port) ? g_inet_address_mask_new_from_string(text, NULL) : NULL;
    g_free(copy);
    if (!mask) return NULL;
    peer *read = g_new(peer, 1);
    *read = (peer){mask, port};
    return read;
}

gboolean peers_set(peers *self, const gchar *text) {
    gboolean is_read = TRUE;
    peers_clear(self);
    if (!text) return TRUE;
    self->text = g_strdup(text);
    self->each = g_ptr_array_new_with_free_func(free_peer);
    gchar **words = g_strsplit(text, ",", -1);
    for (gchar **word = words; *word && is_read; word++) {
        peer *read = read_peer(*word);
        is_read = read != NULL;
        if (read) g_ptr_array_add(self->each, read);
    }
    g_strfreev(words);
    if (!is_read) g_ptr_array_set_size(self->each, 0);
    return is_read;
}

/* An address of IPv4 that came by a socket of IPv6 is the one that it stands for (RFC 4291, section 2.5.5.2). */
static GInetAddress *plain(GInetAddress *address) {
    static const guint8 mapped[12] = {[10] = 255, [11] = 255};
    const guint8 *octets = g_inet_address_to_bytes(address);
    if (g_inet_address_get_family(address) != G_SOCKET_FAMILY_IPV6 || memcmp(octets, mapped, sizeof mapped) != 0) return g_object_ref(address);
    return g_inet_address_new_from_bytes(octets + sizeof mapped, G_SOCKET_FAMILY_IPV4);
}

gboolean peers_admit(const peers *self, GstBuffer *buffer) {
    GstNetAddressMeta *meta = self->each ? gst_buffer_get_net_address_meta(buffer) : NULL;
    gboolean is_one = FALSE;
    if (!self->each) return TRUE;
    if (!meta || !G_IS_INET_SOCKET_ADDRESS(meta->addr)) return FALSE;
    GInetAddress *address = plain(g_inet_socket_address_get_address(G_INET_SOCKET_ADDRESS(meta->addr)));
    guint16 port = g_inet_socket_address_get_port(G_INET_SOCKET_ADDRESS(meta->addr));
    for (guint i = 0; i < self->each->len && !is_one; i++) {
        const peer *one = g_ptr_array_index(self->each, i);
        is_one = (one->port == 0 || one->port == port) && g_inet_address_mask_matches(one->mask, address);
    }
    g_object_unref(address);
    return is_one;
}

gboolean peers_are_unread(const peers *self) { return self->each && self->each->len == 0; }

void peers_clear(peers *self) {
    g_clear_pointer(&self->text, g_free);
    g_clear_pointer(&self->each, g_ptr_array_unref);
}
