/* Who may send at all, as a list of addresses says it. */
#ifndef GOZDRIT_GST_PEERS_H
#define GOZDRIT_GST_PEERS_H

#include <gst/gst.h>

/* All zeros: anybody may. */
typedef struct peers {
    gchar *text;     /* the list as it was given; NULL: none */
    GPtrArray *each; /* what it says; empty where nobody can read it, so that nobody is heard */
} peers;

/* Takes a list: addresses, each with a port or at any, or prefixes as 192.0.2.0/24, with commas between; NULL: anybody. Whether it could be read. */
gboolean peers_set(peers *self, const gchar *text);
/* Whether a packet comes from one of them, as its meta tells it. Where there is a list, and no meta, it does not. */
gboolean peers_admit(const peers *self, GstBuffer *buffer);
/* Whether there is a list that nobody can read. */
gboolean peers_are_unread(const peers *self);
void peers_clear(peers *self);

#endif
