/* A receiver to which several send, each at its own rate, as a test plays them. */
#ifndef STRANGERS_H
#define STRANGERS_H

#include "checks.h"

/* Caps that name no SSRC. */
#define FREE_CAPS "application/x-rtp,media=video,clock-rate=90000,encoding-name=X,payload=96"

typedef struct scene {
    receiver r;
    guint64 now; /* milliseconds */
} scene;

scene make_scene(void);

/* Somebody who sends. */
typedef struct sender_of {
    guint32 ssrc;
    guint64 gap;     /* milliseconds from one burst to the next */
    guint burst;     /* packets in one; 0: 1 */
    guint draws;     /* an SSRC and a number are drawn for so many packets; 0: for none */
    guint32 seed;    /* to draw with */
    guint16 number;  /* the next one's */
    guint64 next;    /* when it is sent; 0: as soon as it is played */
    const gchar *from; /* its address, or NULL; and */
    guint16 port;
    guint8 fill; /* each octet of its payloads */
} sender_of;

/* Has so many of them send, in this order, from now until just before a moment, at which the clock then is. */
void play(scene *s, guint64 until, guint count, ...);
/* Sends a burst of one now. */
void send_now(scene *s, sender_of *who);

/* Has a packet tell from where it came. */
void tell_address(GstBuffer *buffer, const gchar *from, guint16 port);

/* Whether just these come next: so many packets of an SSRC, from a number on. */
gboolean all_come(scene *s, guint32 ssrc, guint16 number, guint count);
/* The same with that in each octet of the payload. */
gboolean all_come_filled(scene *s, guint32 ssrc, guint16 number, guint count, guint8 fill);

#endif
