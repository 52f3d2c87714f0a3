/* One stream of a sender, which is one SSRC: its numbers, its history, and its retransmissions.
 *
 * The library keeps what is sent, and says which packet is to be retransmitted, how often and when. It numbers what it is given one by
 * one, and packets keep the numbers that they came with. So it is given a blank for each number that was left out, and a packet that
 * comes behind a later one is kept here, in its blank's place. */
#ifndef GOZDRIT_GST_STREAM_H
#define GOZDRIT_GST_STREAM_H

#include "common.h"
#include "rids.h"

#include <gst/rtp/rtp.h>

/* The element's properties, of which a history takes what it needs as it begins. */
typedef struct send_settings {
    guint32 ssrc;          /* SSRC_UNSET: that of the packets */
    guint32 rtx_ssrc;      /* SSRC_UNSET: drawn; else that of the first stream */
    guint32 receiver_ssrc; /* SSRC_UNSET: any reporter is heard */
    guint rtx_type; /* where there is no map of types */
    gint first; /* -1: the first packet's own number */
    guint history; /* 0, or more than the library keeps: as many as that */
    guint repeats;
    guint eos_delay;     /* milliseconds */
    guint silence_delay; /* the same; 0: none */
    gint min_interval;   /* the same, from one retransmission of a packet to the next; 0: none; -1: it follows the path */
    guint max_time;      /* the same, from a packet to its last retransmission; 0: any */
} send_settings;

/* A number's place in the history. */
typedef struct place {
    guint64 sequence; /* as the library counts; 0: none */
    guint32 timestamp;
    guint8 rtx_type; /* with which it is retransmitted */
    gboolean blank;  /* the library has nothing of it, and */
    GstBuffer *late; /* this is what came of it, or NULL */
} place;

/* A packet that comes, as it is to go out. */
typedef struct stream_packet {
    GstBuffer *buffer;
    GstRTPBuffer *rtp; /* of the buffer */
    guint16 number;    /* that it goes out with */
    guint8 rtx_type;
    gboolean is_kept; /* it is to be kept, and the library can */
} stream_packet;

typedef struct send_stream {
    guint32 ssrc;       /* with which packets come, and */
    guint32 media_ssrc; /* go out */
    guint32 rtx_ssrc;
    gboolean is_given; /* a property says the one before: it is drawn for no collision */
    guint16 rtx_first; /* the first retransmission's number, and */
    guint16 rtx_next;  /* the next one's */
    gint64 clock_rate; /* of the caps or the map, or -1 */
    gint64 told_first; /* the first packet's number, as the caps tell it, or -1 */

    gboolean is_numbered; /* a packet came, and: */
    guint16 shift;        /* from its number to that which it goes out with */
    guint16 after;        /* the number behind the highest one that went out */

    gozdrit_sender end; /* holds one from the first packet on that is kept */
    guint32 receiver_ssrc; /* whose NACKs it hears: of any, where it hears any */
    gboolean has_rule;  /* it looks at the time */
    guint max_time;
    place *places; /* `size` of them: by the library's number */
    guint size;
    guint64 next;            /* the library's number of the next packet */
    guint32 newest;          /* the timestamp of the newest packet */
    GstBuffer *jumped;       /* a packet that lies where no number of the stream is near, or NULL */
    guint16 behind_jumped;   /* its number and 1 */
    guint8 jumped_rtx_type;
    gozdrit_send_counts past; /* the counts of the histories before */
    gozdrit_send_counts made; /* what is to be added to the library's counts, modulo 2^64 */

    gint64 full_request; /* the last request for a key frame with all headers, by who asked and its number, or -1 */

    GstClockTime last;   /* when the last packet came */
    GstClockTime usual;  /* for so long no packet came where this was no silence, or 0 */
    GstClockTime paused; /* when that was last */
    gboolean is_silent;  /* the last packet was repeated, or is not to be */
} send_stream;

/* A stream without a history. */
send_stream *stream_new(guint32 ssrc, guint32 media_ssrc);
void stream_free(send_stream *stream);

/* The number that a packet goes out with. The first one's is `first`, or where that is -1 its own; and so are those behind it. */
guint16 stream_number(send_stream *stream, guint32 ssrc, guint16 own, gint first);

/* A packet goes out: it is kept, or its number is left blank. An answer of the library that is not GOZDRIT_OK is one that has to be told. */
gint32 stream_take(send_stream *stream, const send_settings *settings, const stream_packet *packet, guint64 now);

/* Tells the library what time it is, where that makes a difference: before feedback, so that it measures the path. */
void stream_tell_time(send_stream *stream, guint64 now);

/* The next retransmission, or NULL. It says RepairedRtpStreamId, where there is an id of it. */
GstBuffer *stream_retransmission(send_stream *stream, guint64 now, rid_ids *ids);

/* Ends the history, and keeps its counts. */
void stream_end(send_stream *stream);

/* Adds what was counted so far. */
void stream_add_counts(const send_stream *stream, gozdrit_send_counts *sum);

#endif
