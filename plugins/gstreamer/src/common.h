/* What both elements share: SSRCs, caps, the clock, and the library's answers. */
#ifndef GOZDRIT_GST_COMMON_H
#define GOZDRIT_GST_COMMON_H

#include <gozdrit.h>
#include <gst/gst.h>

GST_DEBUG_CATEGORY_EXTERN(gozdrit_debug);
#define GST_CAT_DEFAULT gozdrit_debug

/* Unsigned, as times are. */
#define MILLISECOND ((GstClockTime)GST_MSECOND)

/* A property of an SSRC that was not set, as the payloaders have it. */
#define SSRC_UNSET G_MAXUINT32

/* The payload type of the retransmissions where nothing says another. */
enum { RTX_TYPE = 97 };

/* An SSRC at random that is neither of the two, and not SSRC_UNSET. */
guint32 draw_ssrc(guint32 one, guint32 other);

/* The payload type by which the library knows retransmissions that have this one. It wants 96 to 127; a session may have agreed on one
 * below 64, as browsers do, which RTP and RTCP on one port allow (RFC 5761, section 4). */
guint8 library_rtx_type(guint8 agreed, guint8 media);

/* A number of caps, which have it as an int, as a uint, as a text, as SDP has it, or as what is true (1); or `otherwise`. */
gint64 caps_number(const GstCaps *caps, const gchar *field, gint64 otherwise);

/* What an RTP packet shows without being read: RFC 3550, section 5.1. There are 12 octets or more. */
#define PACKET_TYPE(octets) ((guint8)((octets)[1] & 127))
#define PACKET_SEQUENCE(octets) GST_READ_UINT16_BE((octets) + 2)
#define PACKET_TIMESTAMP(octets) GST_READ_UINT32_BE((octets) + 4)
#define PACKET_SSRC(octets) GST_READ_UINT32_BE((octets) + 8)

/* How long a packet's header is, with its extension; 0 where it does not fit. */
gsize packet_head(const guint8 *octets, gsize length);

/* The elements' time: that of the pipeline's clock, and of the system's until there is one. Where the clock is another
 * one from now on, the time goes on from where it was. */
typedef struct element_time {
    GstClock *clock;
    GstClockTimeDiff offset; /* from the clock's time to the element's */
} element_time;

void element_time_begin(element_time *time, GstElement *element);
void element_time_switch(element_time *time, GstClock *clock);
void element_time_end(element_time *time);
GstClockTime element_time_now(const element_time *time);

/* The clock's id of a moment of the element, to wait for. */
GstClockID element_time_id(const element_time *time, GstClockTime when);

/* The pad of an element that a pad leads to, also where there are walls of bins between them; or NULL. */
GstPad *pad_behind(GstPad *pad);

/* An installed GStreamer property: blurbs tell unit and default. */
#define PROPERTY_FLAGS ((GParamFlags)(G_PARAM_READWRITE | G_PARAM_STATIC_STRINGS))

/* A map of numbers, and a count that can only be read. */
void install_map(GObjectClass *class, guint id, const gchar *name, const gchar *blurb, GParamFlags access);
void install_count(GObjectClass *class, guint id, const gchar *name, const gchar *blurb);

/* Adds up two structs of the library's counts, of so many octets: each is its size, and behind that 64 bits a count. */
void add_counts(gpointer sum, gconstpointer more, gsize size);

/* Adds a count to a structure of counts. */
#define ADD_COUNT(structure, name, value) gst_structure_set((structure), (name), G_TYPE_UINT64, (guint64)(value), NULL)

#endif
