/* What the files of `elements` share. */
#ifndef CHECKS_H
#define CHECKS_H

#include <gozdrit.h>
#include <gst/check/gstharness.h>
#include <gst/check/gsttestclock.h>
#include <gst/gst.h>
#include <gst/rtp/rtp.h>

/* Counts a check, and tells its line where it does not hold. It gives what it was. */
gboolean check(gboolean holds, const gchar *what, const gchar *file, gint line);
#define CHECK(c) check((c), #c, __FILE__, __LINE__)

/* The streams of the tests. */
enum { MEDIA = 0x11111111, RTX = 0x22222222, REPORTER = 0x33333333, TYPE = 96, RTX_TYPE = 97, RATE = 90000 };
#define CAPS "application/x-rtp,media=video,clock-rate=90000,encoding-name=X,payload=96,ssrc=(uint)286331153"

/* An RTP packet. `fill` is each octet of its payload. Its timestamp stands for `pts`, which it has too. */
typedef struct packet {
    guint16 sequence;
    GstClockTime pts;
    guint8 fill;
    gboolean marker;
    guint32 ssrc;   /* 0: MEDIA */
    guint8 type;    /* 0: TYPE */
    guint length;   /* 0: 10 */
    guint32 offset; /* of the timestamps */
} packet;
GstBuffer *make_packet(packet of);
guint32 timestamp_of(packet of);
/* The retransmission of a packet (RFC 4588, section 4). */
GstBuffer *make_repair(packet of, guint16 sequence);
/* A generic NACK of one pair (RFC 4585, section 6.2.1). */
GstBuffer *make_nack(guint16 pid, guint16 blp);

/* Whether both have the same octets. */
gboolean same_octets(GstBuffer *a, GstBuffer *b);
/* Whether a buffer is that packet, with its PTS. */
gboolean is_packet(GstBuffer *buffer, packet of);
/* Whether it is a NACK of just this pair. */
gboolean is_nack(GstBuffer *buffer, guint16 pid, guint16 blp);

/* A count of an element's `stats`. */
guint64 count_of(GstElement *element, const gchar *name);

/* Pulls what comes in two seconds, or NULL. */
GstBuffer *next_buffer(GstHarness *harness);
/* Pulls events until there is one of this type, in two seconds; or NULL. */
GstEvent *next_event(GstHarness *harness, GstEventType type);
/* Takes a buffer, and gives whether it is that packet. */
#define COMES(harness, ...) CHECK(comes((harness), (packet){__VA_ARGS__}))
gboolean comes(GstHarness *harness, packet of);
/* Nothing comes for a while. */
gboolean is_silent(GstHarness *harness);

/* The messages of an element. */
GstBus *bus_of(GstElement *element);
gboolean posted(GstBus *bus, GstMessageType type);
void drop_bus(GstElement *element, GstBus *bus);

/* A receiver with a harness of its feedback, whose clock is the test's. */
typedef struct receiver {
    GstHarness *media, *feedback;
    GstElement *element;
} receiver;
receiver make_receiver(const gchar *caps);
void drop_receiver(receiver *r);
/* Sends a packet to it. */
#define SEND(r, ...) gst_harness_push((r)->media, make_packet((packet){__VA_ARGS__}))
#define REPAIR(r, number, ...) gst_harness_push((r)->media, make_repair((packet){__VA_ARGS__}, (number)))
/* Waits until its timer waits, and moves the clock on to what it waits for, which is to be so many milliseconds. */
#define TICKS(r, at) CHECK(ticks((r), (at)))
gboolean ticks(receiver *r, guint64 at);
void set_clock_to(receiver *r, guint64 at);

/* A receiver in a jitter buffer's place, whose caps tell nothing: what answers for a type is `answers`, which also counts how often it was asked.
 * It has the pad of reports. */
typedef struct place {
    receiver r;
    GstHarness *reports;
    gint asked[128];
    const gchar *answers[128]; /* caps, or NULL */
} place;
#define PLACE_CAPS "application/x-rtp"
void make_place(place *p);
void drop_place(place *p);

/* A sender with a harness of its feedback, whose clock is the test's. It does nothing in a silence. */
typedef struct sender {
    GstHarness *media, *feedback;
    GstElement *element;
} sender;
sender make_sender(void);
/* One that keeps so many packets. */
sender make_history(guint packets);
void drop_sender(sender *s);
/* Sends the packets 0 to 4, and takes them. */
void send_five(sender *s);
/* A repair of that packet comes, without a time. Repairs have numbers of their own. */
gboolean repair_comes(sender *s, packet of);

/* A bin of two elements, the second behind the first, with a harness of both; or none where one of them is not there. */
gboolean make_chain(sender *s, const gchar *first, const gchar *second, GstElement *elements[2]);
void drop_chain(sender *s, GstElement *elements[2]);

/* Asks for a packet as an rtpsession behind the sender does. */
gboolean request(sender *s, guint32 ssrc, guint16 number);
/* What the caps that came say of the retransmissions. */
guint rtx_ssrc_of(GstHarness *h);

/* Each is a file. */
void test_send(void);
void test_numbers(void);
void test_histories(void);
void test_feedback(void);
void test_path(void);
void test_drop_in(void);
void test_extensions(void);
void test_logs(void);
void test_tail(void);
void test_key_units(void);
void test_silence(void);
void test_receive(void);
void test_metas(void);
void test_auxiliary(void);
void test_bundle(void);
void test_crowd(void);
void test_place(void);
void test_drops(void);
void test_pt_map(void);
void test_reports(void);
void test_offsets(void);
void test_times(void);
void test_streams(void);
void test_flushes(void);
void test_restarts(void);
void test_claims(void);
void test_addresses(void);
void test_budget(void);
void test_peers(void);
void test_rtx_caps(void);
void test_states(void);
void test_storm(void);

#endif
