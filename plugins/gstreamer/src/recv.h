/* gozdritrecv, the receiving element. recv.c is the element: its pads and states; properties.c has its properties. receiving.c takes
 * packets into the session, asking.c says when it asks, playing.c makes of what the session plays what goes out, feedback.c has the timer, tasks.c
 * tells when each of them runs, and auxiliary.c is for where nobody takes feedback, where there may be several streams: streams.c. What a jitter
 * buffer has beside that is in jitter.c, ptmap.c, sync.c and offset.c. Who is heard where anybody may send is in strangers.c,
 * and who may send at all in peers.c.
 *
 * Three threads run in it. The one that packets come by takes them, and never waits. The source pad's task pushes what
 * was played, and waits for what is behind it. The feedback pad's task waits for the session's next timeout, and asks. Reports come by a
 * fourth one. Signals are emitted without the lock. */
#ifndef GOZDRIT_GST_RECV_H
#define GOZDRIT_GST_RECV_H

#include "common.h"
#include "maps.h"
#include "peers.h"
#include "strangers.h"
#include "times.h"

#include <gst/base/base.h>

G_DECLARE_FINAL_TYPE(GstGozdritRecv, gst_gozdrit_recv, GST, GOZDRIT_RECV, GstElement)

/* The properties. Times are milliseconds. */
typedef struct recv_settings {
    guint latency;
    guint delay;
    gint retry; /* -1: it and the delay follow the path */
    guint nacks;
    guint window;
    guint32 ssrc;          /* SSRC_UNSET: that of the caps or of the first packet */
    guint32 rtx_ssrc;      /* SSRC_UNSET: that of the caps, or learnt */
    guint32 receiver_ssrc; /* SSRC_UNSET: drawn */
    gint type;             /* -1: that of the caps or of the first packet */
    gint rtx_type;         /* -1: that of the caps, or RTX_TYPE */
    gboolean do_lost;
    gboolean earns_nacks; /* those that leave as packets, by what comes */
    gboolean do_retransmission; /* looked at in a jitter buffer's place alone */
    gboolean drop_on_latency;
    gboolean tells_drops;
    guint drops_interval; /* from one such message to the next */
    gint most_ahead;      /* of a report's timestamp before the newest packet's; -1: any */
    guint sync_interval;
    guint64 offset_step; /* nanoseconds by which ts-offset moves with each frame; 0: at once */
    gboolean adds_meta;
    gint mode;
} recv_settings;

/* How many packets are kept while one is missing: 0, and more than the library keeps, is as many as that. */
#define WINDOW_OF(settings) ((settings)->window == 0 || (settings)->window > GOZDRIT_MAX_STORE ? GOZDRIT_MAX_STORE : (settings)->window)

/* The values of the property `mode`, as rtpjitterbuffer has them. The times of packets follow the far clock, or, where both clocks are said to
 * be one, the first packet alone. */
enum { MODE_NONE = 0, MODE_SLAVE = 1, MODE_BUFFER = 2, MODE_SYNCED = 4 };

/* What the caps say of the session; -1 where they don't. */
typedef struct recv_caps {
    gint64 type, rtx_type, ssrc, rtx_ssrc, first, clock_rate;
    gint64 nack; /* 0: NACKs are not wanted */
    gboolean pli, fir; /* those requests for a key frame are */
    gint64 clock_base; /* the timestamp at which the stream begins, */
    gint64 npt_start, npt_stop; /* and its times of play, in nanoseconds */
} recv_caps;

/* How a packet came: its buffer, and of a media packet the times and the payload type. A packet with another number or timestamp is not the
 * one. */
typedef struct arrival {
    GstBuffer *buffer; /* NULL: none is known */
    GstClockTime pts, dts;
    guint32 timestamp;
    guint16 number;
    guint8 type;
    gboolean is_repair; /* the buffer is that of its retransmission */
    gboolean is_taken;  /* the library took what is in the buffer, and held nothing back of it */
    gboolean is_long;   /* the library has another packet in its place: what goes out is in the buffer alone */
} arrival;

/* Both the window and what is held back after a jump have a place: twice the largest window. */
enum { ARRIVALS = 2 * GOZDRIT_MAX_STORE };

/* An event that goes out behind packets of so many streams; and the packet of one of these. */
typedef struct held_event {
    GstEvent *event;
    guint waits;
} held_event;

typedef struct held_behind {
    held_event *held;
    guint64 behind;
} held_behind;

/* When a packet was asked for by an event. */
typedef struct asked asked;

/* The packet with which a stream of another SSRC may begin, where others than the network sort out who is heard. */
typedef struct candidate {
    GstBuffer *buffer; /* NULL where it went out */
    gboolean is_known;
    guint32 ssrc;
    guint16 next;
} candidate;

/* The clock rates of payload types in a jitter buffer's place, and the times of packets that have another rate than the first one, by that
 * rate. */
enum { OTHER_RATES = 7 };
typedef struct type_rates {
    gint64 of[128]; /* 0: not asked for so far; -1: nobody knows it */
    rtp_times others[OTHER_RATES];
    rtp_times unknown; /* tells no times */
} type_rates;

/* A sender report: which time of the far clock a timestamp of which stream is. */
typedef struct sender_report {
    GstBuffer *buffer; /* NULL where it was told, or dropped */
    guint32 ssrc, timestamp;
    GstClockTime ntp; /* nanoseconds since 1900 */
} sender_report;

typedef struct sync_state {
    sender_report last;
    gboolean is_known; /* there was one */
    GstClockTime told; /* the time of the last one that was told, or GST_CLOCK_TIME_NONE */
    GHashTable *names; /* the CNAMEs of streams, by their SSRCs */
} sync_state;

/* What is added to the times of what goes out, in nanoseconds. */
typedef struct out_offset {
    gint64 now, wanted; /* of ts-offset */
    gint64 paused;      /* the time that the element stood still on behalf of set-active */
    gboolean has_moved; /* which the next packet tells */
    GstClockTime frame; /* of the last packet, before the offset */
} out_offset;

/* Messages of what was dropped. */
typedef struct drop_messages {
    GstMessage *next; /* to be posted without the lock, or NULL */
    guint late, on_latency; /* since the last message */
    guint64 last; /* when it was, in milliseconds, where */
    gboolean has_told;
} drop_messages;

/* What came of a stream and what was lost of it, which is looked at once a second: how many there were of both at that moment, in milliseconds, and
 * what that said of the second before. */
typedef struct last_second {
    gboolean is_known; /* there was such a moment */
    guint64 since, lost, all;
    gboolean loses_much;
} last_second;

/* One stream, and what of it is to go out. */
typedef struct recv_stream {
    gozdrit_receiver end; /* holds one from the first packet on */
    gozdrit_session session;
    gboolean earns;     /* whether its end's NACKs are earned by what comes */
    guint8 rtx_type;    /* that its retransmissions come with */
    guint64 last_media; /* when the last packet of the stream came, in milliseconds */
    guint32 newest;     /* the timestamp of the last one that came as media */
    guint8 last_type;   /* its type */
    last_second came;
    asked *asked;       /* GOZDRIT_MAX_STORE of them, or NULL where none was needed */
    rtp_times times;
    arrival *arrivals; /* ARRIVALS of them, by the sequence number */
    GQueue held;       /* held_behind */
    guint64 expected;  /* the number of the packet that goes out next */
    guint lost;        /* how many before it were lost, and are to be told */
    guint16 lost_from; /* the first of these */
    GstClockTime last_pts, last_dts; /* of the last packet that went out */
    guint32 last_timestamp;
    gboolean discont;
} recv_stream;

/* So many streams have a receiver at most. */
enum { MOST_RECEIVED = 16 };

/* What is still to be told, without the lock. */
typedef struct untold {
    gint32 refused;      /* an answer of the library, or 0 */
    gint type;           /* of a packet that was dropped for it, or -1 */
    gboolean is_crowded; /* there was no room for another stream */
    stranger_told strangers;
} untold;
#define NOTHING_UNTOLD ((untold){.refused = GOZDRIT_OK, .type = -1})

/* The stream of feedback ends with that of the media, and begins anew with the next one. */
typedef enum feedback_stage { FEEDBACK_TO_BEGIN, FEEDBACK_GOES, FEEDBACK_HAS_ENDED } feedback_stage;

struct _GstGozdritRecv {
    GstElement parent;
    GstPad *sink;
    GstPad *src;
    GstPad *feedback;
    GstPad *reports; /* NULL where it was not requested */

    GMutex starting; /* one start of a task at a time, and whether its pad is open; taken before the lock */
    GMutex lock;     /* one call of the library at a time, and all that follows */
    recv_settings settings;
    type_map types;      /* of the retransmissions, by those of the media */
    GstStructure *ssrcs; /* the same of SSRCs, or NULL */
    recv_caps caps;
    element_time time;
    GstSegment segment;

    recv_stream *streams[MOST_RECEIVED];
    guint count;          /* of these: one, unless there are several */
    recv_stream *stream;  /* that which is meant, by what follows and by most calls: the first one, where nothing says another */
    gboolean crowd_told;  /* there was no room for another one */
    gozdrit_receive_counts past; /* the counts of the sessions before */
    gozdrit_probe_counts past_probes;
    guint64 sessions;
    guint64 strays;  /* packets that came before there was a session, and began none; and those of strangers beside one */
    peers peers; /* who may send at all */
    strangers strangers;
    guint64 unwanted; /* packets of the stream with a payload type that is not the one that is wanted: they went nowhere */
    untold untold;
    gboolean warned; /* a packet that was too long was told */
    candidate other;
    guint64 passed;   /* packets of other streams that went through */
    guint64 dropped;  /* the same, of which too many were ready */
    guint64 rtx_came; /* retransmissions, taken or not */
    guint64 unclaimed; /* of these, those that no stream of several had asked for: they went nowhere */

    gboolean in_place; /* it stands in a jitter buffer's place */
    type_rates rates;
    sync_state sync;
    out_offset offset;
    drop_messages drops;
    guint64 pushed, given_up; /* packets */
    gboolean is_playing; /* else the stream may stand still */
    guint64 npt_due;  /* when what is before npt-stop has gone out, in milliseconds; or G_MAXUINT64 */

    GstBuffer *spare; /* the buffer that the next packet is played into, and */
    GstMapInfo map;   /* its octets */

    GstQueueArray *ready; /* buffers and events, in the order in which they go out */
    guint ready_packets;  /* how many of them are buffers: events have no part in the window */
    GCond ready_cond;     /* for the source pad's task */
    gboolean is_held; /* on behalf of set-active nothing goes out */
    GstClockTime last_out; /* of the last packet that went out, with its offset */
    gboolean has_dropped; /* packets before the next one that goes out */
    gboolean src_open, src_active; /* the pad is active; and the stream is not flushed */
    gboolean src_waits, stalled;   /* stalled: what could be played was not, since too much is ready */
    GstFlowReturn flow;   /* how the last push went */
    gboolean ending;      /* the end of the stream came */
    gboolean ended;       /* and went out */

    GCond timer_cond; /* for the feedback pad's task */
    GstClockID timer_id;
    guint64 timer_until; /* what it waits for: 0 where it does not, and G_MAXUINT64 where only for a call */
    gboolean feedback_open, timer_active; /* as the source pad's two */
    feedback_stage feedback_stage;
    gboolean key_wanted, key_full; /* a key frame is to be asked for, with all headers */
    guint8 key_number;             /* the next such request's */
    guint64 key_requests;          /* that were made */
};

/* ---- streams.c. The lock is held in all of these. */

void streams_begin(GstGozdritRecv *self);
void streams_free(GstGozdritRecv *self);
/* Frees all but the first. None of these has a session. */
void streams_drop_others(GstGozdritRecv *self);
/* A loop over all streams, each of which is the one that is meant. Behind the last one it is the one that was before. */
typedef struct stream_loop {
    recv_stream *before;
    guint next;
} stream_loop;
gboolean streams_next(GstGozdritRecv *self, stream_loop *at);
#define EACH_STREAM(self, at) stream_loop at = {.before = (self)->stream}; streams_next((self), &at);
/* The first stream is meant. */
void streams_first(GstGozdritRecv *self);
/* Whether any has a session. */
gboolean streams_have_begun(GstGozdritRecv *self);
/* The stream whose media have an SSRC is meant; or FALSE. */
gboolean streams_find(GstGozdritRecv *self, guint32 ssrc);
/* What becomes of a packet. The stream that is to take it is meant. */
typedef enum destiny { DESTINY_STREAM, DESTINY_THROUGH, DESTINY_NOWHERE } destiny;
destiny streams_of(GstGozdritRecv *self, GstBuffer *buffer, const guint8 *octets, gsize length, guint64 now);
/* Whether each SSRC is a stream of its own. */
gboolean streams_are_several(const GstGozdritRecv *self);
/* Whether a number is not to be asked for now: its answer could be another stream's. */
gboolean streams_ask_elsewhere(GstGozdritRecv *self, guint16 number, guint64 now);

/* ---- receiving.c. The lock is held in all of these. */

guint64 receiving_now(GstGozdritRecv *self);
/* Whether caps are those of the retransmissions. */
gboolean receiving_is_rtx(const GstCaps *caps);
/* FALSE where the caps are those of the retransmissions, and not what goes out. */
gboolean receiving_caps(GstGozdritRecv *self, const GstCaps *caps);
/* Takes a packet; what can be played then is still to be. */
void receiving_packet(GstGozdritRecv *self, GstBuffer *buffer, const guint8 *octets, gsize length, guint64 now);
/* The type that a property or the caps want, or -1. In a jitter buffer's place what the caps say of it is not looked at. */
gint64 receiving_wanted_type(const GstGozdritRecv *self);
/* The clock rate of a static type, or -1. */
gint64 receiving_static_rate(gint64 type);
/* Whether packets of a type are retransmissions. */
gboolean receiving_is_rtx_type(const GstGozdritRecv *self, guint8 type);
/* Whether nothing says which one stream it is. */
gboolean receiving_is_free(const GstGozdritRecv *self);
/* Whether a packet may begin a session by its type; and whether an SSRC is said to be another stream's, of which no media begins. */
gboolean receiving_is_wanted(const GstGozdritRecv *self, const guint8 *octets);
gboolean receiving_is_taken(const GstGozdritRecv *self, guint32 ssrc);
/* Gives up what is missing, plays all else, and ends the session; and that of each stream. */
void receiving_end(GstGozdritRecv *self);
void receiving_end_all(GstGozdritRecv *self);
/* Forgets what is held, and where the packets' times lie. */
void receiving_flush(GstGozdritRecv *self);

/* ---- asking.c. The lock is held in all of these. */

/* Sets the times of the library, of the stream; and of each. */
void asking_set_stream(GstGozdritRecv *self);
void asking_set(GstGozdritRecv *self);
/* Looks at what came in the last second, where one has passed: as a packet of the stream comes. */
void asking_see(GstGozdritRecv *self, guint64 now);
/* The least time between two asks, in milliseconds. */
guint64 asking_step(const GstGozdritRecv *self);
/* The library's times in force, and the round trip. */
gozdrit_times asking_times(const GstGozdritRecv *self);

/* ---- counts.c. The lock is held in all of these. */

/* What was counted so far: by the sessions before, and by those that there are. */
void counts_all(GstGozdritRecv *self, gozdrit_receive_counts *counts, gozdrit_probe_counts *probes);
/* Adds what the stream's session counted. */
void counts_add(const GstGozdritRecv *self, gozdrit_receive_counts *counts, gozdrit_probe_counts *probes);
/* The library's counts, of all sessions; and these with the element's own. */
gozdrit_receive_counts counts_sums(GstGozdritRecv *self);
GstStructure *counts_told(GstGozdritRecv *self);

/* ---- playing.c. The lock is held in all but the task. */

/* Plays what can be, of the stream; and of each. */
void playing_stream(GstGozdritRecv *self, guint64 now);
void playing_all(GstGozdritRecv *self, guint64 now);
void playing_event(GstGozdritRecv *self, GstEvent *event);
void playing_release(GstGozdritRecv *self);
/* A packet goes out as it came, behind what is ready. */
void playing_pass(GstGozdritRecv *self, GstBuffer *buffer);
void playing_begin_stream(GstGozdritRecv *self);
void playing_clear(GstGozdritRecv *self);
/* Forgets how packets came that are not still to go out. */
void playing_forget(GstGozdritRecv *self);
void playing_task(gpointer pad);

/* ---- feedback.c */

/* Whether somebody takes feedback. */
gboolean feedback_is_taken(const GstGozdritRecv *self);
/* Has the stream's NACKs be earned by what comes, where they leave as packets: an event goes to who has a rate of its own. The lock is held. */
void feedback_set_budget(GstGozdritRecv *self);
/* Wakes the timer, where the session wants to be called earlier than it waits for. The lock is held. */
void feedback_schedule(GstGozdritRecv *self);
void feedback_wake(GstGozdritRecv *self);
/* The end of the media went out, or what begins a stream behind it. The lock is held. */
void feedback_end(GstGozdritRecv *self);
void feedback_go_on(GstGozdritRecv *self);
/* Asks for a key frame. FALSE where there is no session or nobody to ask. */
gboolean feedback_key_unit(GstGozdritRecv *self, const GstEvent *event);
void feedback_task(gpointer pad);

/* ---- tasks.c */

gboolean tasks_activate(GstPad *pad, GstObject *parent, GstPadMode mode, gboolean active);
/* Both, behind a flush and before it. */
void tasks_start(GstGozdritRecv *self);
void tasks_halt(GstGozdritRecv *self);

/* ---- properties.c */

void properties_install(GObjectClass *class);
void properties_set(GObject *object, guint id, const GValue *value, GParamSpec *spec);
void properties_get(GObject *object, guint id, GValue *value, GParamSpec *spec);

/* ---- jitter.c: what a jitter buffer does beside. The lock is held in these. */

void jitter_install(GObjectClass *class);
/* Whether a packet is more than the library takes. */
gboolean jitter_is_long(const guint8 *octets, gsize length);
/* A packet with the header of that one, which stands in the library for it and is to be freed, with its length. */
guint8 *jitter_stand_in(const guint8 *octets, guint8 type, gsize *length);
/* A packet was dropped, and where is the reason; a message of it may be due. */
void jitter_dropped(GstGozdritRecv *self, guint number, GstClockTime at, gboolean late);
/* Drops the oldest of what is ready, where that and the newest packet are farther apart than the latency, by drop-on-latency. */
void jitter_drop_old(GstGozdritRecv *self);

/* ---- ptmap.c: payload types in a jitter buffer's place. The lock is held where nothing else is said. */

void ptmap_install(GObjectClass *class);
/* Whether somebody answers. The lock is not held. */
gboolean ptmap_is_answered(GstGozdritRecv *self);
/* Asks for the caps of a packet's type, where nobody said its clock rate, and lets the lock go meanwhile. */
void ptmap_ask(GstGozdritRecv *self, GstBuffer *buffer);
void ptmap_forget(GstGozdritRecv *self);
/* The times of packets of a type; and forgets all times, but not the rate. */
rtp_times *ptmap_times(GstGozdritRecv *self, guint8 type);
void ptmap_begin_times(GstGozdritRecv *self);
/* Caps tell where the stream begins and ends. */
void ptmap_read_play(GstGozdritRecv *self, const GstCaps *caps);
/* A packet that came has this timestamp: npt-stop comes nearer. */
void ptmap_note_time(GstGozdritRecv *self, guint32 timestamp);
/* Whether npt-stop is past, which is so once. */
gboolean ptmap_is_past(GstGozdritRecv *self, guint64 now);
/* Emits on-npt-stop. The lock is not held. */
void ptmap_npt_stop(GstGozdritRecv *self);

/* ---- sync.c: sender reports. The lock is held where it says so. */

void sync_install(GObjectClass *class);
GstPad *sync_request_pad(GstElement *element, GstPadTemplate *template, const gchar *name, const GstCaps *caps);
void sync_release_pad(GstElement *element, GstPad *pad);
/* Forgets what was reported. The lock is held, as in the next two. */
void sync_forget(GstGozdritRecv *self);
/* The caps tell the CNAMEs of streams. */
void sync_read_caps(GstGozdritRecv *self, const GstCaps *caps);
/* Adds the time of the far clock to a packet that goes out. */
void sync_add_meta(GstGozdritRecv *self, GstBuffer *out, guint32 timestamp, guint8 type);
/* Tells what is to be told. The lock is not held. */
void sync_tell(GstGozdritRecv *self);

/* ---- offset.c. The lock is held in all of these. */

void offset_set(GstGozdritRecv *self, gint64 wanted);
void offset_pause(GstGozdritRecv *self, guint64 paused);
GstClockTime offset_of(const GstGozdritRecv *self, GstClockTime at);
/* Gives a buffer that goes out its times. It takes the reference, and gives one. */
GstBuffer *offset_onto(GstGozdritRecv *self, GstBuffer *out);

/* ---- auxiliary.c */

/* Whether nobody takes feedback, and this is no jitter buffer's place. The lock is held. */
gboolean auxiliary_is(const GstGozdritRecv *self);
/* Whether nothing of the stream came for so long that another one takes its place. The lock is held, as in the next three. */
gboolean auxiliary_is_gone(const GstGozdritRecv *self, guint64 now);
/* Whether a packet of another stream, which follows another one of it, takes the place of the stream, which is gone. */
gboolean auxiliary_takes_over(GstGozdritRecv *self, const guint8 *octets, guint64 now);
/* Whether a packet of the media was repaired upstream. */
gboolean auxiliary_is_repair(const GstGozdritRecv *self, GstBuffer *buffer, const guint8 *octets, gsize length);
/* The retransmission that such a packet was made of, which has two octets more and is to be freed, or NULL where it is no packet. */
guint8 *auxiliary_wrap(GstGozdritRecv *self, const guint8 *octets, gsize length);
/* Asks upstream for what a NACK names, of which it takes the reference. */
void auxiliary_ask(GstGozdritRecv *self, GstBuffer *nack);
/* Whether the stream asked for a number by an event, and may still get it; and it came. The lock is held. */
gboolean auxiliary_has_asked(const GstGozdritRecv *self, guint16 number, guint64 now);
void auxiliary_came(GstGozdritRecv *self, guint16 number);
/* Whether an event from downstream asks for a packet of a stream, which is asked for here. */
gboolean auxiliary_request(GstGozdritRecv *self, const GstEvent *event);

#endif
