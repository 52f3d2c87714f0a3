/*
 * Gozdrit for C, version 2: both ends of an RTP session (RFC 3550) that repairs losses by generic NACK (RFC 4585) and
 * retransmission with SSRC multiplexing (RFC 4588). The library makes datagrams and takes them; sockets, clocks and
 * threads are the caller's. C99 and C++. docs/LIBRARY.md tells how to build and link it, and follows a stream.
 *
 * Words, with those of the standards and of this project's other documents
 *
 *   sequence        an extended sequence number (RFC 3550, appendix A.1), a "place" in the documents: 48 bits that never
 *                   wrap, whose lowest 16 a packet carries. An end begins at 65536 + the first packet's sequence number.
 *                   The extended numbers of the two ends differ by a multiple of 65536.
 *   retransmission  a packet of the second stream, with the original sequence number in front (RFC 4588, section 4): a
 *                   "repair". `rtx` in names, as in SDP.
 *   NACK            a generic NACK (RFC 4585, section 6.2.1): an "ask".
 *   reorder delay   how long a missing packet is waited for before the first NACK for it.
 *   latency         how long a missing packet is waited for at all, from its notice, as by a jitter buffer: the
 *                   "patience" of the documents.
 *   missing         a packet is missing from the one on that shows that it was passed over, and until it is taken, given up
 *                   or overrun.
 *   time            milliseconds of one clock for one end, which the caller hands in as `now`: a "moment". Times need not
 *                   rise: at one before its beginning, no span of time has passed.
 *   end             a sender or a receiver.
 *
 * Answers
 *
 *   Each call answers 0 (GOZDRIT_OK), or the number of the first check that it fails. Only what the caller did wrong, or
 *   what leaves the call nothing to do, is such a number: what the network did is told in the struct that the call fills.
 *   These checks come first, in this order; then those that stand at the call.
 *
 *     76  GOZDRIT_NULL           a pointer is null: see below
 *     71  GOZDRIT_EMPTY_HANDLE   the handle holds no end; for both `new`:
 *     72  GOZDRIT_HANDLE_IN_USE  the handle holds an end already
 *     77  GOZDRIT_BAD_SIZE       the `size` of a struct is none: see below
 *     74  GOZDRIT_TOO_LARGE      a length or a count is above its largest
 *     75  GOZDRIT_NO_ROOM        a buffer has less room than this datagram or payload needs
 *
 *   After any such answer but 0 the end is as it was, and so is each struct and each buffer that was lent. After 0 a
 *   buffer is as it was behind what was written at its front. gozdrit_refusal_name gives each number's name.
 *
 * Versions, and the size of a struct
 *
 *   From 2.0 on no name, number or field of this header changes or goes, and a program that was built with it runs with each
 *   later library of version 2. A later version adds calls, numbers, and fields behind the last octet of those structs that
 *   begin with a `size`: configurations, counts and answers. Such a struct is made by its macro, as `gozdrit_received
 *   received = GOZDRIT_RECEIVED_INIT;`, or a configuration by its call of defaults; either sets `size` to what it has in
 *   the header that the program is compiled with. A call reads and writes no more than that, and takes a field that it does
 *   not reach by its default. It refuses with 77 a size that is less than the struct had in version 2.0, and a
 *   configuration of a later header that says something which this library does not know: where an octet behind what it
 *   knows is not 0. All other structs stay as they are for good. A later library may answer a kind or a refusal that a
 *   program does not know: the program goes on, as it does at GOZDRIT_REFUSED.
 *
 * Null
 *
 *   A pointer may be null where the `length` or `room` beside it is 0, since no octet stands behind it. Each other null
 *   pointer is refused with 76.
 *
 * Memory
 *
 *   gozdrit_sender_new and gozdrit_receiver_new take memory, all that the end will ever need, by malloc; the free of
 *   each gives it back. So does SRTP, which takes more with each SSRC that is new, and refuses it where there is none. No
 *   other call takes or gives back memory. What the pointers of a call point to is lent for the call alone, and stays the
 *   caller's.
 *
 * What the caller must guarantee, since no call can check it
 *
 *   - A handle is zeroed before its first call ( = {0} ). From then on its fields are the library's, and it is not
 *     copied and used twice.
 *   - One call at a time on a handle, from whatever thread. Two handles are independent of each other.
 *   - A pointer that is not null is aligned for its type and valid for all that it stands for: one struct or number, or
 *     as many octets as the `length` or `room` beside it says. What is read through it was written before.
 *   - No two of a call's pointers overlap, and nobody else reads or writes what they point to while the call runs. What
 *     a pointer to const points to is not written by the call.
 *   - malloc and free belong to one allocator, which aligns a block to each power of two up to 16 that divides its size.
 *   - No call is made from a signal handler, nor in the forked child of a process with threads.
 */
#ifndef GOZDRIT_H
#define GOZDRIT_H

#include <stddef.h>
#include <stdint.h>

#include "gozdrit_limits.h" /* GOZDRIT_MAX_PAYLOAD and the other limits of a packet */

#ifdef __cplusplus
extern "C" {
#endif

/* ---- the version: that of this header, and that of the library that is linked */

#define GOZDRIT_VERSION_MAJOR 2
#define GOZDRIT_VERSION_MINOR 5
#define GOZDRIT_VERSION_PATCH 0
#define GOZDRIT_VERSION (GOZDRIT_VERSION_MAJOR * 10000 + GOZDRIT_VERSION_MINOR * 100 + GOZDRIT_VERSION_PATCH)

uint32_t gozdrit_version(void);

/* GOZDRIT_MAX_PAYLOAD of the library. A program checks that it is the header's. */
uint32_t gozdrit_max_payload(void);

/* ---- the numbers of refusals */

#define GOZDRIT_OK 0

/* 1 to 6: octets are no RTP packet (RFC 3550, section 5.1), or no retransmission (RFC 4588, section 4) */
#define GOZDRIT_RTP_SHORT 1     /* there are fewer than 12 octets */
#define GOZDRIT_RTP_VERSION 2   /* the version is not 2 */
#define GOZDRIT_RTP_CSRC_LIST 3 /* the CSRC list does not fit */
#define GOZDRIT_RTP_EXTENSION 4 /* the header extension does not fit */
#define GOZDRIT_RTP_PADDING 5   /* the padding counts no octets, or leaves no payload */
#define GOZDRIT_NO_OSN 6        /* a retransmission has no original sequence number */

/* 11 to 19: octets are no feedback for this sender (RFC 4585, sections 6.1 and 6.2.1) */
#define GOZDRIT_FEEDBACK_SHORT 11   /* fewer octets than the headers have */
#define GOZDRIT_FEEDBACK_VERSION 12 /* the version is not 2 */
#define GOZDRIT_FEEDBACK_PADDED 13  /* a NACK is padded */
#define GOZDRIT_NOT_RTPFB 14        /* no packet is transport layer feedback, type 205 */
#define GOZDRIT_NOT_NACK 15         /* none of those is a generic NACK */
#define GOZDRIT_FEEDBACK_LENGTH 16  /* a packet's length passes the end */
#define GOZDRIT_FEEDBACK_EMPTY 17   /* a NACK names nothing */
#define GOZDRIT_WRONG_MEDIA 18      /* no NACK is of this session, and the first is for another source than its media */
#define GOZDRIT_WRONG_REPORTER 19   /* the same, and the first is from another SSRC than its receiver */

/* 31 to 40: a receiver does not take a packet, or does not begin */
#define GOZDRIT_UNKNOWN_SSRC 31         /* the SSRC is of neither stream */
#define GOZDRIT_UNKNOWN_PAYLOAD_TYPE 32 /* the payload type is not that of the SSRC's stream */
#define GOZDRIT_NOT_STARTED 33          /* a retransmission came before any media, and the receiver did not begin */
#define GOZDRIT_TOO_FAR 34              /* the sequence number is 16384 or more from the highest one, on both sides */
#define GOZDRIT_LATE 35                 /* the packet was played, given up or overrun, or lies before the first one */
#define GOZDRIT_DUPLICATE 36            /* the packet is held already */
#define GOZDRIT_TOO_LONG 37             /* a payload or an extension is above its largest */
#define GOZDRIT_UNASKED 38              /* while the SSRC is learnt: a retransmission of a packet that no NACK named */
#define GOZDRIT_PAST_END 39             /* the extended sequence number would lie below 0, or not below 2^48 */
#define GOZDRIT_HAS_STARTED 40          /* a packet was taken already, or the receiver began before */

/* 44, 45: a sender does not send */
#define GOZDRIT_PADDED_EMPTY 44 /* padding is wanted, and the payload is empty */
#define GOZDRIT_EXHAUSTED 45    /* the next extended sequence number would be 2^48 */

/* 51 to 57: a configuration, and payload types */
#define GOZDRIT_BAD_PAYLOAD_TYPE 51 /* a payload type is out of its bounds, or both are equal */
#define GOZDRIT_SAME_SSRC 52        /* two of the three SSRCs are equal */
#define GOZDRIT_BAD_LIMIT 53        /* another number is out of its bounds */
#define GOZDRIT_TYPES_COUNT 54      /* there is no pair of payload types, or there are more than GOZDRIT_MAX_TYPES (since 2.5) */
#define GOZDRIT_TYPES_RANGE 55      /* a payload type of a pair is out of its bounds (since 2.5) */
#define GOZDRIT_TYPES_TWICE 56      /* a payload type stands in the pairs twice (since 2.5) */
#define GOZDRIT_NO_TYPE 57          /* none of the pairs' types stands behind the payload (since 2.5) */

/* 71 to 77: how a call was made */
#define GOZDRIT_EMPTY_HANDLE 71  /* the handle holds no end */
#define GOZDRIT_HANDLE_IN_USE 72 /* the handle holds an end already */
#define GOZDRIT_OUT_OF_MEMORY 73 /* malloc gave none */
#define GOZDRIT_TOO_LARGE 74     /* a length or a count is above its largest */
#define GOZDRIT_NO_ROOM 75       /* a buffer has less room than this datagram or payload needs */
#define GOZDRIT_NULL 76          /* a pointer is null */
#define GOZDRIT_BAD_SIZE 77      /* a struct is shorter than in version 2.0, or says what this library does not know */

/* 91 to 102: SRTP (RFC 3711) does not protect a datagram, or does not take one */
#define GOZDRIT_SRTP_SHORT 91        /* fewer octets than the headers have, and what stands behind them */
#define GOZDRIT_SRTP_VERSION 92      /* the version is not 2 */
#define GOZDRIT_SRTP_HEADER 93       /* the CSRC list or the header extension does not fit */
#define GOZDRIT_SRTP_SSRC 94         /* an SSRC is not that of its context, which no call here answers */
#define GOZDRIT_SRTP_KEY_END 95      /* the key has no index left: it must be replaced */
#define GOZDRIT_SRTP_FLAG 96         /* E of RTCP is not as the profile has it */
#define GOZDRIT_SRTP_TOO_OLD 97      /* the index lies before those that are known */
#define GOZDRIT_SRTP_TAKEN_BEFORE 98 /* a packet with this index was taken, or protected */
#define GOZDRIT_SRTP_WRONG_TAG 99    /* the tag is wrong */
#define GOZDRIT_SRTP_FULL 100        /* packets left under 65536 SSRCs: the key must be replaced */
#define GOZDRIT_SRTP_NO_MEMORY 101   /* malloc gave none for another SSRC */
#define GOZDRIT_SRTP_BAD_KEY 102     /* the profile is not known, or the key and its salt have not 30 octets */

/* The name of each number above, as docs/PROTOCOL.md has it ("UnknownSource" for 31), "OK" for 0, and "" for any other. */
static inline const char *gozdrit_refusal_name(int32_t number) {
    switch (number) {
    case GOZDRIT_OK: return "OK";
    case GOZDRIT_RTP_SHORT: return "Short";
    case GOZDRIT_RTP_VERSION: return "Version";
    case GOZDRIT_RTP_CSRC_LIST: return "CsrcList";
    case GOZDRIT_RTP_EXTENSION: return "Extension";
    case GOZDRIT_RTP_PADDING: return "Padding";
    case GOZDRIT_NO_OSN: return "NoOsn";
    case GOZDRIT_FEEDBACK_SHORT: return "Short";
    case GOZDRIT_FEEDBACK_VERSION: return "Version";
    case GOZDRIT_FEEDBACK_PADDED: return "Padded";
    case GOZDRIT_NOT_RTPFB: return "NotRtpfb";
    case GOZDRIT_NOT_NACK: return "NotNack";
    case GOZDRIT_FEEDBACK_LENGTH: return "Length";
    case GOZDRIT_FEEDBACK_EMPTY: return "Empty";
    case GOZDRIT_WRONG_MEDIA: return "WrongMedia";
    case GOZDRIT_WRONG_REPORTER: return "WrongReporter";
    case GOZDRIT_UNKNOWN_SSRC: return "UnknownSource";
    case GOZDRIT_UNKNOWN_PAYLOAD_TYPE: return "UnknownType";
    case GOZDRIT_NOT_STARTED: return "NotStarted";
    case GOZDRIT_TOO_FAR: return "Far";
    case GOZDRIT_LATE: return "Late";
    case GOZDRIT_DUPLICATE: return "Duplicate";
    case GOZDRIT_TOO_LONG: return "TooLong";
    case GOZDRIT_UNASKED: return "Unasked";
    case GOZDRIT_PAST_END: return "PastEnd";
    case GOZDRIT_HAS_STARTED: return "HasStarted";
    case GOZDRIT_PADDED_EMPTY: return "PaddedEmpty";
    case GOZDRIT_EXHAUSTED: return "Exhausted";
    case GOZDRIT_BAD_PAYLOAD_TYPE: return "BadType";
    case GOZDRIT_SAME_SSRC: return "SameSsrc";
    case GOZDRIT_BAD_LIMIT: return "BadLimit";
    case GOZDRIT_TYPES_COUNT: return "Count";
    case GOZDRIT_TYPES_RANGE: return "BadType";
    case GOZDRIT_TYPES_TWICE: return "SameType";
    case GOZDRIT_NO_TYPE: return "NoType";
    case GOZDRIT_EMPTY_HANDLE: return "EmptyHandle";
    case GOZDRIT_HANDLE_IN_USE: return "HandleInUse";
    case GOZDRIT_OUT_OF_MEMORY: return "OutOfMemory";
    case GOZDRIT_TOO_LARGE: return "TooLarge";
    case GOZDRIT_NO_ROOM: return "NoRoom";
    case GOZDRIT_NULL: return "Null";
    case GOZDRIT_BAD_SIZE: return "BadSize";
    case GOZDRIT_SRTP_SHORT: return "Short";
    case GOZDRIT_SRTP_VERSION: return "Version";
    case GOZDRIT_SRTP_HEADER: return "Header";
    case GOZDRIT_SRTP_SSRC: return "WrongSource";
    case GOZDRIT_SRTP_KEY_END: return "KeyEnd";
    case GOZDRIT_SRTP_FLAG: return "WrongFlag";
    case GOZDRIT_SRTP_TOO_OLD: return "TooOld";
    case GOZDRIT_SRTP_TAKEN_BEFORE: return "TakenBefore";
    case GOZDRIT_SRTP_WRONG_TAG: return "WrongTag";
    case GOZDRIT_SRTP_FULL: return "Full";
    case GOZDRIT_SRTP_NO_MEMORY: return "OutOfMemory";
    case GOZDRIT_SRTP_BAD_KEY: return "BadKey";
    default: return "";
    }
}

/* ---- limits */

/* GOZDRIT_MAX_PAYLOAD and GOZDRIT_MAX_DATAGRAM are those that the library was built with, GOZDRIT_MAX_CSRCS and
 * GOZDRIT_MAX_EXTENSION_WORDS are the same for good: gozdrit_limits.h. */
#define GOZDRIT_MAX_STORE 8192        /* packets that an end keeps */
#define GOZDRIT_MAX_NACK_DATAGRAM 268 /* octets of a datagram that gozdrit_nack makes */
#define GOZDRIT_MAX_NACKED 1088       /* packets that one NACK can name at most */
#define GOZDRIT_MAX_TYPES 16          /* pairs of payload types under one SSRC (since 2.5) */

/* ---- what is passed */

/* What is true or false: 0 is false, and all else true. The library writes 0 or 1. */
typedef uint8_t gozdrit_bool;

/* A handle of one sender, or of none. Zero it first ( = {0} ), and leave its fields to the library. What it leads to may grow in a
 * later version; the handle itself stays as large as it is. */
typedef struct gozdrit_sender {
    void *at;
    gozdrit_bool held;
} gozdrit_sender;

/* The same of one receiver. */
typedef struct gozdrit_receiver {
    void *at;
    gozdrit_bool held;
} gozdrit_receiver;

/* The same of what protects datagrams that leave, and of what takes the protection off those that come. */
typedef struct gozdrit_srtp_sender {
    void *at;
    gozdrit_bool held;
} gozdrit_srtp_sender;

typedef struct gozdrit_srtp_receiver {
    void *at;
    gozdrit_bool held;
} gozdrit_srtp_receiver;

/* The streams of a session (RFC 4588, section 5.3): three SSRCs that differ, and two payload types that do. */
typedef struct gozdrit_session {
    uint32_t media_ssrc;         /* of the media */
    uint32_t rtx_ssrc;           /* of the retransmissions */
    uint32_t receiver_ssrc;      /* of the receiver's feedback */
    uint8_t media_payload_type;  /* 96 to 127 */
    uint8_t rtx_payload_type;    /* 96 to 127 */
    gozdrit_bool any_media_payload_type; /* that of the media may be a static one: 0 to 127 but 64 to 95 (RFC 5761) */
} gozdrit_session;

/* Made by gozdrit_sender_defaults; then what differs is set. */
typedef struct gozdrit_sender_config {
    size_t size;
    gozdrit_session session;
    uint32_t history;             /* packets that are kept: 1 to GOZDRIT_MAX_STORE */
    uint16_t first_sequence;      /* the first packet's sequence number */
    uint16_t rtx_first_sequence;  /* the first retransmission's */
    uint8_t max_retransmissions;  /* how often one packet is retransmitted at most: 1 to 255 */
    gozdrit_bool any_reporter;    /* NACKs from any SSRC are heard, not the session's receiver's alone */
    /* Which retransmissions fit the time, from the first gozdrit_sender_set_time on. Both are milliseconds, and 0 is without. */
    uint64_t min_resend; /* so long after a retransmission its packet is not retransmitted again: about a round trip */
    uint64_t deadline;   /* so long after it was sent a packet is retransmitted no more: about the far side's latency */
} gozdrit_sender_config;

/* The same by gozdrit_receiver_defaults. */
typedef struct gozdrit_receiver_config {
    size_t size;
    gozdrit_session session;
    uint64_t latency;             /* milliseconds from a missing packet's notice until it is given up; 0: at its notice */
    uint64_t nack_interval;       /* milliseconds from one NACK for a packet to the next; 0: 40, and `adaptive` is 2 where it says 0 */
    uint32_t window;              /* packets that are kept: 1 to GOZDRIT_MAX_STORE */
    uint8_t max_nacks;            /* how often a NACK names one packet at most: 1 to 255 */
    gozdrit_bool learn_rtx_ssrc;  /* the SSRC of the retransmissions is learnt; rtx_ssrc is then not used */
    /* When a media packet is believed whose sequence number has jumped (RFC 3550, appendix A.1): one that lies
     * max_dropout or more ahead of the highest one, or max_misorder or more behind it and is not missing, is held back until
     * so many came, and then the stream restarts with them: by `idle_after`, below. One whose number and timestamp were taken
     * before, of the last 8192 numbers, is refused (GOZDRIT_LATE). 0 is the usual number: 3000, or the window
     * where that is more, so that a gap that it bridges is no restart; 100; 2; and 256. */
    uint16_t max_dropout;
    uint16_t max_misorder;
    uint16_t min_sequential_ahead;
    uint16_t min_sequential_behind;
    uint64_t reorder_delay; /* milliseconds from the notice of a missing packet to the first NACK; 0: none */
    /* What is held back goes on with whatever has not jumped from its own highest number, in any order and with losses.
     * min_sequential_behind of it are believed, ahead and behind alike, or min_sequential_ahead where the stream is idle:
     * where no media packet was taken for so many milliseconds. 0: only the next number in sequence goes on with it, and
     * min_sequential_ahead are believed where the first lies less than half a cycle ahead, min_sequential_behind else. The
     * defaults have 200. */
    uint64_t idle_after;
    uint8_t adaptive; /* what follows the path: GOZDRIT_ADAPTIVE_OFF, GOZDRIT_ADAPTIVE_NACKS or GOZDRIT_ADAPTIVE_SEND_TIME */
} gozdrit_receiver_config;

/* What of a receiver follows what it measures of the path. */
#define GOZDRIT_ADAPTIVE_OFF 0 /* all times stay as they are set; in a configuration whose `nack_interval` is 0, as GOZDRIT_ADAPTIVE_SEND_TIME */
/* `reorder_delay` and `nack_interval` hold until a round trip was measured, and follow the path from then on: the first
 * NACK waits as long as packets were seen to come behind later ones, and as many NACKs follow as have their answers within
 * the latency, no closer than the round trip with its variation (RFC 6298, section 2), or without it where many are lost. */
#define GOZDRIT_ADAPTIVE_NACKS 1
/* That, and a packet is given up by when it was sent: one that was lost in a silence, longer than the latency by a quarter
 * or more and than four of the stream's gaps, is waited for that much less than the latency as it was sent before the
 * silence ended, at the rate before. */
#define GOZDRIT_ADAPTIVE_SEND_TIME 2

/* What a packet carries beside its payload (RFC 3550, sections 5.1 and 5.3.1). */
typedef struct gozdrit_header {
    uint32_t timestamp;                              /* in units of the media's clock */
    uint32_t csrcs[GOZDRIT_MAX_CSRCS];               /* CSRC identifiers; the first csrc_count count */
    uint32_t extension[GOZDRIT_MAX_EXTENSION_WORDS]; /* words of the header extension; the first extension_words count */
    uint16_t extension_profile;                      /* the 16 bits of the extension that the profile defines */
    uint8_t csrc_count;                              /* 0 to GOZDRIT_MAX_CSRCS */
    uint8_t extension_words;                         /* 0 to GOZDRIT_MAX_EXTENSION_WORDS */
    gozdrit_bool has_extension; /* else extension, extension_profile and extension_words are not looked at */
    gozdrit_bool marker;        /* the marker bit */
} gozdrit_header;

/* A datagram that was made. */
typedef struct gozdrit_sent {
    size_t size;
    uint64_t sequence; /* of the packet, also where it is retransmitted */
    size_t length;     /* of the datagram, which stands at the front of `out` */
} gozdrit_sent;

/* What a datagram was to an end: gozdrit_received.kind and gozdrit_outcome.kind. */
#define GOZDRIT_REFUSED 0        /* it was not taken, for the reason `refusal` */
#define GOZDRIT_MEDIA 1          /* a media packet that a receiver took; RTP, which a sender passes over */
#define GOZDRIT_RETRANSMISSION 2 /* a retransmission that was taken */
#define GOZDRIT_RTCP 3           /* RTCP, which a receiver passes over */
#define GOZDRIT_HELD_BACK 4      /* a media packet whose number has jumped: the `held_back`-th that is held back */
#define GOZDRIT_RESTARTED 5      /* the last one that was wanted: the stream restarted with `held_back` of them */
#define GOZDRIT_REPORTS 6        /* RTCP without a generic NACK, which a sender passes over */
#define GOZDRIT_FEEDBACK 7       /* RTCP with a generic NACK of this session */

/* What a datagram was to a receiver. What its kind has no use for is 0. */
typedef struct gozdrit_received {
    size_t size;
    uint64_t sequence;  /* MEDIA, RETRANSMISSION, RESTARTED: of the packet that was taken */
    uint64_t overrun;   /* the same: how many packets the window dropped for good to make room for this one; mostly 0 */
    uint64_t abandoned; /* RESTARTED: how many packets of the stream before were left, neither played nor given up */
    uint32_t held_back; /* HELD_BACK, RESTARTED: how many packets */
    uint8_t kind;
    uint8_t refusal; /* REFUSED: the reason, 1 to 6 or 31 to 39; GOZDRIT_LATE and _DUPLICATE are part of any session */
} gozdrit_received;

/* What a datagram was to a sender. What its kind has no use for is 0. */
typedef struct gozdrit_outcome {
    size_t size;
    uint32_t queued;         /* FEEDBACK: packets that are to be retransmitted, and were not before */
    uint32_t nacks;          /* NACKs of this session */
    uint32_t other_nacks;    /* NACKs for other media, or from other reporters, which were passed over */
    uint32_t nacked;         /* sequence numbers that the session's NACKs name */
    uint32_t not_in_history; /* of these, the numbers that no packet of the history has */
    uint32_t exhausted;      /* of these, the numbers of packets that were retransmitted as often as they may be */
    uint8_t kind;
    uint8_t refusal; /* REFUSED: the reason, 11 to 13 or 16 to 19 */
} gozdrit_outcome;

/* What gozdrit_play did: gozdrit_played.kind */
#define GOZDRIT_WAIT 0   /* nothing */
#define GOZDRIT_PACKET 1 /* it played the next packet */
#define GOZDRIT_GAP 2    /* it gave the next packet up */

typedef struct gozdrit_played {
    size_t size;
    uint64_t sequence;
    size_t length; /* of the payload */
    gozdrit_header header;
    uint8_t kind; /* GOZDRIT_WAIT, GOZDRIT_PACKET or GOZDRIT_GAP */
} gozdrit_played;

/* An extended sequence number, an SSRC, and a time, if there is one: `known` tells. */
typedef struct gozdrit_sequence {
    uint64_t sequence;
    gozdrit_bool known;
} gozdrit_sequence;

typedef struct gozdrit_ssrc {
    uint32_t ssrc;
    gozdrit_bool known;
} gozdrit_ssrc;

typedef struct gozdrit_timeout {
    uint64_t time;
    gozdrit_bool known;
} gozdrit_timeout;

/* The times of NACKs in force, and the round trip from a NACK to its answer, if one was measured: `known` tells. All are
 * milliseconds. */
typedef struct gozdrit_times {
    size_t size;
    uint64_t reorder_delay;
    uint64_t nack_interval;
    uint64_t round_trip; /* smoothed (RFC 6298, section 2), and */
    uint64_t variation;  /* by how much it varies */
    gozdrit_bool known;  /* else the two above are as they were; a receiver that is not adaptive measures none */
} gozdrit_times;

/* What a receiver counted since it was made: a reset starts no count anew, and each stays at 2^64 - 1 once it is there.
 * Each datagram is in one of the first nine. */
typedef struct gozdrit_receive_counts {
    size_t size;
    uint64_t media;           /* media packets that were taken as they came */
    uint64_t retransmissions; /* that were taken */
    uint64_t held_back;       /* media packets that were held back */
    uint64_t restarts;        /* of the stream */
    uint64_t rtcp;            /* datagrams */
    uint64_t duplicate;       /* 36; gozdrit_probe_counts has those of media and of answers to NACKs alone */
    uint64_t late;            /* 35; the same */
    uint64_t too_far;         /* 34 */
    uint64_t refused;         /* for another reason */
    uint64_t overrun;         /* packets that the window dropped for good to make room, but for those of a run held back */
    uint64_t abandoned;       /* packets that a restart left behind, neither played nor given up */
    uint64_t played;
    uint64_t gaps;            /* packets that were given up */
    uint64_t nacks;           /* that were made */
    uint64_t nacked;          /* packets that they named, each as often as it was */
    uint64_t skipped;         /* since 2.1: packets that jumps of the stream passed over, up to 32766 at a time; lost for good */
} gozdrit_receive_counts;

/*
 * What of those datagrams nobody asked for: padding in the stream of the retransmissions (RFC 3550, section 5.1), and
 * retransmissions by which a sender probes for bandwidth. These are apart here, and the last three are the counts above
 * without them. So where `late` rises here, the latency is too short for the round trip; a rise of gozdrit_receive_counts'
 * `late` alone may be probes. A packet counts as asked for while it is among the last `window` that a NACK named, and until
 * the stream restarts.
 */
typedef struct gozdrit_probe_counts {
    size_t size;
    uint64_t padding;     /* padding in the stream of the retransmissions: refused with 6 */
    uint64_t unrequested; /* retransmissions that no NACK asked for, refused with 35, 36 or 38 */
    uint64_t duplicate;   /* 36: media, and answers to NACKs */
    uint64_t late;        /* 35: the same */
    uint64_t refused;     /* for another reason, and not with 34 */
} gozdrit_probe_counts;

/* What a sender counted. The first two are the packet and the octet count of a sender report (RFC 3550, section 6.4.1). */
typedef struct gozdrit_send_counts {
    size_t size;
    uint64_t sent;            /* media packets */
    uint64_t octets;          /* of their payloads, without headers and padding */
    uint64_t retransmissions; /* that were made */
    uint64_t nacks;           /* of this session */
    uint64_t other_nacks;     /* NACKs for other media, or from other reporters, in datagrams with one of this session */
    uint64_t nacked;          /* sequence numbers that the session's NACKs named, each as often as it was */
    uint64_t not_in_history;  /* of these, the numbers that no packet of the history had */
    uint64_t exhausted;       /* of these, the numbers of packets that were retransmitted as often as they may be */
    uint64_t media;           /* RTP datagrams, which were passed over */
    uint64_t reports;         /* RTCP datagrams without a generic NACK */
    uint64_t refused;         /* RTCP datagrams */
    uint64_t early;           /* retransmissions that were passed over: within `min_resend` of the one before */
    uint64_t expired;         /* the same: past the `deadline` */
} gozdrit_send_counts;

/* An RTP packet, and where its payload lies. */
typedef struct gozdrit_packet {
    size_t payload; /* where the payload begins, in octets from the packet's first one: gozdrit_rtp_read tells it */
    size_t length;  /* of the payload: the same */
    gozdrit_header header;
    uint32_t ssrc;
    uint16_t sequence; /* as the packet carries it */
    uint8_t payload_type;
    uint8_t padding; /* how many octets of padding there are, their count included; 0 for none */
} gozdrit_packet;

/* What a call that tells something is handed: a struct that says its size, and is blank behind that. */
#define GOZDRIT_SENT_INIT {sizeof(gozdrit_sent), 0, 0}
#define GOZDRIT_RECEIVED_INIT {sizeof(gozdrit_received), 0, 0, 0, 0, 0, 0}
#define GOZDRIT_OUTCOME_INIT {sizeof(gozdrit_outcome), 0, 0, 0, 0, 0, 0, 0, 0}
#define GOZDRIT_PLAYED_INIT {sizeof(gozdrit_played), 0, 0, {0, {0}, {0}, 0, 0, 0, 0, 0}, 0}
#define GOZDRIT_TIMES_INIT {sizeof(gozdrit_times), 0, 0, 0, 0, 0}
#define GOZDRIT_RECEIVE_COUNTS_INIT {sizeof(gozdrit_receive_counts), 0, 0, 0, 0, 0, 0, 0, 0, 0, 0, 0, 0, 0, 0, 0, 0}
#define GOZDRIT_PROBE_COUNTS_INIT {sizeof(gozdrit_probe_counts), 0, 0, 0, 0, 0}
#define GOZDRIT_SEND_COUNTS_INIT {sizeof(gozdrit_send_counts), 0, 0, 0, 0, 0, 0, 0, 0, 0, 0, 0, 0, 0}

/* ---- the sending end */

/*
 * Fills a configuration: a history of 1024 packets, each retransmitted 16 times at most, and not within 10 ms, and all else 0,
 * also what lies behind the fields that this library knows. `size` is sizeof(gozdrit_sender_config), and becomes the
 * struct's. The session is to be set, and both first sequence numbers, which are to be drawn at random (RFC 3550, section
 * 5.1).
 *
 *   77  size is less than the struct had in version 2.0
 */
int32_t gozdrit_sender_defaults(gozdrit_sender_config *config, size_t size);

/*
 * Makes a sender that sent nothing so far, and puts it into the handle. It takes the memory for `history` packets,
 * some 200 octets more than GOZDRIT_MAX_PAYLOAD each.
 *
 *   51, 52  the session, as gozdrit_session says
 *   53      history is not in 1 to GOZDRIT_MAX_STORE, or max_retransmissions is 0
 *   73      there is no memory for it
 */
int32_t gozdrit_sender_new(const gozdrit_sender_config *config, gozdrit_sender *sender);

/* Gives back the memory of a sender. The handle is then as new: it holds no end, and may be used again. */
int32_t gozdrit_sender_free(gozdrit_sender *sender);

/*
 * Sends a packet: gives it the next sequence number, writes its datagram to the front of `out`, and keeps what it carries.
 * A full history drops its oldest packet for it. `length` is the payload's. `padding` is how many octets of padding the
 * packet gets, their count included, and 0 for none. The caller sends the sent->length octets of `out`, or loses them.
 *
 *   74  length is above GOZDRIT_MAX_PAYLOAD, header->csrc_count above GOZDRIT_MAX_CSRCS, or header->extension_words
 *       above GOZDRIT_MAX_EXTENSION_WORDS where header->has_extension is not 0
 *   75  room is less than the packet has; GOZDRIT_MAX_DATAGRAM is enough for any
 *   44  padding is not 0, and length is
 *   45  there is no sequence number left
 */
int32_t gozdrit_send(gozdrit_sender *sender, const gozdrit_header *header, const uint8_t *payload, size_t length,
                     uint8_t padding, gozdrit_sent *sent, uint8_t *out, size_t room);

/*
 * Takes a datagram that came from the receiver's side, whatever it is, and tells what it was. In RTCP the generic NACKs of
 * this session count, whatever stands beside them (RFC 3550, section 6.1; RFC 5506): each packet of the history that
 * one names is from then on to be retransmitted, unless that was done `max_retransmissions` times already. Several senders
 * may be handed one datagram, and each hears what is its own.
 */
int32_t gozdrit_feedback(gozdrit_sender *sender, const uint8_t *octets, size_t length, gozdrit_outcome *outcome);

/*
 * Writes the next retransmission to the front of `out` (RFC 4588, section 4): that of the least sequence number that is to
 * be retransmitted. Where there is none, sent->length is 0, and sent->sequence and `out` are as they were. Call it until
 * then.
 *
 * Where `min_resend` or a `deadline` holds it is the least one that fits the time. What is to be retransmitted below it and
 * does not fit is passed over, and counted: it may be named again.
 *
 *   75  room is less than the retransmission has; GOZDRIT_MAX_DATAGRAM is enough for any. Where `min_resend` or a `deadline`
 *       holds: room is less than GOZDRIT_MAX_DATAGRAM
 */
int32_t gozdrit_retransmit(gozdrit_sender *sender, gozdrit_sent *sent, uint8_t *out, size_t room);

/*
 * For a sender that falls silent: its newest packet is to be retransmitted, as if a NACK had named it, so that a receiver
 * that takes it notices all that it lacks below it. One that took nothing and did not begin refuses it (33), and so does
 * one that is still to learn the SSRC of the retransmissions (38). It is a tail loss probe (RFC 8985, section 7). `queued`
 * gets 1, or 0 where that was so already, where the packet was retransmitted as often as it may be, or where nothing was
 * sent.
 */
int32_t gozdrit_tail_loss_probe(gozdrit_sender *sender, uint32_t *queued);

/*
 * Tells the time of what is sent and retransmitted from now on, and of feedback. From the first call on `min_resend` and the
 * `deadline` hold, and the sender follows the path unless gozdrit_sender_set_adaptive was called; before it whatever a NACK
 * names is retransmitted.
 */
int32_t gozdrit_sender_set_time(gozdrit_sender *sender, uint64_t now);

/*
 * Since 2.1. 1: the path is measured from now on, and a packet is not retransmitted again while the answer to its last
 * retransmission may wait in a queue, nor within `min_resend`. Two things tell of a queue: what lies beyond twice the
 * least of how long ago the packet behind it was sent when a NACK names a packet for the first time, a round trip; and
 * what was retransmitted just before, as if the path took that as slowly as packets are sent. So over a link of little more
 * than the stream retransmissions don't fill a queue in vain. It wants gozdrit_sender_set_time before each send, each
 * gozdrit_feedback and each gozdrit_retransmit, in milliseconds of a clock that only goes forward. While a queue is seen
 * gozdrit_retransmit wants GOZDRIT_MAX_DATAGRAM of room, as with `min_resend`.
 * 0: `min_resend` alone holds. Before the first call it is 1 from the first gozdrit_sender_set_time on.
 *
 *   53  adaptive is neither 0 nor 1
 */
int32_t gozdrit_sender_set_adaptive(gozdrit_sender *sender, uint8_t adaptive);

/* What it counted. */
int32_t gozdrit_sender_counts(const gozdrit_sender *sender, gozdrit_send_counts *counts);

/* ---- the receiving end */

/*
 * Fills a configuration: a window of 512 packets, a latency of 200 ms, a reorder delay of 20 ms, 16 NACKs for one packet at
 * most, the usual numbers of a jump, and all else 0, also what lies behind the fields that this library knows. So the times
 * of NACKs follow the path, and packets are given up by when they were sent. `size` is sizeof(gozdrit_receiver_config), and
 * becomes the struct's. The session is to be set.
 *
 *   77  size is less than the struct had in version 2.0
 */
int32_t gozdrit_receiver_defaults(gozdrit_receiver_config *config, size_t size);

/*
 * Makes a receiver that took nothing so far, and puts it into the handle. It takes the memory for twice `window` packets,
 * some 200 octets more than GOZDRIT_MAX_PAYLOAD each, of which it touches what follows the most packets that it held; and
 * 98,304 octets that remember what was taken.
 *
 *   51, 52  the session, as gozdrit_session says
 *   53      window is not in 1 to GOZDRIT_MAX_STORE, or max_nacks is 0, or adaptive is not 0, 1 or 2
 *   73      there is no memory for it
 */
int32_t gozdrit_receiver_new(const gozdrit_receiver_config *config, gozdrit_receiver *receiver);

/* Gives back the memory of a receiver. The handle is then as new: it holds no end, and may be used again. */
int32_t gozdrit_receiver_free(gozdrit_receiver *receiver);

/*
 * Takes a datagram that came from the sender's side, whatever it is, copies what a packet of its carries, and tells what it
 * was. The first media packet starts the receiver: what lies before it is never missing, unless gozdrit_begin said so. A
 * packet that lies `window` or more above the next one to play drops what it leaves no room for: received->overrun.
 *
 * A packet that is all padding is taken as one with an empty payload.
 *
 * A receiver that learns takes as a retransmission what a NACK of its named, under any SSRC but the media's and its own;
 * the SSRC of the first that it takes is the one of the retransmissions from then on, until the receiver is reset, or two
 * in a row are refused for their SSRC that would have repaired what a NACK of its named: then it learns anew.
 *
 * received->refusal, where received->kind is GOZDRIT_REFUSED, is the first of:
 *
 *   1 to 5  the octets are no RTP packet
 *   31      the SSRC is neither that of the media nor that of the retransmissions; where the latter is not learnt so
 *           far, it is the receiver's own
 *   32      the payload type is not that of the SSRC's stream
 *   6       a retransmission without an original sequence number
 *   37      the payload has more than GOZDRIT_MAX_PAYLOAD octets, or the extension more than GOZDRIT_MAX_EXTENSION_WORDS
 *           words
 *   33      a retransmission, before any media packet and gozdrit_begin
 *   34, 39  the sequence number stands for none near the highest one
 *   38      the SSRC is to be learnt, and the packet is not one that is missing and that a NACK named
 *   35, 36  the packet lies below the next one to play, or is held already
 */
int32_t gozdrit_receive(gozdrit_receiver *receiver, const uint8_t *octets, size_t length, uint64_t now,
                        gozdrit_received *received);

/*
 * Plays the next packet, gives it up, or waits. played->kind says which:
 *
 *   GOZDRIT_PACKET  it was held. Its extended sequence number, the payload's length and the header stand in `played`, its
 *                   payload at the front of `payload`. The header's arrays behind their counts are as they were. Where
 *                   has_extension is 0, extension_words is too, and extension_profile is as it was.
 *   GOZDRIT_GAP     it was missing, and the latency, or what GOZDRIT_ADAPTIVE_SEND_TIME left of it, has passed. Its extended
 *                   sequence number stands in `played`; all else of it, and `payload`, is as it was.
 *   GOZDRIT_WAIT    it is missing, and the latency has not passed, or nothing is held. All else of `played`, and
 *                   `payload`, is as it was.
 *
 * Packets are played or given up in their order, each once, until the receiver is reset or the stream restarts. Call it
 * until it waits.
 *
 *   75  room is less than the payload has; GOZDRIT_MAX_PAYLOAD is enough for any
 */
int32_t gozdrit_play(gozdrit_receiver *receiver, uint64_t now, gozdrit_played *played, uint8_t *payload, size_t room);

/*
 * Writes a datagram with one generic NACK to the front of `out`, for missing packets that are due, and its length to
 * `length`. A packet is due that was named fewer than `max_nacks` times, and never, and `reorder_delay` milliseconds ago or
 * more it was noticed, or at least `nack_interval` milliseconds ago. It names `most` packets at most; GOZDRIT_MAX_NACKED is
 * as many as it can. Where none is due, `length` is 0, and `out` is as it was. One datagram may leave some that are due:
 * call it until then, or as often as feedback may be sent (RFC 4585, section 3.5).
 *
 * Where the times of NACKs follow the path each leaves twice, so that the loss of one of both costs no time: the next call
 * writes the same octets once more, also where they name more than `most`, and counts nothing. That ends for good where the
 * sender answers both copies: of the packets whose answers are timed, one at a time, and that were named once, more than
 * half and eight came a second time. gozdrit_set_nack_copies says otherwise.
 *
 *   75  room is less than the datagram has; GOZDRIT_MAX_NACK_DATAGRAM is enough for any
 */
int32_t gozdrit_nack(gozdrit_receiver *receiver, uint64_t now, size_t most, size_t *length, uint8_t *out, size_t room);

/*
 * The least time from which on gozdrit_play does not wait or gozdrit_nack, for one packet or more, makes a datagram, if
 * nothing more comes and the times stay: a loop sleeps until then, or until a datagram comes. Where there is none,
 * timeout->known is 0, and timeout->time is as it was. A time in the past is one that has come: it is 0 where a packet can
 * be played, or a NACK is to leave once more.
 */
int32_t gozdrit_next_timeout(const gozdrit_receiver *receiver, gozdrit_timeout *timeout);

/*
 * Begins at a sequence number that was signalled, before any packet came: what is lost of the first packets is then missing
 * as any other.
 *
 *   40  a packet was taken already, or it began before
 */
int32_t gozdrit_begin(gozdrit_receiver *receiver, uint16_t first);

/* Makes the receiver one that took nothing, with the same memory. What it holds is gone, and in no count; the counts go on,
 * and so do the times, and the round trip that was measured. */
int32_t gozdrit_reset(gozdrit_receiver *receiver);

/*
 * Sets the three times, as a round-trip time changes. What was noticed, and what NACKs named, stays. Ask
 * gozdrit_next_timeout again. One that is adaptive has the last two follow the path again when the next datagram comes.
 *
 *   53  nack_interval is 0
 */
int32_t gozdrit_set_times(gozdrit_receiver *receiver, uint64_t latency, uint64_t reorder_delay, uint64_t nack_interval);

/*
 * What follows the path from now on: config->adaptive. Where the times of NACKs do again, they follow what was measured
 * before when the next datagram comes; where they don't, they stay as they are until they are set. Ask gozdrit_next_timeout
 * again.
 *
 *   53  adaptive is not 0, 1 or 2
 */
int32_t gozdrit_set_adaptive(gozdrit_receiver *receiver, uint8_t adaptive);

/*
 * Since 2.2. How often each NACK leaves from now on: 1, once; 2, twice; 0, as it is before the first call: as gozdrit_nack
 * says. What is to leave once more already does.
 *
 *   53  copies is not 0, 1 or 2
 */
int32_t gozdrit_set_nack_copies(gozdrit_receiver *receiver, uint8_t copies);

/*
 * Since 2.3. Whether what leaves as NACKs is earned by what comes from now on: 0, no, as it is before the first call; 1, yes. Where datagrams may
 * come from anybody it has to be: else whoever forges an address has it flooded with NACKs. Each datagram that is received earns a twentieth of its
 * octets (RFC 3550, section 6.2), or 24 where that is more, and it has them; no more than GOZDRIT_MAX_NACK_DATAGRAM octets are saved up, and no more
 * NACKs leave than datagrams came. A NACK names no more packets than have room there with four octets each behind its first twelve, and where
 * none has, gozdrit_nack writes none, and gozdrit_next_timeout tells when a packet can be played. It leaves twice only where both are earned.
 *
 * With each call it begins anew, with nothing earned, and with gozdrit_reset: call it where the sender is at another address, and hand the receiver
 * only what comes from where NACKs go. What was to leave once more does not.
 *
 *   53  earned is not 0 or 1
 */
int32_t gozdrit_set_nack_budget(gozdrit_receiver *receiver, uint8_t earned);

/* How many packets are missing. */
int32_t gozdrit_missing(const gozdrit_receiver *receiver, size_t *count);

/* The SSRC of the retransmissions: the session's, or the one that was learnt, where the receiver learns it. Until it
 * has, ssrc->known is 0, and ssrc->ssrc is as it was. */
int32_t gozdrit_rtx_ssrc(const gozdrit_receiver *receiver, gozdrit_ssrc *ssrc);

/* The extended sequence number of the next packet to play. Before the first packet, and before gozdrit_begin,
 * sequence->known is 0, and sequence->sequence is as it was. */
int32_t gozdrit_next_sequence(const gozdrit_receiver *receiver, gozdrit_sequence *sequence);

/* The highest one that was taken, and from gozdrit_begin until then the one before the first: the extended highest sequence
 * number received of a report (RFC 3550, section 6.4.1), but for a multiple of 65536. Else as above. */
int32_t gozdrit_highest_sequence(const gozdrit_receiver *receiver, gozdrit_sequence *sequence);

/* The times of NACKs in force, and the round trip that they follow. */
int32_t gozdrit_receiver_times(const gozdrit_receiver *receiver, gozdrit_times *times);

/* What it counted. */
int32_t gozdrit_receiver_counts(const gozdrit_receiver *receiver, gozdrit_receive_counts *counts);

/* What of that nobody asked for. */
int32_t gozdrit_receiver_probe_counts(const gozdrit_receiver *receiver, gozdrit_probe_counts *counts);

/* ---- one RTP packet, for programs that have one to hand on (RFC 3550, section 5.1) */

/*
 * Reads an RTP packet: its header, its numbers, and where its payload lies. The header's arrays behind their counts are as
 * they were, and so is extension_profile where there is no extension.
 *
 *   1 to 5  the octets are no RTP packet
 *   37      the header extension has more than GOZDRIT_MAX_EXTENSION_WORDS words
 */
int32_t gozdrit_rtp_read(const uint8_t *octets, size_t length, gozdrit_packet *packet);

/*
 * Writes the RTP packet of a header and a payload to the front of `out`, and its length to `written`. packet->payload and
 * packet->length are not looked at.
 *
 *   74  as for gozdrit_send
 *   75  room is less than the packet has
 *   51  packet->payload_type is above 127
 *   44  packet->padding is not 0, and length is
 */
int32_t gozdrit_rtp_write(const gozdrit_packet *packet, const uint8_t *payload, size_t length, size_t *written,
                          uint8_t *out, size_t room);

/* ---- Several payload types under one SSRC (RFC 4588, section 8.6), around the calls above. Each type of the media has one for its
 * retransmissions: `types` has two octets a pair, as {96, 97, 101, 102, 0, 103}, and an end has the first pair in its configuration. A
 * payload that is handed to gozdrit_send has the type of its packet as one octet more behind it, and so has one that gozdrit_play gives:
 * one of GOZDRIT_MAX_PAYLOAD octets has no room for that. Between the ends nothing shows it. (since 2.5) */

/*
 * Has a datagram that came, the first `length` octets of `room`, be as gozdrit_receive takes it, in its place: a packet of the media or a
 * retransmission, of whichever pair, is one of the first pair. `entered_length` is told how many octets it has then. All else stays.
 * A packet of RTP from an application is so for gozdrit_rtp_read.
 *
 *   54, 55, 56  of the types
 *   75          room is less than length, or than the datagram has then
 *   37          with its type the payload is above its largest, or the header extension is
 */
int32_t gozdrit_types_enter(const uint8_t *types, size_t types_length, uint8_t *octets, size_t room, size_t length,
                            size_t *entered_length);

/*
 * Has a datagram that gozdrit_send, gozdrit_retransmit or gozdrit_rtp_write wrote leave under its own type, in its place. `left_length` is told
 * how many octets it has then. A NACK stays as it is.
 *
 *   54, 55, 56  of the types
 *   57          behind the payload stands no type of the media
 *   75          room is less than length
 *   37          the header extension is above its largest
 */
int32_t gozdrit_types_leave(const uint8_t *types, size_t types_length, uint8_t *octets, size_t room, size_t length,
                            size_t *left_length);

/* ---- SRTP (RFC 3711), around the calls above: what leaves is protected, and what comes is unprotected, in its place.
 * Under one key there is a context for each SSRC, of RTP and of RTCP. A sender keeps each until its key is replaced, for 65536
 * SSRCs, since no two packets may leave under one index (section 9.1): a session that begins anew has to have other SSRCs or
 * another key, and each direction has to have other SSRCs. A receiver begins a context by a packet with a right tag, and knows
 * the 16 SSRCs that came last. (since 2.4) */

/* Profiles, by the numbers of RFC 5764, section 4.1.2. Tags have 80 bits. */
#define GOZDRIT_SRTP_AES128_CM_HMAC_SHA1_80 1 /* encrypted by AES-128 in counter mode */
#define GOZDRIT_SRTP_NULL_HMAC_SHA1_80 5      /* not encrypted */

#define GOZDRIT_SRTP_KEY 30    /* octets of a master key of 16 and its salt of 14 */
#define GOZDRIT_SRTP_GROWTH 14 /* octets more that a datagram of RTCP has when it is protected; of RTP 10 */

/*
 * Makes what protects datagrams, and puts it into the handle; and the same of what takes the protection off.
 *
 *   102  the profile is not known, or length is not GOZDRIT_SRTP_KEY
 *   73   there is no memory for it
 */
int32_t gozdrit_srtp_sender_new(uint16_t profile, const uint8_t *key, size_t length, gozdrit_srtp_sender *sender);
int32_t gozdrit_srtp_receiver_new(uint16_t profile, const uint8_t *key, size_t length, gozdrit_srtp_receiver *receiver);

/* Give back the memory. The handle is then as new. */
int32_t gozdrit_srtp_sender_free(gozdrit_srtp_sender *sender);
int32_t gozdrit_srtp_receiver_free(gozdrit_srtp_receiver *receiver);

/*
 * Protects a datagram, RTP or RTCP (RFC 5761, section 4), in its place: the first `length` octets of `room`. `protected_length`
 * is told how many it has then.
 *
 *   74             length is above 65535
 *   75             room is less than the datagram has when it is protected
 *   91, 92, 93     it is no RTP, or no RTCP
 *   100, 101       its SSRC is new
 *   95, 97, 98     its index is used up, too old, or was used
 */
int32_t gozdrit_srtp_protect(gozdrit_srtp_sender *sender, uint8_t *octets, size_t room, size_t length,
                             size_t *protected_length);

/*
 * Takes the protection off a datagram in its place. `plain_length` is told how many octets it has then; the others stay behind it.
 * `now` says how many rollover counters may be tried for packets whose tag is wrong under the one that is guessed (docs/PROTOCOL.md).
 *
 *   74                 length is above 65535
 *   91, 92, 93         it is no SRTP, or no SRTCP
 *   95, 96, 97, 98, 99 it is not the other end's, or came before
 *   101                its SSRC is new
 */
int32_t gozdrit_srtp_unprotect(gozdrit_srtp_receiver *receiver, uint8_t *octets, size_t length, uint64_t now,
                               size_t *plain_length);

#ifdef __cplusplus
}
#endif
#endif
