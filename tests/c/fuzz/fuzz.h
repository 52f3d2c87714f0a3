/* What the files of `fuzz` share. */
#ifndef FUZZ_H
#define FUZZ_H

#include "gozdrit.h"

#include <stdbool.h>
#include <string.h>

/* ---- the calls, and what came of them (main.c) */

#define CALLS(X) \
    X(version) X(max_payload) X(sender_defaults) X(sender_new) X(sender_free) X(send) X(feedback) X(retransmit) \
    X(tail_loss_probe) X(sender_set_time) X(sender_set_adaptive) X(sender_counts) X(receiver_defaults) X(receiver_new) X(receiver_free) X(receive) \
    X(play) X(nack) X(next_timeout) X(begin) X(reset) X(set_times) X(set_adaptive) X(set_nack_copies) X(set_nack_budget) X(missing) X(rtx_ssrc) X(next_sequence) \
    X(highest_sequence) X(receiver_times) X(receiver_counts) X(receiver_probe_counts) X(rtp_read) X(rtp_write)
#define CALL_NUMBER(name) CALL_##name,
enum call { CALLS(CALL_NUMBER) CALL_COUNT };

/* Begins a call: from here on its pointers are drawn, some of them null, and the size that its struct says. */
void begin_call(enum call call);
/* The same without a null pointer, and with the size that the struct has. */
void begin_plain_call(enum call call);
/* Takes the answer of the call that was begun: 76 where a pointer was null that may not be, 77 where a size was none and what
 * is expected is not of the handle, and else what is expected. */
void end_call(int32_t expected, int32_t came);
/* A pointer of the call, or null. */
void *pointer(void *at);
/* The same of so many octets, which may be null where there are none. */
void *octets_pointer(void *at, size_t length);

/* What a call told where it answered 0, of which is counted how often each was told. */
enum told { RECEIVED_KIND, RECEIVED_REFUSAL, OUTCOME_KIND, OUTCOME_REFUSAL, PLAYED_KIND, TOLD_COUNT };
void count_told(enum told what, uint8_t number);

/* Ends the program, with the seed and the number of the call, where two numbers differ, or something does not hold. */
void same(uint64_t expected, uint64_t got, const char *what);
void holds(bool it, const char *what);

/* ---- numbers at random (memory.c) */

void set_seed(uint64_t seed);
uint64_t random_bits(void);
uint32_t below(uint32_t bound);
uint32_t between(uint32_t least, uint32_t most);
bool one_in(uint32_t many);
void random_octets(uint8_t *out, size_t length);

/* ---- memory that is lent (memory.c) */

enum { HANDLES = 10 };
enum area { AREA_IN, AREA_STRUCT, AREA_TOLD, AREA_OUT, AREA_NUMBER, AREA_HANDLE, AREA_COUNT = AREA_HANDLE + HANDLES };

void make_areas(void);
/* Lends octets that the call writes to; what stands there is arbitrary. */
void *lend_out(enum area area, size_t length);
/* The same of octets that begin with this size. */
void *lend_sized(enum area area, size_t length, size_t size);
/* Lends a copy of octets that the call only reads: a write to them faults. */
void *lend_in(enum area area, const void *from, size_t length);
/* A handle stays where it is, and is lent to be written or to be read. */
void *lend_handle(enum area area, bool to_write);
/* What lies there now, and what lay there when it was lent. */
void *lies(enum area area);
const void *lay(enum area area);
/* Tells that what was lent is as it was, behind so many octets at its front. */
void check_kept(enum area area, size_t written);

/* ---- structs that say their size (sizes.c) */

/* What a struct says: the size that it has, less, more, or more with something behind that is not blank. */
enum said { SAID_SIZE, SAID_LESS, SAID_MORE, SAID_UNKNOWN, SAID_COUNT };

/* Begins a call, whose struct may say another size. */
void begin_sizes(bool may);
enum said what_was_said(void);
/* 77 where that is no size, unless what is expected is of the handle, which is looked at before; else what is expected. */
int32_t unless_bad_size(int32_t expected);
/* What a struct of this size says: another one, one in so many times. */
size_t draw_size(size_t size, uint32_t many);
/* Lends a struct of this size that the call fills: as many octets as it says. */
void *lend_told(size_t size);
/* The same where version 2.0 had `least` octets of the struct. */
void *lend_grown(size_t least, size_t size);
/* Tells that what the struct says is as it was, and so is what lies behind this size. */
void check_told(int32_t answer, size_t size);
/* Lends a configuration of this size, with what it says, and where that is more, octets behind it: blank or not. */
void *lend_config(const void *config, size_t size);
/* Lends so many octets, which a call of defaults fills. */
void *lend_defaults(size_t size);
/* Tells that they say so, and that those behind the ones that are known are blank. */
void check_defaults(int32_t answer, size_t known, size_t size);

/* ---- packets, by the RFCs alone (wire.c) */

enum { LARGEST = 65536, LONGEST = 2048 }; /* of a datagram, and of one that is as long as an end's may be */

/* An RTP packet, as it was read. */
struct packet {
    int32_t fault; /* 0, or 1 to 5 */
    size_t at;     /* where the payload begins */
    size_t length; /* of it */
    uint8_t padding;
    uint32_t words; /* of the extension; the header has the first GOZDRIT_MAX_EXTENSION_WORDS */
    gozdrit_header header;
    uint32_t ssrc;
    uint16_t sequence;
    uint8_t type;
};

void read_packet(const uint8_t *octets, size_t length, struct packet *packet);
/* How long a packet gets. */
size_t packet_length(const gozdrit_header *header, size_t length, uint8_t padding);
size_t write_packet(uint8_t *out, const gozdrit_header *header, const uint8_t *payload, size_t length, uint8_t padding);
/* Sets what a stream gives a packet. */
void set_stream(uint8_t *packet, uint8_t type, uint16_t sequence, uint32_t ssrc);
bool is_rtcp(const uint8_t *octets, size_t length);
uint16_t get16(const uint8_t *at);
uint32_t get32(const uint8_t *at);
void put16(uint8_t *at, uint16_t number);
void put32(uint8_t *at, uint32_t number);
/* A number that stands for a header and a payload: two that differ have two of them, but for one case in 2^64. */
uint64_t digest(const gozdrit_header *header, const uint8_t *payload, size_t length);
/* Tells that a header has what counts of it (by the digest), and the rest as it was before. */
void check_header_rest(const gozdrit_header *before, const gozdrit_header *after);

/* ---- what is drawn (draw.c) */

/* Where a datagram is from. */
struct origin {
    bool is_genuine;        /* a sender made it, and nobody touched it: */
    bool is_retransmission; /* as such, */
    uint16_t number;        /* with the original sequence number, */
    uint64_t digest;        /* of what was sent */
};

struct datagram {
    struct origin origin;
    size_t length;
    uint8_t octets[LARGEST];
};

enum { SESSIONS = 4 };

void draw_session(gozdrit_session *session);
/* The session that both ends of this number mostly have. */
const gozdrit_session *usual_session(unsigned number);
void change_session(unsigned number);
void draw_header(gozdrit_header *header);
size_t draw_payload(uint8_t *out);
/* Keeps a datagram that was made, for the other end. */
void keep_media(unsigned session, const uint8_t *octets, size_t length, const struct origin *origin);
void keep_nack(unsigned session, const uint8_t *octets, size_t length);
/* Draws one for an end. `fed` counts those that it got in their order; `near` is a sequence number. */
void draw_media(struct datagram *drawn, unsigned session, uint64_t *fed, uint16_t near);
void draw_feedback(struct datagram *drawn, unsigned session, uint64_t *fed, uint16_t near);
/* A room about what is needed: enough, just enough, one less, or none. */
size_t draw_room(size_t needed, size_t enough);
uint64_t draw_now(void);

/* ---- the ends (sender.c; receiver.h), and packets (packet.c) */

void make_senders(void);
void make_receivers(void);
/* 0, or what is wrong with a session. */
int32_t check_session(const gozdrit_session *session);
/* Tells that a session is as defaults have it. */
void check_no_session(const gozdrit_session *session);
void call_sender(void);
void call_receiver(void);
void call_packet(void);
void free_senders(void);
void free_receivers(void);

#endif
