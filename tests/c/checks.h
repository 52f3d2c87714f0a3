/* What the files of `calls` share. */
#ifndef CHECKS_H
#define CHECKS_H

#include "gozdrit.h"

#include <stdbool.h>
#include <string.h>

/* Counts a check, and tells its line where it does not hold. */
void check(bool holds, const char *what, const char *file, int line);
void check_answer(int32_t number, int32_t came, const char *call, const char *file, int line);
#define CHECK(c) check((c), #c, __FILE__, __LINE__)
#define ANSWERS(number, call) check_answer((number), (call), #call, __FILE__, __LINE__)

/* What is lent is filled with a pattern first. So it shows whether a call has written to it, or behind what it had to
 * write. */
enum { PATTERN = 0xa5 };
bool is_pattern(const void *from, size_t length);
#define FILL(lent) memset(&(lent), PATTERN, sizeof(lent))
#define UNTOUCHED(lent) is_pattern(&(lent), sizeof(lent))

/* The same of a struct that begins with its size, which has to be said before a call and stays: the pattern is behind it. */
#define FILL_SIZED(lent) (FILL(lent), (void)((lent).size = sizeof(lent)))
#define UNTOUCHED_SIZED(lent)                                                                                           \
    ((lent).size == sizeof(lent)                                                                                        \
     && is_pattern((const uint8_t *)&(lent) + sizeof((lent).size), sizeof(lent) - sizeof((lent).size)))

/* The same octets in a block of just their length, which the caller frees: valgrind sees a read behind it. */
uint8_t *boxed(const uint8_t *octets, size_t length);

/* The session of the tests, as the initializer of a gozdrit_session. */
#define SESSION {0x11111111, 0x22222222, 0x33333333, 96, 97, 0}

/* Writes an RTP packet without CSRC list, extension and padding (RFC 3550, section 5.1), and answers its length. */
size_t write_rtp(uint8_t *out, uint8_t type, uint16_t seq, uint32_t ssrc, const void *payload, size_t length);

/* Writes a generic NACK of so many pairs (RFC 4585, section 6.2.1), and answers its length. The other has one pair, and
 * thus 16 octets. */
enum { NACK_LENGTH = 16 };
size_t write_pairs(uint8_t *out, uint32_t reporter, uint32_t media, const uint16_t *pairs, size_t count);
void write_nack(uint8_t *out, uint32_t reporter, uint32_t media, uint16_t pid, uint16_t blp);

/* ---- ends.c: a call and all that it must give. What does not hold is told with the line of who called. What is expected
 * of a struct needs no size: it stays as it was said before the call. */

/* A datagram, and what it must be to a receiver. */
#define HEARS(...) hears(__FILE__, __LINE__, __VA_ARGS__)
void hears(const char *file, int line, gozdrit_receiver *r, const uint8_t *octets, size_t length, uint64_t now,
           gozdrit_received expected);
#define MEDIA(at) ((gozdrit_received){.kind = GOZDRIT_MEDIA, .sequence = (at)})
#define OVERRUNS(at, dropped) ((gozdrit_received){.kind = GOZDRIT_MEDIA, .sequence = (at), .overrun = (dropped)})
#define RETRANSMITTED(at) ((gozdrit_received){.kind = GOZDRIT_RETRANSMISSION, .sequence = (at)})
#define HELD_BACK(count) ((gozdrit_received){.kind = GOZDRIT_HELD_BACK, .held_back = (count)})
#define RESTARTED(at, count, left)                                                                                     \
    ((gozdrit_received){.kind = GOZDRIT_RESTARTED, .sequence = (at), .held_back = (count), .abandoned = (left)})
#define NOT_HEARD(number) ((gozdrit_received){.kind = GOZDRIT_REFUSED, .refusal = (number)})

/* The same of a media packet whose payload is the low octet of its number, and of a retransmission of such a one. */
#define HEARS_MEDIA(...) hears_media(__FILE__, __LINE__, __VA_ARGS__)
void hears_media(const char *file, int line, gozdrit_receiver *r, uint16_t seq, uint64_t now, gozdrit_received expected);
#define HEARS_RTX(...) hears_rtx(__FILE__, __LINE__, __VA_ARGS__)
void hears_rtx(const char *file, int line, gozdrit_receiver *r, uint32_t ssrc, uint16_t original, uint64_t now,
               gozdrit_received expected);

/* A datagram, and what it must be to a sender. */
#define TOLD(...) is_told(__FILE__, __LINE__, __VA_ARGS__)
void is_told(const char *file, int line, gozdrit_sender *s, const uint8_t *octets, size_t length, gozdrit_outcome expected);
#define NOT_TOLD(number) ((gozdrit_outcome){.kind = GOZDRIT_REFUSED, .refusal = (number)})

/* A play. Of a packet the payload is one octet. */
#define PLAYS(...) plays(__FILE__, __LINE__, __VA_ARGS__)
void plays(const char *file, int line, gozdrit_receiver *r, uint64_t now, uint8_t kind, uint64_t sequence, uint8_t octet);

/* A NACK of so many pairs, and none where there are none. */
#define NACKS(...) nacks(__FILE__, __LINE__, __VA_ARGS__)
void nacks(const char *file, int line, gozdrit_receiver *r, uint64_t now, size_t most, const uint16_t *pairs,
           size_t count);
#define PAIR(pid, blp) ((const uint16_t[]){(pid), (blp)}), 1
#define NO_PAIR NULL, 0

/* What a receiver tells of itself. */
typedef struct state {
    gozdrit_sequence next, highest;
    gozdrit_ssrc ssrc;
    gozdrit_timeout timeout;
    size_t missing;
    gozdrit_receive_counts counts;
    gozdrit_probe_counts probes;
} state;
state state_of(const gozdrit_receiver *r);
/* Both but for the counts. */
bool is_same_state(const state *a, const state *b);

/* What a receiver must tell: the next and the highest one, 0 for none, and how many are missing. */
#define TELLS(...) tells(__FILE__, __LINE__, __VA_ARGS__)
void tells(const char *file, int line, const gozdrit_receiver *r, uint64_t next, uint64_t highest, size_t missing);
/* The time to call it again, or none. */
#define CALLS_AT(...) calls_at(__FILE__, __LINE__, __VA_ARGS__)
void calls_at(const char *file, int line, const gozdrit_receiver *r, bool known, uint64_t time);

bool is_counted(const gozdrit_receiver *r, gozdrit_receive_counts expected);
bool is_told_apart(const gozdrit_receiver *r, gozdrit_probe_counts expected);
bool is_counted_sent(const gozdrit_sender *s, gozdrit_send_counts expected);

/* Each is a file. */
void test_sender(void);
void test_feedback(void);
void test_resend(void);
void test_receiver(void);
void test_times(void);
void test_follows(void);
void test_copies(void);
void test_budget(void);
void test_begin(void);
void test_jumps(void);
void test_kinds(void);
void test_refused_media(void);
void test_learning(void);
void test_sessions(void);
void test_queries(void);
void test_rtp(void);
void test_srtp(void);
void test_types(void);
void test_null(void);
void test_sizes(void);
void test_memory(void);
void test_names(void);

#endif
