/* Structs that a call fills, which begin with their size: those that are too short, and those of a later header, which has
 * fields behind the ones that are known. */
#include "sizes.h"

#include <stdio.h>
#include <stdlib.h>

const size_t BEHIND[BEHINDS] = {1, 8, 40};
enum { STEPS = 8, FAULTS = 3, ROOM = GOZDRIT_MAX_DATAGRAM };

size_t short_size(size_t size, int which) { return which == 0 ? 0 : which == 1 ? size / 2 : size - 1; }

void holds(const char *name, bool held, const char *what, const char *file, int line) {
    char told[200];
    snprintf(told, sizeof told, "%s: %s", name, what);
    check(held, told, file, line);
}

uint8_t *patterned(size_t length) {
    uint8_t *made = (uint8_t *)malloc(length);
    if (!made) abort();
    memset(made, PATTERN, length);
    return made;
}

bool is_zero(const uint8_t *from, size_t length) {
    for (size_t i = 0; i < length; i++) {
        if (from[i] != 0) return false;
    }
    return true;
}

void set_size(uint8_t *lent, size_t size) { memcpy(lent, &size, sizeof size); }

size_t size_of(const uint8_t *lent) {
    size_t size;
    memcpy(&size, lent, sizeof size);
    return size;
}

size_t at_least_size(size_t length) { return length < sizeof length ? sizeof length : length; }

bool is_same_handles(const ends *a, const ends *b) {
    return a->sender.at == b->sender.at && a->sender.held == b->sender.held && a->receiver.at == b->receiver.at
           && a->receiver.held == b->receiver.held;
}

/* ---- the calls that fill a struct */

static const gozdrit_header HEADER = {.timestamp = 9};
static const uint8_t PAYLOAD[GOZDRIT_MAX_PAYLOAD + 1] = {7};

/* What a call is lent beside its struct. */
typedef struct beside {
    gozdrit_sender *sender;
    gozdrit_receiver *receiver;
    int step;
    size_t length; /* of a payload */
    uint8_t padding;
    uint8_t *out;
    size_t room;
} beside;

typedef struct call {
    const char *name;
    int32_t (*make)(const beside *b, void *lent);
    size_t size;            /* of the struct */
    size_t least;           /* what it had in version 2.0 */
    size_t front;           /* so many of its octets are of fields, and none lies between two */
    size_t last;            /* where the last octet of a field lies */
    const void *init;       /* what the macro of the struct makes */
    bool writes;            /* to `out` */
    int32_t faults[FAULTS]; /* what it answers to each fault of `faulty` */
} call;

/* The datagram of a step: to a receiver media, a retransmission, RTCP three times, a jump that is held back, another one
 * that restarts the stream, and one that it holds. To a sender that RTCP is a NACK, a refused one, and reports. */
static size_t write_datagram(uint8_t *out, int step) {
    static const uint8_t report[4] = {0x80, 201, 0, 0};
    static const uint16_t jumps[3] = {9000, 9001, 9001};
    if (step == 0) return write_rtp(out, 96, 106, 0x11111111, PAYLOAD, 1);
    if (step == 1) return write_rtp(out, 97, 1, 0x22222222, "\0\147b", 3);
    if (step >= 5) return write_rtp(out, 96, jumps[step - 5], 0x11111111, PAYLOAD, 1);
    if (step == 4) memcpy(out, report, sizeof report);
    else write_nack(out, 0x33333333, step == 2 ? 0x11111111 : 0x44444444, 100, 0xffff);
    return step == 4 ? sizeof report : NACK_LENGTH;
}

static int32_t call_send(const beside *b, void *lent) {
    return gozdrit_send(b->sender, &HEADER, PAYLOAD, b->length, b->padding, (gozdrit_sent *)lent, b->out, b->room);
}

static int32_t call_retransmit(const beside *b, void *lent) {
    return gozdrit_retransmit(b->sender, (gozdrit_sent *)lent, b->out, b->room);
}

static int32_t call_feedback(const beside *b, void *lent) {
    uint8_t octets[NACK_LENGTH];
    return gozdrit_feedback(b->sender, octets, write_datagram(octets, b->step), (gozdrit_outcome *)lent);
}

static int32_t call_sender_counts(const beside *b, void *lent) {
    return gozdrit_sender_counts(b->sender, (gozdrit_send_counts *)lent);
}

static int32_t call_receive(const beside *b, void *lent) {
    uint8_t octets[NACK_LENGTH];
    return gozdrit_receive(b->receiver, octets, write_datagram(octets, b->step), 50, (gozdrit_received *)lent);
}

static int32_t call_play(const beside *b, void *lent) {
    return gozdrit_play(b->receiver, 1000, (gozdrit_played *)lent, b->out, b->room);
}

static int32_t call_times(const beside *b, void *lent) {
    return gozdrit_receiver_times(b->receiver, (gozdrit_times *)lent);
}

static int32_t call_receiver_counts(const beside *b, void *lent) {
    return gozdrit_receiver_counts(b->receiver, (gozdrit_receive_counts *)lent);
}

static int32_t call_probe_counts(const beside *b, void *lent) {
    return gozdrit_receiver_probe_counts(b->receiver, (gozdrit_probe_counts *)lent);
}

static const gozdrit_sent SENT = GOZDRIT_SENT_INIT;
static const gozdrit_received RECEIVED = GOZDRIT_RECEIVED_INIT;
static const gozdrit_outcome OUTCOME = GOZDRIT_OUTCOME_INIT;
static const gozdrit_played PLAYED = GOZDRIT_PLAYED_INIT;
static const gozdrit_times TIMES = GOZDRIT_TIMES_INIT;
static const gozdrit_receive_counts RECEIVE_COUNTS = GOZDRIT_RECEIVE_COUNTS_INIT;
static const gozdrit_probe_counts PROBE_COUNTS = GOZDRIT_PROBE_COUNTS_INIT;
static const gozdrit_send_counts SEND_COUNTS = GOZDRIT_SEND_COUNTS_INIT;

/* The octets of a struct: all of them are of fields, or those up to its last field, which has one octet. */
#define WHOLE(type) sizeof(type), sizeof(type), sizeof(type), sizeof(type) - 1
#define UP_TO(type, field) sizeof(type), sizeof(type), offsetof(type, field) + 1, offsetof(type, field)
/* It has grown since version 2.0, by this field and those behind it. */
#define GROWN(type, field) sizeof(type), offsetof(type, field), sizeof(type), sizeof(type) - 1
#define IN_HEADER(field) (offsetof(gozdrit_played, header) + offsetof(gozdrit_header, field))

static const call CALLS[] = {
    {"gozdrit_send", call_send, WHOLE(gozdrit_sent), &SENT, true,
     {GOZDRIT_TOO_LARGE, GOZDRIT_NO_ROOM, GOZDRIT_PADDED_EMPTY}},
    {"gozdrit_retransmit", call_retransmit, WHOLE(gozdrit_sent), &SENT, true, {GOZDRIT_OK, GOZDRIT_NO_ROOM, GOZDRIT_OK}},
    {"gozdrit_feedback", call_feedback, UP_TO(gozdrit_outcome, refusal), &OUTCOME, false, {0, 0, 0}},
    {"gozdrit_sender_counts", call_sender_counts, WHOLE(gozdrit_send_counts), &SEND_COUNTS, false, {0, 0, 0}},
    {"gozdrit_receive", call_receive, UP_TO(gozdrit_received, refusal), &RECEIVED, false, {0, 0, 0}},
    {"gozdrit_play", call_play, sizeof(gozdrit_played), sizeof(gozdrit_played), IN_HEADER(marker) + 1, offsetof(gozdrit_played, kind), &PLAYED,
     true, {GOZDRIT_OK, GOZDRIT_NO_ROOM, GOZDRIT_OK}},
    {"gozdrit_receiver_times", call_times, UP_TO(gozdrit_times, known), &TIMES, false, {0, 0, 0}},
    {"gozdrit_receiver_counts", call_receiver_counts, GROWN(gozdrit_receive_counts, skipped), &RECEIVE_COUNTS, false,
     {0, 0, 0}},
    {"gozdrit_receiver_probe_counts", call_probe_counts, WHOLE(gozdrit_probe_counts), &PROBE_COUNTS, false, {0, 0, 0}},
};
enum { CALL_COUNT = sizeof CALLS / sizeof *CALLS };

/* ---- what each of them is tried with */

/* Packets 100 to 104 are sent, of which the even ones come. The others are named by a NACK, and both are to be
 * retransmitted; the first of them comes that way, and a round trip is measured by it. */
static void use(ends *e) {
    uint8_t out[64], nack[NACK_LENGTH];
    for (uint16_t seq = 100; seq < 105; seq++) {
        gozdrit_sent sent = GOZDRIT_SENT_INIT;
        ANSWERS(GOZDRIT_OK, gozdrit_send(&e->sender, &HEADER, PAYLOAD, 1, 0, &sent, out, sizeof out));
        if (seq % 2 == 0) HEARS_MEDIA(&e->receiver, seq, 0, MEDIA(65536 + (uint64_t)seq));
    }
    NACKS(&e->receiver, 0, GOZDRIT_MAX_NACKED, PAIR(101, 2));
    write_nack(nack, 0x33333333, 0x11111111, 101, 2);
    TOLD(&e->sender, nack, sizeof nack,
         (gozdrit_outcome){.kind = GOZDRIT_FEEDBACK, .queued = 2, .nacks = 1, .nacked = 2});
    HEARS_RTX(&e->receiver, 0x22222222, 101, 40, RETRANSMITTED(65637));
}

static beside around(ends *e, int step, uint8_t *out) {
    const beside b = {&e->sender, &e->receiver, step, 1, 0, out, ROOM};
    memset(out, PATTERN, ROOM);
    return b;
}

/* A struct of this size in a block of so many octets is refused, and all that is lent stays as it was. */
static void refuses(const call *c, ends *e, int step, size_t size, size_t length) {
    const ends at = *e;
    uint8_t out[ROOM], *lent = patterned(length), *before;
    const beside b = around(e, step, out);
    set_size(lent, size);
    before = boxed(lent, length);
    GIVES(c, GOZDRIT_BAD_SIZE, c->make(&b, lent));
    HOLDS(c, memcmp(lent, before, length) == 0 && UNTOUCHED(out) && is_same_handles(e, &at));
    free(lent);
    free(before);
}

/* Two pairs of ends tell the same of themselves. */
static void compare(const call *c, const ends *one, const ends *other) {
    const state a = state_of(&one->receiver), b = state_of(&other->receiver);
    gozdrit_send_counts sent = GOZDRIT_SEND_COUNTS_INIT, also_sent;
    FILL_SIZED(also_sent);
    GIVES(c, GOZDRIT_OK, gozdrit_sender_counts(&one->sender, &sent));
    GIVES(c, GOZDRIT_OK, gozdrit_sender_counts(&other->sender, &also_sent));
    HOLDS(c, is_same_state(&a, &b) && memcmp(&sent, &also_sent, sizeof sent) == 0);
    HOLDS(c, memcmp(&a.counts, &b.counts, sizeof a.counts) == 0 && memcmp(&a.probes, &b.probes, sizeof a.probes) == 0);
}

/* The struct of a later header is filled as this one's, its size stays, and so does all behind what is known. */
static void answers_alike(const call *c, ends *plain, ends *tried, int step, size_t behind) {
    uint8_t *lent = patterned(c->size), *larger = patterned(c->size + behind), out[ROOM], also_out[ROOM];
    const beside one = around(plain, step, out), other = around(tried, step, also_out);
    const size_t from = sizeof from; /* the fields that are told lie behind the size */
    set_size(lent, c->size);
    set_size(larger, c->size + behind);
    GIVES(c, GOZDRIT_OK, c->make(&one, lent));
    GIVES(c, GOZDRIT_OK, c->make(&other, larger));
    HOLDS(c, size_of(lent) == c->size && size_of(larger) == c->size + behind && is_pattern(larger + c->size, behind));
    HOLDS(c, memcmp(lent + from, larger + from, c->front - from) == 0 && lent[c->last] == larger[c->last]);
    HOLDS(c, !is_pattern(lent + from, c->last + 1 - from) && memcmp(out, also_out, ROOM) == 0);
    free(lent);
    free(larger);
}

/* The struct of an earlier header, from version 2.0 on, is filled with what it had there, and with no part of a field. */
static void answers_earlier(const call *c, ends *plain, ends *tried, int step) {
    const size_t from = sizeof from;
    for (size_t size = c->least; size < c->size; size++) {
        uint8_t *lent = patterned(c->size), *earlier = patterned(c->size), out[ROOM], also_out[ROOM];
        const beside one = around(plain, step, out), other = around(tried, step, also_out);
        set_size(lent, c->size);
        set_size(earlier, size);
        GIVES(c, GOZDRIT_OK, c->make(&one, lent));
        GIVES(c, GOZDRIT_OK, c->make(&other, earlier));
        HOLDS(c, size_of(earlier) == size && is_pattern(earlier + c->least, c->size - c->least));
        HOLDS(c, memcmp(lent + from, earlier + from, c->least - from) == 0);
        free(lent);
        free(earlier);
    }
}

/* Of two pairs of ends to which the same happens one is lent structs of this header alone, and the other one those of a
 * later header, and those that are too short before: these change nothing, and so the two stay alike. */
static void test_call(const call *c, bool used, size_t behind) {
    ends plain = ends_of(0), tried = ends_of(behind);
    if (used) use(&plain), use(&tried);
    for (int step = 0; step < STEPS; step++) {
        for (int i = 0; i < SHORTS; i++) {
            const size_t size = short_size(c->least, i);
            refuses(c, &tried, step, size, c->size);
            refuses(c, &tried, step, size, at_least_size(size));
        }
        compare(c, &plain, &tried);
        answers_alike(c, &plain, &tried, step, behind);
        answers_earlier(c, &plain, &tried, step);
        compare(c, &plain, &tried);
    }
    drop(&plain);
    drop(&tried);
}

/* One more thing that is wrong with a call: its payload's length, its room, or padding without a payload. */
static beside faulty(ends *e, int fault, uint8_t *out) {
    beside b = around(e, 0, out);
    if (fault == 0) b.length = sizeof PAYLOAD;
    else if (fault == 1) b.room = 0;
    else b.length = 0, b.padding = 1;
    return b;
}

/* Null comes before a handle without an end, that before a size, and that before all else. */
static void test_order(const call *c, int fault) {
    ends e = ends_of(0), none = {{NULL, 0}, {NULL, 0}};
    uint8_t out[ROOM], *lent = patterned(c->size), *before;
    beside b, null, empty, missing;
    use(&e);
    null = empty = missing = b = faulty(&e, fault, out);
    null.sender = NULL, null.receiver = NULL;
    empty.sender = missing.sender = &none.sender, empty.receiver = missing.receiver = &none.receiver;
    missing.out = NULL;
    set_size(lent, c->least - 1);
    before = boxed(lent, c->size);
    GIVES(c, GOZDRIT_NULL, c->make(&null, lent));
    GIVES(c, GOZDRIT_NULL, c->make(&empty, NULL));
    GIVES(c, GOZDRIT_NULL, c->make(&b, NULL));
    GIVES(c, c->writes && b.room > 0 ? GOZDRIT_NULL : GOZDRIT_EMPTY_HANDLE, c->make(&missing, lent));
    GIVES(c, GOZDRIT_EMPTY_HANDLE, c->make(&empty, lent));
    GIVES(c, GOZDRIT_BAD_SIZE, c->make(&b, lent));
    HOLDS(c, memcmp(lent, before, c->size) == 0 && UNTOUCHED(out) && !none.sender.held && !none.receiver.held);
    set_size(lent, c->size);
    GIVES(c, c->faults[fault], c->make(&b, lent));
    drop(&e);
    free(lent);
    free(before);
}

/* The macro gives the size, and zeros. */
static void test_init(const call *c) {
    const uint8_t *init = (const uint8_t *)c->init;
    const size_t from = sizeof from;
    HOLDS(c, size_of(init) == c->size && is_zero(init + from, c->front - from) && init[c->last] == 0);
}

void test_sizes(void) {
    test_sized_configs();
    for (int i = 0; i < CALL_COUNT; i++) {
        test_init(&CALLS[i]);
        for (int fault = 0; fault < FAULTS; fault++) test_order(&CALLS[i], fault);
        for (int used = 0; used < 2; used++) {
            test_call(&CALLS[i], used, 0);
            for (int k = 0; k < BEHINDS; k++) test_call(&CALLS[i], used, BEHIND[k]);
        }
    }
}
