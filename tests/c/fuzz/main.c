/* Random calls of each export of the library, with whatever a caller may hand it, and a model of both ends that is written
 * from docs/PROTOCOL.md and the header alone: each answer, each struct and each octet has to be what the model says. What is
 * lent lies between two pages that nobody may touch, and what a call may only read can't be written.
 *
 *   fuzz [CALLS [SEED]]    1000000 calls, seed 1
 *
 * It prints how often each call gave each answer, what it told with the answer 0, and what was answered where a struct said
 * another size than it has. At the first thing that is not as it has to be it tells the seed and the number of the call, and
 * ends with status 1. The same seed makes the same calls.
 */
#define _DEFAULT_SOURCE /* sigaction */
#include "fuzz.h"

#include <errno.h>
#include <inttypes.h>
#include <signal.h>
#include <stdio.h>
#include <stdlib.h>

#define CALL_NAME(name) #name,
static const char *const NAMES[] = {CALLS(CALL_NAME)};

enum { ANSWERS = GOZDRIT_BAD_SIZE + 1 };

static uint64_t counts[CALL_COUNT][ANSWERS], told_counts[TOLD_COUNT][ANSWERS], said_counts[SAID_COUNT][ANSWERS];
static const char *const TOLD[] = {"received->kind", "received->refusal", "outcome->kind", "outcome->refusal",
                                   "played->kind"};
static const char *const SAID[] = {"size", "size: less", "size: more", "size: more, and not 0"};
static uint64_t seed = 1, made;

/* The call that is made now. */
static enum call current;
static bool has_nulls, is_null;

static void fail(const char *what) {
    printf("FAILED: seed %" PRIu64 ", call %" PRIu64 ", gozdrit_%s: %s\n", seed, made, NAMES[current], what);
    printf("1 failed\n");
    fflush(stdout);
    _Exit(1);
}

void same(uint64_t expected, uint64_t got, const char *what) {
    char text[200];
    if (expected == got) return;
    snprintf(text, sizeof text, "%s: expected %" PRIu64 ", got %" PRIu64, what, expected, got);
    fail(text);
}

void holds(bool it, const char *what) {
    if (!it) fail(what);
}

/* A page was touched that nobody may touch. The program can do no more than tell it, so that it does not matter what else a
 * handler of signals may not call. */
static void on_fault(int signal) {
    (void)signal;
    fail("memory was touched that was not lent, or lent to be read");
}

void begin_call(enum call call) {
    made++;
    current = call;
    has_nulls = one_in(50);
    is_null = false;
    begin_sizes(true);
}

void begin_plain_call(enum call call) {
    begin_call(call);
    has_nulls = false;
    begin_sizes(false);
}

void *pointer(void *at) {
    if (!has_nulls || !one_in(3)) return at;
    is_null = true;
    return NULL;
}

void *octets_pointer(void *at, size_t length) {
    if (length == 0) return one_in(2) ? NULL : at;
    return pointer(at);
}

void end_call(int32_t expected, int32_t came) {
    expected = is_null ? GOZDRIT_NULL : unless_bad_size(expected);
    if (expected != came) {
        char text[100];
        snprintf(text, sizeof text, "the answer: expected %d, got %d", (int)expected, (int)came);
        fail(text);
    }
    holds(*gozdrit_refusal_name(came) != 0, "the answer has a name");
    counts[current][came]++;
    said_counts[what_was_said()][came]++;
}

void count_told(enum told what, uint8_t number) { told_counts[what][number]++; }

/* ---- what has no end */

static void call_versions(void) {
    begin_call(CALL_version);
    same(GOZDRIT_VERSION, gozdrit_version(), "the version");
    end_call(GOZDRIT_OK, 0);
    begin_call(CALL_max_payload);
    same(GOZDRIT_MAX_PAYLOAD, gozdrit_max_payload(), "the largest payload");
    end_call(GOZDRIT_OK, 0);
}

static void call_some(void) {
    uint32_t which = below(1000);
    if (which < 450) call_sender();
    else if (which < 950) call_receiver();
    else if (which < 999) call_packet();
    else call_versions();
}

static uint64_t number_of(const char *text) {
    char *end;
    uint64_t number;
    errno = 0;
    number = strtoull(text, &end, 10);
    if (*text == '-' || end == text || *end != 0 || errno != 0) {
        fprintf(stderr, "usage: fuzz [CALLS [SEED]]\n");
        exit(2);
    }
    return number;
}

static void tell_row(const char *name, const uint64_t *row) {
    unsigned number;
    printf("%-22s", name);
    for (number = 0; number < ANSWERS; number++)
        if (row[number] > 0) printf(" %u: %" PRIu64, number, row[number]);
    printf("\n");
}

static void tell(void) {
    unsigned row;
    for (row = 0; row < CALL_COUNT; row++) tell_row(NAMES[row], counts[row]);
    for (row = 0; row < TOLD_COUNT; row++) tell_row(TOLD[row], told_counts[row]);
    for (row = SAID_LESS; row < SAID_COUNT; row++) tell_row(SAID[row], said_counts[row]);
    printf("seed %" PRIu64 ", %" PRIu64 " calls\n0 failed\n", seed, made);
}

int main(int argc, char **argv) {
    uint64_t calls = argc > 1 ? number_of(argv[1]) : 1000000;
    struct sigaction action;
    unsigned session;
    if (argc > 2) seed = number_of(argv[2]);
    if (argc > 3) number_of("");
    memset(&action, 0, sizeof action);
    action.sa_handler = on_fault;
    sigaction(SIGSEGV, &action, NULL);
    sigaction(SIGBUS, &action, NULL);
    set_seed(seed);
    make_areas();
    for (session = 0; session < SESSIONS; session++) change_session(session);
    make_senders();
    make_receivers();
    while (made < calls) call_some();
    free_senders();
    free_receivers();
    tell();
    return 0;
}
