/* A lossy path: two ways over UDP, and a ledger of what it carried.
 *
 *   path [OPTIONS] FRONT AHEAD BACK HOME [STREAM..]
 *
 * What comes to the port FRONT goes on to the port AHEAD, and what comes to BACK goes to HOME: media and feedback. Each datagram
 * is drawn for by --seed N (1), in each way by itself: so many of 1000 are lost (--drop), come twice (--double), and are held
 * back for --hold N more milliseconds, behind later ones (--reorder). Nothing of that befalls the first --spare N of each way,
 * for a peer that can't be told with which packet a stream begins. Each way takes --delay N milliseconds. --flip N alters the last
 * octet of one RTP packet, the first that is not lost from the N-th on. All of it is 0 where it is not given.
 *
 * It ends by SIGTERM, or after --seconds N (60), and tells its counts: a line of each STREAM (net.h, ledger.h) and a line of
 * the whole. */
#define _POSIX_C_SOURCE 200809L
#include "ledger.h"

#include <inttypes.h>

enum { SLOTS = 4096, LARGEST = 2048, BURST = 64, SLEEP = 100, APART = 3 };

/* A datagram under way. */
typedef struct slot {
    uint64_t due, order; /* the moment, and how many were put before it */
    size_t length;       /* 0 where the slot is free */
    int way;
    uint8_t octets[LARGEST];
} slot;

typedef struct path {
    int at[2];      /* the sockets of FRONT and BACK */
    uint16_t to[2]; /* the ports of AHEAD and HOME */
    uint64_t drop, doubles, reorder, hold, delay, flip, spare, seed, seconds;
    uint64_t drawn[2], came[2]; /* of each way: the generator's state, and how many datagrams came */
    uint64_t order, media, datagrams, dropped, doubled, held, full, rtcp, rtcp_dropped, nacks, shared;
    ledger *books;
    size_t count;
} path;

static slot slots[SLOTS];

/* Whether what occurs to so many of 1000 occurs now. */
static bool draw(path *p, int way, uint64_t permille) {
    p->drawn[way] = p->drawn[way] * UINT64_C(6364136223846793005) + UINT64_C(1442695040888963407);
    return (p->drawn[way] >> 33) % 1000 < permille && p->came[way] > p->spare;
}

/* Puts a datagram under way. */
static void put(path *p, int way, const uint8_t *octets, size_t length, uint64_t due) {
    for (slot *s = slots; s < slots + SLOTS; s++) {
        if (s->length > 0) continue;
        s->due = due, s->order = p->order++, s->way = way, s->length = length;
        memcpy(s->octets, octets, length);
        return;
    }
    p->full++;
}

/* The one under way that is to go first, or null. */
static slot *first(void) {
    slot *found = NULL;
    for (slot *s = slots; s < slots + SLOTS; s++) {
        if (s->length == 0) continue;
        if (!found || s->due < found->due || (s->due == found->due && s->order < found->order)) found = s;
    }
    return found;
}

/* Counts a datagram, and marks what the streams' ledgers want of it. */
static void count_datagram(path *p, int way, uint8_t *octets, size_t length, bool lost) {
    p->datagrams++;
    p->dropped += lost;
    if (is_rtcp(octets, length)) {
        size_t streams = way == 1 ? mark_nacks(p->books, p->count, octets, length) : 0;
        p->rtcp++;
        p->rtcp_dropped += lost;
        p->nacks += streams > 0;
        p->shared += streams > 1;
    } else if (way == 0) {
        mark_rtp(p->books, p->count, octets, length, lost);
        p->media++;
        if (lost || p->flip == 0 || p->media < p->flip) return;
        octets[length - 1] ^= 1;
        p->flip = 0;
    }
}

/* Takes what came to one of the ports. */
static void take(path *p, int way, uint64_t now) {
    for (int i = 0; i < BURST; i++) {
        uint8_t octets[LARGEST];
        ssize_t came = recv(p->at[way], octets, sizeof octets, MSG_DONTWAIT);
        if (came <= 0) return;
        size_t length = (size_t)came;
        p->came[way]++;
        bool lost = draw(p, way, p->drop), twice = draw(p, way, p->doubles), late = draw(p, way, p->reorder);
        count_datagram(p, way, octets, length, lost);
        if (lost) continue;
        uint64_t due = now + p->delay + (late ? p->hold : 0);
        p->held += late;
        p->doubled += twice;
        put(p, way, octets, length, due);
        if (twice) put(p, way, octets, length, due + APART);
    }
}

/* Carries until it is told to end. */
static void carry(path *p) {
    uint64_t start = moment(), now = start;
    while (!told_to_end && now - start < p->seconds * 1000) {
        struct pollfd both[2] = {{p->at[0], POLLIN, 0}, {p->at[1], POLLIN, 0}};
        const slot *next = first();
        poll(both, 2, !next ? SLEEP : next->due > now ? (int)(next->due - now) : 0);
        now = moment();
        for (int way = 0; way < 2; way++)
            if (both[way].revents) take(p, way, now);
        for (slot *s = first(); s && s->due <= now; s = first()) {
            send_to(p->at[s->way], p->to[s->way], s->octets, s->length);
            s->length = 0;
        }
    }
}

static void tell(const path *p) {
    for (size_t i = 0; i < p->count; i++) tell_ledger(&p->books[i]);
    printf("path datagrams %" PRIu64 " dropped %" PRIu64 " doubled %" PRIu64 " held %" PRIu64 " full %" PRIu64, p->datagrams,
           p->dropped, p->doubled, p->held, p->full);
    printf(" rtcp %" PRIu64 " rtcp_dropped %" PRIu64 " nacks %" PRIu64 " shared %" PRIu64 "\n", p->rtcp, p->rtcp_dropped,
           p->nacks, p->shared);
}

/* Reads the command line. */
static bool make_path(path *p, char **words) {
    static ledger books[MAX_STREAMS];
    const option known[] = {{"drop", &p->drop}, {"double", &p->doubles}, {"reorder", &p->reorder}, {"hold", &p->hold},
                            {"delay", &p->delay}, {"flip", &p->flip}, {"spare", &p->spare}, {"seed", &p->seed},
                            {"seconds", &p->seconds}, {NULL, NULL}};
    p->seed = 1, p->seconds = 60, p->books = books;
    words = options_of(words, known);
    if (!words) return false;
    p->drawn[0] = p->seed, p->drawn[1] = ~p->seed;
    uint16_t ports[4];
    for (int i = 0; i < 4; i++)
        if (!*words || (ports[i] = port_of(*words++)) == 0) return false;
    for (; *words; words++)
        if (p->count == MAX_STREAMS || !stream_of(*words, &books[p->count++].of)) return false;
    p->to[0] = ports[1], p->to[1] = ports[3];
    p->at[0] = bound_at(ports[0]), p->at[1] = bound_at(ports[2]);
    return p->at[0] >= 0 && p->at[1] >= 0;
}

int main(int count, char **words) {
    static path p;
    if (count < 5 || !make_path(&p, words + 1)) {
        fprintf(stderr, "usage: path [--drop N] [--double N] [--reorder N] [--hold N] [--spare N] [--delay N] [--flip N]"
                        " [--seed N] [--seconds N] FRONT AHEAD BACK HOME [STREAM..]\n");
        return 2;
    }
    end_on_signals();
    carry(&p);
    tell(&p);
    return 0;
}
