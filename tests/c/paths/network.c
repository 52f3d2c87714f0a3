#include "network.h"

#include <math.h>
#include <stdio.h>
#include <stdlib.h>
#include <string.h>

enum { LOSSES_FROM = 2000, SLOW_FOR = 500, SLOW_EACH = 2000, ROOM = 2048 };

/* On its way: a heap, the next one at its front. */
struct datagram {
    double at;
    uint64_t number;
    enum way way;
    size_t length;
    uint8_t octets[ROOM];
};

static struct datagram **heap, *given;
static size_t held, room;
static struct path path;
static uint64_t draws, sent;
static double free_at, phase;
static bool is_bad[2];

/* From 0 to 1 (Marsaglia's xorshift). */
static double draw(void) {
    draws ^= draws << 13;
    draws ^= draws >> 7;
    draws ^= draws << 17;
    return (double)(draws >> 11) / 9007199254740992.0;
}

static bool is_before(const struct datagram *one, const struct datagram *other) {
    return one->at < other->at || (!(other->at < one->at) && one->number < other->number);
}

static void swap(size_t one, size_t other) {
    struct datagram *kept = heap[one];
    heap[one] = heap[other];
    heap[other] = kept;
}

static void put(struct datagram *datagram) {
    size_t at = held++;
    if (held > room) {
        room = room == 0 ? 64 : 2 * room;
        heap = realloc(heap, room * sizeof *heap);
        if (heap == NULL) abort();
    }
    heap[at] = datagram;
    for (; at > 0 && is_before(heap[at], heap[(at - 1) / 2]); at = (at - 1) / 2) swap(at, (at - 1) / 2);
}

static struct datagram *first(void) {
    struct datagram *least = heap[0];
    heap[0] = heap[--held];
    for (size_t at = 0, next = 1; next < held; at = next, next = 2 * at + 1) {
        if (next + 1 < held && is_before(heap[next + 1], heap[next])) next++;
        if (!is_before(heap[next], heap[at])) break;
        swap(at, next);
    }
    return least;
}

void path_begins(const struct path *as, uint64_t seed) {
    while (held > 0) free(heap[--held]);
    path = *as;
    draws = 88172645463325252u ^ (seed * 0x9E3779B97F4A7C15u);
    for (int turn = 0; turn < 20; turn++) (void)draw();
    phase = draw() * SLOW_EACH;
    free_at = 0;
    sent = 0;
    is_bad[THERE] = is_bad[BACK] = false;
}

/* By two states, in one of which all is lost, where losses come in bursts (Gilbert). */
static bool is_lost(enum way way) {
    if (path.burst <= 1) return draw() < path.loss;
    const double ends = 1 / path.burst, begins = path.loss * ends / (1 - path.loss);
    is_bad[way] = is_bad[way] ? draw() >= ends : draw() < begins;
    return is_bad[way];
}

static double kilobits(double now) {
    return path.slow > 0 && now >= LOSSES_FROM && fmod(now + phase, SLOW_EACH) < SLOW_FOR ? path.kilobits * path.slow : path.kilobits;
}

/* When the last octet leaves the queue; less than 0 where that is full. */
static double leaves(size_t length, double now) {
    if (path.kilobits <= 0) return now;
    if (free_at < now) free_at = now;
    if (free_at - now > path.queue) return -1;
    free_at += (double)length * 8 / kilobits(now);
    return free_at;
}

bool path_takes(enum way way, const uint8_t *octets, size_t length, double now) {
    const bool is_out = now >= path.out && now < path.out + path.out_for, is_gone = now >= LOSSES_FROM && is_lost(way);
    struct datagram *datagram;
    double left = now;
    if (is_out || is_gone) return false;
    if (way == THERE) left = leaves(length, now);
    if (left < 0) return false;
    datagram = malloc(sizeof *datagram);
    if (datagram == NULL || length > sizeof datagram->octets) abort();
    datagram->at = left + path.delay + draw() * path.jitter;
    datagram->number = sent++;
    datagram->way = way;
    datagram->length = length;
    memcpy(datagram->octets, octets, length);
    put(datagram);
    return true;
}

double path_next(void) {
    return held > 0 ? heap[0]->at : HUGE_VAL;
}

struct arrival path_gives(void) {
    free(given);
    given = first();
    return (struct arrival){given->way, given->octets, given->length};
}
