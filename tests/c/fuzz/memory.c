/* Numbers at random, and memory that is lent between two pages that nobody may touch. */
#define _DEFAULT_SOURCE /* MAP_ANONYMOUS */
#include "fuzz.h"

#include <stdio.h>
#include <stdlib.h>
#include <sys/mman.h>
#include <unistd.h>

static uint64_t state;

/* splitmix64 */
uint64_t random_bits(void) {
    uint64_t bits = state += 0x9e3779b97f4a7c15u;
    bits = (bits ^ (bits >> 30)) * 0xbf58476d1ce4e5b9u;
    bits = (bits ^ (bits >> 27)) * 0x94d049bb133111ebu;
    return bits ^ (bits >> 31);
}

/* Each seed begins elsewhere in the generator's one cycle: a multiple of its step would be the same numbers, some steps on. */
void set_seed(uint64_t seed) {
    state = seed;
    state = random_bits();
}

uint32_t below(uint32_t bound) { return (uint32_t)(((random_bits() >> 32) * bound) >> 32); }

uint32_t between(uint32_t least, uint32_t most) { return least + below(most - least + 1); }

bool one_in(uint32_t many) { return below(many) == 0; }

void random_octets(uint8_t *out, size_t length) {
    while (length > 0) {
        uint64_t bits = random_bits();
        size_t some = length < sizeof bits ? length : sizeof bits;
        memcpy(out, &bits, some);
        out += some;
        length -= some;
    }
}

/* Each area is mapped twice: what a call may write to is lent in one view, and what it may only read in the other, so that
 * even a write of what stands there already faults. In front of a view and behind it lies a page without access. */
struct lent {
    uint8_t *written;
    uint8_t *read;
    uint8_t *shadow; /* what lay there when it was lent */
    size_t size;
    size_t at, length; /* what is lent of it now */
};

static struct lent areas[AREA_COUNT];

/* So many octets on both sides of what is lent are looked at too, as far as the area goes. */
enum { AROUND = 64 };

static void needs(bool it, const char *what) {
    if (!it) {
        perror(what);
        exit(2);
    }
}

static uint8_t *view(int file, size_t size, size_t page, int access) {
    uint8_t *base = mmap(NULL, size + 2 * page, PROT_NONE, MAP_PRIVATE | MAP_ANONYMOUS, -1, 0);
    needs(base != MAP_FAILED, "mmap");
    needs(mmap(base + page, size, access, MAP_SHARED | MAP_FIXED, file, 0) != MAP_FAILED, "mmap");
    return base + page;
}

static void make_area(struct lent *area, size_t size, size_t page) {
    FILE *file = tmpfile();
    needs(file != NULL, "tmpfile");
    size = (size + page - 1) / page * page;
    needs(ftruncate(fileno(file), (off_t)size) == 0, "ftruncate");
    area->size = size;
    area->written = view(fileno(file), size, page, PROT_READ | PROT_WRITE);
    area->read = view(fileno(file), size, page, PROT_READ);
    area->shadow = malloc(size);
    needs(area->shadow != NULL, "malloc");
    fclose(file);
}

void make_areas(void) {
    size_t page = (size_t)sysconf(_SC_PAGESIZE);
    unsigned area;
    for (area = 0; area < AREA_COUNT; area++) {
        bool is_large = area == AREA_IN || area == AREA_OUT;
        make_area(&areas[area], is_large ? LARGEST : 1, page);
    }
}

/* What is looked at: from here to there. */
static size_t from(const struct lent *it) { return it->at < AROUND ? 0 : it->at - AROUND; }

static size_t to(const struct lent *it) {
    size_t end = it->at + it->length;
    return it->size - end < AROUND ? it->size : end + AROUND;
}

/* Most lie at the end, so that an octet behind them faults, and some at the beginning. */
static void put(struct lent *it, size_t length) {
    it->length = length;
    it->at = one_in(4) ? 0 : it->size - length;
}

static void copy_to_shadow(struct lent *it) { memcpy(it->shadow + from(it), it->written + from(it), to(it) - from(it)); }

void *lend_out(enum area area, size_t length) {
    struct lent *it = &areas[area];
    put(it, length);
    if (length <= LONGEST) memset(it->written + it->at, (int)below(256), length);
    copy_to_shadow(it);
    return it->written + it->at;
}

void *lend_sized(enum area area, size_t length, size_t size) {
    uint8_t *out = lend_out(area, length);
    memcpy(out, &size, sizeof size);
    copy_to_shadow(&areas[area]);
    return out;
}

void *lend_in(enum area area, const void *octets, size_t length) {
    struct lent *it = &areas[area];
    put(it, length);
    if (length > 0) memcpy(it->written + it->at, octets, length);
    copy_to_shadow(it);
    return it->read + it->at;
}

void *lend_handle(enum area area, bool to_write) {
    struct lent *it = &areas[area];
    it->length = sizeof(gozdrit_sender);
    it->at = it->size - it->length;
    copy_to_shadow(it);
    return (to_write ? it->written : it->read) + it->at;
}

void *lies(enum area area) { return areas[area].written + areas[area].at; }

const void *lay(enum area area) { return areas[area].shadow + areas[area].at; }

void check_kept(enum area area, size_t written) {
    const struct lent *it = &areas[area];
    size_t behind = it->at + written;
    holds(written <= it->length, "no more is written than was lent");
    holds(memcmp(it->shadow + from(it), it->written + from(it), it->at - from(it)) == 0, "what lies in front is as it was");
    holds(memcmp(it->shadow + behind, it->written + behind, to(it) - behind) == 0, "what lies behind is as it was");
}
