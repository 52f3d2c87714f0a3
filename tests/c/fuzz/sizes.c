/* Structs that say their size: mostly the one that they have, and at times less or more. As much is lent as one says, so
 * that a call that reads or writes more of it faults, or is found out by what has changed. */
#include "fuzz.h"

/* What the struct of the call that is made now says: each has one at most. */
static bool may_differ;
static enum said said;

void begin_sizes(bool may) {
    may_differ = may;
    said = SAID_SIZE;
}

enum said what_was_said(void) { return said; }

int32_t unless_bad_size(int32_t expected) {
    bool is_of_handle = expected == GOZDRIT_EMPTY_HANDLE || expected == GOZDRIT_HANDLE_IN_USE;
    return !is_of_handle && (said == SAID_LESS || said == SAID_UNKNOWN) ? GOZDRIT_BAD_SIZE : expected;
}

size_t draw_size(size_t size, uint32_t many) {
    if (!may_differ || !one_in(many)) return size;
    if (one_in(2)) {
        said = SAID_LESS;
        return one_in(3) ? size - 1 : below((uint32_t)size);
    }
    said = SAID_MORE;
    return size + between(1, one_in(8) ? 1000 : 40);
}

/* So many octets are lent for these, so that a struct that ends with its page is aligned. */
static size_t aligned(size_t size) { return (size + 7) / 8 * 8; }

/* How much is lent of a struct that says this: the size itself at least. */
static size_t lent_of(size_t says) { return says < sizeof says ? sizeof says : aligned(says); }

void *lend_told(size_t size) {
    size_t says = draw_size(size, 25);
    return lend_sized(AREA_TOLD, lent_of(says), says);
}

void *lend_grown(size_t least, size_t size) {
    size_t says = draw_size(size, 25);
    if (said == SAID_LESS && says >= least) says = least - 1; /* tests/c/sizes.c has the sizes between */
    return lend_sized(AREA_TOLD, lent_of(says), says);
}

void check_told(int32_t answer, size_t size) {
    check_kept(AREA_TOLD, answer == GOZDRIT_OK ? size : 0);
    holds(memcmp(lay(AREA_TOLD), lies(AREA_TOLD), sizeof size) == 0, "the size that a struct says is as it was");
}

/* The place behind a configuration that is not 0: mostly the first one or the last one. */
static size_t draw_place(size_t many) { return one_in(3) ? 0 : one_in(2) ? many - 1 : below((uint32_t)many); }

void *lend_config(const void *config, size_t size) {
    static uint8_t lent[LONGEST];
    size_t says = draw_size(size, 3);
    random_octets(lent, lent_of(says));
    memcpy(lent, config, says < size ? lent_of(says) : size);
    memcpy(lent, &says, sizeof says);
    if (said == SAID_MORE) {
        memset(lent + size, 0, says - size);
        if (one_in(2)) {
            said = SAID_UNKNOWN;
            lent[size + draw_place(says - size)] = (uint8_t)between(1, 255);
        }
    }
    return lend_in(AREA_STRUCT, lent, lent_of(says));
}

void *lend_defaults(size_t size) { return lend_out(AREA_STRUCT, aligned(size)); }

void check_defaults(int32_t answer, size_t known, size_t size) {
    const uint8_t *config = lies(AREA_STRUCT);
    size_t at;
    check_kept(AREA_STRUCT, answer == GOZDRIT_OK ? size : 0);
    if (answer != GOZDRIT_OK) return;
    holds(memcmp(config, &size, sizeof size) == 0, "a configuration says the size that was handed in");
    for (at = known; at < size; at++) same(0, config[at], "what lies behind a configuration is blank");
}
