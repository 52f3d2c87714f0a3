/* Tries each call of the library with good and with bad arguments. The status is the number of checks that fail, 255 at
 * most, and the line of each is printed.
 *
 * No test shows 39 and 45: they lie 2^48 packets away from the start of an end. */
#include "checks.h"

#include <stdio.h>
#include <stdlib.h>

static int checks, failures;

void check(bool holds, const char *what, const char *file, int line) {
    checks++;
    if (holds) return;
    failures++;
    printf("%s:%d: %s\n", file, line, what);
}

void check_answer(int32_t number, int32_t came, const char *call, const char *file, int line) {
    checks++;
    if (number == came) return;
    failures++;
    printf("%s:%d: %s: %d in place of %d\n", file, line, call, (int)came, (int)number);
}

bool is_pattern(const void *from, size_t length) {
    const uint8_t *octets = (const uint8_t *)from;
    for (size_t i = 0; i < length; i++) {
        if (octets[i] != PATTERN) return false;
    }
    return true;
}

uint8_t *boxed(const uint8_t *octets, size_t length) {
    uint8_t *lent = (uint8_t *)malloc(length);
    if (!lent) abort();
    if (length > 0) memcpy(lent, octets, length);
    return lent;
}

static void write_u16(uint8_t *out, uint16_t number) {
    out[0] = (uint8_t)(number >> 8);
    out[1] = (uint8_t)number;
}

static void write_u32(uint8_t *out, uint32_t number) {
    write_u16(out, (uint16_t)(number >> 16));
    write_u16(out + 2, (uint16_t)number);
}

size_t write_rtp(uint8_t *out, uint8_t type, uint16_t seq, uint32_t ssrc, const void *payload, size_t length) {
    out[0] = 0x80;
    out[1] = type;
    write_u16(out + 2, seq);
    write_u32(out + 4, 0);
    write_u32(out + 8, ssrc);
    if (length > 0) memcpy(out + 12, payload, length);
    return 12 + length;
}

size_t write_pairs(uint8_t *out, uint32_t reporter, uint32_t media, const uint16_t *pairs, size_t count) {
    out[0] = 0x81;
    out[1] = 205;
    write_u16(out + 2, (uint16_t)(2 + count));
    write_u32(out + 4, reporter);
    write_u32(out + 8, media);
    for (size_t i = 0; i < 2 * count; i++) write_u16(out + 12 + 2 * i, pairs[i]);
    return 12 + 4 * count;
}

void write_nack(uint8_t *out, uint32_t reporter, uint32_t media, uint16_t pid, uint16_t blp) {
    const uint16_t pair[2] = {pid, blp};
    write_pairs(out, reporter, media, pair, 1);
}

int main(void) {
    test_sender();
    test_feedback();
    test_resend();
    test_receiver();
    test_times();
    test_follows();
    test_copies();
    test_budget();
    test_begin();
    test_jumps();
    test_kinds();
    test_refused_media();
    test_learning();
    test_sessions();
    test_queries();
    test_rtp();
    test_srtp();
    test_types();
    test_null();
    test_sizes();
    test_memory();
    test_names();
    printf("%d checks, %d failed\n", checks, failures);
    return failures > 255 ? 255 : failures;
}
