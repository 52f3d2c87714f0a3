/* The model of a receiver's window (docs/PROTOCOL.md, "Places" and "The receiver's window"). */
#include "receiver.h"

struct slot *slot_at(const struct window *window, uint64_t sequence) {
    return &window->slots[sequence % GOZDRIT_MAX_STORE];
}

struct slot *front(const struct window *window) {
    bool is_empty = !window->has_started || window->next > window->highest;
    return is_empty ? NULL : slot_at(window, window->next);
}

void clear_window(struct window *window) { window->has_started = window->has_taken = false; }

void begin_window(struct window *window, uint16_t first) {
    window->has_started = true;
    window->next = 65536 + (uint64_t)first;
    window->highest = window->next - 1;
}

int32_t take_packet(struct window *window, uint64_t sequence, uint64_t sum, size_t length, uint64_t now, uint64_t *overrun) {
    uint64_t passed;
    struct slot *slot = slot_at(window, sequence);
    *overrun = 0;
    if (!window->has_started) begin_window(window, (uint16_t)sequence);
    if (sequence < window->next) return GOZDRIT_LATE;
    if (sequence <= window->highest && slot->is_held) return GOZDRIT_DUPLICATE;
    if (sequence >= window->next + window->capacity) {
        *overrun = sequence - window->capacity + 1 - window->next;
        window->next += *overrun;
    }
    for (passed = window->highest + 1; passed < sequence; passed++) {
        struct slot *missing = slot_at(window, passed);
        if (passed < window->next) continue;
        memset(missing, 0, sizeof *missing);
        missing->noticed = now;
    }
    slot->is_held = true;
    slot->digest = sum;
    slot->length = length;
    if (sequence > window->highest) window->highest = sequence;
    window->has_taken = true;
    return GOZDRIT_OK;
}

int32_t extend(const struct window *window, uint16_t number, uint64_t *sequence) {
    uint64_t highest = window->highest, ahead = (uint16_t)(number - (uint16_t)highest), limit = (uint64_t)1 << 48;
    *sequence = 65536 + (uint64_t)number;
    if (!window->has_started) return GOZDRIT_OK;
    if (ahead >= 16384 && ahead <= 49152) return GOZDRIT_TOO_FAR;
    *sequence = ahead < 16384 ? highest + ahead : highest - (65536 - ahead);
    return *sequence < limit ? GOZDRIT_OK : GOZDRIT_PAST_END; /* below 0 it is above the limit */
}

size_t count_missing(const struct window *window) {
    size_t count = 0;
    uint64_t sequence;
    if (!window->has_started) return 0;
    for (sequence = window->next; sequence <= window->highest; sequence++)
        if (!slot_at(window, sequence)->is_held) count++;
    return count;
}
