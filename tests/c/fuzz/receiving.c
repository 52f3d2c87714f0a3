/* The calls of a receiver. */
#include "receiver.h"

#include <limits.h>
#include <stdio.h>
#include <stdlib.h>

enum { RECEIVERS = HANDLES - SESSIONS };

static struct receiver receivers[RECEIVERS];

static enum area handle_of(const struct receiver *it) { return (enum area)(AREA_HANDLE + SESSIONS + (it - receivers)); }

static struct slot *make_slots(void) {
    struct slot *slots = calloc(GOZDRIT_MAX_STORE, sizeof *slots);
    if (slots == NULL) {
        perror("calloc");
        exit(2);
    }
    return slots;
}

void make_receivers(void) {
    unsigned i;
    for (i = 0; i < RECEIVERS; i++) {
        receivers[i].session = i % SESSIONS;
        receivers[i].window.slots = make_slots();
        receivers[i].spare.slots = make_slots();
    }
}

gozdrit_receiver *lend_receiver(const struct receiver *it, bool to_write) {
    return pointer(lend_handle(handle_of(it), to_write));
}

void check_receiver(const struct receiver *it, int32_t answer) {
    const gozdrit_receiver *handle = lies(handle_of(it));
    check_kept(handle_of(it), answer == GOZDRIT_OK ? sizeof *handle : 0);
    same(it->is_made, handle->held, "the handle's `held`");
}

int32_t unless_no_end(const struct receiver *it, int32_t answer) { return it->is_made ? answer : GOZDRIT_EMPTY_HANDLE; }

/* ---- made and freed */

static int32_t check_config(const gozdrit_receiver_config *config) {
    int32_t fault = check_session(&config->session);
    if (fault != GOZDRIT_OK) return fault;
    if (config->window == 0 || config->window > GOZDRIT_MAX_STORE) return GOZDRIT_BAD_LIMIT;
    if (config->max_nacks == 0 || config->adaptive > 2) return GOZDRIT_BAD_LIMIT;
    return GOZDRIT_OK;
}

/* A span of time: mostly a small one. */
static uint64_t draw_span(uint32_t usual) {
    if (one_in(20)) return 0;
    if (one_in(100)) return one_in(2) ? random_bits() : UINT64_MAX;
    return below(usual);
}

/* A number of the probation: mostly the usual one, or a small one. */
static uint16_t draw_number(uint16_t small) {
    if (one_in(2)) return 0;
    return (uint16_t)(one_in(10) ? random_bits() : between(1, small));
}

static void draw_config(struct receiver *it, gozdrit_receiver_config *config) {
    random_octets((uint8_t *)config, sizeof *config);
    config->session = *usual_session(it->session);
    if (one_in(30)) draw_session(&config->session);
    config->latency = draw_span(400);
    config->nack_interval = one_in(40) ? 0 : 1 + draw_span(60);
    config->window = one_in(40) ? below(2) * between(8192, 8194) : between(1, one_in(8) ? 8192 : one_in(3) ? 4 : 200);
    config->max_nacks = (uint8_t)(one_in(30) ? 0 : between(1, one_in(3) ? 255 : 4));
    config->learn_rtx_ssrc = one_in(3) ? (gozdrit_bool)between(1, 255) : 0;
    config->max_dropout = draw_number(3000);
    config->max_misorder = draw_number(200);
    config->min_sequential_ahead = draw_number(6);
    config->min_sequential_behind = draw_number(6);
    config->reorder_delay = draw_span(40);
    config->idle_after = one_in(2) ? 0 : 1 + draw_span(400);
    config->adaptive = one_in(40) ? (uint8_t)between(3, 255) : 0; /* the model measures nothing */
}

/* One without a time between two NACKs has the usual one, and follows the path, which the model does not. */
static void follows_no_more(struct receiver *it) {
    it->config.nack_interval = 40;
    begin_plain_call(CALL_set_adaptive);
    end_call(GOZDRIT_OK, gozdrit_set_adaptive(lend_receiver(it, true), GOZDRIT_ADAPTIVE_OFF));
}

static void call_new(struct receiver *it) {
    gozdrit_receiver_config config;
    const gozdrit_receiver_config *lent;
    int32_t expected, answer;
    begin_call(CALL_receiver_new);
    draw_config(it, &config);
    expected = it->is_made ? GOZDRIT_HANDLE_IN_USE : check_config(&config);
    lent = pointer(lend_config(&config, sizeof config));
    answer = gozdrit_receiver_new(lent, lend_receiver(it, true));
    end_call(expected, answer);
    if (answer == GOZDRIT_OK) {
        it->is_made = true;
        it->config = config;
        it->window.capacity = it->spare.capacity = config.window;
        memset(&it->counts, 0, sizeof it->counts);
        memset(it->seen, 0, sizeof it->seen);
        it->copies = 0;
        it->earns = false;
        reset(it);
    }
    check_receiver(it, answer);
    check_kept(AREA_STRUCT, 0);
    if (answer == GOZDRIT_OK && config.nack_interval == 0) follows_no_more(it);
}

static void call_free(struct receiver *it) {
    int32_t answer;
    begin_call(CALL_receiver_free);
    answer = gozdrit_receiver_free(lend_receiver(it, true));
    end_call(unless_no_end(it, GOZDRIT_OK), answer);
    if (answer == GOZDRIT_OK) it->is_made = false;
    check_receiver(it, answer);
}

void free_receivers(void) {
    unsigned i;
    for (i = 0; i < RECEIVERS; i++) {
        while (receivers[i].is_made) call_free(&receivers[i]);
        free(receivers[i].window.slots);
        free(receivers[i].spare.slots);
    }
}

static void call_defaults(void) {
    gozdrit_receiver_config *config;
    size_t size;
    int32_t answer;
    begin_call(CALL_receiver_defaults);
    size = draw_size(sizeof *config, 3);
    config = lend_defaults(size);
    answer = gozdrit_receiver_defaults(pointer(config), size);
    end_call(GOZDRIT_OK, answer);
    check_defaults(answer, sizeof *config, size);
    if (answer != GOZDRIT_OK) return;
    same(512, config->window, "window");
    same(200, config->latency, "latency");
    same(20, config->reorder_delay, "reorder_delay");
    same(0, config->nack_interval, "nack_interval");
    same(16, config->max_nacks, "max_nacks");
    same(0, config->max_dropout, "max_dropout, which is the usual number");
    holds(config->max_misorder == 0 || config->max_misorder == 100, "max_misorder is the usual number");
    holds(config->min_sequential_ahead == 0 || config->min_sequential_ahead == 2,
          "min_sequential_ahead is the usual number");
    holds(config->min_sequential_behind == 0 || config->min_sequential_behind == 256,
          "min_sequential_behind is the usual number");
    same(200, config->idle_after, "idle_after");
    holds(config->learn_rtx_ssrc == 0 && config->adaptive == 0, "all else is 0");
    check_no_session(&config->session);
}

/* ---- receiving */

static void earn(struct receiver *it, size_t octets) {
    size_t worth = octets / 20 > 24 ? octets / 20 : 24;
    it->earned += worth < octets ? worth : octets;
    if (it->earned > GOZDRIT_MAX_NACK_DATAGRAM) it->earned = GOZDRIT_MAX_NACK_DATAGRAM;
    it->allowed++;
}

static void call_receive(struct receiver *it) {
    static struct datagram drawn;
    gozdrit_received *received, expected;
    const uint8_t *octets;
    uint64_t now = draw_now();
    int32_t answer;
    begin_call(CALL_receive);
    draw_media(&drawn, it->session, &it->fed, (uint16_t)it->window.highest);
    octets = octets_pointer(lend_in(AREA_IN, drawn.octets, drawn.length), drawn.length);
    received = lend_told(sizeof *received);
    answer = gozdrit_receive(lend_receiver(it, true), octets, drawn.length, now, pointer(received));
    end_call(unless_no_end(it, GOZDRIT_OK), answer);
    check_receiver(it, answer);
    check_kept(AREA_IN, 0);
    check_told(answer, sizeof *received);
    if (answer != GOZDRIT_OK) return;
    earn(it, drawn.length);
    take_datagram(it, &drawn, now, &expected);
    same(expected.kind, received->kind, "received->kind");
    same(expected.refusal, received->refusal, "received->refusal");
    same(expected.sequence, received->sequence, "received->sequence");
    same(expected.overrun, received->overrun, "received->overrun");
    same(expected.abandoned, received->abandoned, "received->abandoned");
    same(expected.held_back, received->held_back, "received->held_back");
    count_told(RECEIVED_KIND, received->kind);
    count_told(RECEIVED_REFUSAL, received->refusal);
}

/* ---- playing */

/* What a play told: as the model expects it, and all else as it was. */
static void check_played(struct receiver *it, uint8_t kind) {
    const gozdrit_played *played = lies(AREA_TOLD);
    gozdrit_played before;
    memcpy(&before, lay(AREA_TOLD), sizeof before);
    same(kind, played->kind, "played->kind");
    count_told(PLAYED_KIND, kind);
    if (kind == GOZDRIT_PACKET) {
        const struct slot *slot = front(&it->window);
        same(slot->length, played->length, "played->length");
        check_header_rest(&before.header, &played->header);
        same(slot->digest, digest(&played->header, lies(AREA_OUT), slot->length), "what is played is what was sent");
        check_kept(AREA_OUT, slot->length);
    } else {
        same(before.length, played->length, "played->length is as it was");
        check_kept(AREA_OUT, 0);
        holds(memcmp(&before.header, &played->header, sizeof before.header) == 0, "played->header is as it was");
    }
    if (kind == GOZDRIT_WAIT) {
        same(before.sequence, played->sequence, "played->sequence is as it was");
        return;
    }
    same(it->window.next, played->sequence, "played->sequence");
    holds(!it->has_played || played->sequence > it->played, "the sequences that are played rise");
    it->has_played = true;
    it->played = played->sequence;
    it->window.next++;
    if (kind == GOZDRIT_PACKET) it->counts.played++;
    else it->counts.gaps++;
}

int play(struct receiver *it, uint64_t now, size_t room, bool is_plain) {
    uint8_t kind = it->is_made ? expect_play(it, now) : GOZDRIT_WAIT;
    bool has_room = kind != GOZDRIT_PACKET || room >= front(&it->window)->length;
    gozdrit_played *played;
    uint8_t *payload;
    int32_t answer;
    if (is_plain) begin_plain_call(CALL_play);
    else begin_call(CALL_play);
    played = pointer(lend_told(sizeof *played));
    payload = octets_pointer(lend_out(AREA_OUT, room), room);
    answer = gozdrit_play(lend_receiver(it, true), now, played, payload, room);
    end_call(unless_no_end(it, has_room ? GOZDRIT_OK : GOZDRIT_NO_ROOM), answer);
    check_receiver(it, answer);
    check_told(answer, sizeof *played);
    if (answer == GOZDRIT_OK) check_played(it, kind);
    else check_kept(AREA_OUT, 0);
    return answer == GOZDRIT_OK ? kind : -answer;
}

static void call_play(struct receiver *it) {
    uint64_t now = draw_now();
    size_t length = it->is_made && expect_play(it, now) == GOZDRIT_PACKET ? front(&it->window)->length : 0;
    if (length > 0 && one_in(4)) play(it, now, length - 1, false);
    play(it, now, draw_room(length, GOZDRIT_MAX_PAYLOAD), false);
}

/* ---- asking */

/* What is due, of no more packets than have room, with a pair each, in what was earned. */
static size_t expect_earned(const struct receiver *it, uint64_t now, size_t most, uint8_t *out, size_t *named) {
    size_t room = room_for_nack(it), fewer;
    *named = 0;
    if (room == 0) return 0;
    fewer = (room - 12) / 4;
    return expect_nack(it, now, it->earns && fewer < most ? fewer : most, out, named);
}

/* The datagram that is expected: a NACK that is to leave once more, or what is due, of which `named` packets are named. */
static size_t expect_datagram(const struct receiver *it, uint64_t now, size_t most, uint8_t *out, size_t *named) {
    *named = 0;
    if (!it->is_made) return 0;
    if (it->again_length == 0) return expect_earned(it, now, most, out, named);
    memcpy(out, it->again, it->again_length);
    return it->again_length;
}

static void spend(struct receiver *it, size_t octets) {
    if (!it->earns) return;
    it->earned -= it->earned < octets ? it->earned : octets;
    if (it->allowed > 0) it->allowed--;
}

/* What was written is to leave once more, where it was not written for the second time, and both are earned. */
static void keep_again(struct receiver *it, const uint8_t *octets, size_t length) {
    if (it->again_length > 0) {
        it->again_length = 0;
        return;
    }
    spend(it, length);
    if (it->copies != 2 || room_for_nack(it) < length) return;
    spend(it, length);
    memcpy(it->again, octets, length);
    it->again_length = length;
}

int nack(struct receiver *it, uint64_t now, size_t most, size_t room, bool is_plain) {
    static uint8_t datagram[GOZDRIT_MAX_NACK_DATAGRAM];
    size_t named, expected = expect_datagram(it, now, most, datagram, &named), *length;
    uint8_t *out;
    int32_t answer;
    if (is_plain) begin_plain_call(CALL_nack);
    else begin_call(CALL_nack);
    length = pointer(lend_out(AREA_NUMBER, sizeof *length));
    out = octets_pointer(lend_out(AREA_OUT, room), room);
    answer = gozdrit_nack(lend_receiver(it, true), now, most, length, out, room);
    end_call(unless_no_end(it, room < expected ? GOZDRIT_NO_ROOM : GOZDRIT_OK), answer);
    check_receiver(it, answer);
    check_kept(AREA_NUMBER, answer == GOZDRIT_OK ? sizeof *length : 0);
    check_kept(AREA_OUT, answer == GOZDRIT_OK ? expected : 0);
    if (answer != GOZDRIT_OK) return -answer;
    same(expected, *length, "length");
    if (expected > 0) {
        holds(memcmp(datagram, out, expected) == 0, "the NACK names the packets that are due");
        if (it->again_length == 0) count_nack(it, now, named);
        keep_again(it, datagram, expected);
        keep_nack(it->session, datagram, expected);
    }
    return (int)expected;
}

static void call_nack(struct receiver *it) {
    static uint8_t datagram[GOZDRIT_MAX_NACK_DATAGRAM];
    uint64_t now = draw_now();
    size_t most = one_in(2) ? GOZDRIT_MAX_NACKED : one_in(2) ? (size_t)below(3) : one_in(2) ? SIZE_MAX : (size_t)below(1200);
    size_t named, length = expect_datagram(it, now, most, datagram, &named);
    if (length > 0 && one_in(4)) nack(it, now, most, length - 1, false);
    nack(it, now, most, draw_room(length, GOZDRIT_MAX_NACK_DATAGRAM), false);
}

/* ---- the rest */

static void call_begin(struct receiver *it) {
    uint16_t first = (uint16_t)random_bits();
    int32_t answer;
    begin_call(CALL_begin);
    answer = gozdrit_begin(lend_receiver(it, true), first);
    end_call(unless_no_end(it, it->window.has_started ? GOZDRIT_HAS_STARTED : GOZDRIT_OK), answer);
    if (answer == GOZDRIT_OK) begin_window(&it->window, first);
    check_receiver(it, answer);
}

static void call_reset(struct receiver *it) {
    int32_t answer;
    begin_call(CALL_reset);
    answer = gozdrit_reset(lend_receiver(it, true));
    end_call(unless_no_end(it, GOZDRIT_OK), answer);
    if (answer == GOZDRIT_OK) {
        reset(it);
        it->earned = it->allowed = 0;
    }
    check_receiver(it, answer);
}

static void call_set_times(struct receiver *it) {
    uint64_t latency = draw_span(400), delay = draw_span(40), interval = one_in(10) ? 0 : 1 + draw_span(60);
    int32_t answer;
    begin_call(CALL_set_times);
    answer = gozdrit_set_times(lend_receiver(it, true), latency, delay, interval);
    end_call(unless_no_end(it, interval == 0 ? GOZDRIT_BAD_LIMIT : GOZDRIT_OK), answer);
    if (answer == GOZDRIT_OK) {
        it->config.latency = latency;
        it->config.reorder_delay = delay;
        it->config.nack_interval = interval;
    }
    check_receiver(it, answer);
}

/* The model knows a receiver that is not adaptive. The other numbers that are drawn are none. */
static void call_set_adaptive(struct receiver *it) {
    uint8_t adaptive = one_in(3) ? (uint8_t)between(3, 255) : GOZDRIT_ADAPTIVE_OFF;
    int32_t answer;
    begin_call(CALL_set_adaptive);
    answer = gozdrit_set_adaptive(lend_receiver(it, true), adaptive);
    end_call(unless_no_end(it, adaptive ? GOZDRIT_BAD_LIMIT : GOZDRIT_OK), answer);
    check_receiver(it, answer);
}

static void call_set_nack_copies(struct receiver *it) {
    uint8_t copies = (uint8_t)(one_in(4) ? between(3, 255) : below(3));
    int32_t answer;
    begin_call(CALL_set_nack_copies);
    answer = gozdrit_set_nack_copies(lend_receiver(it, true), copies);
    end_call(unless_no_end(it, copies > 2 ? GOZDRIT_BAD_LIMIT : GOZDRIT_OK), answer);
    if (answer == GOZDRIT_OK) it->copies = copies;
    check_receiver(it, answer);
}

static void call_set_nack_budget(struct receiver *it) {
    uint8_t earned = (uint8_t)(one_in(4) ? between(2, 255) : below(2));
    int32_t answer;
    begin_call(CALL_set_nack_budget);
    answer = gozdrit_set_nack_budget(lend_receiver(it, true), earned);
    end_call(unless_no_end(it, earned > 1 ? GOZDRIT_BAD_LIMIT : GOZDRIT_OK), answer);
    if (answer == GOZDRIT_OK) {
        it->earns = earned;
        it->earned = it->allowed = 0;
        it->again_length = 0;
    }
    check_receiver(it, answer);
}

void call_receiver(void) {
    struct receiver *it = &receivers[below(RECEIVERS)];
    uint32_t which = below(1000);
    if (!it->is_made && one_in(2)) call_new(it);
    else if (which < 1) call_free(it);
    else if (which < 6) call_new(it);
    else if (which < 8) call_defaults();
    else if (which < 11) call_reset(it);
    else if (which < 18) call_begin(it);
    else if (which < 24) call_set_times(it);
    else if (which < 26) call_set_adaptive(it);
    else if (which < 32) call_set_nack_copies(it);
    else if (which < 35) call_set_nack_budget(it);
    else if (which < 600) call_receive(it);
    else if (which < 820) call_play(it);
    else if (which < 900) call_nack(it);
    else call_query(it);
}
