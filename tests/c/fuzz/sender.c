/* The model of a sender (docs/PROTOCOL.md, "Sending", "The sender's history"), and the calls of one. */
#include "sender.h"

#include <stdio.h>
#include <stdlib.h>

static struct sender senders[SESSIONS];

static enum area handle_of(const struct sender *it) { return (enum area)(AREA_HANDLE + (it - senders)); }

void make_senders(void) {
    unsigned i;
    for (i = 0; i < SESSIONS; i++) {
        senders[i].session = i;
        senders[i].history = calloc(GOZDRIT_MAX_STORE, sizeof(struct kept));
        if (senders[i].history == NULL) {
            perror("calloc");
            exit(2);
        }
    }
}

struct kept *kept_at(struct sender *it, uint64_t sequence) { return &it->history[sequence % GOZDRIT_MAX_STORE]; }

uint64_t oldest(const struct sender *it) {
    return it->next - it->first > it->config.history ? it->next - it->config.history : it->first;
}

/* ---- the handle, as each call has it */

static gozdrit_sender *lend(struct sender *it, bool to_write) { return pointer(lend_handle(handle_of(it), to_write)); }

/* After a refusal all of it is as it was; else it holds an end or not. */
static void check_handle(struct sender *it, int32_t answer) {
    const gozdrit_sender *handle = lies(handle_of(it));
    check_kept(handle_of(it), answer == GOZDRIT_OK ? sizeof *handle : 0);
    same(it->is_made, handle->held, "the handle's `held`");
}

static int32_t unless_none(const struct sender *it, int32_t answer) { return it->is_made ? answer : GOZDRIT_EMPTY_HANDLE; }

/* ---- made and freed */

int32_t check_session(const gozdrit_session *session) {
    uint8_t media = session->media_payload_type, rtx = session->rtx_payload_type;
    bool is_static = session->any_media_payload_type && media < 64;
    if (!is_static && (media < 96 || media > 127)) return GOZDRIT_BAD_PAYLOAD_TYPE;
    if (rtx < 96 || rtx > 127 || rtx == media) return GOZDRIT_BAD_PAYLOAD_TYPE;
    if (session->media_ssrc == session->rtx_ssrc || session->media_ssrc == session->receiver_ssrc
        || session->rtx_ssrc == session->receiver_ssrc)
        return GOZDRIT_SAME_SSRC;
    return GOZDRIT_OK;
}

void check_no_session(const gozdrit_session *session) {
    holds(session->media_ssrc == 0 && session->rtx_ssrc == 0 && session->receiver_ssrc == 0
              && session->media_payload_type == 0 && session->rtx_payload_type == 0 && session->any_media_payload_type == 0,
          "the session is 0");
}

static int32_t check_config(const gozdrit_sender_config *config) {
    int32_t fault = check_session(&config->session);
    if (fault != GOZDRIT_OK) return fault;
    if (config->history == 0 || config->history > GOZDRIT_MAX_STORE || config->max_retransmissions == 0)
        return GOZDRIT_BAD_LIMIT;
    return GOZDRIT_OK;
}

static void draw_config(struct sender *it, gozdrit_sender_config *config) {
    random_octets((uint8_t *)config, sizeof *config);
    if (!it->is_made && one_in(6)) change_session(it->session);
    config->session = *usual_session(it->session);
    config->history = one_in(40) ? below(2) * between(8192, 8194) : between(1, one_in(8) ? 8192 : one_in(3) ? 3 : 100);
    if (one_in(2)) config->first_sequence = (uint16_t)it->next; /* as if the stream went on */
    config->max_retransmissions = (uint8_t)(one_in(30) ? 0 : between(1, one_in(3) ? 255 : 4));
    config->any_reporter = one_in(4) ? (gozdrit_bool)between(1, 255) : 0;
    config->min_resend = one_in(3) ? below(100) : 0;
    config->deadline = one_in(3) ? below(300) : 0;
}

static void call_new(struct sender *it) {
    gozdrit_sender_config config;
    const gozdrit_sender_config *lent;
    int32_t expected, answer;
    begin_call(CALL_sender_new);
    draw_config(it, &config);
    expected = it->is_made ? GOZDRIT_HANDLE_IN_USE : check_config(&config);
    lent = pointer(lend_config(&config, sizeof config));
    answer = gozdrit_sender_new(lent, lend(it, true));
    end_call(expected, answer);
    if (answer == GOZDRIT_OK) {
        it->is_made = true;
        it->config = config;
        it->first = it->next = 65536 + (uint64_t)config.first_sequence;
        it->rtx_next = config.rtx_first_sequence;
        it->now = 0;
        it->is_told = it->is_set = false;
        follow(it, false);
        memset(&it->counts, 0, sizeof it->counts);
    }
    check_handle(it, answer);
    check_kept(AREA_STRUCT, 0);
}

static void call_free(struct sender *it) {
    int32_t answer;
    begin_call(CALL_sender_free);
    answer = gozdrit_sender_free(lend(it, true));
    end_call(unless_none(it, GOZDRIT_OK), answer);
    if (answer == GOZDRIT_OK) it->is_made = false;
    check_handle(it, answer);
}

void free_senders(void) {
    unsigned i;
    for (i = 0; i < SESSIONS; i++) {
        while (senders[i].is_made) call_free(&senders[i]);
        free(senders[i].history);
    }
}

static void call_defaults(void) {
    gozdrit_sender_config *config;
    size_t size;
    int32_t answer;
    begin_call(CALL_sender_defaults);
    size = draw_size(sizeof *config, 3);
    config = lend_defaults(size);
    answer = gozdrit_sender_defaults(pointer(config), size);
    end_call(GOZDRIT_OK, answer);
    check_defaults(answer, sizeof *config, size);
    if (answer != GOZDRIT_OK) return;
    same(1024, config->history, "history");
    same(16, config->max_retransmissions, "max_retransmissions");
    same(10, config->min_resend, "min_resend");
    holds(config->first_sequence == 0 && config->rtx_first_sequence == 0 && config->any_reporter == 0 && config->deadline == 0,
          "all else is 0");
    check_no_session(&config->session);
}

/* ---- sent and retransmitted */

/* Whether a header and a payload are within the limits; then the datagram that they make is put at the next place of the
 * history, but not yet counted as one of it. */
static bool make_packet(struct sender *it, struct kept *made, const gozdrit_header *header, const uint8_t *payload,
                        size_t length, uint8_t padding) {
    if (length > GOZDRIT_MAX_PAYLOAD || header->csrc_count > GOZDRIT_MAX_CSRCS) return false;
    if (header->has_extension && header->extension_words > GOZDRIT_MAX_EXTENSION_WORDS) return false;
    made->length = write_packet(made->datagram, header, payload, length, padding);
    set_stream(made->datagram, it->config.session.media_payload_type, (uint16_t)it->next, it->config.session.media_ssrc);
    made->padding = padding;
    made->at = made->length - padding - length;
    made->digest = digest(header, payload, length);
    made->retransmissions = 0;
    made->is_queued = false;
    made->sent_at = it->now;
    made->was_resent = false;
    return true;
}

static int32_t expect_send(const struct sender *it, const struct kept *made, bool fits, size_t length, size_t room) {
    if (!it->is_made) return GOZDRIT_EMPTY_HANDLE;
    if (!fits) return GOZDRIT_TOO_LARGE;
    if (room < made->length) return GOZDRIT_NO_ROOM;
    return made->padding > 0 && length == 0 ? GOZDRIT_PADDED_EMPTY : GOZDRIT_OK;
}

/* Tells that `out` has the datagram at its front, and `sent` tells of it. */
static void check_sent(int32_t answer, const uint8_t *datagram, size_t length, uint64_t sequence) {
    const gozdrit_sent *sent = lies(AREA_TOLD), *before = lay(AREA_TOLD);
    bool is_ok = answer == GOZDRIT_OK;
    check_told(answer, sizeof *sent);
    check_kept(AREA_OUT, is_ok ? length : 0);
    if (!is_ok) return;
    same(length, sent->length, "sent->length");
    same(length > 0 ? sequence : before->sequence, sent->sequence, "sent->sequence");
    holds(length == 0 || memcmp(lies(AREA_OUT), datagram, length) == 0, "the datagram is that of the header and the payload");
}

/* Keeps a datagram that was made of a packet of the history. */
static void keep(struct sender *it, const uint8_t *datagram, size_t length, uint64_t sequence, bool is_retransmission) {
    struct origin origin = {true, false, 0, 0};
    origin.is_retransmission = is_retransmission;
    origin.number = (uint16_t)sequence;
    origin.digest = kept_at(it, sequence)->digest;
    keep_media(it->session, datagram, length, &origin);
}

/* Sends one packet with this room, and answers whether it was sent. */
static bool send_packet(struct sender *it, const gozdrit_header *header, const uint8_t *payload, size_t length,
                        uint8_t padding, size_t room) {
    static struct kept made;
    bool fits = make_packet(it, &made, header, payload, length, padding);
    const gozdrit_header *lent = pointer(lend_in(AREA_STRUCT, header, sizeof *header));
    const uint8_t *octets = octets_pointer(lend_in(AREA_IN, payload, length), length);
    gozdrit_sent *sent = pointer(lend_told(sizeof *sent));
    uint8_t *out = octets_pointer(lend_out(AREA_OUT, room), room);
    int32_t answer = gozdrit_send(lend(it, true), lent, octets, length, padding, sent, out, room);
    end_call(expect_send(it, &made, fits, length, room), answer);
    check_handle(it, answer);
    check_kept(AREA_STRUCT, 0);
    check_kept(AREA_IN, 0);
    check_sent(answer, made.datagram, made.length, it->next);
    if (answer != GOZDRIT_OK) return false;
    memcpy(kept_at(it, it->next), &made, sizeof made);
    keep(it, made.datagram, made.length, it->next, false);
    it->next++;
    follow_send(it);
    it->counts.sent++;
    it->counts.octets += length;
    return true;
}

static void call_send(struct sender *it) {
    static uint8_t payload[LONGEST];
    gozdrit_header header;
    size_t length, needed;
    uint8_t padding = (uint8_t)(one_in(6) ? between(1, 255) : 0);
    begin_call(CALL_send);
    draw_header(&header);
    length = draw_payload(payload);
    needed = packet_length(&header, length, padding);
    if (one_in(8)) { /* one octet too few, and then the same with just enough */
        send_packet(it, &header, payload, length, padding, needed - 1);
        begin_call(CALL_send);
    }
    send_packet(it, &header, payload, length, padding, draw_room(needed, GOZDRIT_MAX_DATAGRAM));
}

/* The retransmission of a packet: as the packet, without its padding, in the other stream, and with its number in front. */
static size_t make_retransmission(struct sender *it, const struct kept *kept, uint8_t *out) {
    size_t length = kept->length - kept->padding;
    memcpy(out, kept->datagram, kept->at);
    memcpy(out + kept->at + 2, kept->datagram + kept->at, length - kept->at);
    memcpy(out + kept->at, kept->datagram + 2, 2);
    out[0] &= 0xdf;
    set_stream(out, it->config.session.rtx_payload_type, it->rtx_next, it->config.session.rtx_ssrc);
    return length + 2;
}

/* The least sequence that is to be retransmitted, or the next one where there is none. */
static uint64_t next_queued(struct sender *it) {
    uint64_t sequence = it->is_made ? oldest(it) : it->next;
    while (sequence < it->next && !kept_at(it, sequence)->is_queued) sequence++;
    return sequence;
}

/* Until it is told a time, there is none. */
static bool has_rule(const struct sender *it) { return it->is_told && (min_resend(it) > 0 || it->config.deadline > 0); }

static uint64_t since(const struct sender *it, uint64_t moment) { return it->now > moment ? it->now - moment : 0; }

static bool is_expired(const struct sender *it, const struct kept *kept) {
    return it->is_told && it->config.deadline > 0 && since(it, kept->sent_at) > it->config.deadline;
}

static bool is_early(const struct sender *it, const struct kept *kept) {
    return it->is_told && kept->was_resent && since(it, kept->resent_at) < min_resend(it);
}

/* The least sequence that is to be retransmitted and fits the time, or the next one where there is none. */
static uint64_t next_fitting(struct sender *it) {
    uint64_t sequence = next_queued(it);
    while (sequence < it->next) {
        struct kept *kept = kept_at(it, sequence);
        if (kept->is_queued && !is_expired(it, kept) && !is_early(it, kept)) return sequence;
        sequence++;
    }
    return sequence;
}

/* What lies below that is no more to be retransmitted. */
static void pass_over(struct sender *it, uint64_t end) {
    uint64_t sequence;
    while ((sequence = next_queued(it)) < end) {
        struct kept *kept = kept_at(it, sequence);
        kept->is_queued = false;
        if (is_expired(it, kept)) it->counts.expired++;
        else it->counts.early++;
    }
}

static void retransmit(struct sender *it, uint64_t sequence, const uint8_t *datagram, size_t length, size_t room) {
    size_t wanted = it->is_made && has_rule(it) ? GOZDRIT_MAX_DATAGRAM : length;
    gozdrit_sent *sent = pointer(lend_told(sizeof *sent));
    uint8_t *out = octets_pointer(lend_out(AREA_OUT, room), room);
    int32_t answer = gozdrit_retransmit(lend(it, true), sent, out, room);
    end_call(unless_none(it, room < wanted ? GOZDRIT_NO_ROOM : GOZDRIT_OK), answer);
    check_handle(it, answer);
    check_sent(answer, datagram, length, sequence);
    if (answer == GOZDRIT_OK) pass_over(it, sequence);
    if (answer == GOZDRIT_OK && length > 0) {
        struct kept *kept = kept_at(it, sequence);
        kept->is_queued = false;
        kept->was_resent = true;
        kept->resent_at = it->now;
        follow_resend(it);
        kept->retransmissions++;
        it->rtx_next++;
        it->counts.retransmissions++;
        keep(it, datagram, length, sequence, true);
    }
}

/* The next retransmission that fits the time, with this room. A call that has too little passes nothing over. */
static void retransmit_next(struct sender *it, bool is_short) {
    static uint8_t datagram[GOZDRIT_MAX_DATAGRAM];
    bool ruled = it->is_made && has_rule(it);
    uint64_t sequence;
    size_t length, room;
    sequence = ruled ? next_fitting(it) : next_queued(it);
    length = sequence < it->next ? make_retransmission(it, kept_at(it, sequence), datagram) : 0;
    if (is_short && !ruled && length == 0) return;
    room = ruled ? GOZDRIT_MAX_DATAGRAM : is_short ? length : draw_room(length, GOZDRIT_MAX_DATAGRAM);
    begin_call(CALL_retransmit);
    retransmit(it, sequence, datagram, length, is_short ? room - 1 : room);
}

static void call_retransmit(struct sender *it) {
    if (one_in(4)) retransmit_next(it, true);
    retransmit_next(it, false);
}

/* Moments fall too, now and then. */
static void call_set_time(struct sender *it) {
    uint64_t now = one_in(20) ? random_bits() : it->now + below(80);
    int32_t answer;
    begin_call(CALL_sender_set_time);
    answer = gozdrit_sender_set_time(lend(it, true), now);
    end_call(unless_none(it, GOZDRIT_OK), answer);
    if (answer == GOZDRIT_OK) {
        if (!it->is_told && !it->is_set) follow(it, true);
        it->is_told = true;
        it->now = now;
    }
    check_handle(it, answer);
}

static void call_set_adaptive(struct sender *it) {
    uint8_t adaptive = (uint8_t)(one_in(10) ? between(2, 255) : below(4) > 0);
    int32_t answer;
    begin_call(CALL_sender_set_adaptive);
    answer = gozdrit_sender_set_adaptive(lend(it, true), adaptive);
    end_call(unless_none(it, adaptive > 1 ? GOZDRIT_BAD_LIMIT : GOZDRIT_OK), answer);
    if (answer == GOZDRIT_OK) {
        follow(it, adaptive == 1);
        it->is_set = true;
    }
    check_handle(it, answer);
}

/* ---- feedback, and the rest */

static void call_feedback(struct sender *it) {
    static struct datagram drawn;
    gozdrit_outcome *outcome, expected;
    const uint8_t *octets;
    int32_t answer;
    begin_call(CALL_feedback);
    draw_feedback(&drawn, it->session, &it->fed, (uint16_t)it->next);
    octets = octets_pointer(lend_in(AREA_IN, drawn.octets, drawn.length), drawn.length);
    outcome = lend_told(sizeof *outcome);
    answer = gozdrit_feedback(lend(it, true), octets, drawn.length, pointer(outcome));
    end_call(unless_none(it, GOZDRIT_OK), answer);
    check_handle(it, answer);
    check_kept(AREA_IN, 0);
    check_told(answer, sizeof *outcome);
    if (answer != GOZDRIT_OK) return;
    hear(it, drawn.octets, drawn.length, &expected);
    same(expected.kind, outcome->kind, "outcome->kind");
    same(expected.refusal, outcome->refusal, "outcome->refusal");
    same(expected.queued, outcome->queued, "outcome->queued");
    same(expected.nacks, outcome->nacks, "outcome->nacks");
    same(expected.other_nacks, outcome->other_nacks, "outcome->other_nacks");
    same(expected.nacked, outcome->nacked, "outcome->nacked");
    same(expected.not_in_history, outcome->not_in_history, "outcome->not_in_history");
    same(expected.exhausted, outcome->exhausted, "outcome->exhausted");
    count_told(OUTCOME_KIND, outcome->kind);
    count_told(OUTCOME_REFUSAL, outcome->refusal);
}

static void call_tail_loss_probe(struct sender *it) {
    uint32_t *queued, expected = 0;
    int32_t answer;
    begin_call(CALL_tail_loss_probe);
    queued = lend_out(AREA_NUMBER, sizeof *queued);
    answer = gozdrit_tail_loss_probe(lend(it, true), pointer(queued));
    end_call(unless_none(it, GOZDRIT_OK), answer);
    check_handle(it, answer);
    check_kept(AREA_NUMBER, answer == GOZDRIT_OK ? sizeof *queued : 0);
    if (answer != GOZDRIT_OK) return;
    if (it->next > it->first) {
        struct kept *kept = kept_at(it, it->next - 1);
        expected = !kept->is_queued && kept->retransmissions < it->config.max_retransmissions;
        if (expected) kept->is_queued = true;
    }
    same(expected, *queued, "queued");
}

static void call_counts(struct sender *it) {
    gozdrit_send_counts *counts;
    int32_t answer;
    begin_call(CALL_sender_counts);
    counts = lend_told(sizeof *counts);
    answer = gozdrit_sender_counts(lend(it, false), pointer(counts));
    end_call(unless_none(it, GOZDRIT_OK), answer);
    check_handle(it, answer);
    check_told(answer, sizeof *counts);
    if (answer != GOZDRIT_OK) return;
    same(it->counts.sent, counts->sent, "counts->sent");
    same(it->counts.octets, counts->octets, "counts->octets");
    same(it->counts.retransmissions, counts->retransmissions, "counts->retransmissions");
    same(it->counts.nacks, counts->nacks, "counts->nacks");
    same(it->counts.other_nacks, counts->other_nacks, "counts->other_nacks");
    same(it->counts.nacked, counts->nacked, "counts->nacked");
    same(it->counts.not_in_history, counts->not_in_history, "counts->not_in_history");
    same(it->counts.exhausted, counts->exhausted, "counts->exhausted");
    same(it->counts.media, counts->media, "counts->media");
    same(it->counts.reports, counts->reports, "counts->reports");
    same(it->counts.refused, counts->refused, "counts->refused");
    same(it->counts.early, counts->early, "counts->early");
    same(it->counts.expired, counts->expired, "counts->expired");
}

void call_sender(void) {
    struct sender *it = &senders[below(SESSIONS)];
    uint32_t which = below(1000);
    if (!it->is_made && one_in(2)) call_new(it);
    else if (which < 1) call_free(it);
    else if (which < 6) call_new(it);
    else if (which < 10) call_defaults();
    else if (which < 500) call_send(it);
    else if (which < 700) call_feedback(it);
    else if (which < 940) call_retransmit(it);
    else if (which < 960) call_tail_loss_probe(it);
    else if (which < 980) call_set_time(it);
    else if (which < 984) call_set_adaptive(it);
    else call_counts(it);
}
