/* Calls of an end with all that each of them must give. A call that writes is tried with one octet less room than it needs
 * first, which it refuses, and then with just enough. One that writes nothing needs none, and leaves what it is lent. None
 * changes the size that a struct says. */
#include "checks.h"

#include <stdlib.h>

static bool is_received(const gozdrit_received *a, const gozdrit_received *b) {
    return a->kind == b->kind && a->refusal == b->refusal && a->sequence == b->sequence && a->overrun == b->overrun
           && a->abandoned == b->abandoned && a->held_back == b->held_back;
}

void hears(const char *file, int line, gozdrit_receiver *r, const uint8_t *octets, size_t length, uint64_t now,
           gozdrit_received expected) {
    uint8_t *lent = boxed(octets, length);
    gozdrit_received received;
    FILL_SIZED(received);
    check_answer(GOZDRIT_OK, gozdrit_receive(r, lent, length, now, &received), "gozdrit_receive", file, line);
    check_answer(expected.kind, received.kind, "the kind of what was received", file, line);
    check_answer(expected.refusal, received.refusal, "the refusal of what was received", file, line);
    check(is_received(&expected, &received) && received.size == sizeof received, "what was received", file, line);
    free(lent);
}

void hears_media(const char *file, int line, gozdrit_receiver *r, uint16_t seq, uint64_t now, gozdrit_received expected) {
    const uint8_t octet = (uint8_t)seq;
    uint8_t packet[13];
    hears(file, line, r, packet, write_rtp(packet, 96, seq, 0x11111111, &octet, 1), now, expected);
}

void hears_rtx(const char *file, int line, gozdrit_receiver *r, uint32_t ssrc, uint16_t original, uint64_t now,
               gozdrit_received expected) {
    const uint8_t octets[3] = {(uint8_t)(original >> 8), (uint8_t)original, (uint8_t)original};
    uint8_t packet[15];
    hears(file, line, r, packet, write_rtp(packet, 97, 9000, ssrc, octets, sizeof octets), now, expected);
}

void is_told(const char *file, int line, gozdrit_sender *s, const uint8_t *octets, size_t length, gozdrit_outcome expected) {
    uint8_t *lent = boxed(octets, length);
    gozdrit_outcome outcome;
    FILL_SIZED(outcome);
    check_answer(GOZDRIT_OK, gozdrit_feedback(s, lent, length, &outcome), "gozdrit_feedback", file, line);
    check_answer(expected.kind, outcome.kind, "the kind of an outcome", file, line);
    check_answer(expected.refusal, outcome.refusal, "the refusal of an outcome", file, line);
    check(expected.queued == outcome.queued && outcome.size == sizeof outcome, "what is to be retransmitted", file, line);
    check(expected.nacks == outcome.nacks && expected.other_nacks == outcome.other_nacks, "the NACKs of an outcome", file,
          line);
    check(expected.nacked == outcome.nacked && expected.not_in_history == outcome.not_in_history
              && expected.exhausted == outcome.exhausted,
          "the numbers of an outcome", file, line);
    free(lent);
}

static bool is_plain(const gozdrit_header *h) {
    return h->timestamp == 0 && h->marker == 0 && h->csrc_count == 0 && h->has_extension == 0 && h->extension_words == 0
           && UNTOUCHED(h->extension_profile) && UNTOUCHED(h->csrcs) && UNTOUCHED(h->extension);
}

void plays(const char *file, int line, gozdrit_receiver *r, uint64_t now, uint8_t kind, uint64_t sequence, uint8_t octet) {
    const bool packet = kind == GOZDRIT_PACKET;
    gozdrit_played played;
    uint8_t payload[2];
    FILL_SIZED(played);
    FILL(payload);
    if (packet) {
        check_answer(GOZDRIT_NO_ROOM, gozdrit_play(r, now, &played, NULL, 0), "gozdrit_play", file, line);
        check_answer(GOZDRIT_NO_ROOM, gozdrit_play(r, now, &played, payload, 0), "gozdrit_play", file, line);
        check(UNTOUCHED_SIZED(played) && UNTOUCHED(payload), "what a play without room leaves", file, line);
    }
    if (kind == GOZDRIT_WAIT) check_answer(GOZDRIT_OK, gozdrit_play(r, now, &played, NULL, 0), "gozdrit_play", file, line);
    check_answer(GOZDRIT_OK, gozdrit_play(r, now, &played, payload, packet ? 1 : 2), "gozdrit_play", file, line);
    check_answer(kind, played.kind, "the kind of what was played", file, line);
    check(played.size == sizeof played
              && (kind == GOZDRIT_WAIT ? UNTOUCHED(played.sequence) : played.sequence == sequence),
          "what was played", file, line);
    if (packet) {
        check(played.length == 1 && payload[0] == octet && payload[1] == PATTERN, "the payload", file, line);
        check(is_plain(&played.header), "the header of what was played", file, line);
    } else {
        check(UNTOUCHED(played.length) && UNTOUCHED(played.header), "what no packet leaves", file, line);
        check(UNTOUCHED(payload), "the payload that no packet leaves", file, line);
    }
}

void nacks(const char *file, int line, gozdrit_receiver *r, uint64_t now, size_t most, const uint16_t *pairs,
           size_t count) {
    uint8_t out[GOZDRIT_MAX_NACK_DATAGRAM + 1], expected[GOZDRIT_MAX_NACK_DATAGRAM];
    const size_t room = count > 0 ? write_pairs(expected, 0x33333333, 0x11111111, pairs, count) : 0;
    size_t length;
    FILL(out);
    FILL(length);
    if (room > 0) {
        check_answer(GOZDRIT_NO_ROOM, gozdrit_nack(r, now, most, &length, NULL, 0), "gozdrit_nack", file, line);
        check_answer(GOZDRIT_NO_ROOM, gozdrit_nack(r, now, most, &length, out, room - 1), "gozdrit_nack", file, line);
        check(UNTOUCHED(length) && UNTOUCHED(out), "what a NACK without room leaves", file, line);
    }
    if (room == 0) check_answer(GOZDRIT_OK, gozdrit_nack(r, now, most, &length, NULL, 0), "gozdrit_nack", file, line);
    check_answer(GOZDRIT_OK, gozdrit_nack(r, now, most, &length, out, room > 0 ? room : sizeof out), "gozdrit_nack", file,
                 line);
    check(length == room, "the length of a NACK", file, line);
    check(room == 0 || memcmp(out, expected, room) == 0, "the octets of a NACK", file, line);
    check(is_pattern(out + room, sizeof out - room), "what lies behind a NACK", file, line);
}

state state_of(const gozdrit_receiver *r) {
    state s;
    memset(&s, 0, sizeof s);
    s.counts.size = sizeof s.counts;
    s.probes.size = sizeof s.probes;
    ANSWERS(GOZDRIT_OK, gozdrit_next_sequence(r, &s.next));
    ANSWERS(GOZDRIT_OK, gozdrit_highest_sequence(r, &s.highest));
    ANSWERS(GOZDRIT_OK, gozdrit_rtx_ssrc(r, &s.ssrc));
    ANSWERS(GOZDRIT_OK, gozdrit_next_timeout(r, &s.timeout));
    ANSWERS(GOZDRIT_OK, gozdrit_missing(r, &s.missing));
    ANSWERS(GOZDRIT_OK, gozdrit_receiver_counts(r, &s.counts));
    ANSWERS(GOZDRIT_OK, gozdrit_receiver_probe_counts(r, &s.probes));
    return s;
}

bool is_same_state(const state *a, const state *b) {
    return a->next.known == b->next.known && a->next.sequence == b->next.sequence
           && a->highest.known == b->highest.known && a->highest.sequence == b->highest.sequence
           && a->ssrc.known == b->ssrc.known && a->ssrc.ssrc == b->ssrc.ssrc
           && a->timeout.known == b->timeout.known && a->timeout.time == b->timeout.time && a->missing == b->missing;
}

static bool is_sequence(const gozdrit_sequence *came, uint64_t sequence) {
    if (sequence == 0) return came->known == 0 && UNTOUCHED(came->sequence);
    return came->known == 1 && came->sequence == sequence;
}

void tells(const char *file, int line, const gozdrit_receiver *r, uint64_t next, uint64_t highest, size_t missing) {
    gozdrit_sequence sequence;
    size_t count;
    FILL(sequence);
    check_answer(GOZDRIT_OK, gozdrit_next_sequence(r, &sequence), "gozdrit_next_sequence", file, line);
    check(is_sequence(&sequence, next), "the next sequence number", file, line);
    FILL(sequence);
    check_answer(GOZDRIT_OK, gozdrit_highest_sequence(r, &sequence), "gozdrit_highest_sequence", file, line);
    check(is_sequence(&sequence, highest), "the highest sequence number", file, line);
    check_answer(GOZDRIT_OK, gozdrit_missing(r, &count), "gozdrit_missing", file, line);
    check(count == missing, "how many are missing", file, line);
}

void calls_at(const char *file, int line, const gozdrit_receiver *r, bool known, uint64_t time) {
    gozdrit_timeout came;
    FILL(came);
    check_answer(GOZDRIT_OK, gozdrit_next_timeout(r, &came), "gozdrit_next_timeout", file, line);
    check(came.known == known, "whether there is a next timeout", file, line);
    check(known ? came.time == time : UNTOUCHED(came.time), "the next timeout", file, line);
}

/* The counts have no octets between their fields. */
bool is_counted(const gozdrit_receiver *r, gozdrit_receive_counts expected) {
    gozdrit_receive_counts counts;
    FILL_SIZED(counts);
    expected.size = sizeof expected;
    ANSWERS(GOZDRIT_OK, gozdrit_receiver_counts(r, &counts));
    return memcmp(&counts, &expected, sizeof counts) == 0;
}

bool is_told_apart(const gozdrit_receiver *r, gozdrit_probe_counts expected) {
    gozdrit_probe_counts counts;
    FILL_SIZED(counts);
    expected.size = sizeof expected;
    ANSWERS(GOZDRIT_OK, gozdrit_receiver_probe_counts(r, &counts));
    return memcmp(&counts, &expected, sizeof counts) == 0;
}

bool is_counted_sent(const gozdrit_sender *s, gozdrit_send_counts expected) {
    gozdrit_send_counts counts;
    FILL_SIZED(counts);
    expected.size = sizeof expected;
    ANSWERS(GOZDRIT_OK, gozdrit_sender_counts(s, &counts));
    return memcmp(&counts, &expected, sizeof counts) == 0;
}
