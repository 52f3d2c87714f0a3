/* What the model of a sender hears of its receiver (docs/PROTOCOL.md, "Compound datagrams"). */
#include "sender.h"

/* The walk over RTCP packets: 0 where there is a NACK, or the fault that decides. */
static int32_t walk(const uint8_t *octets, size_t length) {
    bool has_nack = false, has_feedback = false;
    size_t at = 0;
    if (length == 0) return GOZDRIT_FEEDBACK_SHORT;
    while (at < length) {
        const uint8_t *packet = octets + at;
        bool is_nack;
        size_t whole;
        if (length - at < 4) return GOZDRIT_FEEDBACK_SHORT;
        if (packet[0] >> 6 != 2) return GOZDRIT_FEEDBACK_VERSION;
        is_nack = packet[1] == 205 && (packet[0] & 31) == 1;
        if (is_nack && (packet[0] & 32) != 0) return GOZDRIT_FEEDBACK_PADDED;
        whole = 4 + 4 * (size_t)get16(packet + 2);
        if (whole > length - at) return GOZDRIT_FEEDBACK_LENGTH;
        if (is_nack && whole < 12) return GOZDRIT_FEEDBACK_SHORT;
        if (is_nack && whole == 12) return GOZDRIT_FEEDBACK_EMPTY;
        has_nack |= is_nack;
        has_feedback |= packet[1] == 205;
        at += whole;
    }
    return has_nack ? 0 : has_feedback ? GOZDRIT_NOT_NACK : GOZDRIT_NOT_RTPFB;
}

static uint64_t sequence_of(const struct sender *it, uint16_t number) {
    uint64_t back = (uint16_t)((uint16_t)it->next - number);
    return it->next - (back == 0 ? 65536 : back);
}

/* A number that a NACK of the session names. */
static void hear_number(struct sender *it, uint16_t number, gozdrit_outcome *outcome) {
    uint64_t back = (uint16_t)((uint16_t)it->next - number), sequence = sequence_of(it, number);
    struct kept *kept = kept_at(it, sequence);
    outcome->nacked++;
    if (back == 0 || sequence < oldest(it)) {
        outcome->not_in_history++;
    } else if (kept->retransmissions == it->config.max_retransmissions) {
        outcome->exhausted++;
    } else if (!kept->is_queued) {
        kept->is_queued = true;
        outcome->queued++;
    }
}

static void hear_nack(struct sender *it, const uint8_t *packet, size_t length, gozdrit_outcome *outcome) {
    size_t at, bit;
    for (at = 12; at < length; at += 4) {
        uint16_t pid = get16(packet + at), blp = get16(packet + at + 2);
        hear_number(it, pid, outcome);
        for (bit = 0; bit < 16; bit++)
            if (blp >> bit & 1) hear_number(it, (uint16_t)(pid + 1 + bit), outcome);
    }
    outcome->nacks++;
}

/* 0 where a NACK is for this sender, or 18 or 19. */
static int32_t refuse_nack(const struct sender *it, const uint8_t *packet) {
    if (get32(packet + 8) != it->config.session.media_ssrc) return GOZDRIT_WRONG_MEDIA;
    if (!it->config.any_reporter && get32(packet + 4) != it->config.session.receiver_ssrc) return GOZDRIT_WRONG_REPORTER;
    return 0;
}

/* The number that a NACK names last. */
static uint16_t last_number(const uint8_t *packet, size_t length) {
    uint16_t pid = get16(packet + length - 4), blp = get16(packet + length - 2);
    int bit;
    for (bit = 15; bit >= 0; bit--)
        if (blp >> bit & 1) return (uint16_t)(pid + 1 + bit);
    return pid;
}

/* The path is measured before anything is marked, by the last number that is named. */
static void measure(struct sender *it, const uint8_t *octets, size_t length) {
    const struct kept *kept;
    bool has_number = false;
    uint16_t number = 0;
    uint64_t sequence;
    size_t at, whole;
    for (at = 0; at < length; at += whole) {
        whole = 4 + 4 * (size_t)get16(octets + at + 2);
        if (octets[at + 1] != 205 || (octets[at] & 31) != 1 || refuse_nack(it, octets + at) != 0) continue;
        has_number = true;
        number = last_number(octets + at, whole);
    }
    if (!has_number || (uint16_t)it->next == number) return;
    sequence = sequence_of(it, number);
    kept = kept_at(it, sequence);
    if (sequence >= oldest(it) && !kept->is_queued && kept->retransmissions == 0) follow_hear(it, sequence);
}

/* Goes on with the NACKs of a datagram without a fault. */
static void hear_nacks(struct sender *it, const uint8_t *octets, size_t length, gozdrit_outcome *outcome) {
    int32_t first = 0;
    size_t at, whole;
    for (at = 0; at < length; at += whole) {
        int32_t fault;
        whole = 4 + 4 * (size_t)get16(octets + at + 2);
        if (octets[at + 1] != 205 || (octets[at] & 31) != 1) continue;
        fault = refuse_nack(it, octets + at);
        if (fault == 0) {
            hear_nack(it, octets + at, whole, outcome);
            continue;
        }
        outcome->other_nacks++;
        if (first == 0) first = fault;
    }
    outcome->kind = GOZDRIT_FEEDBACK;
    if (outcome->nacks > 0) return;
    memset(outcome, 0, sizeof *outcome);
    outcome->refusal = (uint8_t)first;
}

void hear(struct sender *it, const uint8_t *octets, size_t length, gozdrit_outcome *outcome) {
    int32_t fault;
    memset(outcome, 0, sizeof *outcome);
    if (!is_rtcp(octets, length)) {
        outcome->kind = GOZDRIT_MEDIA;
        it->counts.media++;
        return;
    }
    fault = walk(octets, length);
    if (fault == GOZDRIT_NOT_RTPFB || fault == GOZDRIT_NOT_NACK) {
        outcome->kind = GOZDRIT_REPORTS;
        it->counts.reports++;
        return;
    }
    outcome->refusal = (uint8_t)fault;
    if (fault == 0) measure(it, octets, length);
    if (fault == 0) hear_nacks(it, octets, length, outcome);
    if (outcome->kind == GOZDRIT_REFUSED) it->counts.refused++;
    it->counts.nacks += outcome->nacks;
    it->counts.other_nacks += outcome->other_nacks;
    it->counts.nacked += outcome->nacked;
    it->counts.not_in_history += outcome->not_in_history;
    it->counts.exhausted += outcome->exhausted;
}
