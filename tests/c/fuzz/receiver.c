/* The model of a receiver (docs/PROTOCOL.md, from "The receiver's window" to "Endpoints"). */
#include "receiver.h"

/* What an RTP packet is to a receiver. */
enum stream { MEDIA, RETRANSMISSION, CANDIDATE };

/* The stream of a packet: 0, or why it has none. */
static int32_t find_stream(const struct receiver *it, const struct packet *packet, enum stream *stream) {
    const gozdrit_session *session = &it->config.session;
    bool is_known = !it->config.learn_rtx_ssrc || it->has_learnt;
    uint32_t known = it->config.learn_rtx_ssrc ? it->learnt : session->rtx_ssrc;
    *stream = is_known ? RETRANSMISSION : CANDIDATE;
    if (packet->ssrc == session->media_ssrc) {
        *stream = MEDIA;
        return packet->type == session->media_payload_type ? 0 : GOZDRIT_UNKNOWN_PAYLOAD_TYPE;
    }
    if (is_known ? packet->ssrc != known : packet->ssrc == session->receiver_ssrc) return GOZDRIT_UNKNOWN_SSRC;
    return packet->type == session->rtx_payload_type ? 0 : GOZDRIT_UNKNOWN_PAYLOAD_TYPE;
}

/* What a packet of a stream carries. */
struct carried {
    enum stream stream;
    uint16_t number;
    uint64_t digest;
    size_t length;
};

/* Finds it: 0, or why there is none. */
static int32_t find_carried(const struct receiver *it, const uint8_t *octets, const struct packet *packet,
                            struct carried *carried) {
    const uint8_t *payload = octets + packet->at;
    int32_t fault = find_stream(it, packet, &carried->stream);
    if (fault != 0) return fault;
    carried->number = packet->sequence;
    carried->length = packet->length;
    if (carried->stream != MEDIA) {
        if (packet->length < 2) return GOZDRIT_NO_OSN;
        carried->number = get16(payload);
        carried->length -= 2;
        payload += 2;
    }
    if (carried->length > GOZDRIT_MAX_PAYLOAD || packet->words > GOZDRIT_MAX_EXTENSION_WORDS) return GOZDRIT_TOO_LONG;
    carried->digest = digest(&packet->header, payload, carried->length);
    return 0;
}

static bool was_named(const struct window *window, uint64_t sequence) {
    const struct slot *slot = slot_at(window, sequence);
    return sequence >= window->next && sequence <= window->highest && !slot->is_held && slot->nacks > 0;
}

/* Takes what a packet carries into a window. */
static int32_t take_carried(const struct window *of, struct window *window, const struct carried *carried, uint64_t now,
                            gozdrit_received *received) {
    int32_t fault;
    if (carried->stream != MEDIA && !of->has_started) return GOZDRIT_NOT_STARTED;
    fault = extend(window, carried->number, &received->sequence);
    if (fault != 0) return fault;
    if (carried->stream == CANDIDATE && !was_named(window, received->sequence)) return GOZDRIT_UNASKED;
    return take_packet(window, received->sequence, carried->digest, carried->length, now, &received->overrun);
}

static unsigned or_usual(unsigned number, unsigned usual) { return number ? number : usual; }

/* Whether a number has jumped from the highest one of a window. */
static bool has_jumped(const struct receiver *it, const struct window *window, uint16_t number) {
    unsigned ahead = (uint16_t)(number - (uint16_t)window->highest);
    return window->has_started && ahead >= or_usual(it->config.max_dropout, it->config.window > 3000 ? it->config.window : 3000)
           && 65536 - ahead >= or_usual(it->config.max_misorder, 100);
}

/* Whether the packet with this number that was sent last up to the highest one is missing. */
static bool is_missing(const struct window *window, uint16_t number) {
    uint64_t sequence = window->highest - (uint16_t)((uint16_t)window->highest - number);
    return sequence >= window->next && sequence <= window->highest && !slot_at(window, sequence)->is_held;
}

/* How many media packets are wanted before this number is believed; 0 where it has not jumped, or is waited for. */
static unsigned wanted_for(const struct receiver *it, uint16_t number) {
    bool is_ahead = (uint16_t)(number - (uint16_t)it->window.highest) < 32768;
    if (!has_jumped(it, &it->window, number) || is_missing(&it->window, number)) return 0;
    if (is_ahead && it->config.idle_after == 0) return or_usual(it->config.min_sequential_ahead, 2);
    return or_usual(it->config.min_sequential_behind, 256);
}

/* Whether a number goes on with what is held back. */
static bool goes_on(const struct receiver *it, uint16_t number) {
    if (it->held_back == 0) return false;
    return it->config.idle_after == 0 ? number == it->follows : !has_jumped(it, &it->spare, number);
}

/* Whether what is held back is enough. */
static bool is_enough(const struct receiver *it, uint64_t now) {
    uint64_t span = it->config.idle_after;
    bool is_idle = span != 0 && now >= it->taken_at && now - it->taken_at >= span;
    return it->held_back >= it->wanted || (is_idle && it->held_back >= or_usual(it->config.min_sequential_ahead, 2));
}

/* The stream restarts with what was held back. */
static void restart_stream(struct receiver *it, gozdrit_received *received) {
    struct window left = it->window;
    unsigned ahead = (uint16_t)(it->spare.next - received->overrun - left.highest); /* of the first one that was kept */
    if (ahead > 0 && ahead < 32768) it->counts.skipped += ahead - 1;
    if (left.next <= left.highest) received->abandoned = left.highest + 1 - left.next;
    it->window = it->spare;
    it->spare = left;
    it->held_back = 0;
    it->has_learnt = false;
    it->has_played = false;
    received->kind = GOZDRIT_RESTARTED;
}

/* What was taken is remembered by its number and its timestamp, a retransmission as its original. */
static uint64_t seen_as(uint16_t number, uint32_t timestamp) { return ((uint64_t)number << 32) + timestamp + 1; }

static void remember(struct receiver *it, uint16_t number, uint32_t timestamp) {
    it->seen[number % 8192] = seen_as(number, timestamp);
}

/* Holds back a media packet that has jumped. */
static int32_t hold_back(struct receiver *it, int32_t fault, const struct carried *carried, unsigned wanted, uint64_t now,
                         gozdrit_received *received) {
    if (!goes_on(it, carried->number)) {
        clear_window(&it->spare);
        it->held_back = 0;
        it->wanted = wanted;
    }
    if (fault == 0) fault = take_carried(&it->spare, &it->spare, carried, now, received);
    if (fault != 0) {
        if (it->config.idle_after == 0) it->held_back = 0;
        return fault;
    }
    it->follows = (uint16_t)(carried->number + 1);
    received->held_back = ++it->held_back;
    if (is_enough(it, now)) {
        it->taken_at = now;
        restart_stream(it, received);
    } else {
        received->kind = GOZDRIT_HELD_BACK;
        received->sequence = received->overrun = 0;
    }
    return 0;
}

/* What the model reads of a datagram that a sender made has to be what the sender was handed; so what is played is what was
 * sent. (A receiver of another session may see a retransmission in what was media there.) */
static void check_genuine(const struct origin *origin, const struct carried *carried) {
    if (!origin->is_genuine || origin->is_retransmission != (carried->stream != MEDIA)) return;
    same(origin->number, carried->number, "the number that was sent");
    same(origin->digest, carried->digest, "what was sent");
}

/* Takes a packet that was read. */
static int32_t take_rtp(struct receiver *it, const struct datagram *datagram, const struct packet *packet, uint64_t now,
                           gozdrit_received *received) {
    struct carried carried;
    int32_t fault = find_carried(it, datagram->octets, packet, &carried);
    bool is_media = packet->ssrc == it->config.session.media_ssrc && packet->type == it->config.session.media_payload_type;
    if (fault == 0) check_genuine(&datagram->origin, &carried);
    if (is_media) {
        unsigned wanted = wanted_for(it, packet->sequence);
        if (wanted > 0) {
            if (it->seen[packet->sequence % 8192] == seen_as(packet->sequence, packet->header.timestamp)) return GOZDRIT_LATE;
            carried.number = packet->sequence;
            fault = hold_back(it, fault, &carried, wanted, now, received);
            if (received->kind == GOZDRIT_RESTARTED) remember(it, packet->sequence, packet->header.timestamp);
            return fault;
        }
        if (it->config.idle_after == 0) it->held_back = 0;
    }
    if (fault == 0) fault = take_carried(&it->window, &it->window, &carried, now, received);
    if (fault != 0) return fault;
    if (is_media) {
        it->held_back = 0;
        it->taken_at = now;
    }
    remember(it, carried.number, packet->header.timestamp);
    received->kind = is_media ? GOZDRIT_MEDIA : GOZDRIT_RETRANSMISSION;
    if (carried.stream == CANDIDATE) {
        it->has_learnt = true;
        it->learnt = packet->ssrc;
    }
    return 0;
}

static void count_received(gozdrit_receive_counts *counts, const gozdrit_received *received) {
    counts->overrun += received->overrun;
    counts->abandoned += received->abandoned;
    if (received->kind == GOZDRIT_MEDIA) counts->media++;
    else if (received->kind == GOZDRIT_RETRANSMISSION) counts->retransmissions++;
    else if (received->kind == GOZDRIT_RTCP) counts->rtcp++;
    else if (received->kind == GOZDRIT_HELD_BACK) counts->held_back++;
    else if (received->kind == GOZDRIT_RESTARTED) counts->restarts++;
    else if (received->refusal == GOZDRIT_DUPLICATE) counts->duplicate++;
    else if (received->refusal == GOZDRIT_LATE) counts->late++;
    else if (received->refusal == GOZDRIT_TOO_FAR) counts->too_far++;
    else counts->refused++;
}

void take_datagram(struct receiver *it, const struct datagram *datagram, uint64_t now, gozdrit_received *received) {
    struct packet packet;
    memset(received, 0, sizeof *received);
    if (is_rtcp(datagram->octets, datagram->length)) {
        received->kind = GOZDRIT_RTCP;
    } else {
        int32_t fault;
        read_packet(datagram->octets, datagram->length, &packet);
        /* One that is all padding is taken without it. */
        if (packet.fault == GOZDRIT_RTP_PADDING && packet.padding > 0 && packet.padding == packet.length
            && packet.at <= GOZDRIT_MAX_DATAGRAM) {
            packet.fault = 0;
            packet.length = 0;
        }
        fault = packet.fault;
        if (fault == 0) fault = take_rtp(it, datagram, &packet, now, received);
        if (fault != 0) {
            memset(received, 0, sizeof *received);
            received->refusal = (uint8_t)fault;
        }
    }
    count_received(&it->counts, received);
}

/* ---- playing and asking */

static bool is_since(uint64_t moment, uint64_t span, uint64_t now) { return now >= moment && now - moment >= span; }

uint8_t expect_play(const struct receiver *it, uint64_t now) {
    const struct slot *slot = front(&it->window);
    if (slot == NULL) return GOZDRIT_WAIT;
    if (slot->is_held) return GOZDRIT_PACKET;
    return is_since(slot->noticed, it->config.latency, now) ? GOZDRIT_GAP : GOZDRIT_WAIT;
}

static bool is_due(const struct receiver *it, const struct slot *slot, uint64_t now) {
    if (slot->is_held || slot->nacks >= it->config.max_nacks) return false;
    if (slot->nacks > 0) return is_since(slot->last, it->config.nack_interval, now);
    return it->config.reorder_delay == 0 || is_since(slot->noticed, it->config.reorder_delay, now);
}

enum { MOST_PAIRS = 64 };

size_t expect_nack(const struct receiver *it, uint64_t now, size_t most, uint8_t *out, size_t *named) {
    const struct window *window = &it->window;
    uint64_t sequence, pid = 0;
    size_t pairs = 0;
    *named = 0;
    if (front(window) == NULL) return 0;
    for (sequence = window->next; sequence <= window->highest && *named < most && *named < GOZDRIT_MAX_NACKED; sequence++) {
        uint8_t *pair = out + 8 + 4 * pairs; /* the last one so far */
        if (!is_due(it, slot_at(window, sequence), now)) continue;
        if (pairs > 0 && sequence - pid <= 16) {
            put16(pair + 2, (uint16_t)(get16(pair + 2) | 1 << (sequence - pid - 1)));
        } else {
            if (pairs == MOST_PAIRS) break;
            pairs++;
            pid = sequence;
            put16(pair + 4, (uint16_t)pid);
            put16(pair + 6, 0);
        }
        ++*named;
    }
    if (pairs == 0) return 0;
    out[0] = 129;
    out[1] = 205;
    put16(out + 2, (uint16_t)(2 + pairs));
    put32(out + 4, it->config.session.receiver_ssrc);
    put32(out + 8, it->config.session.media_ssrc);
    return 12 + 4 * pairs;
}

void count_nack(struct receiver *it, uint64_t now, size_t named) {
    uint64_t sequence;
    it->counts.nacks++;
    it->counts.nacked += named;
    for (sequence = it->window.next; named > 0; sequence++) {
        struct slot *slot = slot_at(&it->window, sequence);
        if (!is_due(it, slot, now)) continue;
        slot->nacks++;
        slot->last = now;
        named--;
    }
}

/* The sooner of a moment and a span after another one, which may never come. */
static void sooner(bool *is_known, uint64_t *moment, uint64_t since, uint64_t span) {
    if (span > UINT64_MAX - since) return;
    if (!*is_known || since + span < *moment) *moment = since + span;
    *is_known = true;
}

size_t room_for_nack(const struct receiver *it) {
    uint64_t octets = it->allowed == 0 ? 0 : it->earned;
    if (!it->earns) return GOZDRIT_MAX_NACK_DATAGRAM;
    return octets < 16 ? 0 : (size_t)octets;
}

bool expect_timeout(const struct receiver *it, uint64_t *moment) {
    const gozdrit_receiver_config *config = &it->config;
    const struct slot *slot = front(&it->window);
    bool is_known = false;
    uint64_t sequence;
    *moment = 0;
    if (it->again_length > 0) return true;
    if (slot == NULL) return false;
    if (slot->is_held) return true;
    sooner(&is_known, moment, slot->noticed, config->latency);
    if (room_for_nack(it) == 0) return is_known;
    for (sequence = it->window.next; sequence <= it->window.highest; sequence++) {
        slot = slot_at(&it->window, sequence);
        if (slot->is_held || slot->nacks >= config->max_nacks) continue;
        if (slot->nacks > 0) sooner(&is_known, moment, slot->last, config->nack_interval);
        else sooner(&is_known, moment, config->reorder_delay ? slot->noticed : 0, config->reorder_delay);
    }
    return is_known;
}

void reset(struct receiver *it) {
    clear_window(&it->window);
    it->again_length = 0;
    it->held_back = 0;
    it->taken_at = 0;
    it->has_learnt = false;
    it->has_played = false;
}
