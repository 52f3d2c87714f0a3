/* What is drawn: sessions, headers, payloads, datagrams that came so and datagrams that nobody sent, rooms and moments. */
#include "fuzz.h"

/* SSRCs are drawn from a few, so that those of different sessions meet. */
static uint32_t draw_ssrc(void) { return one_in(200) ? (uint32_t)random_bits() : 0x1000 + below(60); }

static uint8_t draw_type(void) { return (uint8_t)(one_in(60) ? below(256) : between(96, 127)); }

void draw_session(gozdrit_session *session) {
    random_octets((uint8_t *)session, sizeof *session);
    session->media_ssrc = draw_ssrc();
    session->rtx_ssrc = draw_ssrc();
    session->receiver_ssrc = draw_ssrc();
    session->media_payload_type = draw_type();
    session->rtx_payload_type = draw_type();
    session->any_media_payload_type = one_in(3) ? (gozdrit_bool)between(1, 255) : 0;
    if (session->any_media_payload_type && one_in(2)) session->media_payload_type = (uint8_t)below(64);
}

static gozdrit_session sessions[SESSIONS];

const gozdrit_session *usual_session(unsigned number) { return &sessions[number]; }

void change_session(unsigned number) { draw_session(&sessions[number]); }

void draw_header(gozdrit_header *header) {
    random_octets((uint8_t *)header, sizeof *header);
    header->csrc_count = (uint8_t)(one_in(3) ? below(GOZDRIT_MAX_CSRCS + 1) : 0);
    header->extension_words = (uint8_t)below(GOZDRIT_MAX_EXTENSION_WORDS + 1);
    header->has_extension = one_in(3) ? (gozdrit_bool)between(1, 255) : 0;
    header->marker = one_in(2) ? (gozdrit_bool)between(1, 255) : 0;
    if (one_in(100)) header->csrc_count = (uint8_t)between(GOZDRIT_MAX_CSRCS, 255);
    if (one_in(60)) header->extension_words = (uint8_t)between(GOZDRIT_MAX_EXTENSION_WORDS, 255);
}

size_t draw_payload(uint8_t *out) {
    size_t length = one_in(20) ? 0 : below(one_in(8) ? GOZDRIT_MAX_PAYLOAD + 1 : 100);
    if (one_in(100)) length = between(GOZDRIT_MAX_PAYLOAD - 1, GOZDRIT_MAX_PAYLOAD + 40);
    random_octets(out, length);
    return length;
}

size_t draw_room(size_t needed, size_t enough) {
    if (one_in(3)) return enough + below(30);
    if (one_in(8)) return 0;
    if (one_in(6) && needed > 0) return needed - 1;
    if (one_in(6)) return below((uint32_t)enough);
    return needed;
}

/* The clock of all ends: it mostly goes on, and jumps at times. */
uint64_t draw_now(void) {
    static uint64_t clock = 1000000;
    clock += below(16);
    if (one_in(4000)) clock += below(5000);
    if (one_in(500)) clock -= below(2000);
    if (one_in(20000)) clock += random_bits() >> 3;
    if (one_in(5000)) return random_bits();
    return one_in(2000) ? UINT64_MAX - below(100) : clock;
}

/* ---- what the ends made */

enum { MEDIA_KEPT = 256, NACKS_KEPT = 32 };

struct kept {
    struct origin origin;
    size_t length;
    uint8_t octets[GOZDRIT_MAX_DATAGRAM];
};

static struct kept media[SESSIONS][MEDIA_KEPT], nacks[SESSIONS][NACKS_KEPT];
static uint64_t media_made[SESSIONS], nacks_made[SESSIONS];

static void keep(struct kept *kept, const uint8_t *octets, size_t length) {
    kept->length = length;
    memcpy(kept->octets, octets, length);
}

void keep_media(unsigned session, const uint8_t *octets, size_t length, const struct origin *origin) {
    struct kept *kept = &media[session][media_made[session]++ % MEDIA_KEPT];
    keep(kept, octets, length);
    kept->origin = *origin;
}

void keep_nack(unsigned session, const uint8_t *octets, size_t length) {
    keep(&nacks[session][nacks_made[session]++ % NACKS_KEPT], octets, length);
}

/* Which of those that were made so far: the next in order, one skipped, or any that is still kept. */
static uint64_t draw_kept(uint64_t made, uint64_t many, uint64_t *fed) {
    uint64_t oldest = made < many ? 0 : made - many;
    if (one_in(8)) return oldest + below((uint32_t)(made - oldest));
    if (*fed < oldest) *fed = oldest;
    if (one_in(8)) *fed += below(3);
    if (one_in(400)) *fed += below(60);
    if (*fed >= made) return made - 1 - below((uint32_t)(made - oldest < 4 ? made - oldest : 4));
    return (*fed)++;
}

/* ---- what nobody sent */

/* A random RTP packet, whose extension and payload may be larger than a packet's may. */
static size_t craft_rtp(uint8_t *out, uint8_t type, uint16_t sequence, uint32_t ssrc) {
    size_t at, words = one_in(8) ? below(60) : below(GOZDRIT_MAX_EXTENSION_WORDS + 1), length = draw_payload(out + 200);
    bool has_extension = one_in(3), is_padded = one_in(5);
    out[0] = (uint8_t)(128 | (is_padded ? 32 : 0) | (has_extension ? 16 : 0) | (one_in(2) ? below(16) : 0));
    out[1] = one_in(2) ? 128 : 0;
    put32(out + 4, (uint32_t)random_bits());
    set_stream(out, type, sequence, ssrc);
    at = 12 + 4 * (size_t)(out[0] & 15);
    random_octets(out + 12, at - 12);
    if (has_extension) {
        random_octets(out + at, 4 + 4 * words);
        put16(out + at + 2, (uint16_t)words);
        at += 4 + 4 * words;
    }
    if (one_in(10)) length = 0;
    random_octets(out + at, length + 255);
    at += length;
    if (is_padded) {
        size_t padding = one_in(200) ? 255 : between(1, 40);
        at += padding;
        out[at - 1] = (uint8_t)(one_in(30) ? below(256) : padding);
    }
    return at;
}

/* A sequence number near another, or in a run that goes on from call to call. */
static uint16_t draw_number(uint16_t near) {
    static uint16_t run;
    if (one_in(3)) return ++run;
    if (one_in(50)) return run = (uint16_t)random_bits();
    if (one_in(4)) return (uint16_t)(near + below(6000) - 3000);
    return (uint16_t)(near + below(64) - 20);
}

static size_t craft_media(uint8_t *out, const gozdrit_session *session, uint16_t near) {
    uint16_t number = draw_number(near);
    bool is_media = one_in(2);
    uint8_t type = (is_media ? session->media_payload_type : session->rtx_payload_type) & 127;
    uint32_t ssrc = is_media ? session->media_ssrc : session->rtx_ssrc;
    size_t length;
    if (one_in(10)) ssrc = one_in(2) ? session->receiver_ssrc : draw_ssrc();
    if (one_in(20)) type = draw_type() & 127;
    length = craft_rtp(out, type, number, ssrc);
    if (!is_media && one_in(2)) { /* the first octets of what is mostly its payload: an original number */
        struct packet packet;
        read_packet(out, length, &packet);
        if (packet.fault == 0 && packet.length >= 2) put16(out + packet.at, draw_number(near));
    }
    return length;
}

static size_t craft_nack(uint8_t *out, const gozdrit_session *session, uint16_t near) {
    size_t pairs = one_in(30) ? 0 : one_in(40) ? below(300) : between(1, 4), i;
    out[0] = (uint8_t)(129 | (one_in(60) ? 32 : 0));
    out[1] = 205;
    put16(out + 2, (uint16_t)(2 + pairs));
    put32(out + 4, one_in(10) ? draw_ssrc() : session->receiver_ssrc);
    put32(out + 8, one_in(10) ? draw_ssrc() : session->media_ssrc);
    for (i = 0; i < pairs; i++) {
        put16(out + 12 + 4 * i, one_in(10) ? (uint16_t)random_bits() : (uint16_t)(near + below(80) - 60));
        put16(out + 14 + 4 * i, one_in(2) ? (uint16_t)random_bits() : 0);
    }
    return 12 + 4 * pairs;
}

/* Some RTCP packets, one after another. */
static size_t craft_rtcp(uint8_t *out, const gozdrit_session *session, uint16_t near) {
    size_t at = 0, many = between(1, 4);
    for (; many > 0; many--) {
        uint8_t *packet = out + at;
        size_t words = below(8);
        if (one_in(2)) {
            at += craft_nack(packet, session, near);
            continue;
        }
        random_octets(packet, 4 + 4 * words);
        packet[0] = (uint8_t)((one_in(60) ? packet[0] & 192 : 128) | (packet[0] & 63));
        packet[1] = (uint8_t)between(one_in(40) ? 190 : 200, 207);
        put16(packet + 2, (uint16_t)(one_in(60) ? words + 1 : words));
        at += 4 + 4 * words;
    }
    return at;
}

/* As large as a datagram of UDP may be: one NACK, or nothing at all. */
static size_t craft_large(uint8_t *out, const gozdrit_session *session) {
    size_t words = between(3, LARGEST / 4);
    random_octets(out, 4 * words);
    out[0] = 129;
    out[1] = (uint8_t)(one_in(2) ? 205 : 96);
    put16(out + 2, (uint16_t)(words - 1));
    put32(out + 4, session->receiver_ssrc);
    put32(out + 8, session->media_ssrc);
    return 4 * words;
}

/* A few octets are not as they were, or there are fewer or more of them. */
static void change(struct datagram *drawn) {
    uint32_t how = below(3), many = between(1, 4);
    drawn->origin.is_genuine = false;
    if (how == 0) drawn->length = below((uint32_t)drawn->length + 1);
    if (how == 1 && drawn->length + 40 <= LARGEST) {
        size_t more = between(1, 40);
        random_octets(drawn->octets + drawn->length, more);
        drawn->length += more;
    }
    if (how == 2 && drawn->length > 0)
        while (many-- > 0) {
            size_t at = below((uint32_t)(one_in(2) && drawn->length > 12 ? 12 : drawn->length));
            drawn->octets[at] ^= (uint8_t)(1 << below(8));
        }
}

static void draw_other(struct datagram *drawn, const gozdrit_session *session, uint16_t near) {
    uint8_t *out = drawn->octets;
    uint32_t which = below(20);
    drawn->origin.is_genuine = false;
    if (which < 12) drawn->length = craft_media(out, session, near);
    else if (which < 17) drawn->length = craft_rtcp(out, session, near);
    else if (which < 19) random_octets(out, drawn->length = below(one_in(2) ? 20 : LONGEST));
    else drawn->length = one_in(40) ? craft_large(out, session) : 0;
}

static void take(struct datagram *drawn, const struct kept *kept) {
    drawn->length = kept->length;
    memcpy(drawn->octets, kept->octets, kept->length);
}

void draw_media(struct datagram *drawn, unsigned session, uint64_t *fed, uint16_t near) {
    if (media_made[session] == 0 || one_in(8)) {
        draw_other(drawn, &sessions[session], near);
    } else {
        const struct kept *kept = &media[session][draw_kept(media_made[session], MEDIA_KEPT, fed) % MEDIA_KEPT];
        take(drawn, kept);
        drawn->origin = kept->origin;
    }
    if (one_in(24)) change(drawn);
}

void draw_feedback(struct datagram *drawn, unsigned session, uint64_t *fed, uint16_t near) {
    drawn->origin.is_genuine = false;
    if (nacks_made[session] == 0 || one_in(3)) {
        if (one_in(3)) draw_other(drawn, &sessions[session], near);
        else drawn->length = craft_rtcp(drawn->octets, &sessions[session], near);
    } else {
        take(drawn, &nacks[session][draw_kept(nacks_made[session], NACKS_KEPT, fed) % NACKS_KEPT]);
    }
    if (one_in(20)) change(drawn);
}
