/* RTP packets, read and written as RFC 3550 and docs/PROTOCOL.md say, without the library. */
#include "fuzz.h"

uint16_t get16(const uint8_t *at) { return (uint16_t)(at[0] << 8 | at[1]); }

uint32_t get32(const uint8_t *at) { return (uint32_t)get16(at) << 16 | get16(at + 2); }

void put16(uint8_t *at, uint16_t number) {
    at[0] = (uint8_t)(number >> 8);
    at[1] = (uint8_t)number;
}

void put32(uint8_t *at, uint32_t number) {
    put16(at, (uint16_t)(number >> 16));
    put16(at + 2, (uint16_t)number);
}

bool is_rtcp(const uint8_t *octets, size_t length) { return length >= 2 && octets[1] >= 192 && octets[1] <= 223; }

/* Reads the CSRC list and the extension, and answers the first check that fails. */
static int32_t read_lists(const uint8_t *octets, size_t length, struct packet *packet) {
    gozdrit_header *header = &packet->header;
    unsigned i;
    header->csrc_count = octets[0] & 15;
    packet->at = 12 + 4 * (size_t)header->csrc_count;
    if (packet->at > length) return GOZDRIT_RTP_CSRC_LIST;
    for (i = 0; i < header->csrc_count; i++) header->csrcs[i] = get32(octets + 12 + 4 * i);
    header->has_extension = octets[0] >> 4 & 1;
    if (!header->has_extension) return 0;
    if (length - packet->at < 4) return GOZDRIT_RTP_EXTENSION;
    header->extension_profile = get16(octets + packet->at);
    packet->words = get16(octets + packet->at + 2);
    packet->at += 4;
    if (length - packet->at < 4 * (size_t)packet->words) return GOZDRIT_RTP_EXTENSION;
    for (i = 0; i < packet->words && i < GOZDRIT_MAX_EXTENSION_WORDS; i++)
        header->extension[i] = get32(octets + packet->at + 4 * i);
    header->extension_words = (uint8_t)i;
    packet->at += 4 * (size_t)packet->words;
    return 0;
}

void read_packet(const uint8_t *octets, size_t length, struct packet *packet) {
    memset(packet, 0, sizeof *packet);
    packet->fault = GOZDRIT_RTP_SHORT;
    if (length < 12) return;
    packet->fault = GOZDRIT_RTP_VERSION;
    if (octets[0] >> 6 != 2) return;
    packet->fault = read_lists(octets, length, packet);
    if (packet->fault != 0) return;
    packet->header.marker = octets[1] >> 7;
    packet->type = octets[1] & 127;
    packet->sequence = get16(octets + 2);
    packet->header.timestamp = get32(octets + 4);
    packet->ssrc = get32(octets + 8);
    packet->length = length - packet->at;
    if ((octets[0] & 32) == 0) return;
    packet->padding = octets[length - 1];
    if (packet->length == 0 || packet->padding == 0 || packet->padding >= packet->length) {
        packet->fault = GOZDRIT_RTP_PADDING;
        return;
    }
    packet->length -= packet->padding;
}

size_t packet_length(const gozdrit_header *header, size_t length, uint8_t padding) {
    size_t extension = header->has_extension ? 4 + 4 * (size_t)header->extension_words : 0;
    return 12 + 4 * (size_t)header->csrc_count + extension + length + padding;
}

size_t write_packet(uint8_t *out, const gozdrit_header *header, const uint8_t *payload, size_t length, uint8_t padding) {
    size_t at = 12;
    unsigned i;
    out[0] = (uint8_t)(128 | (padding ? 32 : 0) | (header->has_extension ? 16 : 0) | header->csrc_count);
    out[1] = header->marker ? 128 : 0;
    put32(out + 4, header->timestamp);
    for (i = 0; i < header->csrc_count; i++, at += 4) put32(out + at, header->csrcs[i]);
    if (header->has_extension) {
        put16(out + at, header->extension_profile);
        put16(out + at + 2, header->extension_words);
        at += 4;
        for (i = 0; i < header->extension_words; i++, at += 4) put32(out + at, header->extension[i]);
    }
    if (length > 0) memcpy(out + at, payload, length);
    at += length;
    memset(out + at, 0, padding);
    at += padding;
    if (padding) out[at - 1] = padding;
    return at;
}

void set_stream(uint8_t *packet, uint8_t type, uint16_t sequence, uint32_t ssrc) {
    packet[1] = (uint8_t)((packet[1] & 128) | type);
    put16(packet + 2, sequence);
    put32(packet + 8, ssrc);
}

static uint64_t mix(uint64_t sum, uint64_t bits) {
    sum = (sum ^ bits) * 0x9e3779b97f4a7c15u;
    return sum ^ (sum >> 29);
}

uint64_t digest(const gozdrit_header *header, const uint8_t *payload, size_t length) {
    uint64_t sum = mix(header->timestamp, (uint64_t)(header->marker != 0) << 8 | header->csrc_count);
    unsigned i;
    for (i = 0; i < header->csrc_count; i++) sum = mix(sum, header->csrcs[i]);
    if (header->has_extension) {
        sum = mix(sum, (uint64_t)header->extension_profile << 16 | (uint64_t)header->extension_words << 8 | 1);
        for (i = 0; i < header->extension_words; i++) sum = mix(sum, header->extension[i]);
    }
    sum = mix(sum, length);
    while (length > 0) {
        uint64_t bits = 0;
        size_t some = length < sizeof bits ? length : sizeof bits;
        memcpy(&bits, payload, some);
        sum = mix(sum, bits);
        payload += some;
        length -= some;
    }
    return sum;
}

void check_header_rest(const gozdrit_header *before, const gozdrit_header *after) {
    size_t csrcs = after->csrc_count, words = after->extension_words;
    holds(csrcs <= GOZDRIT_MAX_CSRCS && words <= GOZDRIT_MAX_EXTENSION_WORDS,
          "the counts of a header are within its arrays");
    holds(after->has_extension <= 1 && after->marker <= 1, "what is true is 1");
    if (!after->has_extension) {
        same(0, words, "extension_words without an extension");
        same(before->extension_profile, after->extension_profile, "extension_profile without an extension");
    }
    holds(memcmp(before->csrcs + csrcs, after->csrcs + csrcs, 4 * (GOZDRIT_MAX_CSRCS - csrcs)) == 0,
          "the CSRCs behind their count are as they were");
    holds(memcmp(before->extension + words, after->extension + words, 4 * (GOZDRIT_MAX_EXTENSION_WORDS - words)) == 0,
          "the words behind their count are as they were");
}
