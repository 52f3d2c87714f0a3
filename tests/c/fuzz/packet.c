/* One RTP packet, read and written. */
#include "fuzz.h"

/* What a read told: as the model reads it, and all else as it was. */
static void check_read(const struct packet *expected, const uint8_t *octets) {
    const gozdrit_packet *packet = lies(AREA_TOLD);
    const uint8_t *payload = octets + expected->at;
    gozdrit_packet before;
    memcpy(&before, lay(AREA_TOLD), sizeof before);
    same(expected->at, packet->payload, "packet->payload");
    same(expected->length, packet->length, "packet->length");
    same(expected->ssrc, packet->ssrc, "packet->ssrc");
    same(expected->sequence, packet->sequence, "packet->sequence");
    same(expected->type, packet->payload_type, "packet->payload_type");
    same(expected->padding, packet->padding, "packet->padding");
    check_header_rest(&before.header, &packet->header);
    same(digest(&expected->header, payload, expected->length), digest(&packet->header, payload, expected->length),
         "the header is the one that was read");
}

/* Reads a packet into `read`, and answers whether it was read. */
static bool rtp_read(const uint8_t *octets, size_t length, gozdrit_packet *read) {
    static struct packet expected;
    const uint8_t *lent;
    int32_t answer, fault;
    begin_call(CALL_rtp_read);
    read_packet(octets, length, &expected);
    fault = expected.fault == 0 && expected.words > GOZDRIT_MAX_EXTENSION_WORDS ? GOZDRIT_TOO_LONG : expected.fault;
    lent = octets_pointer(lend_in(AREA_IN, octets, length), length);
    answer = gozdrit_rtp_read(lent, length, pointer(lend_out(AREA_TOLD, sizeof(gozdrit_packet))));
    end_call(fault, answer);
    check_kept(AREA_IN, 0);
    check_kept(AREA_TOLD, answer == GOZDRIT_OK ? sizeof *read : 0);
    if (answer != GOZDRIT_OK) return false;
    check_read(&expected, octets);
    memcpy(read, lies(AREA_TOLD), sizeof *read);
    return true;
}

static int32_t expect_write(const gozdrit_packet *packet, size_t length, size_t room) {
    const gozdrit_header *header = &packet->header;
    if (length > GOZDRIT_MAX_PAYLOAD || header->csrc_count > GOZDRIT_MAX_CSRCS) return GOZDRIT_TOO_LARGE;
    if (header->has_extension && header->extension_words > GOZDRIT_MAX_EXTENSION_WORDS) return GOZDRIT_TOO_LARGE;
    if (room < packet_length(header, length, packet->padding)) return GOZDRIT_NO_ROOM;
    if (packet->payload_type > 127) return GOZDRIT_BAD_PAYLOAD_TYPE;
    return packet->padding != 0 && length == 0 ? GOZDRIT_PADDED_EMPTY : GOZDRIT_OK;
}

/* Writes a packet to `made`, and answers whether it was written. */
static bool rtp_write(const gozdrit_packet *packet, const uint8_t *payload, size_t length, size_t room, uint8_t *made) {
    const gozdrit_packet *lent;
    const uint8_t *octets;
    size_t *written, needed;
    uint8_t *out;
    int32_t answer;
    begin_call(CALL_rtp_write);
    lent = pointer(lend_in(AREA_STRUCT, packet, sizeof *packet));
    octets = octets_pointer(lend_in(AREA_IN, payload, length), length);
    written = pointer(lend_out(AREA_NUMBER, sizeof *written));
    out = octets_pointer(lend_out(AREA_OUT, room), room);
    answer = gozdrit_rtp_write(lent, octets, length, written, out, room);
    end_call(expect_write(packet, length, room), answer);
    check_kept(AREA_STRUCT, 0);
    check_kept(AREA_IN, 0);
    check_kept(AREA_NUMBER, answer == GOZDRIT_OK ? sizeof *written : 0);
    if (answer != GOZDRIT_OK) {
        check_kept(AREA_OUT, 0);
        return false;
    }
    needed = write_packet(made, &packet->header, payload, length, packet->padding);
    set_stream(made, packet->payload_type, packet->sequence, packet->ssrc);
    same(needed, *written, "written");
    check_kept(AREA_OUT, needed);
    holds(memcmp(made, out, needed) == 0, "the packet is that of the header and the payload");
    return true;
}

/* What was read is written back: the same octets, but for those of the padding in front of its count. */
static void read_and_write(void) {
    static struct datagram drawn;
    static uint8_t made[LONGEST];
    static uint64_t fed;
    gozdrit_packet packet;
    const uint8_t *payload;
    size_t room;
    draw_media(&drawn, below(SESSIONS), &fed, 0);
    if (!rtp_read(drawn.octets, drawn.length, &packet)) return;
    payload = drawn.octets + packet.payload;
    if (packet.length > GOZDRIT_MAX_PAYLOAD) return;
    room = packet_length(&packet.header, packet.length, packet.padding);
    same(drawn.length, room, "all of a packet is read");
    if (one_in(4)) rtp_write(&packet, payload, packet.length, room - 1, made);
    if (!rtp_write(&packet, payload, packet.length, room, made)) return;
    holds(memcmp(drawn.octets, made, room - packet.padding) == 0, "what was read is written back");
    holds(drawn.octets[room - 1] == made[room - 1], "and the count of its padding");
}

/* What was written is read back. */
static void write_and_read(void) {
    static uint8_t payload[LONGEST], made[LONGEST];
    gozdrit_packet packet, read;
    size_t length = draw_payload(payload), needed;
    random_octets((uint8_t *)&packet, sizeof packet);
    draw_header(&packet.header);
    packet.payload_type = (uint8_t)(one_in(20) ? random_bits() : below(128));
    packet.padding = (uint8_t)(one_in(4) ? random_bits() : 0);
    needed = packet_length(&packet.header, length, packet.padding);
    if (!rtp_write(&packet, payload, length, draw_room(needed, GOZDRIT_MAX_DATAGRAM), made)) return;
    if (!rtp_read(made, needed, &read)) return;
    same(needed - length - packet.padding, read.payload, "where the payload lies that was written");
    same(length, read.length, "the length of the payload that was written");
    same(packet.sequence, read.sequence, "the number that was written");
    same(packet.ssrc, read.ssrc, "the SSRC that was written");
    same(packet.payload_type, read.payload_type, "the type that was written");
    same(packet.padding, read.padding, "the padding that was written");
    same(digest(&packet.header, payload, length), digest(&read.header, made + read.payload, length),
         "the header that was written");
}

void call_packet(void) {
    if (one_in(2)) read_and_write();
    else write_and_read();
}
