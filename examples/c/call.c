/* One end of a call: sound and a picture both ways over one UDP port, and what is lost of either comes again.
 *
 *   call SIDE PORT HOST PEER IN OUT [--loss N] [--seed N] [--seconds N]
 *
 * SIDE is a or b: the two ends have SSRCs of their own. The end receives at PORT, and sends to HOST's port PEER. An encoder of this
 * machine sends RTP to port IN (sound) and IN + 1 (the picture), and what is played goes to this machine's ports OUT and OUT + 1 as
 * RTP. The other options are those of `send`. It ends by the time, with a line of counts for each stream.
 *
 * Both streams, their retransmissions and all feedback share the port: RTCP is told from RTP by its type (RFC 5761), and streams by
 * their SSRCs. Sound is Opus with a telephone's events and comfort noise under the same SSRC, so it has three payload types, each with
 * one for its retransmissions (RFC 4588, section 8.6). Retransmissions leave no faster than PACE, behind the media. */
#define _POSIX_C_SOURCE 200809L
#include "udp.h"

#include <inttypes.h>

enum {
    STREAMS = 2,
    BURST = 32,     /* datagrams taken of a socket at once at most */
    SLEEP = 20,     /* milliseconds that are slept at most */
    TAIL = 60,      /* milliseconds of an encoder's silence behind which the last packet is repeated, so that its loss is noticed: */
    PROBES = 5,     /* so often, each time behind twice the silence, as a repeat may be lost too */
    LATENCY = 300,  /* milliseconds that a missing packet is waited for: what a talk bears */
    PACE = 250,     /* octets of retransmissions a millisecond: 2 megabits a second */
    SAVED = 16384   /* octets that are saved up at most while there are none */
};

/* Pairs of a payload type and that of its retransmissions, as signalling agreed on them: sound's and the picture's. */
static const uint8_t SOUND[] = {111, 112, 101, 102, 13, 103}, PICTURE[] = {96, 97};

static const struct {
    const char *name;
    const uint8_t *types;
    size_t length;
} KINDS[STREAMS] = {{"sound", SOUND, sizeof SOUND}, {"picture", PICTURE, sizeof PICTURE}};

/* One stream, both ways. */
typedef struct stream {
    gozdrit_sender out;
    gozdrit_receiver in;
    int encoder;                 /* where the encoder's packets come to */
    struct sockaddr_in player;   /* where what is played goes */
    gozdrit_session sent, heard; /* this end's session, and the other one's */
    uint64_t last;               /* when its last packet was sent */
    unsigned probes;             /* how often that was repeated */
} stream;

typedef struct call {
    stream streams[STREAMS];
    int network;
    options chosen;
    uint64_t saved; /* octets that may be retransmitted at once */
} call;

static uint32_t word_at(const uint8_t *octets) {
    return (uint32_t)octets[0] << 24 | (uint32_t)octets[1] << 16 | (uint32_t)octets[2] << 8 | octets[3];
}

/* Sends a datagram of a stream under its own type. */
static void leave(call *c, int kind, uint8_t *out, size_t room, size_t length) {
    size_t left;
    if (gozdrit_types_leave(KINDS[kind].types, KINDS[kind].length, out, room, length, &left) == GOZDRIT_OK)
        lossy_send(c->network, &c->chosen, out, left);
}

/* An encoder's packet goes on with all that it carries. It gets this end's SSRC and the next number. */
static void take_encoded(call *c, int kind, uint8_t *octets, size_t room, size_t length, uint64_t now) {
    stream *s = &c->streams[kind];
    uint8_t out[GOZDRIT_MAX_DATAGRAM];
    gozdrit_sent sent = GOZDRIT_SENT_INIT;
    gozdrit_packet packet;
    size_t entered;
    if (gozdrit_types_enter(KINDS[kind].types, KINDS[kind].length, octets, room, length, &entered) != GOZDRIT_OK) return;
    if (gozdrit_rtp_read(octets, entered, &packet) != GOZDRIT_OK || packet.payload_type != KINDS[kind].types[0]) return;
    gozdrit_sender_set_time(&s->out, now);
    if (gozdrit_send(&s->out, &packet.header, octets + packet.payload, packet.length, 0, &sent, out, sizeof out) != GOZDRIT_OK) return;
    s->last = now, s->probes = 0;
    leave(c, kind, out, sizeof out, sent.length);
}

/* What came from the other end is feedback for a stream of this one, or a packet of one of its streams. Whatever is neither is refused. */
static void take_datagram(call *c, uint8_t *octets, size_t room, size_t length, uint64_t now) {
    if (length < 12) return;
    const bool is_rtcp = octets[1] >= 192 && octets[1] <= 223;
    const uint32_t ssrc = word_at(octets + 8); /* of a NACK that of the media, and of a packet its own */
    for (int kind = 0; kind < STREAMS; kind++) {
        stream *s = &c->streams[kind];
        gozdrit_outcome outcome = GOZDRIT_OUTCOME_INIT;
        gozdrit_received received = GOZDRIT_RECEIVED_INIT;
        if (is_rtcp && ssrc == s->sent.media_ssrc) {
            gozdrit_sender_set_time(&s->out, now);
            gozdrit_feedback(&s->out, octets, length, &outcome);
        }
        if (is_rtcp || (ssrc != s->heard.media_ssrc && ssrc != s->heard.rtx_ssrc)) continue;
        if (gozdrit_types_enter(KINDS[kind].types, KINDS[kind].length, octets, room, length, &length) == GOZDRIT_OK)
            gozdrit_receive(&s->in, octets, length, now, &received);
    }
}

/* Plays what can be played of a stream: as RTP under its own type, to the player. */
static void play(call *c, int kind, uint64_t now) {
    stream *s = &c->streams[kind];
    for (;;) {
        uint8_t payload[GOZDRIT_MAX_PAYLOAD], out[GOZDRIT_MAX_DATAGRAM];
        gozdrit_played played = GOZDRIT_PLAYED_INIT;
        size_t written, left;
        if (gozdrit_play(&s->in, now, &played, payload, sizeof payload) != GOZDRIT_OK || played.kind == GOZDRIT_WAIT) return;
        if (played.kind != GOZDRIT_PACKET) continue; /* a gap: the player sees that a number is missing */
        gozdrit_packet packet = {.header = played.header, .ssrc = s->heard.media_ssrc, .sequence = (uint16_t)played.sequence,
                                 .payload_type = s->heard.media_payload_type};
        if (gozdrit_rtp_write(&packet, payload, played.length, &written, out, sizeof out) == GOZDRIT_OK
            && gozdrit_types_leave(KINDS[kind].types, KINDS[kind].length, out, sizeof out, written, &left) == GOZDRIT_OK)
            (void)sendto(s->encoder, out, left, 0, (struct sockaddr *)&s->player, sizeof s->player);
    }
}

/* Sends the NACKs that are due. */
static void ask(call *c, int kind, uint64_t now) {
    for (;;) {
        uint8_t out[GOZDRIT_MAX_NACK_DATAGRAM];
        size_t length;
        if (gozdrit_nack(&c->streams[kind].in, now, GOZDRIT_MAX_NACKED, &length, out, sizeof out) != GOZDRIT_OK || length == 0) return;
        lossy_send(c->network, &c->chosen, out, length);
    }
}

/* Retransmits as far as the pace lets it, sound first: it is little, and missed most. */
static void repair(call *c, int kind, uint64_t now) {
    stream *s = &c->streams[kind];
    uint32_t queued;
    gozdrit_sender_set_time(&s->out, now);
    if (s->probes < PROBES && now - s->last >= (uint64_t)TAIL << s->probes) {
        gozdrit_tail_loss_probe(&s->out, &queued);
        s->probes++;
    }
    while (c->saved >= GOZDRIT_MAX_DATAGRAM) {
        uint8_t out[GOZDRIT_MAX_DATAGRAM];
        gozdrit_sent sent = GOZDRIT_SENT_INIT;
        if (gozdrit_retransmit(&s->out, &sent, out, sizeof out) != GOZDRIT_OK || sent.length == 0) return;
        c->saved -= sent.length;
        leave(c, kind, out, sizeof out, sent.length);
    }
}

/* Takes all that came to a socket. */
static void take_all(call *c, int at, int kind, uint64_t now) {
    uint8_t octets[65536];
    for (int i = 0; i < BURST; i++) {
        ssize_t length = recv(at, octets, sizeof octets, MSG_DONTWAIT);
        if (length < 0) return;
        if (kind < STREAMS) take_encoded(c, kind, octets, sizeof octets, (size_t)length, now);
        else take_datagram(c, octets, sizeof octets, (size_t)length, now);
    }
}

/* The milliseconds until something is to be done, if nothing comes. */
static int sleep_from(const call *c, uint64_t now) {
    uint64_t least = now + SLEEP;
    for (int kind = 0; kind < STREAMS; kind++) {
        gozdrit_timeout next;
        if (gozdrit_next_timeout(&c->streams[kind].in, &next) == GOZDRIT_OK && next.known && next.time < least) least = next.time;
    }
    if (c->saved < GOZDRIT_MAX_DATAGRAM) return 1; /* what waits for the pace */
    return least <= now ? 0 : (int)(least - now);
}

/* Talks until the time is over. */
static void talk(call *c) {
    const uint64_t start = milliseconds();
    uint64_t now = start, last = start;
    while (now - start < c->chosen.seconds * 1000) {
        struct pollfd sockets[] = {{c->streams[0].encoder, POLLIN, 0}, {c->streams[1].encoder, POLLIN, 0}, {c->network, POLLIN, 0}};
        poll(sockets, STREAMS + 1, sleep_from(c, now));
        now = milliseconds();
        c->saved += PACE * (now - last);
        if (c->saved > SAVED) c->saved = SAVED;
        last = now;
        for (int i = 0; i <= STREAMS; i++)
            if (sockets[i].revents) take_all(c, sockets[i].fd, i, now);
        for (int kind = 0; kind < STREAMS; kind++) {
            play(c, kind, now);
            ask(c, kind, now);
            repair(c, kind, now);
        }
    }
}

/* Both ends of a stream. What is not set is as the header has it: so asks follow the path, and the sender what it sees of it. */
static int32_t make(call *c, int kind) {
    stream *s = &c->streams[kind];
    gozdrit_sender_config sending;
    gozdrit_receiver_config receiving;
    gozdrit_sender_defaults(&sending, sizeof sending);
    gozdrit_receiver_defaults(&receiving, sizeof receiving);
    sending.session = s->sent;
    sending.history = 2048;
    sending.deadline = 2 * LATENCY; /* the other end waits no longer than this */
    receiving.session = s->heard;
    receiving.latency = LATENCY;
    receiving.nack_interval = 0; /* by what is measured */
    receiving.window = 2048;
    int32_t number = gozdrit_sender_new(&sending, &s->out);
    if (number == GOZDRIT_OK) number = gozdrit_receiver_new(&receiving, &s->in);
    /* Nobody may have this end flood another address with NACKs. */
    return number == GOZDRIT_OK ? gozdrit_set_nack_budget(&s->in, 1) : number;
}

/* The SSRCs of a side's stream: real ends draw them, and agree on them by signalling. */
static gozdrit_session session_of(char side, int kind) {
    const uint32_t base = (side == 'a' ? 0xa0000000 : 0xb0000000) + 0x100 * (uint32_t)kind;
    const gozdrit_session made = {base + 1, base + 2, base + 3, KINDS[kind].types[0], KINDS[kind].types[1], 0};
    return made;
}

static void tell(const call *c, int kind) {
    gozdrit_receive_counts in = GOZDRIT_RECEIVE_COUNTS_INIT;
    gozdrit_send_counts out = GOZDRIT_SEND_COUNTS_INIT;
    gozdrit_receiver_counts(&c->streams[kind].in, &in);
    gozdrit_sender_counts(&c->streams[kind].out, &out);
    printf("%s: sent %" PRIu64 " retransmissions %" PRIu64 " played %" PRIu64 " repaired %" PRIu64 " gaps %" PRIu64 "\n", KINDS[kind].name,
           out.sent, out.retransmissions, in.played, in.retransmissions, in.gaps);
}

/* A port of the command line, and the one so many behind it. */
static bool port_of(const char *text, uint64_t behind, uint16_t *port) {
    uint64_t number;
    if (!number_of(text, 65534, &number) || number == 0) return false;
    *port = (uint16_t)(number + behind);
    return true;
}

/* The sockets of a call. Its words are SIDE PORT HOST PEER IN OUT. */
static bool open_all(call *c, char **words) {
    struct sockaddr_in peer;
    socklen_t size = sizeof peer;
    const int found = open_socket(words[2], words[3]); /* it tells the peer's address alone */
    c->network = open_socket(NULL, words[1]);
    bool done = found >= 0 && c->network >= 0 && getpeername(found, (struct sockaddr *)&peer, &size) == 0
                && connect(c->network, (struct sockaddr *)&peer, size) == 0;
    if (found >= 0) close(found);
    for (int kind = 0; kind < STREAMS; kind++) {
        char text[6];
        uint16_t in, out;
        if (!done || !port_of(words[4], (uint64_t)kind, &in) || !port_of(words[5], (uint64_t)kind, &out)) return false;
        snprintf(text, sizeof text, "%d", in);
        c->streams[kind].encoder = open_socket(NULL, text);
        c->streams[kind].player = (struct sockaddr_in){.sin_family = AF_INET, .sin_port = htons(out), .sin_addr.s_addr = htonl(INADDR_LOOPBACK)};
        done = c->streams[kind].encoder >= 0;
    }
    return done;
}

int main(int count, char **words) {
    call c = {0};
    if (count < 7 || !options_of(words + 7, &c.chosen) || (strcmp(words[1], "a") != 0 && strcmp(words[1], "b") != 0)) {
        fprintf(stderr, "usage: call a|b PORT HOST PEER IN OUT [--loss N] [--seed N] [--seconds N]\n");
        return 2;
    }
    if (!open_all(&c, words + 1)) {
        fprintf(stderr, "call: no sockets at these ports\n");
        return 1;
    }
    c.saved = SAVED;
    for (int kind = 0; kind < STREAMS; kind++) {
        c.streams[kind].sent = session_of(words[1][0], kind);
        c.streams[kind].heard = session_of(words[1][0] == 'a' ? 'b' : 'a', kind);
        const int32_t number = make(&c, kind);
        if (number != GOZDRIT_OK) {
            tell_refusal("call", number);
            return 1;
        }
    }
    talk(&c);
    for (int kind = 0; kind < STREAMS; kind++) {
        tell(&c, kind);
        gozdrit_sender_free(&c.streams[kind].out);
        gozdrit_receiver_free(&c.streams[kind].in);
    }
    return 0;
}
