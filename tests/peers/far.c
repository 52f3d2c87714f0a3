/* The far end: receives a session, asks for what is missing, and hands RTP on to a decoder.
 *
 *   far [--patience N] [--delay N] [--retry N] [--nacks N] [--follows N] [--idle N] [--seconds N] AT TO STREAM
 *
 * It receives the STREAM (net.h) at the port AT, and begins at its first sequence number. Feedback leaves from AT to the port TO;
 * with --nacks 0 there is none. The packets that are played go to the standard output with their timestamps, markers,
 * CSRCs and extensions, each behind two octets of its length (RFC 4571). A pipe loses nothing, and its end is the
 * decoder's.
 *
 * The times are those of the library, in milliseconds: 2000, 40, 90, and 20 NACKs. With --follows 1 or 2 they follow the path. It ends by SIGTERM, after --seconds N
 * (60), or where no new packet came for --idle N (2500) milliseconds since the first one, and nothing is missing. Then a line
 * of counts goes to the error output. The status is 0 where all that was played was written. */
#define _POSIX_C_SOURCE 200809L
#include "gozdrit.h"
#include "net.h"

#include <errno.h>
#include <inttypes.h>

enum { BURST = 64, SLEEP = 100 };

typedef struct far_end {
    gozdrit_receiver end;
    stream of;
    int at;
    uint16_t to;
    uint64_t patience, delay, retry, nacks, follows, idle, seconds;
    uint64_t taken; /* when the last new packet was taken; 0 before the first */
    bool broken;    /* the decoder has gone, or a call was refused */
} far_end;

static void take_packets(far_end *f, uint64_t now) {
    static uint8_t octets[65536];
    for (int i = 0; i < BURST; i++) {
        gozdrit_received received = GOZDRIT_RECEIVED_INIT;
        ssize_t length = recv(f->at, octets, sizeof octets, MSG_DONTWAIT);
        if (length < 0 || gozdrit_receive(&f->end, octets, (size_t)length, now, &received) != GOZDRIT_OK) return;
        if (received.kind == GOZDRIT_MEDIA || received.kind == GOZDRIT_RETRANSMISSION) f->taken = now;
    }
}

/* Writes all of some octets. */
static bool write_all(const uint8_t *octets, size_t length) {
    while (length > 0) {
        ssize_t done = write(STDOUT_FILENO, octets, length);
        if (done < 0 && errno == EINTR) continue;
        if (done <= 0) return false;
        octets += done;
        length -= (size_t)done;
    }
    return true;
}

/* Hands a packet on. */
static bool hand_on(far_end *f, const gozdrit_played *played, const uint8_t *payload) {
    uint8_t out[2 + GOZDRIT_MAX_DATAGRAM];
    gozdrit_packet packet = {0};
    size_t length;
    packet.header = played->header;
    packet.ssrc = f->of.media;
    packet.sequence = (uint16_t)played->sequence;
    packet.payload_type = (uint8_t)f->of.type;
    if (gozdrit_rtp_write(&packet, payload, played->length, &length, out + 2, sizeof out - 2) != GOZDRIT_OK) return false;
    out[0] = (uint8_t)(length >> 8), out[1] = (uint8_t)length;
    return write_all(out, length + 2);
}

static void play(far_end *f, uint64_t now) {
    while (!f->broken) {
        gozdrit_played played = GOZDRIT_PLAYED_INIT;
        uint8_t payload[GOZDRIT_MAX_PAYLOAD];
        int32_t number = gozdrit_play(&f->end, now, &played, payload, sizeof payload);
        if (number != GOZDRIT_OK) f->broken = true;
        else if (played.kind == GOZDRIT_WAIT) return;
        else if (played.kind == GOZDRIT_PACKET) f->broken = !hand_on(f, &played, payload);
    }
}

static void ask(far_end *f, uint64_t now) {
    while (f->nacks > 0) {
        uint8_t out[GOZDRIT_MAX_NACK_DATAGRAM];
        size_t length;
        if (gozdrit_nack(&f->end, now, GOZDRIT_MAX_NACKED, &length, out, sizeof out) != GOZDRIT_OK || length == 0) return;
        send_to(f->at, f->to, out, length);
    }
}

/* How long nothing is to be done. Where no NACKs are made those that are due stay so, and nothing is to be done for them. */
static int sleep_from(const far_end *f, uint64_t now) {
    gozdrit_timeout timeout;
    if (f->nacks == 0) return 10;
    if (gozdrit_next_timeout(&f->end, &timeout) != GOZDRIT_OK || !timeout.known || timeout.time > now + SLEEP) return SLEEP;
    return timeout.time <= now ? 0 : (int)(timeout.time - now);
}

/* Whether the stream is over: no new packet comes, and none is missing. */
static bool is_over(const far_end *f, uint64_t now) {
    size_t missing = 1;
    if (f->taken == 0 || now - f->taken < f->idle) return false;
    return gozdrit_missing(&f->end, &missing) == GOZDRIT_OK && missing == 0;
}

static void receive(far_end *f) {
    uint64_t start = moment(), now = start;
    while (!told_to_end && !f->broken && !is_over(f, now) && now - start < f->seconds * 1000) {
        struct pollfd one = {f->at, POLLIN, 0};
        poll(&one, 1, sleep_from(f, now));
        now = moment();
        take_packets(f, now);
        play(f, now);
        ask(f, now);
    }
}

static void tell(far_end *f) {
    gozdrit_receive_counts c = GOZDRIT_RECEIVE_COUNTS_INIT;
    gozdrit_probe_counts p = GOZDRIT_PROBE_COUNTS_INIT;
    gozdrit_times t = GOZDRIT_TIMES_INIT;
    if (gozdrit_receiver_counts(&f->end, &c) != GOZDRIT_OK) return;
    if (gozdrit_receiver_probe_counts(&f->end, &p) != GOZDRIT_OK) return;
    gozdrit_receiver_times(&f->end, &t);
    fprintf(stderr, "far media %" PRIu64 " retransmissions %" PRIu64 " duplicate %" PRIu64 " late %" PRIu64, c.media,
            c.retransmissions, c.duplicate, c.late);
    fprintf(stderr, " far %" PRIu64 " refused %" PRIu64 " rtcp %" PRIu64 " overrun %" PRIu64, c.too_far, c.refused,
            c.rtcp, c.overrun);
    fprintf(stderr, " held_back %" PRIu64 " restarts %" PRIu64, c.held_back, c.restarts);
    fprintf(stderr, " padding %" PRIu64 " unasked %" PRIu64 " too_late %" PRIu64 " rtt %" PRIu64, p.padding, p.unrequested,
            p.late, t.round_trip);
    fprintf(stderr, " played %" PRIu64 " gaps %" PRIu64 " nacks %" PRIu64 " nacked %" PRIu64 "\n", c.played, c.gaps, c.nacks,
            c.nacked);
}

static bool make_far(far_end *f, char **words) {
    const option known[] = {{"patience", &f->patience}, {"delay", &f->delay}, {"retry", &f->retry}, {"nacks", &f->nacks},
                            {"follows", &f->follows}, {"idle", &f->idle}, {"seconds", &f->seconds}, {NULL, NULL}};
    gozdrit_receiver_config config;
    f->patience = 2000, f->delay = 40, f->retry = 90, f->nacks = 20, f->idle = 2500, f->seconds = 60;
    words = options_of(words, known);
    if (!words || !words[0] || !words[1] || !words[2] || !stream_of(words[2], &f->of)) return false;
    f->at = bound_at(port_of(words[0]));
    f->to = port_of(words[1]);
    gozdrit_receiver_defaults(&config, sizeof config);
    config.session = (gozdrit_session){f->of.media, f->of.rtx, f->of.reporter, (uint8_t)f->of.type, (uint8_t)f->of.rtx_type, 1};
    config.latency = f->patience;
    config.reorder_delay = f->delay;
    config.nack_interval = f->retry;
    config.max_nacks = f->nacks == 0 ? 1 : (uint8_t)f->nacks;
    config.adaptive = (uint8_t)f->follows;
    config.window = 4096;
    return f->at >= 0 && f->to > 0 && gozdrit_receiver_new(&config, &f->end) == GOZDRIT_OK
           && gozdrit_begin(&f->end, (uint16_t)f->of.first) == GOZDRIT_OK;
}

int main(int count, char **words) {
    static far_end f;
    if (gozdrit_max_payload() != GOZDRIT_MAX_PAYLOAD || count < 4 || !make_far(&f, words + 1)) {
        fprintf(stderr, "usage: far [--patience N] [--delay N] [--retry N] [--nacks N] [--follows N] [--idle N] [--seconds N] AT TO STREAM\n");
        return 2;
    }
    end_on_signals();
    signal(SIGPIPE, SIG_IGN);
    receive(&f);
    tell(&f);
    gozdrit_receiver_free(&f.end);
    return f.broken ? 1 : 0;
}
