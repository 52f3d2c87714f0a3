/* The near end: takes RTP from an encoder, sends it as the media of sessions, and retransmits what is asked for.
 *
 *   near [--rate N] [--silence N] [--seconds N] AT TO [IN STREAM]..
 *
 * Each STREAM (net.h) is a session of its own, whose encoder sends RTP to the port IN. A packet keeps its timestamp, marker, CSRCs
 * and extension, and gets the session's numbers. All that is sent leaves from the port AT to the port TO, and feedback comes
 * to AT: each datagram is handed to each session's sender. Retransmissions are paced: --rate N (4) a millisecond at most.
 * Where the encoder is silent for --silence N (150) milliseconds, its last packet is the probe of a tail loss, and again after
 * as many.
 *
 * It ends by SIGTERM, or after --seconds N (60), and tells its counts: a line of each session and a line of the whole. */
#define _POSIX_C_SOURCE 200809L
#include "gozdrit.h"
#include "net.h"

#include <inttypes.h>

enum { MAX_ENDS = 4, BURST = 64, SLEEP = 100 };

/* One session: its sender, and what its encoder did. */
typedef struct session {
    gozdrit_sender end;
    int in;
    uint64_t heard;            /* when the encoder sent its last packet, or a probe was made since */
    uint64_t taken, bad, gaps; /* packets of the encoder: those that were sent, those that were not, and numbers passed over */
    uint64_t probes;
    uint16_t next; /* the encoder's next number */
} session;

typedef struct near_end {
    session sessions[MAX_ENDS];
    size_t count;
    int at;
    uint16_t to;
    uint64_t rate, silence, seconds;
    uint64_t feedback, shared, neither; /* datagrams: all, those with NACKs of two sessions, and those that none took */
} near_end;

/* Sends one packet of the encoder as media. */
static void send_media(near_end *n, session *s, const uint8_t *octets, size_t length) {
    uint8_t out[GOZDRIT_MAX_DATAGRAM];
    gozdrit_packet packet;
    gozdrit_sent sent = GOZDRIT_SENT_INIT;
    if (gozdrit_rtp_read(octets, length, &packet) != GOZDRIT_OK
        || gozdrit_send(&s->end, &packet.header, octets + packet.payload, packet.length, 0, &sent, out, sizeof out)
               != GOZDRIT_OK) {
        s->bad++;
        return;
    }
    if (s->taken++ > 0) s->gaps += (uint16_t)(packet.sequence - s->next);
    s->next = (uint16_t)(packet.sequence + 1);
    send_to(n->at, n->to, out, sent.length);
}

/* Takes what the encoder sent. RTCP of an encoder's session is not passed on. */
static void take_media(near_end *n, session *s, uint64_t now) {
    static uint8_t octets[65536];
    for (int i = 0; i < BURST; i++) {
        ssize_t length = recv(s->in, octets, sizeof octets, MSG_DONTWAIT);
        if (length < 0) return;
        send_media(n, s, octets, (size_t)length);
        s->heard = now;
    }
}

/* Hands each datagram of feedback to each sender. */
static void take_feedback(near_end *n) {
    static uint8_t octets[65536];
    for (int i = 0; i < BURST; i++) {
        ssize_t length = recv(n->at, octets, sizeof octets, MSG_DONTWAIT);
        unsigned hearing = 0, taking = 0;
        if (length < 0) return;
        n->feedback++;
        for (size_t k = 0; k < n->count; k++) {
            gozdrit_outcome outcome = GOZDRIT_OUTCOME_INIT;
            if (gozdrit_feedback(&n->sessions[k].end, octets, (size_t)length, &outcome) != GOZDRIT_OK) continue;
            hearing += outcome.kind == GOZDRIT_FEEDBACK;
            taking += outcome.kind != GOZDRIT_REFUSED;
        }
        n->shared += hearing > 1;
        n->neither += taking == 0;
    }
}

/* Sends the retransmissions of a millisecond, and gives whether more may be left. */
static bool retransmit(near_end *n) {
    uint64_t left = n->rate;
    for (size_t k = 0; k < n->count; k++) {
        uint8_t out[GOZDRIT_MAX_DATAGRAM];
        gozdrit_sent sent = GOZDRIT_SENT_INIT;
        while (left > 0 && gozdrit_retransmit(&n->sessions[k].end, &sent, out, sizeof out) == GOZDRIT_OK && sent.length > 0) {
            send_to(n->at, n->to, out, sent.length);
            left--;
        }
    }
    return left == 0;
}

/* Probes for a tail loss in each session whose encoder is silent. */
static void probe_silent(near_end *n, uint64_t now) {
    for (size_t k = 0; k < n->count; k++) {
        session *s = &n->sessions[k];
        uint32_t queued = 0;
        if (s->taken == 0 || now - s->heard < n->silence) continue;
        if (gozdrit_tail_loss_probe(&s->end, &queued) == GOZDRIT_OK) s->probes += queued;
        s->heard = now;
    }
}

static void serve(near_end *n) {
    uint64_t start = moment(), now = start, spent = 0;
    bool more = false;
    while (!told_to_end && now - start < n->seconds * 1000) {
        struct pollfd all[MAX_ENDS + 1];
        for (size_t k = 0; k < n->count; k++) all[k] = (struct pollfd){n->sessions[k].in, POLLIN, 0};
        all[n->count] = (struct pollfd){n->at, POLLIN, 0};
        poll(all, (nfds_t)n->count + 1, more ? 1 : SLEEP);
        now = moment();
        for (size_t k = 0; k < n->count; k++) take_media(n, &n->sessions[k], now);
        take_feedback(n);
        probe_silent(n, now);
        if (more && now == spent) continue;
        more = retransmit(n);
        spent = now;
    }
}

static void tell(near_end *n) {
    for (size_t k = 0; k < n->count; k++) {
        const session *s = &n->sessions[k];
        gozdrit_send_counts c = GOZDRIT_SEND_COUNTS_INIT;
        if (gozdrit_sender_counts(&s->end, &c) != GOZDRIT_OK) continue;
        printf("session taken %" PRIu64 " bad %" PRIu64 " gaps %" PRIu64 " marks %" PRIu64 " sent %" PRIu64, s->taken, s->bad,
               s->gaps, s->probes, c.sent);
        printf(" retransmissions %" PRIu64 " nacks %" PRIu64 " numbers %" PRIu64 " others %" PRIu64, c.retransmissions, c.nacks,
               c.nacked, c.other_nacks);
        printf(" unknown %" PRIu64 " exhausted %" PRIu64 " reports %" PRIu64 " refused %" PRIu64 "\n",
               c.not_in_history, c.exhausted, c.reports, c.refused);
        gozdrit_sender_free(&n->sessions[k].end);
    }
    printf("near feedback %" PRIu64 " shared %" PRIu64 " neither %" PRIu64 "\n", n->feedback, n->shared, n->neither);
}

/* Makes the sender of a session. */
static bool add_session(near_end *n, const char *in, const char *word) {
    session *s = &n->sessions[n->count];
    gozdrit_sender_config config;
    stream of;
    if (n->count == MAX_ENDS || !stream_of(word, &of)) return false;
    gozdrit_sender_defaults(&config, sizeof config);
    /* An SSRC of nobody, where NACKs of anybody are heard. */
    config.session = (gozdrit_session){of.media, of.rtx, of.reporter ? of.reporter : ~(of.media ^ of.rtx), (uint8_t)of.type,
                                       (uint8_t)of.rtx_type, 1};
    config.any_reporter = of.reporter == 0;
    config.first_sequence = (uint16_t)of.first;
    config.rtx_first_sequence = 65500; /* so that these numbers wrap */
    config.history = 2048;
    config.max_retransmissions = 255;
    if (gozdrit_sender_new(&config, &s->end) != GOZDRIT_OK) return false;
    s->in = bound_at(port_of(in));
    n->count++;
    return s->in >= 0;
}

static bool make_near(near_end *n, char **words) {
    const option known[] = {{"rate", &n->rate}, {"silence", &n->silence}, {"seconds", &n->seconds}, {NULL, NULL}};
    n->rate = 4, n->silence = 150, n->seconds = 60;
    words = options_of(words, known);
    if (!words || !words[0] || !words[1] || !words[2]) return false;
    n->at = bound_at(port_of(words[0]));
    n->to = port_of(words[1]);
    for (words += 2; words[0]; words += 2)
        if (!words[1] || !add_session(n, words[0], words[1])) return false;
    return n->at >= 0 && n->to > 0;
}

int main(int count, char **words) {
    static near_end n;
    if (gozdrit_max_payload() != GOZDRIT_MAX_PAYLOAD || count < 5 || !make_near(&n, words + 1)) {
        fprintf(stderr, "usage: near [--rate N] [--silence N] [--seconds N] AT TO [IN STREAM]..\n");
        return 2;
    }
    end_on_signals();
    serve(&n);
    tell(&n);
    return 0;
}
