/* SRTP of the library beside libsrtp's (Debian's libsrtp2-dev), both ways over each profile.
 *
 *   srtp SEED DATAGRAMS    streams of 4000 packets and 500 of RTCP each way, and so many random and mutated datagrams
 *
 * Of the packets one in twenty is lost, one in ten comes behind later ones, and one in ten comes twice; the numbers wrap, sources and
 * header extensions come and go. What does not hold is told, and the status is 1. */
#include <gozdrit.h>
#include <srtp2/srtp.h>

#include <stdbool.h>
#include <stdio.h>
#include <stdlib.h>
#include <string.h>

enum { PACKETS = 4000, REPORTS = 500, ROOM = 1500, FIRST = 64000, DEPTH = 24 };

static uint32_t drawn_from;

static uint32_t drawn(uint32_t below) {
    drawn_from = drawn_from * 1664525u + 1013904223u;
    return (drawn_from >> 8) % below;
}

/* How many of the streams were as they had to be, and what was not. */
static int passed, failures;

static void expect(bool holds, const char *what, uint32_t at) {
    if (holds) return;
    if (failures++ < 20) printf("FAILED: %s, %u\n", what, (unsigned)at);
}

typedef struct datagram {
    uint8_t octets[ROOM];
    size_t length;
} datagram;

/* What a sender made, and what of it came over the path. */
static datagram plain[PACKETS], sealed[PACKETS];

static uint8_t key[GOZDRIT_SRTP_KEY];

/* A packet of RTP with sources, an extension and a payload, as drawn. */
static void draw_packet(datagram *to, uint32_t at) {
    uint8_t *out = to->octets;
    const uint32_t number = FIRST + at, sources = drawn(4), words = drawn(3);
    const bool extended = drawn(2) == 1;
    size_t length = 12 + 4 * sources;
    for (size_t i = 0; i < ROOM; i++) out[i] = (uint8_t)drawn(256);
    out[0] = (uint8_t)(0x80 | sources | (extended ? 0x10 : 0));
    out[1] = 96;
    out[2] = (uint8_t)(number >> 8), out[3] = (uint8_t)number;
    memcpy(out + 8, "\x12\x34\x56\x78", 4);
    if (extended) {
        out[length + 2] = 0, out[length + 3] = (uint8_t)words;
        length += 4 + 4 * words;
    }
    to->length = length + drawn(1200);
}

/* A receiver report (RFC 3550, section 6.4.2) and what is behind it, as drawn. */
static void draw_report(datagram *to) {
    for (size_t i = 0; i < ROOM; i++) to->octets[i] = (uint8_t)drawn(256);
    memcpy(to->octets, "\x80\xc9\x00\x01\x12\x34\x56\x78", 8);
    to->length = 8 + 4 * drawn(60);
}

static srtp_t peer(uint16_t profile, srtp_ssrc_type_t side) {
    srtp_policy_t policy;
    srtp_t made = NULL;
    memset(&policy, 0, sizeof policy);
    if (profile == GOZDRIT_SRTP_NULL_HMAC_SHA1_80) {
        srtp_crypto_policy_set_null_cipher_hmac_sha1_80(&policy.rtp);
        srtp_crypto_policy_set_null_cipher_hmac_sha1_80(&policy.rtcp);
    } else {
        srtp_crypto_policy_set_rtp_default(&policy.rtp);
        srtp_crypto_policy_set_rtcp_default(&policy.rtcp);
    }
    policy.ssrc.type = side;
    policy.key = key;
    policy.window_size = 1024;
    expect(srtp_create(&made, &policy) == srtp_err_status_ok, "libsrtp has a session", profile);
    return made;
}

/* One of the two, by which side it stands. */
typedef struct ends {
    uint16_t profile;
    bool ours_sends;
    gozdrit_srtp_sender out;
    gozdrit_srtp_receiver in;
    srtp_t other;
} ends;

static bool seals(ends *e, datagram *d, bool rtcp) {
    if (e->ours_sends) return gozdrit_srtp_protect(&e->out, d->octets, ROOM, d->length, &d->length) == GOZDRIT_OK;
    int length = (int)d->length;
    const srtp_err_status_t came = rtcp ? srtp_protect_rtcp(e->other, d->octets, &length) : srtp_protect(e->other, d->octets, &length);
    d->length = (size_t)length;
    return came == srtp_err_status_ok;
}

enum { TAKEN, AGAIN, REFUSED };

static int opens(ends *e, datagram *d, bool rtcp) {
    if (!e->ours_sends) {
        const int32_t number = gozdrit_srtp_unprotect(&e->in, d->octets, d->length, 0, &d->length);
        return number == GOZDRIT_OK ? TAKEN : number == GOZDRIT_SRTP_TAKEN_BEFORE ? AGAIN : REFUSED;
    }
    int length = (int)d->length;
    const srtp_err_status_t came = rtcp ? srtp_unprotect_rtcp(e->other, d->octets, &length) : srtp_unprotect(e->other, d->octets, &length);
    d->length = (size_t)length;
    return came == srtp_err_status_ok ? TAKEN : came == srtp_err_status_replay_fail ? AGAIN : REFUSED;
}

/* Noise, and what the path carries with a bit turned or cut short: to ours nothing of it is anything, and nothing is changed by it. */
static void disturb(ends *e, const datagram *carried, uint32_t count) {
    datagram d;
    size_t told = 7;
    for (uint32_t i = 0; i < count; i++) {
        const bool noise = drawn(2) == 1;
        d = *carried;
        if (noise) {
            d.length = drawn(ROOM);
            for (size_t k = 0; k < d.length; k++) d.octets[k] = (uint8_t)drawn(256);
        } else if (drawn(2)) {
            d.octets[drawn((uint32_t)d.length)] ^= (uint8_t)(1 << drawn(8));
        } else {
            d.length = drawn((uint32_t)d.length);
        }
        expect(gozdrit_srtp_unprotect(&e->in, d.octets, d.length, i, &told) != GOZDRIT_OK && told == 7, "a stranger is heard", i);
    }
}

/* What leaves, over the path, and what comes: in bursts, by which some come behind others. */
static void run(ends *e, uint32_t count, bool rtcp, uint32_t strange) {
    const int before = failures;
    uint32_t came = 0, again = 0, lost = 0;
    for (uint32_t at = 0; at < count; at += DEPTH) {
        const uint32_t end = at + DEPTH < count ? at + DEPTH : count;
        uint32_t order[2 * DEPTH], left = 0;
        bool taken[DEPTH] = {false};
        for (uint32_t i = at; i < end; i++) {
            if (rtcp) draw_report(&plain[i]); else draw_packet(&plain[i], i);
            sealed[i] = plain[i];
            expect(seals(e, &sealed[i], rtcp), "a datagram is protected", i);
            expect(sealed[i].length == plain[i].length + (rtcp ? 14 : 10), "it grows", i);
            if (drawn(20) == 0 && i != end - 1) {
                lost++;
                continue;
            }
            order[left++] = i;
            if (drawn(10) == 0) order[left++] = i;
        }
        for (uint32_t i = 1; i < left; i++) { /* one in ten a few places further back */
            if (drawn(10)) continue;
            const uint32_t to = i > 5 ? i - 1 - drawn(5) : 0, moved = order[i];
            memmove(order + to + 1, order + to, (i - to) * sizeof *order);
            order[to] = moved;
        }
        if (!e->ours_sends) disturb(e, &sealed[at], strange / (count / DEPTH + 1));
        for (uint32_t i = 0; i < left; i++) {
            datagram d = sealed[order[i]];
            const int is = opens(e, &d, rtcp), wanted = taken[order[i] - at] ? AGAIN : TAKEN;
            expect(is == wanted, wanted == TAKEN ? "what is new is taken" : "what came before is refused", order[i]);
            taken[order[i] - at] = true;
            if (is == AGAIN) again++;
            if (is != TAKEN) continue;
            came++;
            expect(d.length == plain[order[i]].length && memcmp(d.octets, plain[order[i]].octets, d.length) == 0, "it is what it was", order[i]);
        }
    }
    expect(came + lost == count, "all that was not lost came", came);
    passed += failures == before;
    printf("%s to %s, profile %d, %s: %u of %u came, %u twice\n", e->ours_sends ? "gozdrit" : "libsrtp", e->ours_sends ? "libsrtp" : "gozdrit",
           e->profile, rtcp ? "RTCP" : "RTP", (unsigned)came, (unsigned)count, (unsigned)again);
}

static void one_way(uint16_t profile, bool ours_sends, uint32_t strange) {
    ends e = {profile, ours_sends, {NULL, 0}, {NULL, 0}, NULL};
    for (size_t i = 0; i < sizeof key; i++) key[i] = (uint8_t)drawn(256);
    e.other = peer(profile, ours_sends ? ssrc_any_inbound : ssrc_any_outbound);
    if (ours_sends) {
        expect(gozdrit_srtp_sender_new(profile, key, sizeof key, &e.out) == GOZDRIT_OK, "a sender", profile);
    } else {
        expect(gozdrit_srtp_receiver_new(profile, key, sizeof key, &e.in) == GOZDRIT_OK, "a receiver", profile);
    }
    run(&e, PACKETS, false, strange / 2);
    run(&e, REPORTS, true, strange / 2);
    srtp_dealloc(e.other);
    if (ours_sends) gozdrit_srtp_sender_free(&e.out); else gozdrit_srtp_receiver_free(&e.in);
}

int main(int argc, char **argv) {
    static const uint16_t profiles[] = {GOZDRIT_SRTP_AES128_CM_HMAC_SHA1_80, GOZDRIT_SRTP_NULL_HMAC_SHA1_80};
    drawn_from = argc > 1 ? (uint32_t)strtoul(argv[1], NULL, 10) : 1;
    const uint32_t strange = argc > 2 ? (uint32_t)strtoul(argv[2], NULL, 10) : 100000;
    if (srtp_init() != srtp_err_status_ok) return 2;
    for (int i = 0; i < 4; i++) one_way(profiles[i / 2], i % 2 == 0, strange / 2);
    printf("%d passed, %d failed\n", passed, failures);
    return failures != 0;
}
