/* What SRTP costs by the library and by libsrtp, in one run: microseconds of processor time a packet of 1316 octets of payload.
 *
 *   srtp_cost [PACKETS]
 *
 * `make build/srtp_cost` builds it, where libsrtp2-dev is installed. */
#define _POSIX_C_SOURCE 200809L

#include <gozdrit.h>
#include <srtp2/srtp.h>

#include <stdio.h>
#include <stdlib.h>
#include <string.h>
#include <time.h>

enum { LENGTH = 12 + 1316, ROOM = LENGTH + GOZDRIT_SRTP_GROWTH };

static uint8_t key[GOZDRIT_SRTP_KEY];

static double spent(void) {
    struct timespec at;
    clock_gettime(CLOCK_PROCESS_CPUTIME_ID, &at);
    return 1e6 * (double)at.tv_sec + 1e-3 * (double)at.tv_nsec;
}

static void number(uint8_t *packet, uint32_t at) {
    packet[0] = 0x80, packet[1] = 96;
    packet[2] = (uint8_t)(at >> 8), packet[3] = (uint8_t)at;
}

static void must(int holds) {
    if (!holds) abort();
}

static void ours(uint16_t profile, uint32_t packets, uint8_t (*kept)[ROOM], double *protects, double *unprotects) {
    gozdrit_srtp_sender out = {NULL, 0};
    gozdrit_srtp_receiver in = {NULL, 0};
    size_t length;
    must(gozdrit_srtp_sender_new(profile, key, sizeof key, &out) == 0 && gozdrit_srtp_receiver_new(profile, key, sizeof key, &in) == 0);
    double began = spent();
    for (uint32_t i = 0; i < packets; i++) must(gozdrit_srtp_protect(&out, kept[i], ROOM, LENGTH, &length) == 0);
    *protects = (spent() - began) / packets;
    began = spent();
    for (uint32_t i = 0; i < packets; i++) must(gozdrit_srtp_unprotect(&in, kept[i], length, 0, &length) == 0), length += 10;
    *unprotects = (spent() - began) / packets;
    gozdrit_srtp_sender_free(&out);
    gozdrit_srtp_receiver_free(&in);
}

static srtp_t session(uint16_t profile, srtp_ssrc_type_t side) {
    srtp_policy_t policy;
    srtp_t made;
    memset(&policy, 0, sizeof policy);
    if (profile == GOZDRIT_SRTP_NULL_HMAC_SHA1_80) {
        srtp_crypto_policy_set_null_cipher_hmac_sha1_80(&policy.rtp);
    } else {
        srtp_crypto_policy_set_rtp_default(&policy.rtp);
    }
    srtp_crypto_policy_set_rtcp_default(&policy.rtcp);
    policy.ssrc.type = side;
    policy.key = key;
    must(srtp_create(&made, &policy) == srtp_err_status_ok);
    return made;
}

static void theirs(uint16_t profile, uint32_t packets, uint8_t (*kept)[ROOM], double *protects, double *unprotects) {
    srtp_t out = session(profile, ssrc_any_outbound), in = session(profile, ssrc_any_inbound);
    int length = 0;
    double began = spent();
    for (uint32_t i = 0; i < packets; i++) length = LENGTH, must(srtp_protect(out, kept[i], &length) == srtp_err_status_ok);
    *protects = (spent() - began) / packets;
    began = spent();
    for (uint32_t i = 0; i < packets; i++) length = LENGTH + 10, must(srtp_unprotect(in, kept[i], &length) == srtp_err_status_ok);
    *unprotects = (spent() - began) / packets;
    srtp_dealloc(out);
    srtp_dealloc(in);
}

int main(int argc, char **argv) {
    static const uint16_t profiles[] = {GOZDRIT_SRTP_AES128_CM_HMAC_SHA1_80, GOZDRIT_SRTP_NULL_HMAC_SHA1_80};
    const uint32_t packets = argc > 1 ? (uint32_t)strtoul(argv[1], NULL, 10) : 20000;
    uint8_t (*kept)[ROOM] = calloc(packets, ROOM);
    must(kept != NULL && srtp_init() == srtp_err_status_ok);
    for (size_t i = 0; i < 4; i++) {
        double protects, unprotects;
        for (uint32_t k = 0; k < packets; k++) number(kept[k], k);
        (i % 2 ? theirs : ours)(profiles[i / 2], packets, kept, &protects, &unprotects);
        printf("%s, profile %d: protect %.1f, unprotect %.1f us\n", i % 2 ? "libsrtp" : "gozdrit", profiles[i / 2], protects, unprotects);
    }
    free(kept);
    return 0;
}
