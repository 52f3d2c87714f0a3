/* What both examples share: the session, a clock, drawn losses, a socket and the command line. No call of the library
 * stands here. */
#ifndef UDP_H
#define UDP_H

#include "gozdrit.h"

#include <netdb.h>
#include <poll.h>
#include <stdbool.h>
#include <stdio.h>
#include <stdlib.h>
#include <string.h>
#include <sys/socket.h>
#include <time.h>
#include <unistd.h>

/* The streams of the session, and the first packet's sequence number. Real ends draw SSRCs and numbers at random, and
 * agree on them and on the types by signalling (RFC 4588, section 8). */
static const gozdrit_session SESSION = {0x11111111, 0x22222222, 0x33333333, 96, 97, 0};
enum { FIRST = 65000 };

/* The receiver's last word: RTCP BYE from its SSRC (RFC 3550, section 6.6), with the reason "all" where it has the
 * whole file, and "gap" where not. The library makes and takes generic NACKs alone, so the examples write these. */
enum { BYE_LENGTH = 12 };
static const uint8_t BYE_WHOLE[BYE_LENGTH] = {0x81, 203, 0, 2, 0x33, 0x33, 0x33, 0x33, 3, 'a', 'l', 'l'};
static const uint8_t BYE_BROKEN[BYE_LENGTH] = {0x81, 203, 0, 2, 0x33, 0x33, 0x33, 0x33, 3, 'g', 'a', 'p'};

static inline bool is_same(const uint8_t *octets, size_t length, const uint8_t *bye) {
    return length == BYE_LENGTH && memcmp(octets, bye, BYE_LENGTH) == 0;
}

/* Milliseconds of a clock that nobody sets back. */
static inline uint64_t milliseconds(void) {
    struct timespec t;
    clock_gettime(CLOCK_MONOTONIC, &t);
    return (uint64_t)t.tv_sec * 1000 + (uint64_t)t.tv_nsec / 1000000;
}

/* The options of both programs. */
typedef struct options {
    uint64_t loss;    /* of 1000 datagrams that the program sends, so many are lost on average */
    uint64_t drawn;   /* the state of the generator that draws them, at first the seed */
    uint64_t seconds; /* the program ends after so many, whatever happens */
} options;

/* Sends a datagram, or loses it. One that the system does not take is lost as well: who waits for it asks for it. */
static inline void lossy_send(int at, options *o, const uint8_t *octets, size_t length) {
    o->drawn = o->drawn * UINT64_C(6364136223846793005) + UINT64_C(1442695040888963407);
    if ((o->drawn >> 33) % 1000 < o->loss) return;
    (void)send(at, octets, length, 0);
}

/* Waits for a datagram, so many milliseconds at most. */
static inline void wait_for_datagram(int at, int most) {
    struct pollfd one = {at, POLLIN, 0};
    poll(&one, 1, most);
}

/* A whole number in decimal of 0 to the largest one. */
static inline bool number_of(const char *text, uint64_t largest, uint64_t *number) {
    *number = 0;
    if (*text == 0) return false;
    for (; *text >= '0' && *text <= '9' && *number <= largest; text++) *number = *number * 10 + (uint64_t)(*text - '0');
    return *text == 0 && *number <= largest;
}

/* Reads pairs of an option and its number. */
static inline bool options_of(char **words, options *o) {
    o->loss = 0, o->drawn = 1, o->seconds = 60;
    for (; *words; words += 2) {
        if (!words[1]) return false;
        bool known = strcmp(*words, "--loss") == 0      ? number_of(words[1], 1000, &o->loss)
                     : strcmp(*words, "--seed") == 0    ? number_of(words[1], UINT32_MAX, &o->drawn)
                     : strcmp(*words, "--seconds") == 0 ? number_of(words[1], 86400, &o->seconds)
                                                        : false;
        if (!known) return false;
    }
    return true;
}

/* A UDP socket over IPv4: bound to a port of this machine where host is null, and else sending to that host and port.
 * Below 0 where there is none. */
static inline int open_socket(const char *host, const char *port) {
    struct addrinfo hints, *found;
    memset(&hints, 0, sizeof hints);
    hints.ai_family = AF_INET;
    hints.ai_socktype = SOCK_DGRAM;
    hints.ai_flags = host ? 0 : AI_PASSIVE;
    if (getaddrinfo(host, port, &hints, &found) != 0) return -1;
    int at = socket(found->ai_family, found->ai_socktype, 0);
    int done = at < 0 ? -1 : (host ? connect : bind)(at, found->ai_addr, found->ai_addrlen);
    freeaddrinfo(found);
    if (done == 0) return at;
    if (at >= 0) close(at);
    return -1;
}

/* Says which call of the library was refused, by the refusal's name. */
static inline void tell_refusal(const char *call, int32_t number) {
    fprintf(stderr, "%s: refused %d %s\n", call, (int)number, gozdrit_refusal_name(number));
}

#endif
