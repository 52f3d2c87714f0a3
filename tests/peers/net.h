/* What the programs here share: a clock, sockets of the loopback, streams as a command line names them, and options. No
 * call of the library stands here. */
#ifndef NET_H
#define NET_H

#include <arpa/inet.h>
#include <poll.h>
#include <signal.h>
#include <stdbool.h>
#include <stdint.h>
#include <stdio.h>
#include <stdlib.h>
#include <string.h>
#include <sys/socket.h>
#include <time.h>
#include <unistd.h>

enum { BUFFER = 1 << 20 }; /* octets that the system may keep for a socket: a busy machine halts a program for a while */

/* A stream, MEDIA:RTX:REPORTER:TYPE:RTX_TYPE:FIRST in decimal: the three SSRCs, the two payload types, and the first packet's
 * sequence number. A sender takes 0 for a reporter as any. */
typedef struct stream {
    uint32_t media, rtx, reporter;
    unsigned type, rtx_type, first;
} stream;

static inline bool stream_of(const char *word, stream *s) {
    int end = 0;
    int count = sscanf(word, "%u:%u:%u:%u:%u:%u%n", &s->media, &s->rtx, &s->reporter, &s->type, &s->rtx_type, &s->first, &end);
    return count == 6 && word[end] == 0 && s->type < 128 && s->rtx_type < 128 && s->first < 65536;
}

/* An option, --NAME NUMBER, and where its number goes. The list ends with one without a name. */
typedef struct option {
    const char *name;
    uint64_t *number;
} option;

/* Reads the options at the front of the words, and gives the first word behind them; null where one is unknown. */
static inline char **options_of(char **words, const option *known) {
    while (*words && strncmp(*words, "--", 2) == 0) {
        const option *one = known;
        char *end = NULL;
        while (one->name && strcmp(one->name, *words + 2) != 0) one++;
        if (!one->name || !words[1]) return NULL;
        *one->number = strtoull(words[1], &end, 10);
        if (end == words[1] || *end) return NULL;
        words += 2;
    }
    return words;
}

/* A port in decimal, or 0. */
static inline uint16_t port_of(const char *word) {
    char *end = NULL;
    unsigned long number = strtoul(word, &end, 10);
    return *word && *end == 0 && number < 65536 ? (uint16_t)number : 0;
}

/* Milliseconds of a clock that nobody sets back. */
static inline uint64_t moment(void) {
    struct timespec t;
    clock_gettime(CLOCK_MONOTONIC, &t);
    return (uint64_t)t.tv_sec * 1000 + (uint64_t)t.tv_nsec / 1000000;
}

static inline struct sockaddr_in address_of(uint16_t port) {
    struct sockaddr_in address;
    memset(&address, 0, sizeof address);
    address.sin_family = AF_INET;
    address.sin_port = htons(port);
    address.sin_addr.s_addr = htonl(INADDR_LOOPBACK);
    return address;
}

/* A UDP socket at a port of the loopback, or -1. */
static inline int bound_at(uint16_t port) {
    struct sockaddr_in address = address_of(port);
    int size = BUFFER, at = socket(AF_INET, SOCK_DGRAM, 0);
    if (at < 0) return -1;
    (void)setsockopt(at, SOL_SOCKET, SO_RCVBUF, &size, sizeof size);
    if (bind(at, (struct sockaddr *)&address, sizeof address) == 0) return at;
    perror("bind");
    close(at);
    return -1;
}

/* Sends a datagram to a port of the loopback. One that the system does not take is lost. */
static inline void send_to(int at, uint16_t port, const uint8_t *octets, size_t length) {
    struct sockaddr_in address = address_of(port);
    (void)sendto(at, octets, length, 0, (struct sockaddr *)&address, sizeof address);
}

/* Numbers as they stand in a packet. */
static inline uint32_t number16(const uint8_t *at) { return (uint32_t)at[0] << 8 | at[1]; }
static inline uint32_t number32(const uint8_t *at) { return number16(at) << 16 | number16(at + 2); }

/* Whether a signal has told the program to end: it then tells its counts. */
static volatile sig_atomic_t told_to_end;
static inline void on_signal(int number) {
    (void)number;
    told_to_end = 1;
}

static inline void end_on_signals(void) {
    struct sigaction action;
    memset(&action, 0, sizeof action);
    action.sa_handler = on_signal;
    sigaction(SIGTERM, &action, NULL);
    sigaction(SIGINT, &action, NULL);
}

#endif
