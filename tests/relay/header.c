/* A relay by the library for C, with its defaults: what a program that calls it as docs/LIBRARY.md says comes to over a network. links.py
 * runs it.
 *
 *   header send PORT FAR         takes RTP at a port, and sends it to another one of this machine, whose feedback it answers
 *   header receive PORT TO LATENCY   takes that, asks for what is missing, and hands what it plays on to a port */
#define _POSIX_C_SOURCE 200809L
#include "gozdrit.h"

#include <arpa/inet.h>
#include <poll.h>
#include <stdio.h>
#include <stdlib.h>
#include <string.h>
#include <sys/socket.h>
#include <time.h>
#include <unistd.h>

enum { ROOM = 2048 };
static const gozdrit_session SESSION = {0x11111111, 0x22222222, 0x33333333, 96, 97, 0};
static uint8_t octets[ROOM], out[GOZDRIT_MAX_DATAGRAM];

#define EXPECT(holds)                                                   \
    do {                                                                \
        if (!(holds)) {                                                 \
            fprintf(stderr, "header: line %d: %s\n", __LINE__, #holds); \
            exit(1);                                                    \
        }                                                               \
    } while (0)

static uint64_t milliseconds(void) {
    struct timespec now;
    clock_gettime(CLOCK_MONOTONIC, &now);
    return (uint64_t)now.tv_sec * 1000 + (uint64_t)now.tv_nsec / 1000000;
}

static struct sockaddr_in address_of(const char *port) {
    struct sockaddr_in at = {.sin_family = AF_INET, .sin_port = htons((uint16_t)atoi(port)), .sin_addr = {htonl(INADDR_LOOPBACK)}};
    return at;
}

/* A socket at a port, or at any. */
static int bound(const char *port) {
    const struct sockaddr_in at = address_of(port);
    const int room = 1 << 20, made = socket(AF_INET, SOCK_DGRAM, 0);
    setsockopt(made, SOL_SOCKET, SO_RCVBUF, &room, sizeof room);
    EXPECT(made >= 0 && bind(made, (const struct sockaddr *)&at, sizeof at) == 0);
    return made;
}

static void say(int from, const struct sockaddr_in *to, const uint8_t *datagram, size_t length) {
    (void)sendto(from, datagram, length, 0, (const struct sockaddr *)to, sizeof *to);
}

/* The next datagram that is there, or 0. */
static size_t take(int from, struct sockaddr_in *who) {
    socklen_t size = sizeof *who;
    const ssize_t length = recvfrom(from, octets, sizeof octets, MSG_DONTWAIT, (struct sockaddr *)who, who ? &size : NULL);
    return length > 0 ? (size_t)length : 0;
}

/* ---- the sending side */

static void send_media(gozdrit_sender *sender, int far, const struct sockaddr_in *to, size_t length) {
    gozdrit_packet packet;
    gozdrit_sent sent = GOZDRIT_SENT_INIT;
    if (gozdrit_rtp_read(octets, length, &packet) != GOZDRIT_OK) return;
    EXPECT(gozdrit_send(sender, &packet.header, octets + packet.payload, packet.length, 0, &sent, out, sizeof out) == GOZDRIT_OK);
    say(far, to, out, sent.length);
}

static void answer(gozdrit_sender *sender, int far, const struct sockaddr_in *to, size_t length) {
    gozdrit_outcome outcome = GOZDRIT_OUTCOME_INIT;
    gozdrit_sent sent = GOZDRIT_SENT_INIT;
    EXPECT(gozdrit_feedback(sender, octets, length, &outcome) == GOZDRIT_OK);
    while (gozdrit_retransmit(sender, &sent, out, sizeof out) == GOZDRIT_OK && sent.length > 0) say(far, to, out, sent.length);
}

static void run_sender(char **words) {
    const int near = bound(words[0]), far = bound("0");
    const struct sockaddr_in to = address_of(words[1]);
    gozdrit_sender sender = {0};
    gozdrit_sender_config config;
    gozdrit_sender_defaults(&config, sizeof config);
    config.session = SESSION;
    EXPECT(gozdrit_sender_new(&config, &sender) == GOZDRIT_OK);
    for (;;) {
        struct pollfd ready[] = {{near, POLLIN, 0}, {far, POLLIN, 0}};
        size_t length;
        poll(ready, 2, -1);
        gozdrit_sender_set_time(&sender, milliseconds());
        while ((length = take(near, NULL)) > 0) send_media(&sender, far, &to, length);
        while ((length = take(far, NULL)) > 0) answer(&sender, far, &to, length);
    }
}

/* ---- the receiving side */

static void play_all(gozdrit_receiver *receiver, uint64_t now, int from, const struct sockaddr_in *to) {
    static uint8_t payload[GOZDRIT_MAX_PAYLOAD];
    gozdrit_played played = GOZDRIT_PLAYED_INIT;
    while (gozdrit_play(receiver, now, &played, payload, sizeof payload) == GOZDRIT_OK && played.kind != GOZDRIT_WAIT) {
        gozdrit_packet packet = {.ssrc = SESSION.media_ssrc, .sequence = (uint16_t)played.sequence, .payload_type = 96};
        size_t length;
        if (played.kind == GOZDRIT_GAP) continue;
        packet.header = played.header;
        EXPECT(gozdrit_rtp_write(&packet, payload, played.length, &length, out, sizeof out) == GOZDRIT_OK);
        say(from, to, out, length);
    }
}

static void ask_all(gozdrit_receiver *receiver, uint64_t now, int from, const struct sockaddr_in *to) {
    uint8_t nack[GOZDRIT_MAX_NACK_DATAGRAM];
    size_t length;
    while (gozdrit_nack(receiver, now, GOZDRIT_MAX_NACKED, &length, nack, sizeof nack) == GOZDRIT_OK && length > 0) say(from, to, nack, length);
}

static int wait_of(const gozdrit_receiver *receiver) {
    gozdrit_timeout timeout;
    const uint64_t now = milliseconds();
    gozdrit_next_timeout(receiver, &timeout);
    if (!timeout.known || timeout.time > now + 1000) return 1000;
    return timeout.time <= now ? 0 : (int)(timeout.time - now);
}

static void run_receiver(char **words) {
    const int far = bound(words[0]);
    const struct sockaddr_in to = address_of(words[1]);
    struct sockaddr_in from = to;
    gozdrit_receiver receiver = {0};
    gozdrit_receiver_config config;
    gozdrit_receiver_defaults(&config, sizeof config);
    config.session = SESSION;
    config.latency = (uint64_t)atoi(words[2]);
    EXPECT(gozdrit_receiver_new(&config, &receiver) == GOZDRIT_OK);
    for (;;) {
        struct pollfd ready = {far, POLLIN, 0};
        gozdrit_received received = GOZDRIT_RECEIVED_INIT;
        size_t length;
        poll(&ready, 1, wait_of(&receiver));
        while ((length = take(far, &from)) > 0) {
            EXPECT(gozdrit_receive(&receiver, octets, length, milliseconds(), &received) == GOZDRIT_OK);
            play_all(&receiver, milliseconds(), far, &to);
        }
        play_all(&receiver, milliseconds(), far, &to);
        ask_all(&receiver, milliseconds(), far, &from);
    }
}

int main(int count, char **words) {
    EXPECT(gozdrit_max_payload() == GOZDRIT_MAX_PAYLOAD);
    if (count == 4 && strcmp(words[1], "send") == 0) run_sender(words + 2);
    if (count == 5 && strcmp(words[1], "receive") == 0) run_receiver(words + 2);
    fprintf(stderr, "usage: header send PORT FAR | header receive PORT TO LATENCY\n");
    return 2;
}
