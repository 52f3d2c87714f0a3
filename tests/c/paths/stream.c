#include "stream.h"

#include "gozdrit.h"

#include <math.h>
#include <stdio.h>
#include <stdlib.h>
#include <string.h>

#define EXPECT(holds)                                                  \
    do {                                                               \
        if (!(holds)) {                                                \
            fprintf(stderr, "paths: line %d: %s\n", __LINE__, #holds); \
            exit(1);                                                   \
        }                                                              \
    } while (0)

enum { OCTETS = 1188, EPOCH = 1000, REST = 3000 }; /* of a payload; milliseconds: of the clocks at the start, and behind the last packet */
static const gozdrit_session SESSION = {0x11111111, 0x22222222, 0x33333333, 96, 97, 0};

/* One packet of the source: its number is the front of its payload. */
struct packet {
    double sent, played;
    bool is_on_its_way, was_sent;
};

static gozdrit_sender sender;
static gozdrit_receiver receiver;
static struct packet *packets;
static size_t count, repeats, vain;
static double now;

static uint64_t clock_of(double moment) {
    return EPOCH + (uint64_t)moment;
}

static void begin(const struct stream *stream) {
    gozdrit_sender_config sends;
    gozdrit_receiver_config receives;
    gozdrit_sender_defaults(&sends, sizeof sends);
    sends.session = SESSION;
    sends.first_sequence = 100;
    EXPECT(gozdrit_sender_new(&sends, &sender) == GOZDRIT_OK);
    gozdrit_receiver_defaults(&receives, sizeof receives);
    receives.session = SESSION;
    receives.latency = stream->latency;
    EXPECT(gozdrit_receiver_new(&receives, &receiver) == GOZDRIT_OK);
    EXPECT(gozdrit_set_nack_budget(&receiver, stream->earned) == GOZDRIT_OK);
    count = repeats = vain = 0;
    now = 0;
}

/* A packet leaves, for the first time or once more. */
static void leaves(size_t number, const uint8_t *octets, size_t length) {
    struct packet *packet = &packets[number];
    if (packet->was_sent) {
        repeats++;
        if (packet->is_on_its_way) vain++;
    }
    packet->was_sent = true;
    if (path_takes(THERE, octets, length, now)) packet->is_on_its_way = true;
}

static void send_next(void) {
    static uint8_t payload[OCTETS], out[GOZDRIT_MAX_DATAGRAM];
    gozdrit_header header = {0};
    gozdrit_sent sent = GOZDRIT_SENT_INIT;
    header.timestamp = (uint32_t)(now * 90);
    memcpy(payload, &count, sizeof count);
    packets[count] = (struct packet){.sent = now, .played = -1};
    EXPECT(gozdrit_sender_set_time(&sender, clock_of(now)) == GOZDRIT_OK);
    EXPECT(gozdrit_send(&sender, &header, payload, sizeof payload, 0, &sent, out, sizeof out) == GOZDRIT_OK);
    leaves(count++, out, sent.length);
}

static void hear_feedback(const struct arrival *feedback) {
    static uint8_t out[GOZDRIT_MAX_DATAGRAM];
    gozdrit_outcome outcome = GOZDRIT_OUTCOME_INIT;
    gozdrit_sent sent = GOZDRIT_SENT_INIT;
    EXPECT(gozdrit_sender_set_time(&sender, clock_of(now)) == GOZDRIT_OK);
    EXPECT(gozdrit_feedback(&sender, feedback->octets, feedback->length, &outcome) == GOZDRIT_OK);
    while (gozdrit_retransmit(&sender, &sent, out, sizeof out) == GOZDRIT_OK && sent.length > 0) {
        leaves((size_t)(sent.sequence - 65536 - 100), out, sent.length);
    }
}

static void play_all(void) {
    static uint8_t payload[GOZDRIT_MAX_PAYLOAD];
    gozdrit_played played = GOZDRIT_PLAYED_INIT;
    while (gozdrit_play(&receiver, clock_of(now), &played, payload, sizeof payload) == GOZDRIT_OK && played.kind != GOZDRIT_WAIT) {
        size_t number;
        memcpy(&number, payload, sizeof number);
        if (played.kind == GOZDRIT_PACKET) packets[number].played = now;
    }
}

static void ask_all(void) {
    uint8_t nack[GOZDRIT_MAX_NACK_DATAGRAM];
    size_t length;
    while (gozdrit_nack(&receiver, clock_of(now), GOZDRIT_MAX_NACKED, &length, nack, sizeof nack) == GOZDRIT_OK && length > 0) {
        (void)path_takes(BACK, nack, length, now);
    }
}

/* When the receiver has something to do, if nothing comes. */
static double wakes(void) {
    gozdrit_timeout timeout;
    EXPECT(gozdrit_next_timeout(&receiver, &timeout) == GOZDRIT_OK);
    if (!timeout.known) return HUGE_VAL;
    return fmax(now, (double)timeout.time - EPOCH);
}

static void hear(void) {
    const struct arrival came = path_gives();
    gozdrit_received received = GOZDRIT_RECEIVED_INIT;
    if (came.way == BACK) {
        hear_feedback(&came);
        return;
    }
    EXPECT(gozdrit_receive(&receiver, came.octets, came.length, clock_of(now), &received) == GOZDRIT_OK);
    play_all();
    ask_all();
}

static void wake(void) {
    play_all();
    ask_all();
}

static struct outcome tell(const struct stream *stream, const struct path *path) {
    const double limit = (double)stream->latency + 4 * path->delay + 30;
    size_t lost = 0, late = 0;
    for (size_t i = 0; i < count; i++) {
        if (packets[i].played < 0) lost++;
        else if (packets[i].played - packets[i].sent > limit) late++;
    }
    return (struct outcome){(double)lost / (double)count, (double)late / (double)count, (double)repeats / (double)count,
                            repeats > 0 ? (double)vain / (double)repeats : 0};
}

struct outcome run_stream(const struct stream *stream, const struct path *path, uint64_t seed) {
    const double step = 1200 * 8 / stream->kilobits, end = stream->seconds * 1000;
    struct outcome outcome;
    packets = calloc((size_t)(end / step) + 2, sizeof *packets);
    EXPECT(packets != NULL);
    path_begins(path, seed);
    begin(stream);
    while (now < end + REST) {
        const double sends = (double)count * step < end ? (double)count * step : HUGE_VAL, comes = path_next(), next = wakes();
        now = fmin(fmin(sends, comes), fmin(next, end + REST));
        if (comes <= now) hear();
        else if (sends <= now) send_next();
        else wake();
    }
    outcome = tell(stream, path);
    free(packets);
    EXPECT(gozdrit_sender_free(&sender) == GOZDRIT_OK && gozdrit_receiver_free(&receiver) == GOZDRIT_OK);
    return outcome;
}
