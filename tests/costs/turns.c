/* What a receiver's turns cost. Reads descriptions, one a line, of the state that a receiver is brought to and of the turns that it
 * does from there, and prints for each how many packets are missing in the end, and a digest of all that was answered. A description
 * is words NAME=NUMBER, as FIELDS below has them; what it leaves out has the number that stands there. The turns are all of `counted`,
 * so that callgrind can count them apart from the state before: `search` does that. */
#include "gozdrit.h"

#include <inttypes.h>
#include <stdbool.h>
#include <stddef.h>
#include <stdio.h>
#include <stdlib.h>
#include <string.h>

/* The program is written for version 2 of the header, and `search` builds it with that of an older tree too. In version 1 no
 * struct says its size, and these numbers, types, calls, and then fields have other names. */
#if GOZDRIT_VERSION_MAJOR >= 2
#define DEFAULTS(config) gozdrit_receiver_defaults(config, sizeof *(config))
#else
#define DEFAULTS(config) gozdrit_receiver_defaults(config)
#define GOZDRIT_PLAYED_INIT {0}
#define GOZDRIT_RECEIVED_INIT {0}
#define GOZDRIT_RECEIVE_COUNTS_INIT {0}
#define GOZDRIT_MAX_NACKED GOZDRIT_MOST
#define GOZDRIT_MAX_NACK_DATAGRAM GOZDRIT_MAX_NACK
#define gozdrit_received gozdrit_heard
#define gozdrit_timeout gozdrit_moment
#define gozdrit_next_timeout gozdrit_next_moment
#define held_back held
#define time moment
#define latency patience
#define reorder_delay delay
#define nack_interval retry
#define max_nacks nacks
#define adaptive follows
#endif

typedef struct turns {
    /* the receiver */
    uint64_t window, patience, delay, retry, nacks, payload, follows;
    /* what is missing before the first turn */
    uint64_t burst;        /* so many in one gap */
    uint64_t lone, apart;  /* so many by themselves, one in each `apart` */
    uint64_t drawn, share; /* of so many, by chance so many of a thousand */
    uint64_t asked;        /* how often all was asked for that was due, `retry` apart */
    uint64_t silence;      /* milliseconds until the turns begin */
    /* the turns */
    uint64_t turns, step;      /* how many, and how many milliseconds each is after the one before */
    uint64_t sends;            /* packets of a turn */
    uint64_t skips;            /* packets that are lost before each of those */
    uint64_t lost, run;        /* of a thousand so many are lost, and so many from each of those on */
    uint64_t late, behind;     /* of a thousand so many come so many milliseconds later */
    uint64_t answers, trip;    /* of a thousand retransmissions so many come, and so many milliseconds after the NACK */
    uint64_t asks, most;       /* NACKs of a turn at most, 0 for as many as are due, and what each names at most */
    uint64_t each;             /* 1: what follows a datagram is done after each, 0: once a turn */
    uint64_t plays, reads;     /* 1: all is played that can be; the next moment is read */
    uint64_t calls;            /* after so many no further turn begins, and nothing more is asked for */
    uint64_t seed;
} turns;

static const struct {
    const char *name;
    size_t at;
    uint64_t usual;
} FIELDS[] = {
#define FIELD(name, usual) {#name, offsetof(turns, name), usual}
    FIELD(window, 512), FIELD(patience, 1000000), FIELD(delay, 0), FIELD(retry, 20), FIELD(nacks, 255), FIELD(payload, 20),
    FIELD(follows, 0), FIELD(burst, 0), FIELD(lone, 0), FIELD(apart, 2), FIELD(drawn, 0), FIELD(share, 500), FIELD(asked, 0),
    FIELD(silence, 0), FIELD(turns, 20), FIELD(step, 20), FIELD(sends, 1), FIELD(skips, 0), FIELD(lost, 0), FIELD(run, 1),
    FIELD(late, 0), FIELD(behind, 10), FIELD(answers, 0), FIELD(trip, 100), FIELD(asks, 0), FIELD(most, GOZDRIT_MAX_NACKED),
    FIELD(each, 0), FIELD(plays, 1), FIELD(reads, 1), FIELD(calls, 5000), FIELD(seed, 1),
};
enum { COUNT = sizeof FIELDS / sizeof *FIELDS, AHEAD = 1 << 16 };

/* A datagram that is under way. */
typedef struct arrival {
    uint64_t moment;
    uint16_t number;
    bool again; /* it is a retransmission */
} arrival;

static turns given;
static gozdrit_receiver receiver;
static uint64_t now, digest, drawing, made; /* the last counts calls */
static uint16_t number, rtx_number; /* of the next packet, and of the next retransmission */
static uint64_t losing;             /* how many packets are lost from here on */
static arrival ahead[AHEAD];
static size_t under_way;

static void fail(const char *what) {
    fprintf(stderr, "turns: %s\n", what);
    exit(1);
}

/* ---- the digest, and what is drawn */

static void tell(uint64_t value) {
    digest = (digest ^ value) * 0x100000001b3u;
    digest ^= digest >> 29;
}

static void tell_octets(const uint8_t *octets, size_t length) {
    for (size_t i = 0; i < length; i++) tell(octets[i]);
}

/* Whether so many of a thousand are drawn. Nothing is drawn where the answer is known. */
static bool is_drawn(uint64_t share) {
    if (share == 0 || share >= 1000) return share != 0;
    drawing = drawing * 6364136223846793005u + 1442695040888963407u;
    return (drawing >> 33) % 1000 < share;
}

/* ---- the calls */

static void play_all(void) {
    static uint8_t payload[GOZDRIT_MAX_PAYLOAD];
    gozdrit_played played = GOZDRIT_PLAYED_INIT;
    do {
        made++;
        if (gozdrit_play(&receiver, now, &played, payload, sizeof payload)) fail("play");
        tell(played.kind);
        if (played.kind != GOZDRIT_WAIT) tell(played.sequence);
        if (played.kind == GOZDRIT_PACKET) tell(played.length), tell(played.header.timestamp), tell(payload[1]);
    } while (played.kind != GOZDRIT_WAIT);
}

/* What finds no room under way is lost. */
static void send_at(uint64_t moment, uint16_t of, bool again) {
    if (under_way < AHEAD) ahead[under_way++] = (arrival){moment, of, again};
}

/* The retransmissions that a NACK brings. */
static void answer(const uint8_t *nack, size_t length) {
    for (size_t at = 12; at + 4 <= length; at += 4) {
        const uint16_t first = (uint16_t)(nack[at] << 8 | nack[at + 1]);
        const uint32_t named = 1u | (uint32_t)(nack[at + 2] << 8 | nack[at + 3]) << 1;
        for (uint16_t i = 0; i < 17; i++) {
            if (named >> i & 1 && is_drawn(given.answers)) send_at(now + given.trip, (uint16_t)(first + i), true);
        }
    }
}

/* Asks so often at most, or where that is 0 until nothing is due. */
static void ask(uint64_t times) {
    static uint8_t nack[GOZDRIT_MAX_NACK_DATAGRAM];
    size_t length = 1;
    for (uint64_t i = 0; length != 0 && (times == 0 || i < times) && made < given.calls; i++) {
        made++;
        if (gozdrit_nack(&receiver, now, given.most, &length, nack, sizeof nack)) fail("nack");
        tell(length);
        tell_octets(nack, length);
        answer(nack, length);
    }
}

static void read_next(void) {
    gozdrit_timeout timeout;
    made++;
    if (gozdrit_next_timeout(&receiver, &timeout)) fail("next timeout");
    tell(timeout.known);
    if (timeout.known) tell(timeout.time);
}

/* What follows a datagram, or all datagrams of a turn. */
static void follow(void) {
    if (given.plays) play_all();
    ask(given.asks);
    if (given.reads) read_next();
}

static void take(uint16_t of, bool again) {
    static uint8_t datagram[14 + GOZDRIT_MAX_PAYLOAD];
    const uint8_t ssrc = again ? 0x22 : 0x11;
    const uint16_t shown = again ? rtx_number++ : of;
    const size_t head = again ? 14 : 12, length = given.payload < 2 ? 2 : given.payload;
    gozdrit_received received = GOZDRIT_RECEIVED_INIT;
    memcpy(datagram, (uint8_t[]){0x80, again ? 97 : 96, (uint8_t)(shown >> 8), (uint8_t)shown, 0, 0, (uint8_t)(of >> 8), (uint8_t)of,
                                 ssrc, ssrc, ssrc, ssrc, (uint8_t)(of >> 8), (uint8_t)of}, 14);
    memcpy(datagram + head, (uint8_t[]){(uint8_t)(of >> 8), (uint8_t)of}, 2);
    made++;
    if (gozdrit_receive(&receiver, datagram, head + length, now, &received)) fail("receive");
    tell(received.kind), tell(received.refusal), tell(received.sequence), tell(received.overrun);
    tell(received.held_back), tell(received.abandoned);
}

/* ---- the network */

static void take_and_follow(uint16_t of, bool again) {
    take(of, again);
    if (given.each) follow();
}

/* What comes by now, in the order in which it was sent. */
static void take_arrivals(void) {
    size_t kept = 0, count = under_way;
    for (size_t i = 0; i < count; i++) {
        const arrival one = ahead[i];
        if (one.moment > now) ahead[kept++] = one;
        else take_and_follow(one.number, one.again);
    }
    for (size_t i = count; i < under_way; i++) ahead[kept++] = ahead[i];
    under_way = kept;
}

/* The next packet is lost, comes, or comes later. */
static void send_next(void) {
    const uint16_t of = number++;
    if (losing == 0 && is_drawn(given.lost)) losing = given.run;
    if (losing != 0) losing--;
    else if (is_drawn(given.late)) send_at(now + given.behind, of, false);
    else take_and_follow(of, false);
}

/* It is no static function, so that its name stays, by which callgrind finds it. */
void counted(void);
__attribute__((noinline)) void counted(void) {
    made = 0;
    for (uint64_t i = 0; i < given.turns && made < given.calls; i++) {
        now += given.step;
        take_arrivals();
        for (uint64_t j = 0; j < given.sends; j++) {
            number = (uint16_t)(number + given.skips);
            send_next();
        }
        if (!given.each) follow();
    }
}

/* ---- the state before */

static void make_receiver(void) {
    gozdrit_receiver_config config;
    if (DEFAULTS(&config)) fail("defaults");
    config.session = (gozdrit_session){0x11111111, 0x22222222, 0x33333333, 96, 97, 0};
    config.window = (uint32_t)given.window;
    config.latency = given.patience;
    config.reorder_delay = given.delay;
    config.nack_interval = given.retry;
    config.max_nacks = (uint8_t)given.nacks;
    config.adaptive = (uint8_t)given.follows;
    if (gozdrit_receiver_new(&config, &receiver)) fail("a configuration");
}

static void begin(void) {
    now = 1000, digest = given.seed, drawing = given.seed, made = 0;
    number = 65000, rtx_number = 1, losing = 0, under_way = 0;
    make_receiver();
    take(number++, false);
    play_all();
    if (given.burst) number = (uint16_t)(number + given.burst), take(number++, false);
    for (uint64_t i = 0; i < given.lone; i++) {
        number++;
        for (uint64_t j = 1; j < given.apart; j++) take(number++, false);
    }
    for (uint64_t i = 0; i < given.drawn; i++) {
        const uint16_t of = number++;
        if (!is_drawn(given.share)) take(of, false);
    }
    for (uint64_t i = 0; i < given.asked; i++) {
        now += i == 0 ? given.delay : given.retry;
        ask(0);
    }
    now += given.silence;
}

/* Answers how many packets are missing. */
static size_t end(void) {
    gozdrit_receive_counts counts = GOZDRIT_RECEIVE_COUNTS_INIT;
    size_t missing;
    if (gozdrit_missing(&receiver, &missing) || gozdrit_receiver_counts(&receiver, &counts)) fail("counts");
    if (gozdrit_receiver_free(&receiver)) fail("the end");
    tell(counts.media), tell(counts.retransmissions), tell(counts.duplicate), tell(counts.late), tell(counts.overrun);
    tell(counts.played), tell(counts.gaps), tell(counts.nacks), tell(counts.nacked);
    return missing;
}

static void read_word(const char *word) {
    const char *is = strchr(word, '=');
    for (size_t i = 0; is != NULL && i < COUNT; i++) {
        if (strlen(FIELDS[i].name) == (size_t)(is - word) && !strncmp(FIELDS[i].name, word, (size_t)(is - word))) {
            const uint64_t value = strtoull(is + 1, NULL, 10);
            memcpy((char *)&given + FIELDS[i].at, &value, sizeof value);
            return;
        }
    }
    fail(word);
}

int main(void) {
    static char line[4096];
    while (fgets(line, sizeof line, stdin)) {
        for (size_t i = 0; i < COUNT; i++) memcpy((char *)&given + FIELDS[i].at, &FIELDS[i].usual, sizeof FIELDS[i].usual);
        for (char *word = strtok(line, " \n"); word; word = strtok(NULL, " \n")) read_word(word);
        begin();
        counted();
        const size_t missing = end();
        printf("%zu %016" PRIx64 "\n", missing, digest);
    }
    return 0;
}
