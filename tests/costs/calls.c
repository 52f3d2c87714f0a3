/* calls NAME: brings ends to a state, does what NAME says in `counted`, and prints how often it did it. `callgrind.py` has the
 * instructions of the library's calls in `counted` counted, so that neither the state before nor this program is in the figure. */
#include "gozdrit.h"

#include <stdbool.h>
#include <stdio.h>
#include <stdlib.h>
#include <string.h>

enum { STORE = 1024, OCTETS = 1200, TIMES = 2000, FAR = 1000000000, ROOM = GOZDRIT_MAX_DATAGRAM };
enum { HEAD = 12, FULL = 64, MOST = 396 }; /* octets before the pairs of a NACK, and how many a NACK has of a receiver here, and at most */
static const gozdrit_session SESSION = {0x11111111, 0x22222222, 0x33333333, 96, 97, 0};

static gozdrit_sender sender;
static gozdrit_receiver receiver;
static uint8_t payload[OCTETS], datagram[ROOM], nack[GOZDRIT_MAX_NACK_DATAGRAM], room[GOZDRIT_MAX_PAYLOAD], vain[HEAD + 4 * MOST];
static uint64_t now;
static uint16_t number;

#define EXPECT(holds)                                                  \
    do {                                                               \
        if (!(holds)) {                                                \
            fprintf(stderr, "calls: line %d: %s\n", __LINE__, #holds); \
            exit(1);                                                   \
        }                                                              \
    } while (0)

/* ---- ends, and one call of each kind */

static void make_sender(uint32_t history) {
    gozdrit_sender_config config;
    EXPECT(!gozdrit_sender_defaults(&config, sizeof config));
    config.session = SESSION;
    config.history = history;
    config.max_retransmissions = 255;
    EXPECT(!gozdrit_sender_new(&config, &sender));
}

static void make_receiver(void) {
    gozdrit_receiver_config config;
    EXPECT(!gozdrit_receiver_defaults(&config, sizeof config));
    config.session = SESSION;
    config.window = STORE;
    config.latency = FAR;
    config.nack_interval = 20;
    config.max_nacks = 255;
    config.reorder_delay = 0;
    EXPECT(!gozdrit_receiver_new(&config, &receiver));
}

/* Sends the next packet, and answers the datagram's length. */
static size_t send_next(void) {
    gozdrit_header header = {.timestamp = (uint32_t)now};
    gozdrit_sent sent = GOZDRIT_SENT_INIT;
    payload[2] = (uint8_t)(number >> 8), payload[3] = (uint8_t)number;
    number++;
    EXPECT(!gozdrit_send(&sender, &header, payload, OCTETS, 0, &sent, datagram, ROOM));
    return sent.length;
}

static gozdrit_received take(size_t length) {
    gozdrit_received received = GOZDRIT_RECEIVED_INIT;
    EXPECT(!gozdrit_receive(&receiver, datagram, length, now, &received));
    return received;
}

/* Takes the packet of a number, which no sender made. */
static gozdrit_received take_number(uint16_t of) {
    memset(datagram, 0, 12 + OCTETS);
    datagram[0] = 0x80, datagram[1] = 96, datagram[2] = (uint8_t)(of >> 8), datagram[3] = (uint8_t)of;
    memset(datagram + 8, 0x11, 4);
    return take(12 + OCTETS);
}

static uint8_t play(void) {
    gozdrit_played played = GOZDRIT_PLAYED_INIT;
    EXPECT(!gozdrit_play(&receiver, now, &played, room, sizeof room));
    return played.kind;
}

static size_t ask(void) {
    size_t length;
    EXPECT(!gozdrit_nack(&receiver, now, GOZDRIT_MAX_NACKED, &length, nack, sizeof nack));
    return length;
}

static uint32_t hear(size_t length) {
    gozdrit_outcome outcome = GOZDRIT_OUTCOME_INIT;
    EXPECT(!gozdrit_feedback(&sender, nack, length, &outcome) && outcome.kind == GOZDRIT_FEEDBACK);
    return outcome.queued;
}

/* Writes the next retransmission, and answers its length: 0 where there is none. */
static size_t retransmit(void) {
    gozdrit_sent sent = GOZDRIT_SENT_INIT;
    EXPECT(!gozdrit_retransmit(&sender, &sent, datagram, ROOM));
    return sent.length;
}

/* A window that is full, of which every `each`th of the first `last` places is missing. */
static void fill_window(uint16_t each, uint16_t last) {
    make_receiver();
    for (number = 0; number < STORE; number++) {
        if (number >= last || number % each != each / 2) EXPECT(take_number(number).kind == GOZDRIT_MEDIA);
    }
}

/* ---- what is counted */

static void send_one(void) { send_next(); }

static void begin_sending(void) {
    make_sender(STORE);
    for (int i = 0; i < 2 * STORE; i++) send_next();
}

static void receive_one(void) {
    now++;
    EXPECT(take_number(number++).kind == GOZDRIT_MEDIA);
}

static void receive_and_play_one(void) {
    receive_one();
    EXPECT(play() == GOZDRIT_PACKET);
}

static void begin_playing(void) {
    make_receiver();
    for (int i = 0; i < 2 * STORE; i++) receive_and_play_one();
}

static void begin_receiving(void) { fill_window(1, 0); }

static void receive_late(void) { EXPECT(take_number((uint16_t)(number - 7)).refusal == GOZDRIT_DUPLICATE); }

static void ask_in_vain(void) {
    now++;
    EXPECT(ask() == 0);
}

static void ask_for_hundred(void) {
    now += 20;
    EXPECT(ask() == 12 + 4 * 50);
}

static void begin_missing(void) { fill_window(10, 1000); }

static void read_next(void) {
    gozdrit_timeout timeout;
    EXPECT(!gozdrit_next_timeout(&receiver, &timeout) && !timeout.known);
}

/* Writes a NACK of full pairs, one behind the other. */
static void write_pairs(uint8_t *to, uint16_t first, uint16_t pairs) {
    const uint16_t words = (uint16_t)(2 + pairs);
    const uint8_t head[HEAD] = {0x81, 205, (uint8_t)(words >> 8), (uint8_t)words, 0x33, 0x33, 0x33, 0x33, 0x11, 0x11, 0x11, 0x11};
    memcpy(to, head, sizeof head);
    for (uint16_t i = 0; i < pairs; i++, first = (uint16_t)(first + 17)) {
        const uint8_t pair[4] = {(uint8_t)(first >> 8), (uint8_t)first, 0xff, 0xff};
        memcpy(to + HEAD + 4 * i, pair, sizeof pair);
    }
}

/* A NACK of 64 full pairs, and the 1088 retransmissions that it brings. The packets that they retransmit are of `begin_pairs`. */
static void read_pairs(void) {
    write_pairs(nack, (uint16_t)(number - GOZDRIT_MAX_NACKED), FULL);
    EXPECT(hear(HEAD + 4 * FULL) == GOZDRIT_MAX_NACKED);
    for (int i = 0; i < GOZDRIT_MAX_NACKED; i++) EXPECT(retransmit() == 14 + OCTETS);
    EXPECT(retransmit() == 0);
}

static void begin_pairs(void) {
    make_sender(2 * STORE);
    for (int i = 0; i < 3 * STORE; i++) send_next();
    read_pairs();
}

/* A NACK of as many full pairs as a datagram holds, of which the history has nothing: who knows the SSRCs can send as many as he likes. */
static void hear_in_vain(void) {
    gozdrit_outcome outcome = GOZDRIT_OUTCOME_INIT;
    EXPECT(!gozdrit_feedback(&sender, vain, sizeof vain, &outcome) && outcome.nacked == 17 * MOST);
    EXPECT(outcome.not_in_history == 17 * MOST && outcome.queued == 0);
}

/* It is told the time, so that it looks for the answer's as well. */
static void begin_in_vain(void) {
    begin_sending();
    EXPECT(!gozdrit_sender_set_time(&sender, now));
    write_pairs(vain, number, MOST);
}

/* ---- a session: a packet a millisecond, and NACKs each twenty; what is lost is asked for again */

static bool loses;

static bool is_lost(void) {
    static uint64_t drawing = 1;
    if (!loses) return false;
    drawing = drawing * 6364136223846793005u + 1442695040888963407u;
    return (drawing >> 33) % 10 == 0;
}

static void repair(void) {
    size_t length;
    while ((length = ask()) != 0) hear(length);
    while ((length = retransmit()) != 0) {
        if (!is_lost()) take(length);
    }
}

static void session_turn(void) {
    const size_t length = send_next();
    now++;
    if (!is_lost()) EXPECT(take(length).kind == GOZDRIT_MEDIA);
    while (play() != GOZDRIT_WAIT) {}
    if (now % 20 == 0) {
        repair();
        while (play() != GOZDRIT_WAIT) {}
    }
}

static void begin_session(void) {
    make_sender(STORE);
    make_receiver();
    EXPECT(take(send_next()).kind == GOZDRIT_MEDIA);
    for (int i = 0; i < 2 * STORE; i++) session_turn();
}

static void begin_lossy_session(void) {
    loses = true;
    begin_session();
}

static const struct {
    const char *name;
    void (*begin)(void), (*turn)(void);
    int times;
} WORKS[] = {
    {"send", begin_sending, send_one, TIMES},
    {"receive", begin_receiving, receive_one, TIMES},
    {"receive and play", begin_playing, receive_and_play_one, TIMES},
    {"late", begin_receiving, receive_late, TIMES},
    {"session", begin_session, session_turn, 10 * TIMES},
    {"session, one in ten lost", begin_lossy_session, session_turn, 10 * TIMES},
    {"NACK, nothing missing", begin_receiving, ask_in_vain, TIMES},
    {"NACK of 100", begin_missing, ask_for_hundred, TIMES / 20},
    {"64 full pairs and their retransmissions", begin_pairs, read_pairs, 5},
    {"NACK of 396 pairs that are not kept", begin_in_vain, hear_in_vain, TIMES / 20},
    {"next moment, nothing missing", begin_playing, read_next, TIMES},
};

/* It is no static function, so that its name stays, by which callgrind finds it. */
void counted(void (*turn)(void), int times);
__attribute__((noinline)) void counted(void (*turn)(void), int times) {
    for (int i = 0; i < times; i++) turn();
}

/* With no name the names of all. */
int main(int count, char **words) {
    for (size_t i = 0; i < sizeof WORKS / sizeof *WORKS; i++) {
        if (count < 2) {
            printf("%s\n", WORKS[i].name);
        } else if (!strcmp(words[1], WORKS[i].name)) {
            WORKS[i].begin();
            counted(WORKS[i].turn, WORKS[i].times);
            printf("%d\n", WORKS[i].times);
            return 0;
        }
    }
    return count < 2 ? 0 : 2;
}
