/* Receives a file that `send` sends, over UDP, and asks for what was lost.
 *
 *   receive FILE PORT [--loss N] [--seed N] [--seconds N]
 *
 * The packets are described at the top of send.c. Feedback goes to where the first packet came from. The options are
 * those of `send`: here it is feedback that is lost. At the end one line of counts is printed: the library's, and how many octets
 * were written.
 *
 * The status is 0 where the whole file was received and written, 2 for a wrong command line, and else 1. */
#define _POSIX_C_SOURCE 200809L
#include "udp.h"

#include <inttypes.h>

enum {
    BURST = 64,     /* datagrams taken at once at most */
    SLEEP = 100,    /* milliseconds that are slept at most where nothing is to be done */
    GOODBYES = 40,  /* how often BYE is said, since some of them may be lost */
    LATENCY = 5000  /* milliseconds that a missing packet is waited for: long, since a busy machine may halt `send` */
};

typedef struct receiving {
    gozdrit_receiver end;
    FILE *file;
    int at;
    options chosen;
    bool heard; /* a packet was taken, and the socket sends to where it came from */
    bool ended; /* the packet that ends the file was played, or the file can't be written */
    bool whole; /* nothing of the file is missing so far */
    uint64_t octets;
} receiving;

/* Takes what came. What is not taken is counted by the library: late and double packets are part of a session. */
static void take_packets(receiving *r, uint64_t now) {
    static uint8_t octets[65536];
    for (int i = 0; i < BURST; i++) {
        struct sockaddr_storage from;
        socklen_t size = sizeof from;
        gozdrit_received received = GOZDRIT_RECEIVED_INIT;
        ssize_t length = recvfrom(r->at, octets, sizeof octets, MSG_DONTWAIT, (struct sockaddr *)&from, &size);
        if (length < 0 || gozdrit_receive(&r->end, octets, (size_t)length, now, &received) != GOZDRIT_OK) return;
        if (received.overrun > 0) fprintf(stderr, "overrun: %" PRIu64 " packets\n", received.overrun);
        bool taken = received.kind == GOZDRIT_MEDIA || received.kind == GOZDRIT_RETRANSMISSION;
        if (taken && !r->heard) r->heard = connect(r->at, (struct sockaddr *)&from, size) == 0;
    }
}

/* Writes what a packet carries. Its timestamp shows whether anything before it was lost. */
static void write_packet(receiving *r, const gozdrit_played *played, const uint8_t *payload) {
    if (played->header.timestamp != (uint32_t)r->octets) r->whole = false;
    if (fwrite(payload, 1, played->length, r->file) != played->length) {
        perror("receive");
        r->whole = false;
    }
    r->octets += played->length;
    r->ended = (played->header.marker && played->length == 0) || ferror(r->file);
}

/* Plays what can be played. */
static int32_t play(receiving *r, uint64_t now) {
    while (!r->ended) {
        gozdrit_played played = GOZDRIT_PLAYED_INIT;
        uint8_t payload[GOZDRIT_MAX_PAYLOAD];
        int32_t number = gozdrit_play(&r->end, now, &played, payload, sizeof payload);
        if (number != GOZDRIT_OK || played.kind == GOZDRIT_WAIT) return number;
        if (played.kind == GOZDRIT_PACKET) write_packet(r, &played, payload);
        else if (played.kind == GOZDRIT_GAP) fprintf(stderr, "gap: %" PRIu64 "\n", played.sequence);
    }
    return GOZDRIT_OK;
}

/* Sends the NACKs that are due. */
static int32_t send_nacks(receiving *r, uint64_t now) {
    for (;;) {
        uint8_t out[GOZDRIT_MAX_NACK_DATAGRAM];
        size_t length;
        int32_t number = gozdrit_nack(&r->end, now, GOZDRIT_MAX_NACKED, &length, out, sizeof out);
        if (number != GOZDRIT_OK || length == 0) return number;
        lossy_send(r->at, &r->chosen, out, length);
    }
}

/* How many milliseconds nothing is to be done, if nothing comes. */
static int sleep_from(const receiving *r, uint64_t now) {
    gozdrit_timeout next;
    if (gozdrit_next_timeout(&r->end, &next) != GOZDRIT_OK || !next.known || next.time > now + SLEEP) return SLEEP;
    return next.time <= now ? 0 : (int)(next.time - now);
}

/* Receives until the file has ended, the time is over, or something fails. */
static void receive_file(receiving *r) {
    uint64_t start = milliseconds(), now = start;
    while (!r->ended && now - start < r->chosen.seconds * 1000) {
        wait_for_datagram(r->at, sleep_from(r, now));
        now = milliseconds();
        take_packets(r, now);
        int32_t number = play(r, now);
        if (number == GOZDRIT_OK) number = send_nacks(r, now);
        if (number != GOZDRIT_OK) {
            tell_refusal("receive", number);
            return;
        }
    }
    if (!r->ended) fprintf(stderr, "receive: the file has not ended in time\n");
    r->whole = r->whole && r->ended;
}

/* Says BYE, each time as a datagram of its own. */
static void say_goodbye(receiving *r) {
    for (int i = 0; r->heard && i < GOODBYES; i++) {
        const struct timespec pause = {0, 10 * 1000 * 1000};
        lossy_send(r->at, &r->chosen, r->whole ? BYE_WHOLE : BYE_BROKEN, BYE_LENGTH);
        nanosleep(&pause, NULL);
    }
}

/* Makes the receiver, and begins at the first packet's number, so that what is lost of the first packets is missed. */
static int32_t make_receiver(receiving *r) {
    gozdrit_receiver_config config;
    gozdrit_receiver_defaults(&config, sizeof config);
    config.session = SESSION;
    config.latency = LATENCY;
    config.reorder_delay = 0; /* this network reorders nothing */
    config.nack_interval = 20;
    config.max_nacks = 255;
    config.window = 4096;
    int32_t number = gozdrit_receiver_new(&config, &r->end);
    return number == GOZDRIT_OK ? gozdrit_begin(&r->end, FIRST) : number;
}

/* Receives the file, tells the counts, and gives the memory back. */
static void run(receiving *r) {
    gozdrit_receive_counts counts = GOZDRIT_RECEIVE_COUNTS_INIT;
    int32_t number = make_receiver(r);
    if (number != GOZDRIT_OK) {
        tell_refusal("gozdrit_receiver_new", number);
        return;
    }
    r->whole = true;
    receive_file(r);
    gozdrit_receiver_counts(&r->end, &counts);
    gozdrit_receiver_free(&r->end);
    if (fflush(r->file) != 0) r->whole = false;
    say_goodbye(r);
    printf("receive: packets %" PRIu64 " retransmissions %" PRIu64, counts.media, counts.retransmissions);
    printf(" duplicate %" PRIu64 " late %" PRIu64 " nacks %" PRIu64, counts.duplicate, counts.late, counts.nacks);
    printf(" played %" PRIu64 " gaps %" PRIu64 " octets %" PRIu64 "\n", counts.played, counts.gaps, r->octets);
}

int main(int count, char **words) {
    receiving r = {0};
    if (count < 3 || !options_of(words + 3, &r.chosen)) {
        fprintf(stderr, "usage: receive FILE PORT [--loss N] [--seed N] [--seconds N]\n");
        return 2;
    }
    r.at = open_socket(NULL, words[2]);
    if (r.at < 0) {
        fprintf(stderr, "receive: no socket at port %s\n", words[2]);
        return 1;
    }
    r.file = fopen(words[1], "wb");
    if (r.file) {
        run(&r);
        fclose(r.file);
    } else {
        perror(words[1]);
    }
    close(r.at);
    return r.whole ? 0 : 1;
}
