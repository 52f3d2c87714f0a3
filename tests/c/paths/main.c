/* What the library comes to over lossy paths, by the defaults of the header, in virtual time: the rows of docs/LINKS.md that other software is
 * measured by, each with the most that may be lost and late, and that may be retransmitted in vain. So a rule of asks or of retransmissions that
 * gives away what was gained is seen at once, on any machine, by the same draws.
 *
 *   paths                  every row
 *   paths KEY=VALUE ...    one path, by the names of struct path and struct stream, and seeds=N: what comes of it */
#include "stream.h"

#include <stdio.h>
#include <stdlib.h>
#include <string.h>

enum { SEEDS = 24 };

struct row {
    const char *name;
    struct path path;
    struct stream stream;
    double most;    /* lost and late, in per cent */
    double in_vain; /* of a hundred packets, those that are retransmitted in vain */
};

static const struct row ROWS[] = {
    {"10 % lost", {.loss = .1, .delay = 25}, {2000, 40, 200, 0}, .05, .2},
    {"20 %", {.loss = .2, .delay = 25}, {2000, 40, 200, 0}, .26, .2},
    {"30 %", {.loss = .3, .delay = 25}, {2000, 40, 200, 0}, 1.5, .3},
    {"40 %", {.loss = .4, .delay = 25}, {2000, 40, 200, 0}, 5.15, .3},
    {"50 %", {.loss = .5, .delay = 25}, {2000, 40, 200, 0}, 16, .4},
    {"50 %, latency 500", {.loss = .5, .delay = 25}, {2000, 40, 500, 0}, 7.8, .4},
    {"10 %, round trip 20, latency 120", {.loss = .1, .delay = 10}, {2000, 40, 120, 0}, .03, .2},
    {"10 %, round trip 150, latency 600", {.loss = .1, .delay = 75}, {2000, 40, 600, 0}, .06, .3},
    {"5 %, up to 10 ms of jitter", {.loss = .05, .delay = 18, .jitter = 10}, {2000, 40, 200, 0}, .03, 1},
    {"20 %, up to 15 ms", {.loss = .2, .delay = 18, .jitter = 15}, {2000, 40, 200, 0}, .4, 3},
    {"10 %, up to 40 ms", {.loss = .1, .delay = 18, .jitter = 40}, {2000, 40, 200, 0}, .25, 30},
    {"1 %, up to 40 ms", {.loss = .01, .delay = 18, .jitter = 40}, {2000, 40, 200, 0}, .05, 2},
    {"nothing lost, up to 60 ms, 20 Mbit/s", {.delay = 18, .jitter = 60}, {20000, 10, 200, 0}, .1, 2},
    {"nothing lost, up to 60 ms, 8 Mbit/s", {.delay = 18, .jitter = 60}, {8000, 20, 200, 0}, .1, 2},
    {"5 %, up to 60 ms", {.loss = .05, .delay = 18, .jitter = 60}, {2000, 40, 200, 0}, .3, 20},
    {"2 %, up to 100 ms", {.loss = .02, .delay = 18, .jitter = 100}, {2000, 40, 200, 0}, .7, 60},
    {"5 %, up to 150 ms", {.loss = .05, .delay = 18, .jitter = 150}, {2000, 40, 200, 0}, 3.2, 90},
    {"a link of 1.1, .3 s out, latency 1000", {.delay = 25, .kilobits = 2200, .queue = 150, .out = 10000, .out_for = 300}, {2000, 40, 1000, 0}, .3, 1},
    {"a link of 1.1, .5 s out, latency 500", {.delay = 25, .kilobits = 2200, .queue = 150, .out = 10000, .out_for = 500}, {2000, 40, 500, 0}, .95, .5},
    {"a link of 1.1, 1 s out, latency 1000", {.delay = 25, .kilobits = 2200, .queue = 150, .out = 10000, .out_for = 1000}, {2000, 40, 1000, 0}, 2.3, .5},
    {"a link of 1.1, a queue of 400, .5 s out, latency 1000", {.delay = 25, .kilobits = 2200, .queue = 400, .out = 10000, .out_for = 500}, {2000, 40, 1000, 0}, .2, 1},
    {"a link of 1.3, 5 % in bursts of 20, latency 500", {.loss = .05, .burst = 20, .delay = 25, .kilobits = 2600, .queue = 150}, {2000, 40, 500, 0}, .75, 3},
    {"a link of 1.1, the same", {.loss = .05, .burst = 20, .delay = 25, .kilobits = 2200, .queue = 150}, {2000, 40, 500, 0}, 1.4, 4},
    {"a link of 2, a quarter of that for half a second of each two", {.delay = 25, .kilobits = 4000, .queue = 150, .slow = .25}, {2000, 40, 200, 0}, 17.5, 1.5},
    {"the same, latency 500", {.delay = 25, .kilobits = 4000, .queue = 150, .slow = .25}, {2000, 40, 500, 0}, .5, 1},
    {"the same, latency 1000", {.delay = 25, .kilobits = 4000, .queue = 150, .slow = .25}, {2000, 40, 1000, 0}, .02, 1},
    {"a link of 1.3, half of that as often", {.delay = 25, .kilobits = 2600, .queue = 150, .slow = .5}, {2000, 40, 200, 0}, 19, 1.5},
};

/* The means of so many seeds. */
static struct outcome mean(const struct stream *stream, const struct path *path, unsigned seeds) {
    struct outcome all = {0, 0, 0, 0};
    for (unsigned seed = 1; seed <= seeds; seed++) {
        const struct outcome one = run_stream(stream, path, seed);
        all.lost += one.lost / seeds;
        all.late += one.late / seeds;
        all.retransmitted += one.retransmitted / seeds;
        all.in_vain += one.retransmitted * one.in_vain / seeds;
    }
    return all;
}

static void print(const char *name, const struct outcome *came) {
    printf("%s: lost %.3f, late %.3f; of a hundred packets %.2f retransmitted, %.2f in vain\n", name, 100 * came->lost, 100 * came->late,
           100 * came->retransmitted, 100 * came->in_vain);
}

/* Whether a row is kept, where NACKs are earned by what comes or not: none is held back but where half of all is lost. */
static int is_kept(const struct row *row, uint8_t earned) {
    struct stream stream = row->stream;
    stream.earned = earned;
    const struct outcome came = mean(&stream, &row->path, SEEDS);
    const int is_so = 100 * (came.lost + came.late) <= row->most && 100 * came.in_vain <= row->in_vain;
    if (!earned) print(row->name, &came);
    if (is_so) return 1;
    if (earned) print("where NACKs are earned", &came);
    printf("FAILED: %s: at most %.2f lost and late, and %.2f in vain\n", row->name, row->most, row->in_vain);
    return 0;
}

static int run_rows(void) {
    int failed = 0;
    for (size_t i = 0; i < sizeof ROWS / sizeof *ROWS; i++)
        for (uint8_t earned = 0; earned <= 1; earned++) failed += !is_kept(&ROWS[i], earned);
    return failed > 0;
}

static int run_one(int words, char **word) {
    struct path path = {.delay = 25, .queue = 150};
    struct stream stream = {2000, 40, 200, 0};
    double latency = 200, seeds = SEEDS, earned = 0;
    const struct {
        const char *name;
        double *value;
    } KEYS[] = {{"loss", &path.loss},         {"burst", &path.burst},   {"delay", &path.delay},           {"jitter", &path.jitter},
                {"kilobits", &path.kilobits}, {"queue", &path.queue},   {"out", &path.out},               {"out_for", &path.out_for},
                {"slow", &path.slow},         {"rate", &stream.kilobits}, {"seconds", &stream.seconds}, {"latency", &latency},
                {"seeds", &seeds},            {"earned", &earned}};
    struct outcome came;
    for (int i = 0; i < words; i++) {
        const size_t length = strcspn(word[i], "=");
        size_t key = 0;
        while (key < sizeof KEYS / sizeof *KEYS && (strlen(KEYS[key].name) != length || strncmp(KEYS[key].name, word[i], length) != 0)) key++;
        if (key == sizeof KEYS / sizeof *KEYS || word[i][length] != '=') {
            fprintf(stderr, "paths: what is %s\n", word[i]);
            return 2;
        }
        *KEYS[key].value = strtod(word[i] + length + 1, NULL);
    }
    stream.latency = (uint64_t)latency;
    stream.earned = earned > 0;
    came = mean(&stream, &path, (unsigned)seeds);
    print("this path", &came);
    return 0;
}

int main(int words, char **word) {
    return words > 1 ? run_one(words - 1, word + 1) : run_rows();
}
