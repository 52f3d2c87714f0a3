/* The model of a sender whose rule follows the path (docs/PROTOCOL.md, "The sender's history", 7): in sums that stop at 2^64 - 1. */
#include "sender.h"

enum { PARTS = 4096, PAUSE = 100, LONGEST_PACKET = 5 * PARTS, SPAN = 10000, MINUTE = 60000 };

static uint64_t sum(uint64_t one, uint64_t other) { return one > UINT64_MAX - other ? UINT64_MAX : one + other; }

static uint64_t times(uint64_t one, uint64_t other) {
    return other != 0 && one > UINT64_MAX / other ? UINT64_MAX : one * other;
}

static uint64_t above(uint64_t one, uint64_t other) { return one > other ? one - other : 0; }

void follow(struct sender *it, bool follows) {
    memset(&it->path, 0, sizeof it->path);
    it->path.is_followed = follows;
}

/* A packet was sent: a gap counts for a sixty-fourth of the mean, and for no more than a pause. */
void follow_send(struct sender *it) {
    struct path *path = &it->path;
    if (path->has_sent) {
        uint64_t gap = above(it->now, path->last);
        if (gap > PAUSE) gap = PAUSE;
        path->gap = path->gap == 0 ? gap * PARTS : path->gap - path->gap / 64 + gap * (PARTS / 64);
    }
    path->has_sent = true;
    path->last = it->now;
}

/* One was retransmitted: it is taken behind what is being taken, for as long as a gap is, or five milliseconds. */
void follow_resend(struct sender *it) {
    struct path *path = &it->path;
    uint64_t now = times(it->now, PARTS);
    path->busy = sum(path->busy > now ? path->busy : now, path->gap < LONGEST_PACKET ? path->gap : LONGEST_PACKET);
}

/* What is remembered of the last ten to thirty seconds turns, once ten have passed. */
static void turn(struct path *path, uint64_t now) {
    uint64_t span = above(now, path->since);
    if (span < SPAN) return;
    path->most_before = span < 2 * SPAN ? path->most : 0;
    path->most = 0;
    path->since = now;
}

/* The packet of this number was named last by NACKs of the session, before which it was neither named nor retransmitted. */
void follow_hear(struct sender *it, uint64_t sequence) {
    struct path *path = &it->path;
    uint64_t took, most;
    if (sequence + 1 == it->next) return;
    took = above(it->now, kept_at(it, sequence + 1)->sent_at);
    most = sum(sum(path->answer, path->answer / 8), 1);
    path->answer = path->has_answer && took > most ? most : took;
    path->has_answer = true;
    turn(path, it->now);
    if (path->most < above(MINUTE, took)) path->most = above(MINUTE, took);
}

uint64_t min_resend(const struct sender *it) {
    struct path then = it->path;
    const struct path *path = &it->path;
    uint64_t span, least, queued;
    if (!path->is_followed || !path->has_answer) return it->config.min_resend;
    turn(&then, it->now);
    least = MINUTE - (then.most > then.most_before ? then.most : then.most_before);
    queued = above(path->busy, times(it->now, PARTS)) / PARTS;
    span = path->answer < 2 * queued ? sum(path->answer, queued) : above(path->answer, 2 * least);
    return span > it->config.min_resend ? span : it->config.min_resend;
}
