/* What may be asked of a receiver, which stays as it is: each query is made twice. */
#include "receiver.h"

/* A query that was made: its struct is told where it answers 0, and the receiver is as it was, since it is lent to be read. */
static bool ends_query(const struct receiver *it, int32_t answer, size_t size) {
    end_call(unless_no_end(it, GOZDRIT_OK), answer);
    check_receiver(it, answer);
    check_kept(AREA_TOLD, answer == GOZDRIT_OK ? size : 0);
    return answer == GOZDRIT_OK;
}

/* The same of one whose struct says its size. */
static bool ends_sized_query(const struct receiver *it, int32_t answer, size_t size) {
    bool is_told = ends_query(it, answer, size);
    check_told(answer, size);
    return is_told;
}

static void ask_missing(struct receiver *it) {
    size_t *count;
    begin_call(CALL_missing);
    count = lend_out(AREA_TOLD, sizeof *count);
    if (!ends_query(it, gozdrit_missing(lend_receiver(it, false), pointer(count)), sizeof *count)) return;
    same(count_missing(&it->window), *count, "count");
}

static void ask_ssrc(struct receiver *it) {
    gozdrit_ssrc *ssrc, before;
    bool is_known = !it->config.learn_rtx_ssrc || it->has_learnt;
    begin_call(CALL_rtx_ssrc);
    ssrc = lend_out(AREA_TOLD, sizeof *ssrc);
    before = *ssrc;
    if (!ends_query(it, gozdrit_rtx_ssrc(lend_receiver(it, false), pointer(ssrc)), sizeof *ssrc)) return;
    same(is_known, ssrc->known, "ssrc->known");
    if (!is_known) same(before.ssrc, ssrc->ssrc, "ssrc->ssrc is as it was");
    else same(it->config.learn_rtx_ssrc ? it->learnt : it->config.session.rtx_ssrc, ssrc->ssrc, "ssrc->ssrc");
}

static void check_sequence(bool is_known, uint64_t expected, uint64_t before) {
    const gozdrit_sequence *sequence = lies(AREA_TOLD);
    same(is_known, sequence->known, "sequence->known");
    same(is_known ? expected : before, sequence->sequence, "sequence->sequence");
}

static void ask_next(struct receiver *it) {
    gozdrit_sequence *sequence, before;
    begin_call(CALL_next_sequence);
    sequence = lend_out(AREA_TOLD, sizeof *sequence);
    before = *sequence;
    if (!ends_query(it, gozdrit_next_sequence(lend_receiver(it, false), pointer(sequence)), sizeof *sequence)) return;
    check_sequence(it->window.has_started, it->window.next, before.sequence);
}

static void ask_highest(struct receiver *it) {
    gozdrit_sequence *sequence, before;
    begin_call(CALL_highest_sequence);
    sequence = lend_out(AREA_TOLD, sizeof *sequence);
    before = *sequence;
    if (!ends_query(it, gozdrit_highest_sequence(lend_receiver(it, false), pointer(sequence)), sizeof *sequence)) return;
    check_sequence(it->window.has_started, it->window.highest, before.sequence);
}

static void ask_counts(struct receiver *it) {
    gozdrit_receive_counts *counts;
    begin_call(CALL_receiver_counts);
    counts = lend_grown(offsetof(gozdrit_receive_counts, skipped), sizeof *counts);
    if (!ends_sized_query(it, gozdrit_receiver_counts(lend_receiver(it, false), pointer(counts)), sizeof *counts)) return;
    same(it->counts.media, counts->media, "counts->media");
    same(it->counts.retransmissions, counts->retransmissions, "counts->retransmissions");
    same(it->counts.held_back, counts->held_back, "counts->held_back");
    same(it->counts.restarts, counts->restarts, "counts->restarts");
    same(it->counts.rtcp, counts->rtcp, "counts->rtcp");
    same(it->counts.duplicate, counts->duplicate, "counts->duplicate");
    same(it->counts.late, counts->late, "counts->late");
    same(it->counts.too_far, counts->too_far, "counts->too_far");
    same(it->counts.refused, counts->refused, "counts->refused");
    same(it->counts.overrun, counts->overrun, "counts->overrun");
    same(it->counts.abandoned, counts->abandoned, "counts->abandoned");
    same(it->counts.played, counts->played, "counts->played");
    same(it->counts.gaps, counts->gaps, "counts->gaps");
    same(it->counts.nacks, counts->nacks, "counts->nacks");
    same(it->counts.nacked, counts->nacked, "counts->nacked");
    same(it->counts.skipped, counts->skipped, "counts->skipped");
}

/* Each late, double or refused datagram is of one kind; what is kept apart leaves the rest no larger. */
static void ask_probe_counts(struct receiver *it) {
    const gozdrit_receive_counts *all = &it->counts;
    gozdrit_probe_counts *counts;
    int32_t answer;
    begin_call(CALL_receiver_probe_counts);
    counts = lend_told(sizeof *counts);
    answer = gozdrit_receiver_probe_counts(lend_receiver(it, false), pointer(counts));
    if (!ends_sized_query(it, answer, sizeof *counts)) return;
    same(all->duplicate + all->late + all->refused,
         counts->padding + counts->unrequested + counts->duplicate + counts->late + counts->refused, "the sum of the kinds");
    holds(counts->duplicate <= all->duplicate && counts->late <= all->late && counts->refused <= all->refused,
          "no kind of more than was counted");
}

/* Whether a play or a NACK does something at a moment. */
static bool acts(struct receiver *it, uint64_t now) {
    if (play(it, now, GOZDRIT_MAX_PAYLOAD, true) != GOZDRIT_WAIT) return true;
    return nack(it, now, GOZDRIT_MAX_NACKED, GOZDRIT_MAX_NACK_DATAGRAM, true) > 0;
}

/* What a timeout promises, by the calls themselves: until then neither does anything, and from then on one of them does. */
static void check_promise(struct receiver *it, bool is_known, uint64_t moment) {
    uint64_t now = one_in(2) && is_known && moment > 0 ? moment - 1 : draw_now();
    bool has_come = is_known && moment <= now;
    same(has_come, acts(it, now), "a play or a NACK does something once the moment has come");
    if (is_known && !has_come) same(true, acts(it, moment), "a play or a NACK does something at the moment");
}

static void ask_timeout(struct receiver *it) {
    gozdrit_timeout *timeout, before;
    uint64_t expected;
    bool is_known = expect_timeout(it, &expected);
    begin_call(CALL_next_timeout);
    timeout = lend_out(AREA_TOLD, sizeof *timeout);
    before = *timeout;
    if (!ends_query(it, gozdrit_next_timeout(lend_receiver(it, false), pointer(timeout)), sizeof *timeout)) return;
    same(is_known, timeout->known, "timeout->known");
    same(is_known ? expected : before.time, timeout->time, "timeout->time");
    if (one_in(8)) check_promise(it, timeout->known, timeout->time);
}

/* It is not adaptive, and so measures no round trip. */
static void ask_times(struct receiver *it) {
    const gozdrit_times *before;
    gozdrit_times *times;
    begin_call(CALL_receiver_times);
    times = lend_told(sizeof *times);
    if (!ends_sized_query(it, gozdrit_receiver_times(lend_receiver(it, false), pointer(times)), sizeof *times)) return;
    before = lay(AREA_TOLD);
    same(it->config.reorder_delay, times->reorder_delay, "times->reorder_delay");
    same(it->config.nack_interval, times->nack_interval, "times->nack_interval");
    holds(times->known == 0 && times->round_trip == before->round_trip && times->variation == before->variation,
          "no round trip is told");
}

void call_query(struct receiver *it) {
    static void (*const queries[])(struct receiver *) = {ask_missing, ask_ssrc,         ask_next,  ask_highest,
                                                         ask_counts,  ask_probe_counts, ask_times, ask_timeout};
    void (*query)(struct receiver *) = queries[below(sizeof queries / sizeof *queries)];
    query(it);
    query(it);
}
