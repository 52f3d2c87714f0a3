/* What a receiver counted. */
#include "recv.h"

void counts_add(const GstGozdritRecv *self, gozdrit_receive_counts *counts, gozdrit_probe_counts *probes) {
    gozdrit_receive_counts more = GOZDRIT_RECEIVE_COUNTS_INIT;
    gozdrit_probe_counts more_probes = GOZDRIT_PROBE_COUNTS_INIT;
    if (gozdrit_receiver_counts(&self->stream->end, &more) == GOZDRIT_OK) add_counts(counts, &more, sizeof more);
    if (gozdrit_receiver_probe_counts(&self->stream->end, &more_probes) == GOZDRIT_OK)
        add_counts(probes, &more_probes, sizeof more_probes);
}

void counts_all(GstGozdritRecv *self, gozdrit_receive_counts *counts, gozdrit_probe_counts *probes) {
    *counts = self->past;
    *probes = self->past_probes;
    for (EACH_STREAM(self, at)) counts_add(self, counts, probes);
    probes->unrequested += self->unclaimed;
}

gozdrit_receive_counts counts_sums(GstGozdritRecv *self) {
    gozdrit_receive_counts counts;
    gozdrit_probe_counts probes;
    counts_all(self, &counts, &probes);
    return counts;
}

/* The counts that rtpjitterbuffer has, as far as it has no other name for them here. */
static void add_jitter_counts(const GstGozdritRecv *self, const gozdrit_receive_counts *counts, const gozdrit_probe_counts *probes,
                              GstStructure *told) {
    gdouble each = counts->retransmissions > 0 ? (gdouble)counts->nacked / (gdouble)counts->retransmissions : 0;
    ADD_COUNT(told, "num-pushed", self->pushed);
    ADD_COUNT(told, "num-lost", self->given_up);
    ADD_COUNT(told, "num-late", probes->late);
    ADD_COUNT(told, "num-duplicates", probes->duplicate);
    ADD_COUNT(told, "avg-jitter", self->stream->times.jitter);
    ADD_COUNT(told, "rtx-count", counts->nacked);
    ADD_COUNT(told, "rtx-success-count", counts->retransmissions);
    gst_structure_set(told, "rtx-per-packet", G_TYPE_DOUBLE, each, NULL);
    ADD_COUNT(told, "rtx-rtt", asking_times(self).round_trip * MILLISECOND);
}

/* The library's counts. */
static void add_counts_of(GstStructure *told, const gozdrit_receive_counts *counts, const gozdrit_probe_counts *probes) {
    ADD_COUNT(told, "media", counts->media);
    ADD_COUNT(told, "retransmissions", counts->retransmissions);
    ADD_COUNT(told, "held-back", counts->held_back);
    ADD_COUNT(told, "restarts", counts->restarts);
    ADD_COUNT(told, "rtcp", counts->rtcp);
    ADD_COUNT(told, "padding", probes->padding);
    ADD_COUNT(told, "unasked", probes->unrequested);
    ADD_COUNT(told, "duplicate", probes->duplicate);
    ADD_COUNT(told, "late", probes->late);
    ADD_COUNT(told, "far", counts->too_far);
    ADD_COUNT(told, "refused", probes->refused);
    ADD_COUNT(told, "overrun", counts->overrun);
    ADD_COUNT(told, "abandoned", counts->abandoned);
    ADD_COUNT(told, "played", counts->played);
    ADD_COUNT(told, "gaps", counts->gaps);
    ADD_COUNT(told, "nacks", counts->nacks);
    ADD_COUNT(told, "nacked", counts->nacked);
}

/* What the stream's session counted, and its SSRCs: that of the retransmissions, where it is known. */
static GstStructure *stream_told(const GstGozdritRecv *self) {
    GstStructure *told = gst_structure_new("application/x-gozdrit-stream-counts", "ssrc", G_TYPE_UINT, self->stream->session.media_ssrc, NULL);
    gozdrit_receive_counts counts = GOZDRIT_RECEIVE_COUNTS_INIT;
    gozdrit_probe_counts probes = GOZDRIT_PROBE_COUNTS_INIT;
    gozdrit_ssrc rtx = {0};
    gozdrit_rtx_ssrc(&self->stream->end, &rtx);
    if (rtx.known) gst_structure_set(told, "rtx-ssrc", G_TYPE_UINT, rtx.ssrc, NULL);
    counts_add(self, &counts, &probes);
    add_counts_of(told, &counts, &probes);
    ADD_COUNT(told, "rtx-round-trip", asking_times(self).round_trip * MILLISECOND);
    return told;
}

static void add_streams(GstGozdritRecv *self, GstStructure *told) {
    GValue all = G_VALUE_INIT, one = G_VALUE_INIT;
    g_value_init(&all, GST_TYPE_ARRAY);
    for (EACH_STREAM(self, at)) {
        if (!self->stream->end.held) continue;
        g_value_init(&one, GST_TYPE_STRUCTURE);
        g_value_take_boxed(&one, stream_told(self));
        gst_value_array_append_and_take_value(&all, &one);
    }
    gst_structure_take_value(told, "streams", &all);
}

GstStructure *counts_told(GstGozdritRecv *self) {
    GstStructure *told = gst_structure_new_empty("application/x-gozdrit-receive-counts");
    gozdrit_receive_counts counts;
    gozdrit_probe_counts probes;
    counts_all(self, &counts, &probes);
    add_counts_of(told, &counts, &probes);
    ADD_COUNT(told, "strays", self->strays);
    ADD_COUNT(told, "claims", claims_count(&self->strangers.claims));
    ADD_COUNT(told, "other-types", self->unwanted);
    ADD_COUNT(told, "passed", self->passed);
    ADD_COUNT(told, "dropped", self->dropped);
    ADD_COUNT(told, "sessions", self->sessions);
    ADD_COUNT(told, "key-requests", self->key_requests);
    add_jitter_counts(self, &counts, &probes, told);
    ADD_COUNT(told, "rtx-round-trip", asking_times(self).round_trip * MILLISECOND);
    add_streams(self, told);
    return told;
}
