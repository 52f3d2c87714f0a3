#include "claims.h"

#include <string.h>

/* For how long a claim waits for its next packet in sequence before any other one of its claimant may begin it anew. */
#define STALE G_GUINT64_CONSTANT(1000)

/* How old its last packet in sequence may be for the next one to go on with it. */
#define OLD G_GUINT64_CONSTANT(2000)

/* By how much less a number may lie ahead of the one before that goes on with it. */
enum { REACH = 3000 };

/* What a stranger sent. */
typedef struct claim {
    guint64 since;   /* the moment of its first packet, */
    guint64 last;    /* and of its last one in sequence, */
    guint16 number;  /* whose number this is */
    guint64 packets; /* how many went on one with another */
    guint64 held;    /* how many packets the sessions had taken when it began */
} claim;

/* A claim in its table. */
typedef struct entry {
    GList link; /* its data is the entry */
    claimant by;
    claim is;
} entry;

static guint64 span_of(guint64 from, guint64 to) { return to > from ? to - from : 0; }

/* ---- the table */

gboolean sender_address_is(const sender_address *one, const sender_address *other) {
    return one->is_known == other->is_known && one->port == other->port && memcmp(one->octets, other->octets, sizeof one->octets) == 0;
}

static guint64 mixed(guint64 hash, guint32 word) {
    hash = (hash ^ word) * G_GUINT64_CONSTANT(0x9e3779b97f4a7c15);
    return hash ^ hash >> 32;
}

/* The seed is drawn, so that nobody picks addresses and SSRCs that are hashed alike. */
static guint hash_of(gconstpointer key) {
    static gsize seed;
    const claimant *by = key;
    if (g_once_init_enter(&seed)) g_once_init_leave(&seed, g_random_int() | 1);
    guint64 hash = mixed(mixed(seed, by->ssrc), by->from.port);
    for (gsize at = 0; at < sizeof by->from.octets; at += 4) {
        guint32 word;
        memcpy(&word, by->from.octets + at, sizeof word);
        hash = mixed(hash, word);
    }
    return (guint)hash;
}

static gboolean is_same(gconstpointer one, gconstpointer other) {
    const claimant *a = one, *b = other;
    return a->ssrc == b->ssrc && sender_address_is(&a->from, &b->from);
}

static entry *find(const claims *self, const claimant *by) { return self->all ? g_hash_table_lookup(self->all, by) : NULL; }

static GQueue *table_of(claims *self, const claim *is) { return is->packets > 1 ? &self->runs : &self->singles; }

static entry *add(claims *self, const claimant *by) {
    entry *added = g_new0(entry, 1);
    if (!self->all) self->all = g_hash_table_new_full(hash_of, is_same, NULL, g_free);
    added->link.data = added;
    added->by = *by;
    g_hash_table_insert(self->all, &added->by, added);
    return added;
}

/* Drops the claim that has been without a packet in sequence for longest, where a table has more than it may. */
static void bound(claims *self, GQueue *table, guint most) {
    if (table->length <= most) return;
    GList *last = g_queue_pop_tail_link(table);
    g_hash_table_remove(self->all, &((entry *)last->data)->by);
}

/* Keeps what somebody claims now, in the place of what it claimed before. */
static void keep(claims *self, entry *before, const claimant *by, const claim *is) {
    entry *kept = before ? before : add(self, by);
    if (before) g_queue_unlink(table_of(self, &before->is), &before->link);
    kept->is = *is;
    g_queue_push_head_link(table_of(self, is), &kept->link);
    bound(self, &self->singles, CLAIM_SINGLES);
    bound(self, &self->runs, CLAIM_RUNS);
}

guint claims_count(const claims *self) { return self->all ? g_hash_table_size(self->all) : 0; }

void claims_forget(claims *self) {
    g_clear_pointer(&self->all, g_hash_table_destroy);
    g_queue_init(&self->singles);
    g_queue_init(&self->runs);
}

/* ---- the rule */

gboolean claims_is_next(guint16 before, guint16 number) {
    guint16 ahead = (guint16)(number - before);
    return 0 < ahead && ahead < REACH;
}

static claim begun(const claims *self, guint16 number, guint64 now) {
    return (claim){.since = now, .last = now, .number = number, .packets = 1, .held = self->held};
}

static gboolean goes_on(const claim *is, guint16 number, guint64 now) {
    return claims_is_next(is->number, number) && span_of(is->last, now) <= OLD;
}

/* A claim with a packet that goes on with it. Where the session took a stream beside it, it begins anew. */
static claim with_one_more(const claims *self, const claim *is, guint16 number, guint64 now) {
    claim more = *is;
    if (self->held - is->held >= CLAIM_STREAM) return begun(self, number, now);
    more.last = now;
    more.number = number;
    more.packets++;
    return more;
}

/* Whether a session that took so many packets in so long took less than 1.8 a second, and less by two: those may be late. */
static gboolean is_weak(guint64 taken, guint64 span) { return 9 * span > 5000 * (taken + 2); }

static gboolean falls_to(const claims *self, const claim *is, guint64 now) {
    gboolean never_had_one = self->held - self->start < CLAIM_STREAM;
    return is->packets >= CLAIM_STREAM && (never_had_one || is_weak(self->held - is->held, span_of(is->since, now)));
}

gboolean claims_hear(claims *self, const claimant *by, guint16 number, guint64 now) {
    entry *before = find(self, by);
    claim is = begun(self, number, now);
    if (before && goes_on(&before->is, number, now)) is = with_one_more(self, &before->is, number, now);
    else if (before && span_of(before->is.last, now) < STALE) return FALSE;
    if (falls_to(self, &is, now)) {
        claims_forget(self); /* what others counted beside this session would take the next one */
        claims_begin(self);
        return TRUE;
    }
    keep(self, before, by, &is);
    return FALSE;
}

void claims_begin(claims *self) { self->start = self->held; }

void claims_take(claims *self) { self->held++; }
