/* Configurations, which begin with their size: those that are too short, and those of a later header, which has fields
 * behind the ones that are known. */
#include "sizes.h"

#include <stdlib.h>

static const ends NONE = {{NULL, 0}, {NULL, 0}};
static const gozdrit_sender_config SENDING = {
    .size = sizeof(gozdrit_sender_config), .session = SESSION, .history = 16, .first_sequence = 100,
    .rtx_first_sequence = 7, .max_retransmissions = 2};
static const gozdrit_receiver_config RECEIVING = {
    .size = sizeof(gozdrit_receiver_config), .session = SESSION, .latency = 200, .nack_interval = 40, .window = 64,
    .max_nacks = 9, .adaptive = GOZDRIT_ADAPTIVE_NACKS};

typedef struct config {
    const char *name;
    size_t size;
    size_t limit; /* where a limit lies that 0 is out of, of 32 bits */
    const void *good;
    int32_t (*defaults)(void *config, size_t size);
    int32_t (*make)(const void *config, ends *e); /* to a null handle where there are no ends */
    int32_t (*drop)(ends *e);
    bool (*is_same)(const void *one, const void *other);
} config;

static int32_t default_sender(void *lent, size_t size) {
    return gozdrit_sender_defaults((gozdrit_sender_config *)lent, size);
}

static int32_t default_receiver(void *lent, size_t size) {
    return gozdrit_receiver_defaults((gozdrit_receiver_config *)lent, size);
}

static int32_t make_sender(const void *lent, ends *e) {
    return gozdrit_sender_new((const gozdrit_sender_config *)lent, e ? &e->sender : NULL);
}

static int32_t make_receiver(const void *lent, ends *e) {
    return gozdrit_receiver_new((const gozdrit_receiver_config *)lent, e ? &e->receiver : NULL);
}

static int32_t drop_sender(ends *e) { return gozdrit_sender_free(&e->sender); }

static int32_t drop_receiver(ends *e) { return gozdrit_receiver_free(&e->receiver); }

static bool is_same_session(const gozdrit_session *a, const gozdrit_session *b) {
    return a->media_ssrc == b->media_ssrc && a->rtx_ssrc == b->rtx_ssrc && a->receiver_ssrc == b->receiver_ssrc
           && a->media_payload_type == b->media_payload_type && a->rtx_payload_type == b->rtx_payload_type
           && a->any_media_payload_type == b->any_media_payload_type;
}

/* Whether all is the same but the size. */
static bool is_same_sending(const void *one, const void *other) {
    const gozdrit_sender_config *a = (const gozdrit_sender_config *)one, *b = (const gozdrit_sender_config *)other;
    return is_same_session(&a->session, &b->session) && a->history == b->history && a->first_sequence == b->first_sequence
           && a->rtx_first_sequence == b->rtx_first_sequence && a->max_retransmissions == b->max_retransmissions
           && a->any_reporter == b->any_reporter && a->min_resend == b->min_resend && a->deadline == b->deadline;
}

static bool is_same_receiving(const void *one, const void *other) {
    const gozdrit_receiver_config *a = (const gozdrit_receiver_config *)one, *b = (const gozdrit_receiver_config *)other;
    return is_same_session(&a->session, &b->session) && a->latency == b->latency && a->nack_interval == b->nack_interval
           && a->window == b->window && a->max_nacks == b->max_nacks && a->learn_rtx_ssrc == b->learn_rtx_ssrc
           && a->max_dropout == b->max_dropout && a->max_misorder == b->max_misorder
           && a->min_sequential_ahead == b->min_sequential_ahead && a->min_sequential_behind == b->min_sequential_behind
           && a->reorder_delay == b->reorder_delay && a->idle_after == b->idle_after && a->adaptive == b->adaptive;
}

static const config CONFIGS[] = {
    {"gozdrit_sender_config", sizeof(gozdrit_sender_config), offsetof(gozdrit_sender_config, history), &SENDING,
     default_sender, make_sender, drop_sender, is_same_sending},
    {"gozdrit_receiver_config", sizeof(gozdrit_receiver_config), offsetof(gozdrit_receiver_config, window), &RECEIVING,
     default_receiver, make_receiver, drop_receiver, is_same_receiving},
};
enum { CONFIG_COUNT = sizeof CONFIGS / sizeof *CONFIGS };

/* A good configuration with so many octets of 0 behind it. */
static uint8_t *config_of(const config *k, size_t behind) {
    uint8_t *made = patterned(k->size + behind);
    memcpy(made, k->good, k->size);
    set_size(made, k->size + behind);
    memset(made + k->size, 0, behind);
    return made;
}

/* Each of both configurations begins with its size, and goes on with its session. */
static void set_session(uint8_t *lent, gozdrit_session session) {
    memcpy(lent + offsetof(gozdrit_sender_config, session), &session, sizeof session);
}

ends ends_of(size_t behind) {
    ends e = NONE;
    for (int i = 0; i < CONFIG_COUNT; i++) {
        uint8_t *lent = config_of(&CONFIGS[i], behind);
        GIVES(&CONFIGS[i], GOZDRIT_OK, CONFIGS[i].make(lent, &e));
        free(lent);
    }
    return e;
}

void drop(ends *e) {
    for (int i = 0; i < CONFIG_COUNT; i++) GIVES(&CONFIGS[i], GOZDRIT_OK, CONFIGS[i].drop(e));
}

/* A configuration in a block of so many octets makes an end, or is refused by this number; a handle in use is refused before
 * that, and a null one before all. The configuration stays as it was, and so do handles that get nothing. */
static void makes(const config *k, int32_t number, const uint8_t *lent, size_t length) {
    uint8_t *before = boxed(lent, length);
    ends e = NONE, used = ends_of(0);
    const ends at = used;
    GIVES(k, GOZDRIT_NULL, k->make(lent, NULL));
    GIVES(k, GOZDRIT_HANDLE_IN_USE, k->make(lent, &used));
    GIVES(k, number, k->make(lent, &e));
    HOLDS(k, is_same_handles(&used, &at) && is_same_handles(&e, &NONE) == (number != GOZDRIT_OK));
    HOLDS(k, memcmp(before, lent, length) == 0);
    if (number == GOZDRIT_OK) GIVES(k, GOZDRIT_OK, k->drop(&e));
    drop(&used);
    free(before);
}

/* Not even the octets are read that the size does not reach. */
static void test_short_config(const config *k) {
    for (int i = 0; i < SHORTS; i++) {
        const size_t size = short_size(k->size, i), length = at_least_size(size);
        uint8_t *whole = config_of(k, 0), *cut = boxed((const uint8_t *)k->good, length);
        set_size(whole, size);
        set_size(cut, size);
        makes(k, GOZDRIT_BAD_SIZE, whole, k->size);
        makes(k, GOZDRIT_BAD_SIZE, cut, length);
        free(whole);
        free(cut);
    }
}

/* What a later header says by any octet behind is not known, unless all are 0. */
static void test_long_config(const config *k) {
    for (int i = 0; i < BEHINDS; i++) {
        const size_t size = k->size + BEHIND[i];
        uint8_t *lent = config_of(k, BEHIND[i]);
        makes(k, GOZDRIT_OK, lent, size);
        for (size_t at = k->size; at < size; at++) {
            lent[at] = (uint8_t)(1u << at % 8);
            makes(k, GOZDRIT_BAD_SIZE, lent, size);
            lent[at] = 0;
        }
        lent[size - 1] = 1, set_size(lent, size - 1); /* what lies behind the size that it says is not looked at */
        makes(k, GOZDRIT_OK, lent, size);
        free(lent);
    }
}

/* What is wrong in the fields comes after what is wrong with the size. */
static void test_config_order(const config *k) {
    static const gozdrit_session bad_type = {1, 2, 3, 95, 97, 0}, same_ssrc = {1, 1, 3, 96, 97, 0};
    for (int32_t number = GOZDRIT_BAD_PAYLOAD_TYPE; number <= GOZDRIT_BAD_LIMIT; number++) {
        const size_t size = k->size + 8;
        uint8_t *lent = config_of(k, 8);
        if (number == GOZDRIT_BAD_PAYLOAD_TYPE) set_session(lent, bad_type);
        else if (number == GOZDRIT_SAME_SSRC) set_session(lent, same_ssrc);
        else memset(lent + k->limit, 0, sizeof(uint32_t));
        makes(k, number, lent, size);
        for (int i = 0; i < SHORTS; i++) {
            set_size(lent, short_size(k->size, i));
            makes(k, GOZDRIT_BAD_SIZE, lent, size);
        }
        set_size(lent, size), lent[size - 1] = 1;
        makes(k, GOZDRIT_BAD_SIZE, lent, size);
        set_size(lent, k->size);
        makes(k, number, lent, size);
        free(lent);
    }
}

/* A size that is too short is refused, and nothing is written to a block of so many octets. */
static void refuses_defaults(const config *k, size_t size, size_t length) {
    uint8_t *lent = patterned(length);
    GIVES(k, GOZDRIT_BAD_SIZE, k->defaults(lent, size));
    HOLDS(k, is_pattern(lent, length));
    free(lent);
}

/* With fields behind those that are known, those are filled as ever, and the others are blank; so they say nothing. */
static void test_defaults(const config *k) {
    static const gozdrit_session session = SESSION;
    uint8_t *plain = patterned(k->size);
    ends e = NONE;
    GIVES(k, GOZDRIT_OK, k->defaults(plain, k->size));
    HOLDS(k, size_of(plain) == k->size);
    for (int i = 0; i < BEHINDS; i++) {
        const size_t size = k->size + BEHIND[i];
        uint8_t *lent = patterned(size);
        GIVES(k, GOZDRIT_OK, k->defaults(lent, size));
        HOLDS(k, size_of(lent) == size && k->is_same(plain, lent) && is_zero(lent + k->size, BEHIND[i]));
        set_session(lent, session);
        GIVES(k, GOZDRIT_OK, k->make(lent, &e));
        GIVES(k, GOZDRIT_OK, k->drop(&e));
        free(lent);
    }
    for (int i = 0; i < SHORTS; i++) {
        refuses_defaults(k, short_size(k->size, i), k->size);
        refuses_defaults(k, short_size(k->size, i), short_size(k->size, i));
        GIVES(k, GOZDRIT_NULL, k->defaults(NULL, short_size(k->size, i)));
    }
    GIVES(k, GOZDRIT_NULL, k->defaults(NULL, k->size));
    free(plain);
}

void test_sized_configs(void) {
    for (int i = 0; i < CONFIG_COUNT; i++) {
        test_defaults(&CONFIGS[i]);
        test_short_config(&CONFIGS[i]);
        test_long_config(&CONFIGS[i]);
        test_config_order(&CONFIGS[i]);
    }
}
