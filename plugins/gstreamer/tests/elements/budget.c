/* NACKs that are earned by what comes. */
#include "strangers.h"

enum { OCTETS = 100 }; /* of a payload: with its header it earns 24 */

static gsize nack_size(GstHarness *feedback) {
    GstBuffer *nack = next_buffer(feedback);
    gsize size = nack ? gst_buffer_get_size(nack) : 0;
    gst_clear_buffer(&nack);
    return size;
}

/* Two packets 400 apart, as anybody may send with another one's address, have two NACKs leave of a pair each; and without a budget all that is
 * missing is asked for, again and again. */
static void test_flood(void) {
    for (guint earns = 0; earns <= 1; earns++) {
        receiver r = make_receiver(CAPS);
        gboolean is_usual;
        g_object_set(r.element, "nack-budget", (gboolean)earns, NULL);
        g_object_get(r.element, "nack-budget", &is_usual, NULL);
        CHECK(is_usual == (gboolean)earns);
        SEND(&r, .sequence = 0, .length = OCTETS);
        SEND(&r, .sequence = 400, .length = OCTETS);
        TICKS(&r, 20);
        CHECK(nack_size(r.feedback) == (earns ? 16 : 12 + 4 * 24));
        if (earns) {
            CHECK(nack_size(r.feedback) == 16 && is_silent(r.feedback));
            TICKS(&r, 200); /* what is missing is given up, and nothing else is to be done before */
            CHECK(is_silent(r.feedback));
        } else {
            TICKS(&r, 80);
            CHECK(nack_size(r.feedback) == 12 + 4 * 24);
        }
        CHECK(count_of(r.element, "nacks") == 2);
        drop_receiver(&r);
    }
}

/* What came from its old address earns nothing at a new one. */
static void test_moves(void) {
    scene s = make_scene();
    sender_of own = {.ssrc = MEDIA, .gap = 20, .from = "192.0.2.1"};
    g_object_set(s.r.element, "nack-budget", TRUE, NULL);
    play(&s, 4000, 1, &own); /* 0 to 199: as much is earned as is saved up */
    own.from = "198.51.100.1";
    play(&s, 4081, 1, &own); /* it is heard with 204, of 22 octets, which shows 200 to 203 to be missing */
    CHECK(count_of(s.r.element, "media") == 201);
    TICKS(&s.r, 4100);
    GstBuffer *nack = next_buffer(s.r.feedback);
    CHECK(is_nack(nack, 200, 1) && is_silent(s.r.feedback)); /* 22 octets have room for one pair, of two packets */
    gst_clear_buffer(&nack);
    drop_receiver(&s.r);
}

/* It is so by default. */
static void test_default(void) {
    GstElement *element = gst_element_factory_make("gozdritrecv", NULL);
    gboolean earns = FALSE;
    g_object_get(element, "nack-budget", &earns, NULL);
    CHECK(earns);
    gst_object_unref(element);
}

void test_budget(void) {
    test_default();
    test_flood();
    test_moves();
}
