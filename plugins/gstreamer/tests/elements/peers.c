/* Who is heard where the property `peer` says who may send. */
#include "strangers.h"

enum { PORT = 6004 };

/* Whether one packet of somebody comes through a receiver with this list. */
static gboolean is_heard(const gchar *list, const gchar *from, guint16 port) {
    scene s = make_scene();
    sender_of who = {.ssrc = MEDIA, .gap = 20, .from = from, .port = port};
    g_object_set(s.r.element, "peer", list, NULL);
    play(&s, 1, 1, &who);
    gboolean is = count_of(s.r.element, "sessions") == 1;
    CHECK(is ? all_come(&s, MEDIA, 0, 1) : is_silent(s.r.media));
    CHECK(count_of(s.r.element, "strays") == (is ? 0u : 1u));
    drop_receiver(&s.r);
    return is;
}

/* Addresses, ports and prefixes, of either family. */
static void test_lists(void) {
    static const struct {
        const gchar *list, *from;
        guint16 port;
        gboolean is_heard;
    } rows[] = {
        {NULL, "192.0.2.1", PORT, TRUE}, {NULL, NULL, 0, TRUE},
        {"192.0.2.1", "192.0.2.1", PORT, TRUE}, {"192.0.2.1", "192.0.2.1", 9, TRUE}, {"192.0.2.1", "192.0.2.2", PORT, FALSE},
        {"192.0.2.1", "2001:db8::1", PORT, FALSE}, {"192.0.2.1", NULL, 0, FALSE},
        {"192.0.2.1:6004", "192.0.2.1", PORT, TRUE}, {"192.0.2.1:6004", "192.0.2.1", 6005, FALSE}, {"192.0.2.1:6004", "192.0.2.2", PORT, FALSE},
        {"192.0.2.1", "::ffff:192.0.2.1", PORT, TRUE}, {"192.0.2.1", "::ffff:192.0.2.2", PORT, FALSE},
        {"192.0.2.0/24", "192.0.2.255", PORT, TRUE}, {"192.0.2.0/24", "192.0.3.0", PORT, FALSE}, {"0.0.0.0/0", "203.0.113.5", PORT, TRUE},
        {"2001:db8::1", "2001:db8::1", PORT, TRUE}, {"[2001:db8::1]:6004", "2001:db8::1", PORT, TRUE}, {"[2001:db8::1]:6004", "2001:db8::1", 9, FALSE},
        {"[2001:db8::1]", "2001:db8::1", 9, TRUE}, {"2001:db8::/32", "2001:db8:1::1", PORT, TRUE}, {"2001:db8::/32", "2001:db9::1", PORT, FALSE},
        {"198.51.100.7, 192.0.2.1:6004", "192.0.2.1", PORT, TRUE}, {"198.51.100.7,192.0.2.1", "198.51.100.7", 9, TRUE},
        {"198.51.100.7,192.0.2.1", "198.51.100.8", 9, FALSE},
    };
    for (gsize i = 0; i < G_N_ELEMENTS(rows); i++) {
        gboolean is = is_heard(rows[i].list, rows[i].from, rows[i].port);
        if (is != rows[i].is_heard) g_print("peer %s hears %s\n", rows[i].list, rows[i].from);
        CHECK(is == rows[i].is_heard);
    }
}

/* With a list that nobody can read nobody is heard, which is told once it is set, until there is one that can be read. */
static void test_unread(void) {
    static const gchar *const lists[] = {"", "far.example", "192.0.2.300", "192.0.2.1:", "192.0.2.1:0", "192.0.2.1:65536", "192.0.2.0/33", "192.0.2.1,",
                                         "[2001:db8::1", "[2001:db8::1]6004", "192.0.2.1;192.0.2.2"};
    for (gsize i = 0; i < G_N_ELEMENTS(lists); i++) {
        scene s = make_scene();
        GstBus *bus = bus_of(s.r.element);
        sender_of own = {.ssrc = MEDIA, .gap = 20, .from = "192.0.2.1"};
        g_object_set(s.r.element, "peer", lists[i], NULL);
        CHECK(posted(bus, GST_MESSAGE_WARNING));
        play(&s, 41, 1, &own);
        CHECK(is_silent(s.r.media) && count_of(s.r.element, "strays") == 3);
        g_object_set(s.r.element, "peer", "192.0.2.1", NULL);
        own.number = 0;
        play(&s, 60 + 21, 1, &own);
        CHECK(all_come(&s, MEDIA, 0, 2));
        drop_bus(s.r.element, bus);
        drop_receiver(&s.r);
    }
}

/* Others do nothing to a session, whatever they send and however long it is silent, and they are told. */
static void test_others(void) {
    scene s = make_scene();
    GstBus *bus = bus_of(s.r.element);
    gchar *list = NULL;
    sender_of own = {.ssrc = MEDIA, .gap = 20, .from = "192.0.2.1"}, copy = {.ssrc = MEDIA, .gap = 10, .number = 1, .from = "192.0.2.2", .fill = 1};
    sender_of other = {.ssrc = 7, .gap = 10, .from = "192.0.2.2", .fill = 1}, unknown = {.ssrc = 9, .gap = 10, .fill = 1};
    g_object_set(s.r.element, "peer", "192.0.2.1:6004", NULL);
    g_object_get(s.r.element, "peer", &list, NULL);
    CHECK(g_strcmp0(list, "192.0.2.1:6004") == 0);
    g_free(list);
    play(&s, 200, 4, &own, &copy, &other, &unknown);
    play(&s, 3200, 3, &copy, &other, &unknown);
    own.next = s.now;
    play(&s, 3400, 1, &own);
    CHECK(all_come(&s, MEDIA, 0, 20) && is_silent(s.r.media) && count_of(s.r.element, "sessions") == 1 && count_of(s.r.element, "claims") == 0);
    CHECK(count_of(s.r.element, "strays") == 960 && posted(bus, GST_MESSAGE_WARNING) && !posted(bus, GST_MESSAGE_ERROR));
    drop_bus(s.r.element, bus);
    drop_receiver(&s.r);
}

void test_peers(void) {
    test_lists();
    test_unread();
    test_others();
}
