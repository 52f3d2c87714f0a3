/* The processor's time that elements take for a packet: `costs` runs it.
 *
 *   cost send|receive neither|ours|theirs PERMILLE PACKETS
 *
 * It prints the nanoseconds of a packet, and how many packets were lost, retransmitted, and came out. The time is that of all
 * threads of the process. */
#include "stream.h"

#include <stdlib.h>

int main(int count, char **words) {
    stream s = {.state = 1};
    gst_init(NULL, NULL);
    if (count != 5 || atoi(words[4]) < LEAST) {
        g_printerr("usage: cost send|receive neither|ours|theirs PERMILLE PACKETS, with %d packets or more\n", LEAST);
        return 2;
    }
    s.sends = g_str_equal(words[1], "send");
    s.permille = (guint)atoi(words[3]);
    s.packets = (guint)atoi(words[4]) / BURST * BURST;
    s.asked = g_array_new(FALSE, FALSE, sizeof(guint64));
    if (!put_between(&s, words[2])) {
        g_printerr("the elements can't be linked\n");
        return 1;
    }
    gdouble spent = push_stream(&s);
    gst_element_set_state(s.pipeline, GST_STATE_NULL);
    g_print("ns %.0f lost %u requests %u repairs %u came %u\n", spent, s.lost, s.requests, s.repairs, s.came);
    return 0;
}
