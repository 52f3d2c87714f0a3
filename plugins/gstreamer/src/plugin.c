/* The plugin: its two elements and their debug category, `gozdrit`. */
#include "common.h"
#include "recv.h"
#include "send.h"

GST_DEBUG_CATEGORY(gozdrit_debug);

static gboolean plugin_init(GstPlugin *plugin) {
    GST_DEBUG_CATEGORY_INIT(gozdrit_debug, "gozdrit", 0, "RTP repaired by NACK and retransmission");
    return gst_element_register(plugin, "gozdritsend", GST_RANK_NONE, gst_gozdrit_send_get_type()) &&
           gst_element_register(plugin, "gozdritrecv", GST_RANK_NONE, gst_gozdrit_recv_get_type());
}

/* GST_PLUGIN_DEFINE knows the licences of GStreamer's list alone, to which Apache-2.0 was added as "Apache 2.0"; the
 * other of the two, MIT, is on it by "MIT/X11". The origin, which may not be left out, is the package: there is no web
 * address of it. */
GST_PLUGIN_DEFINE(GST_VERSION_MAJOR, GST_VERSION_MINOR, gozdrit, "RTP repaired by NACK and retransmission", plugin_init,
                  VERSION, "MIT/X11", PACKAGE, PACKAGE)
