/* The properties of a receiver. Those of rtpjitterbuffer do here what they do there, or can't be set to other than their defaults. */
#include "recv.h"

enum {
    PROP_LATENCY = 1,
    PROP_DELAY,
    PROP_RETRY,
    PROP_NACKS,
    PROP_WINDOW,
    PROP_SSRC,
    PROP_RTX_SSRC,
    PROP_RECEIVER_SSRC,
    PROP_TYPE,
    PROP_RTX_TYPE,
    PROP_DO_LOST,
    PROP_TYPE_MAP,
    PROP_SSRC_MAP,
    PROP_PEER,
    PROP_NACK_BUDGET,
    PROP_REQUESTS,
    PROP_PACKETS,
    PROP_TAKEN,
    PROP_STATS,
    PROP_DO_RETRANSMISSION,
    PROP_DROP_ON_LATENCY,
    PROP_POST_DROPS,
    PROP_DROPS_INTERVAL,
    PROP_TS_OFFSET,
    PROP_OFFSET_STEP,
    PROP_MODE,
    PROP_MOST_AHEAD,
    PROP_SYNC_INTERVAL,
    PROP_REFERENCE_META,
    PROP_PERCENT,
    PROP_MAX_DROPOUT,
    PROP_MAX_MISORDER,
    PROP_RFC7273
};

/* What rtpjitterbuffer has, and the library or the element has no way to do. */
enum { USUAL_DROPOUT = 60000, USUAL_MISORDER = 2000 };

/* ---- values */

static GType mode_type(void) {
    static const GEnumValue modes[] = {{MODE_NONE, "Only use RTP timestamps", "none"},
                                       {MODE_SLAVE, "Slave receiver to sender clock", "slave"},
                                       {MODE_BUFFER, "Do low/high watermark buffering", "buffer"},
                                       {MODE_SYNCED, "Synchronized sender and receiver clocks", "synced"},
                                       {0, NULL, NULL}};
    static GType type;
    if (g_once_init_enter(&type)) g_once_init_leave(&type, g_enum_register_static("GstGozdritRecvMode", modes));
    return type;
}

/* Whether a value is one that nothing here would follow. */
static gboolean is_refused(guint id, const GValue *value) {
    switch (id) {
    case PROP_MODE: return g_value_get_enum(value) != MODE_SLAVE && g_value_get_enum(value) != MODE_SYNCED;
    case PROP_MAX_DROPOUT: return g_value_get_uint(value) != USUAL_DROPOUT;
    case PROP_MAX_MISORDER: return g_value_get_uint(value) != USUAL_MISORDER;
    case PROP_RFC7273: return g_value_get_boolean(value);
    default: return FALSE;
    }
}

static void refuse(GstGozdritRecv *self, const GValue *value, const GParamSpec *spec) {
    gchar *text = gst_value_serialize(value);
    GST_ELEMENT_WARNING(self, LIBRARY, SETTINGS, ("%s=%s is not here, and is not set.", spec->name, text), ("it stays at its default"));
    g_free(text);
}

static void set_mode(GstGozdritRecv *self, gint mode) {
    self->settings.mode = mode;
    for (EACH_STREAM(self, at)) self->stream->times.is_fixed = mode == MODE_SYNCED;
}

/* The properties of a jitter buffer. The lock is held, as in the next one. FALSE where it is none. */
static gboolean set_jitter(GstGozdritRecv *self, guint id, const GValue *value) {
    recv_settings *settings = &self->settings;
    switch (id) {
    case PROP_DO_RETRANSMISSION: settings->do_retransmission = g_value_get_boolean(value); break;
    case PROP_DROP_ON_LATENCY: settings->drop_on_latency = g_value_get_boolean(value); break;
    case PROP_POST_DROPS: settings->tells_drops = g_value_get_boolean(value); break;
    case PROP_DROPS_INTERVAL: settings->drops_interval = g_value_get_uint(value); break;
    case PROP_TS_OFFSET: offset_set(self, g_value_get_int64(value)); break;
    case PROP_OFFSET_STEP: settings->offset_step = g_value_get_uint64(value); break;
    case PROP_MODE: set_mode(self, g_value_get_enum(value)); break;
    case PROP_MOST_AHEAD: settings->most_ahead = g_value_get_int(value); break;
    case PROP_SYNC_INTERVAL: settings->sync_interval = g_value_get_uint(value); break;
    case PROP_REFERENCE_META: settings->adds_meta = g_value_get_boolean(value); break;
    case PROP_MAX_DROPOUT:
    case PROP_MAX_MISORDER:
    case PROP_RFC7273: break; /* the one value that they have */
    default: return FALSE;
    }
    return TRUE;
}

static gboolean get_jitter(const GstGozdritRecv *self, guint id, GValue *value) {
    const recv_settings *settings = &self->settings;
    switch (id) {
    case PROP_DO_RETRANSMISSION: g_value_set_boolean(value, settings->do_retransmission); break;
    case PROP_DROP_ON_LATENCY: g_value_set_boolean(value, settings->drop_on_latency); break;
    case PROP_POST_DROPS: g_value_set_boolean(value, settings->tells_drops); break;
    case PROP_DROPS_INTERVAL: g_value_set_uint(value, settings->drops_interval); break;
    case PROP_TS_OFFSET: g_value_set_int64(value, self->offset.now); break;
    case PROP_OFFSET_STEP: g_value_set_uint64(value, settings->offset_step); break;
    case PROP_MODE: g_value_set_enum(value, settings->mode); break;
    case PROP_MOST_AHEAD: g_value_set_int(value, settings->most_ahead); break;
    case PROP_SYNC_INTERVAL: g_value_set_uint(value, settings->sync_interval); break;
    case PROP_REFERENCE_META: g_value_set_boolean(value, settings->adds_meta); break;
    case PROP_PERCENT: g_value_set_int(value, 100); break;
    case PROP_MAX_DROPOUT: g_value_set_uint(value, USUAL_DROPOUT); break;
    case PROP_MAX_MISORDER: g_value_set_uint(value, USUAL_MISORDER); break;
    case PROP_RFC7273: g_value_set_boolean(value, FALSE); break;
    default: return FALSE;
    }
    return TRUE;
}

static gboolean set_own(GstGozdritRecv *self, guint id, const GValue *value) {
    recv_settings *settings = &self->settings;
    switch (id) {
    case PROP_LATENCY: settings->latency = g_value_get_uint(value); break;
    case PROP_DELAY: settings->delay = g_value_get_uint(value); break;
    case PROP_RETRY: settings->retry = g_value_get_int(value); break;
    case PROP_NACKS: settings->nacks = g_value_get_uint(value); break;
    case PROP_WINDOW: settings->window = g_value_get_uint(value); break;
    case PROP_SSRC: settings->ssrc = g_value_get_uint(value); break;
    case PROP_RTX_SSRC: settings->rtx_ssrc = g_value_get_uint(value); break;
    case PROP_RECEIVER_SSRC: settings->receiver_ssrc = g_value_get_uint(value); break;
    case PROP_TYPE: settings->type = g_value_get_int(value); break;
    case PROP_RTX_TYPE: settings->rtx_type = g_value_get_int(value); break;
    case PROP_DO_LOST: settings->do_lost = g_value_get_boolean(value); break;
    case PROP_TYPE_MAP: type_map_set(&self->types, g_value_get_boxed(value)); break;
    case PROP_SSRC_MAP:
        g_clear_pointer(&self->ssrcs, gst_structure_free);
        self->ssrcs = g_value_dup_boxed(value);
        break;
    case PROP_PEER: peers_set(&self->peers, g_value_get_string(value)); break;
    case PROP_NACK_BUDGET: settings->earns_nacks = g_value_get_boolean(value); break;
    default: return FALSE;
    }
    return TRUE;
}

static gboolean get_own(GstGozdritRecv *self, guint id, GValue *value) {
    const recv_settings *settings = &self->settings;
    switch (id) {
    case PROP_LATENCY: g_value_set_uint(value, settings->latency); break;
    case PROP_DELAY: g_value_set_uint(value, settings->delay); break;
    case PROP_RETRY: g_value_set_int(value, settings->retry); break;
    case PROP_NACKS: g_value_set_uint(value, settings->nacks); break;
    case PROP_WINDOW: g_value_set_uint(value, settings->window); break;
    case PROP_SSRC: g_value_set_uint(value, settings->ssrc); break;
    case PROP_RTX_SSRC: g_value_set_uint(value, settings->rtx_ssrc); break;
    case PROP_RECEIVER_SSRC: g_value_set_uint(value, settings->receiver_ssrc); break;
    case PROP_TYPE: g_value_set_int(value, settings->type); break;
    case PROP_RTX_TYPE: g_value_set_int(value, settings->rtx_type); break;
    case PROP_DO_LOST: g_value_set_boolean(value, settings->do_lost); break;
    case PROP_TYPE_MAP: g_value_set_boxed(value, self->types.given); break;
    case PROP_PEER: g_value_set_string(value, self->peers.text); break;
    case PROP_NACK_BUDGET: g_value_set_boolean(value, settings->earns_nacks); break;
    case PROP_REQUESTS: g_value_set_uint(value, (guint)MIN(counts_sums(self).nacked, G_MAXUINT)); break;
    case PROP_PACKETS: g_value_set_uint(value, (guint)MIN(self->rtx_came, G_MAXUINT)); break;
    case PROP_TAKEN: g_value_set_uint(value, (guint)MIN(counts_sums(self).retransmissions, G_MAXUINT)); break;
    case PROP_STATS: g_value_take_boxed(value, counts_told(self)); break;
    default: return FALSE;
    }
    return TRUE;
}

void properties_set(GObject *object, guint id, const GValue *value, GParamSpec *spec) {
    GstGozdritRecv *self = GST_GOZDRIT_RECV(object);
    if (is_refused(id, value)) {
        refuse(self, value, spec);
        return;
    }
    g_mutex_lock(&self->lock);
    gboolean is_one = set_own(self, id, value) || set_jitter(self, id, value);
    gboolean is_deaf = id == PROP_PEER && peers_are_unread(&self->peers);
    asking_set(self);
    feedback_wake(self);
    g_mutex_unlock(&self->lock);
    if (!is_one) G_OBJECT_WARN_INVALID_PROPERTY_ID(object, id, spec);
    if (is_deaf)
        GST_ELEMENT_WARNING(self, RESOURCE, SETTINGS, ("Nobody is heard."), ("peer is no list of addresses, ports and prefixes: %s", g_value_get_string(value)));
    if (id == PROP_LATENCY) gst_element_post_message(GST_ELEMENT(self), gst_message_new_latency(GST_OBJECT(self)));
}

void properties_get(GObject *object, guint id, GValue *value, GParamSpec *spec) {
    GstGozdritRecv *self = GST_GOZDRIT_RECV(object);
    g_mutex_lock(&self->lock);
    gboolean is_one = get_own(self, id, value) || get_jitter(self, id, value);
    g_mutex_unlock(&self->lock);
    if (!is_one) G_OBJECT_WARN_INVALID_PROPERTY_ID(object, id, spec);
}

/* ---- what there are */

static void install_uint(GObjectClass *class, guint id, const gchar *name, const gchar *blurb, guint least, guint most,
                         guint otherwise) {
    g_object_class_install_property(
        class, id, g_param_spec_uint(name, NULL, blurb, least, most, otherwise, PROPERTY_FLAGS));
}

static void install_int(GObjectClass *class, guint id, const gchar *name, const gchar *blurb, gint least, gint most, gint otherwise) {
    g_object_class_install_property(class, id, g_param_spec_int(name, NULL, blurb, least, most, otherwise, PROPERTY_FLAGS));
}

static void install_truth(GObjectClass *class, guint id, const gchar *name, const gchar *blurb) {
    g_object_class_install_property(class, id, g_param_spec_boolean(name, NULL, blurb, FALSE, PROPERTY_FLAGS));
}

static void install_own(GObjectClass *class) {
    install_uint(class, PROP_LATENCY, "latency", "How long a missing packet is waited for, in ms", 0, G_MAXUINT, 200);
    install_uint(class, PROP_DELAY, "rtx-delay", "How long a missing packet is waited for before the first NACK, in ms: as long as "
                 "the network holds packets back behind later ones, which takes its place once a round trip was measured, where "
                 "rtx-retry-timeout is -1; a tenth of the latency is the most there", 0, G_MAXUINT, 20);
    install_int(class, PROP_RETRY, "rtx-retry-timeout", "How long an answer to a NACK is waited for before the next one, in ms "
                "(-1 == by the round trips that are measured, so that as many NACKs as fit have their answers within the latency)", -1,
                G_MAXINT, -1);
    install_uint(class, PROP_NACKS, "rtx-max-retries", "How often one packet is asked for at most", 1, 255, 8);
    install_uint(class, PROP_WINDOW, "max-size-packets", "How many packets are kept while one is missing (0, and more than 8192 == 8192)",
                 0, G_MAXUINT, 1024);
    install_uint(class, PROP_SSRC, "ssrc", "The SSRC of the media (default == that of the caps, or of the first packet, until "
                 "that one's sender sends no stream and another one does)", 0,
                 G_MAXUINT32, SSRC_UNSET);
    install_uint(class, PROP_RTX_SSRC, "rtx-ssrc", "The SSRC of the retransmissions (default == that of the caps, or learnt)", 0,
                 G_MAXUINT32, SSRC_UNSET);
    install_uint(class, PROP_RECEIVER_SSRC, "receiver-ssrc", "The SSRC that NACKs are sent from (default == random)", 0,
                 G_MAXUINT32, SSRC_UNSET);
    install_int(class, PROP_TYPE, "payload-type", "The payload type of the media (-1 == that of the caps or of the first packet)",
                -1, 127, -1);
    install_int(class, PROP_RTX_TYPE, "rtx-payload-type", "The payload type of the retransmissions (-1 == that of the caps, or 97)",
                -1, 127, -1);
    install_map(class, PROP_TYPE_MAP, "payload-type-map", "The payload types of media, and of their retransmissions: with it, no stream of "
                "other types begins, and where nobody takes feedback there may be several (default == all, and rtx-payload-type)", G_PARAM_READWRITE);
    install_map(class, PROP_SSRC_MAP, "ssrc-map", "SSRCs of media, and of their retransmissions (default == learnt)", G_PARAM_WRITABLE);
    g_object_class_install_property(
        class, PROP_PEER, g_param_spec_string("peer", NULL, "Who is heard: addresses, each with a port or at any, or prefixes, as "
                                              "192.0.2.1:5004,[2001:db8::1]:5004,198.51.100.0/24, by what udpsrc tells of each packet; others' packets are "
                                              "dropped (NULL == anybody)", NULL, PROPERTY_FLAGS));
    g_object_class_install_property(
        class, PROP_NACK_BUDGET, g_param_spec_boolean("nack-budget", NULL, "Let NACKs that leave by feedback_src be earned by what comes: a twentieth "
                                                      "of its octets, or 24 of each packet, and no more NACKs than packets, so that whoever forges "
                                                      "an address has nobody flooded", TRUE, PROPERTY_FLAGS));
    install_count(class, PROP_REQUESTS, "num-rtx-requests", "How many packets were asked for, each as often as it was");
    install_count(class, PROP_PACKETS, "num-rtx-packets", "How many retransmissions came");
    install_count(class, PROP_TAKEN, "num-rtx-assoc-packets", "How many of these were taken");
    install_truth(class, PROP_DO_LOST, "do-lost", "Send an event GstRTPPacketLost downstream for each packet that is lost for good");
    g_object_class_install_property(
        class, PROP_STATS, g_param_spec_boxed("stats", NULL, "What was counted since the element began: the library's counts, "
                                              "rtpjitterbuffer's, and the element's; `strays` are packets that nobody took, `claims` the "
                                              "strangers of which it is known what they sent", GST_TYPE_STRUCTURE, (GParamFlags)(G_PARAM_READABLE | G_PARAM_STATIC_STRINGS)));
}

static void install_jitter(GObjectClass *class) {
    install_truth(class, PROP_DO_RETRANSMISSION, "do-retransmission", "In a jitter buffer's place: ask for what is missing by events "
                  "GstRTPRetransmissionRequest that go upstream, where feedback_src is not linked");
    install_truth(class, PROP_DROP_ON_LATENCY, "drop-on-latency", "While downstream stands still, drop the oldest packets where these and "
                  "the newest one are farther apart than the latency");
    install_truth(class, PROP_POST_DROPS, "post-drop-messages", "Post a message drop-msg on the bus where a packet was dropped, since it "
                  "came too late, or by drop-on-latency");
    install_uint(class, PROP_DROPS_INTERVAL, "drop-messages-interval", "The least time between two messages drop-msg, in ms", 0, G_MAXUINT, 200);
    g_object_class_install_property(
        class, PROP_TS_OFFSET, g_param_spec_int64("ts-offset", NULL, "What is added to the times of packets that go out, in ns", G_MININT64,
                                                  G_MAXINT64, 0, PROPERTY_FLAGS));
    g_object_class_install_property(
        class, PROP_OFFSET_STEP, g_param_spec_uint64("max-ts-offset-adjustment", NULL, "By how much ts-offset moves at most with each frame, "
                                                     "in ns (0 == at once)", 0, G_MAXUINT64, 0, PROPERTY_FLAGS));
    install_int(class, PROP_MOST_AHEAD, "max-rtcp-rtp-time-diff", "How far the timestamp of a sender report may lie ahead of the newest "
                "packet's, in ms (-1 == any)", -1, G_MAXINT, 1000);
    install_uint(class, PROP_SYNC_INTERVAL, "sync-interval", "The least time from one sender report that handle-sync tells to the next, by "
                 "the far clock, in ms", 0, G_MAXUINT, 0);
    install_truth(class, PROP_REFERENCE_META, "add-reference-timestamp-meta", "Add a GstReferenceTimestampMeta with the far side's time, as "
                  "the last sender report has it, to packets that go out");
    g_object_class_install_property(
        class, PROP_MODE, g_param_spec_enum("mode", NULL, "Whose clock times follow (none and buffer are not here, and refused)", mode_type(),
                                            MODE_SLAVE, PROPERTY_FLAGS));
    g_object_class_install_property(
        class, PROP_PERCENT, g_param_spec_int("percent", NULL, "100: nothing waits for a buffer to fill", 0, 100, 100,
                                              (GParamFlags)(G_PARAM_READABLE | G_PARAM_STATIC_STRINGS)));
    install_uint(class, PROP_MAX_DROPOUT, "max-dropout-time", "Not here: other than 60000 is refused. Gaps are bridged up to 3000 packets or "
                 "max-size-packets", 0, G_MAXINT32, USUAL_DROPOUT);
    install_uint(class, PROP_MAX_MISORDER, "max-misorder-time", "Not here: other than 2000 is refused. What is missing is taken however far "
                 "behind it comes, within the latency", 0, G_MAXUINT, USUAL_MISORDER);
    install_truth(class, PROP_RFC7273, "rfc7273-sync", "Not here: true is refused");
}

void properties_install(GObjectClass *class) {
    install_own(class);
    install_jitter(class);
}
