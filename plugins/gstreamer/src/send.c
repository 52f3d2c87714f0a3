/**
 * SECTION:element-gozdritsend
 * @title: gozdritsend
 * @short_description: sends RTP packets that the far side may ask for again
 * @see_also: gozdritrecv, rtprtxsend
 *
 * Sends RTP packets as they come, keeps them, and retransmits those that generic NACKs (RFC 4585) of the far side name, on an SSRC and
 * with a payload type of their own (RFC 4588, SSRC multiplexing). Media and retransmissions leave by the source pad. Each SSRC that
 * packets come with is a stream of its own, with a history and an SSRC of its retransmissions. What rtprtxsend has of properties and
 * caps is here too, and means the same: so it stands in rtprtxsend's place, as the auxiliary sender of an rtpbin. Packets that are
 * retransmissions already go through.
 *
 * A packet goes out as it came, also with its number: what was reordered, doubled or lost before the element is that behind it. With
 * #GstGozdritSend:ssrc all packets are one stream of that SSRC, and with #GstGozdritSend:seqnum-offset its numbers begin there. One that is
 * longer than the library takes goes out as well, and is not kept; the first is told by a warning.
 *
 * Where no packet comes for #GstGozdritSend:silence-delay, the last one is repeated once: else the far side would not notice
 * what it lacks of the end of a talk spurt, until the next one. Packets that come slowly, as frames at five a second, are not repeated
 * each time: a gap that ends before four times that delay is no silence, and the next one may be as long and a quarter more.
 *
 * In a simulcast, where packets name their stream by a header extension (RFC 8852), #GstGozdritSend::add-extension tells by which ones, so that
 * retransmissions name the stream that they repair.
 *
 * `feedback_sink` takes the RTCP of the far side, whatever it is: what is no NACK of these streams is passed over. Where an rtpsession
 * stands behind the source pad, its events `GstRTPRetransmissionRequest` are answered as well. PLI and FIR for one of the streams go
 * upstream as events `GstForceKeyUnit`. At the end of the stream the last packet is
 * repeated, and feedback is answered for #GstGozdritSend:eos-delay more.
 *
 * ## Example pipeline
 * |[
 * gst-launch-1.0 videotestsrc is-live=true ! vp8enc deadline=1 ! rtpvp8pay ! gozdritsend name=s
 *     ! udpsink host=127.0.0.1 port=6004   udpsrc port=6005 ! s.feedback_sink
 * ]|
 */
#include "send.h"

enum {
    PROP_SSRC = 1,
    PROP_RTX_SSRC,
    PROP_RECEIVER_SSRC,
    PROP_RTX_TYPE,
    PROP_FIRST,
    PROP_HISTORY,
    PROP_REPEATS,
    PROP_EOS_DELAY,
    PROP_SILENCE_DELAY,
    PROP_MIN_INTERVAL,
    PROP_MAX_TIME,
    PROP_TYPE_MAP,
    PROP_SSRC_MAP,
    PROP_RATE_MAP,
    PROP_REQUESTS,
    PROP_PACKETS,
    PROP_STATS
};

static GstStaticPadTemplate sink_template =
    GST_STATIC_PAD_TEMPLATE("sink", GST_PAD_SINK, GST_PAD_ALWAYS, GST_STATIC_CAPS("application/x-rtp"));
static GstStaticPadTemplate feedback_template =
    GST_STATIC_PAD_TEMPLATE("feedback_sink", GST_PAD_SINK, GST_PAD_ALWAYS, GST_STATIC_CAPS("application/x-rtcp"));
static GstStaticPadTemplate src_template =
    GST_STATIC_PAD_TEMPLATE("src", GST_PAD_SRC, GST_PAD_ALWAYS, GST_STATIC_CAPS("application/x-rtp"));

G_DEFINE_TYPE(GstGozdritSend, gst_gozdrit_send, GST_TYPE_ELEMENT)

/* ---- media */

static GstFlowReturn chain(GstPad *pad, GstObject *parent, GstBuffer *buffer) {
    GstGozdritSend *self = GST_GOZDRIT_SEND(parent);
    GstBuffer *out;
    (void)pad;
    GstFlowReturn flow = sending_packet(self, buffer, &out);
    return out ? gst_pad_push(self->src, out) : flow;
}

/* A payloader gives all packets of a frame at once, and they go on so. */
static GstFlowReturn chain_list(GstPad *pad, GstObject *parent, GstBufferList *list) {
    GstGozdritSend *self = GST_GOZDRIT_SEND(parent);
    guint length = gst_buffer_list_length(list);
    GstBufferList *out_list = gst_buffer_list_new_sized(length);
    GstFlowReturn flow = GST_FLOW_OK;
    (void)pad;
    for (guint i = 0; i < length && flow == GST_FLOW_OK; i++) {
        GstBuffer *out;
        flow = sending_packet(self, gst_buffer_ref(gst_buffer_list_get(list, i)), &out);
        if (out) gst_buffer_list_add(out_list, out);
    }
    gst_buffer_list_unref(list);
    if (gst_buffer_list_length(out_list) == 0) {
        gst_buffer_list_unref(out_list);
        return flow;
    }
    GstFlowReturn pushed = gst_pad_push_list(self->src, out_list);
    return flow == GST_FLOW_OK ? pushed : flow;
}

/* ---- events */

/* The end of a flush changes nothing where the element stops. */
static void set_flushing(GstGozdritSend *self, gboolean flushing) {
    g_mutex_lock(&self->lock);
    self->flushing = flushing || self->stopped;
    if (flushing && self->waiting) gst_clock_id_unschedule(self->waiting);
    if (flushing) silence_end(self);
    g_mutex_unlock(&self->lock);
}

static gboolean sink_event(GstPad *pad, GstObject *parent, GstEvent *event) {
    GstGozdritSend *self = GST_GOZDRIT_SEND(parent);
    GstCaps *caps;
    switch (GST_EVENT_TYPE(event)) {
    case GST_EVENT_CAPS:
        gst_event_parse_caps(event, &caps);
        caps = sending_caps(self, caps);
        gst_event_unref(event);
        event = gst_event_new_caps(caps);
        gst_caps_unref(caps);
        break;
    case GST_EVENT_EOS:
        if (gst_pad_is_linked(self->feedback)) sending_tail(self);
        break;
    case GST_EVENT_FLUSH_START:
    case GST_EVENT_FLUSH_STOP:
        set_flushing(self, GST_EVENT_TYPE(event) == GST_EVENT_FLUSH_START);
        break;
    default:
        break;
    }
    (void)pad;
    return gst_pad_push_event(self->src, event);
}

/* ---- feedback */

static GstFlowReturn feedback_chain(GstPad *pad, GstObject *parent, GstBuffer *buffer) {
    (void)pad;
    sending_feedback(GST_GOZDRIT_SEND(parent), buffer);
    gst_buffer_unref(buffer);
    return GST_FLOW_OK;
}

/* The SSRC of a stream's retransmissions is another participant's too (RFC 3550, section 8.2): there is a new one, which the caps tell where
 * they are that stream's. */
static gboolean avoid_collision(GstGozdritSend *self, guint32 ssrc) {
    gint64 media;
    guint32 drawn;
    if (!sending_collision(self, ssrc, &media, &drawn)) return FALSE;
    GstCaps *caps = gst_pad_get_current_caps(self->src);
    if (!caps) return TRUE;
    if (caps_number(caps, "ssrc", media) == media) {
        caps = gst_caps_make_writable(caps);
        gst_caps_set_simple(caps, "rtx-ssrc", G_TYPE_UINT, drawn, NULL);
        gst_pad_push_event(self->src, gst_event_new_caps(caps));
    }
    gst_caps_unref(caps);
    return TRUE;
}

/* An rtpsession behind the element reads the NACKs itself, and tells by an event which packet one names, or that an SSRC collides. */
static gboolean src_event(GstPad *pad, GstObject *parent, GstEvent *event) {
    GstGozdritSend *self = GST_GOZDRIT_SEND(parent);
    const GstStructure *told = gst_event_get_structure(event);
    gboolean is_answered = FALSE;
    guint ssrc, number;
    if (told && gst_structure_get_uint(told, "ssrc", &ssrc)) {
        if (gst_structure_has_name(told, "GstRTPRetransmissionRequest") && gst_structure_get_uint(told, "seqnum", &number))
            is_answered = sending_request(self, ssrc, (guint16)number);
        else if (gst_structure_has_name(told, "GstRTPCollision"))
            is_answered = avoid_collision(self, ssrc);
    }
    if (!is_answered) return gst_pad_event_default(pad, parent, event);
    gst_event_unref(event);
    return TRUE;
}

/* The feedback's stream ends here. */
static gboolean feedback_event(GstPad *pad, GstObject *parent, GstEvent *event) {
    (void)pad;
    (void)parent;
    gst_event_unref(event);
    return TRUE;
}

/* Media goes through; feedback does not, so what is asked of one side, as its latency, is asked of the other alone. */
static GstIterator *linked_inside(GstPad *pad, GstObject *parent) {
    GstGozdritSend *self = GST_GOZDRIT_SEND(parent);
    GValue value = G_VALUE_INIT;
    if (pad == self->feedback) return NULL;
    g_value_init(&value, GST_TYPE_PAD);
    g_value_set_object(&value, pad == self->sink ? self->src : self->sink);
    GstIterator *found = gst_iterator_new_single(GST_TYPE_PAD, &value);
    g_value_unset(&value);
    return found;
}

/* ---- states */

static void begin(GstGozdritSend *self) {
    g_mutex_lock(&self->lock);
    element_time_begin(&self->time, GST_ELEMENT(self));
    self->flushing = self->stopped = FALSE;
    self->passed = self->strays = self->media = self->reports = self->refused = self->key_requests = 0;
    self->past = (gozdrit_send_counts)GOZDRIT_SEND_COUNTS_INIT;
    self->requested = self->rtx_taken = self->unfit_told = FALSE;
    self->rtx_ssrc = self->settings.rtx_ssrc;
    if (self->rtx_ssrc == SSRC_UNSET) self->rtx_ssrc = draw_ssrc(self->settings.ssrc, self->settings.receiver_ssrc);
    self->rtx_first = (guint16)g_random_int();
    self->told_first = -1;
    guint history = self->settings.history;
    g_mutex_unlock(&self->lock);
    if (history == 0 || history > GOZDRIT_MAX_STORE)
        GST_ELEMENT_WARNING(self, LIBRARY, SETTINGS, ("No more than %d packets of a stream are kept.", GOZDRIT_MAX_STORE),
                            ("max-size-packets is %u, and that is the most that the library keeps", history));
}

/* Nothing is waited for any more. */
static void stop(GstGozdritSend *self) {
    g_mutex_lock(&self->lock);
    self->stopped = TRUE;
    g_mutex_unlock(&self->lock);
    set_flushing(self, TRUE);
}

/* The counts can still be read. */
static void end(GstGozdritSend *self) {
    g_mutex_lock(&self->lock);
    sending_end(self);
    element_time_end(&self->time);
    g_mutex_unlock(&self->lock);
}

/* The pipeline's clock: what waits for the one before waits for this one. */
static gboolean set_clock(GstElement *element, GstClock *clock) {
    GstGozdritSend *self = GST_GOZDRIT_SEND(element);
    g_mutex_lock(&self->lock);
    element_time_switch(&self->time, clock);
    silence_changed(self);
    g_mutex_unlock(&self->lock);
    return GST_ELEMENT_CLASS(gst_gozdrit_send_parent_class)->set_clock(element, clock);
}

static GstStateChangeReturn change_state(GstElement *element, GstStateChange change) {
    GstGozdritSend *self = GST_GOZDRIT_SEND(element);
    if (change == GST_STATE_CHANGE_READY_TO_PAUSED) begin(self);
    if (change == GST_STATE_CHANGE_PAUSED_TO_READY) stop(self);
    GstStateChangeReturn done = GST_ELEMENT_CLASS(gst_gozdrit_send_parent_class)->change_state(element, change);
    if (change == GST_STATE_CHANGE_PAUSED_TO_READY) end(self);
    return done;
}

/* ---- properties */

static void set_property(GObject *object, guint id, const GValue *value, GParamSpec *spec) {
    GstGozdritSend *self = GST_GOZDRIT_SEND(object);
    send_settings *settings = &self->settings;
    g_mutex_lock(&self->lock);
    switch (id) {
    case PROP_SSRC: settings->ssrc = g_value_get_uint(value); break;
    case PROP_RTX_SSRC: settings->rtx_ssrc = g_value_get_uint(value); break;
    case PROP_RECEIVER_SSRC: settings->receiver_ssrc = g_value_get_uint(value); break;
    case PROP_RTX_TYPE: settings->rtx_type = g_value_get_uint(value); break;
    case PROP_FIRST: settings->first = g_value_get_int(value); break;
    case PROP_HISTORY: settings->history = g_value_get_uint(value); break;
    case PROP_REPEATS: settings->repeats = g_value_get_uint(value); break;
    case PROP_EOS_DELAY: settings->eos_delay = g_value_get_uint(value); break;
    case PROP_SILENCE_DELAY: settings->silence_delay = g_value_get_uint(value); break;
    case PROP_MIN_INTERVAL: settings->min_interval = g_value_get_int(value); break;
    case PROP_MAX_TIME: settings->max_time = g_value_get_uint(value); break;
    case PROP_TYPE_MAP: type_map_set(&self->types, g_value_get_boxed(value)); break;
    case PROP_RATE_MAP: type_map_set(&self->rates, g_value_get_boxed(value)); break;
    case PROP_SSRC_MAP:
        g_clear_pointer(&self->ssrcs, gst_structure_free);
        self->ssrcs = g_value_dup_boxed(value);
        break;
    default: G_OBJECT_WARN_INVALID_PROPERTY_ID(object, id, spec);
    }
    if (id == PROP_SILENCE_DELAY) silence_changed(self);
    g_mutex_unlock(&self->lock);
}

static void get_property(GObject *object, guint id, GValue *value, GParamSpec *spec) {
    GstGozdritSend *self = GST_GOZDRIT_SEND(object);
    g_mutex_lock(&self->lock);
    send_settings settings = self->settings;
    gozdrit_send_counts sums = sending_sums(self);
    if (id == PROP_TYPE_MAP) g_value_set_boxed(value, self->types.given);
    if (id == PROP_RATE_MAP) g_value_set_boxed(value, self->rates.given);
    g_mutex_unlock(&self->lock);
    switch (id) {
    case PROP_TYPE_MAP:
    case PROP_RATE_MAP: break;
    case PROP_REQUESTS: g_value_set_uint(value, (guint)MIN(sums.nacked, G_MAXUINT)); break;
    case PROP_PACKETS: g_value_set_uint(value, (guint)MIN(sums.retransmissions, G_MAXUINT)); break;
    case PROP_SSRC: g_value_set_uint(value, settings.ssrc); break;
    case PROP_RTX_SSRC: g_value_set_uint(value, settings.rtx_ssrc); break;
    case PROP_RECEIVER_SSRC: g_value_set_uint(value, settings.receiver_ssrc); break;
    case PROP_RTX_TYPE: g_value_set_uint(value, settings.rtx_type); break;
    case PROP_FIRST: g_value_set_int(value, settings.first); break;
    case PROP_HISTORY: g_value_set_uint(value, settings.history); break;
    case PROP_REPEATS: g_value_set_uint(value, settings.repeats); break;
    case PROP_EOS_DELAY: g_value_set_uint(value, settings.eos_delay); break;
    case PROP_SILENCE_DELAY: g_value_set_uint(value, settings.silence_delay); break;
    case PROP_MIN_INTERVAL: g_value_set_int(value, settings.min_interval); break;
    case PROP_MAX_TIME: g_value_set_uint(value, settings.max_time); break;
    case PROP_STATS: g_value_take_boxed(value, sending_counts(self)); break;
    default: G_OBJECT_WARN_INVALID_PROPERTY_ID(object, id, spec);
    }
}

static void finalize(GObject *object) {
    GstGozdritSend *self = GST_GOZDRIT_SEND(object);
    sending_end(self);
    g_ptr_array_unref(self->streams);
    type_map_set(&self->types, NULL);
    type_map_set(&self->rates, NULL);
    g_clear_pointer(&self->ssrcs, gst_structure_free);
    gst_clear_object(&self->stream_id);
    gst_clear_object(&self->repaired_id);
    element_time_end(&self->time);
    g_cond_clear(&self->silence_cond);
    g_mutex_clear(&self->lock);
    G_OBJECT_CLASS(gst_gozdrit_send_parent_class)->finalize(object);
}

/* ---- the class */

static void install_uint(GObjectClass *class, guint id, const gchar *name, const gchar *blurb, guint least, guint most,
                         guint otherwise) {
    g_object_class_install_property(
        class, id, g_param_spec_uint(name, NULL, blurb, least, most, otherwise, PROPERTY_FLAGS));
}

static void install_properties(GObjectClass *class) {
    install_uint(class, PROP_SSRC, "ssrc",
                 "The SSRC of the media, of which there is one stream then (default == that of the packets)", 0, G_MAXUINT32, SSRC_UNSET);
    install_uint(class, PROP_RTX_SSRC, "rtx-ssrc",
                 "The SSRC of the first stream's retransmissions (default == random)", 0, G_MAXUINT32, SSRC_UNSET);
    install_uint(class, PROP_RECEIVER_SSRC, "receiver-ssrc",
                 "The SSRC whose NACKs are heard (default == any)", 0, G_MAXUINT32, SSRC_UNSET);
    install_uint(class, PROP_RTX_TYPE, "rtx-payload-type",
                 "The payload type of the retransmissions, where there is no payload-type-map; not 64 to 95", 0, 127, RTX_TYPE);
    g_object_class_install_property(
        class, PROP_FIRST, g_param_spec_int("seqnum-offset", NULL, "The first packet's sequence number (-1 == the one that "
                                            "it came with)", -1, G_MAXUINT16, -1, PROPERTY_FLAGS));
    install_uint(class, PROP_HISTORY, "max-size-packets",
                 "How many packets of a stream are kept for retransmission (0, and more than 8192 == 8192)", 0, G_MAXINT16, 1024);
    install_uint(class, PROP_REPEATS, "rtx-max-repeats",
                 "How often one packet is retransmitted at most", 1, 255, 8);
    install_uint(class, PROP_EOS_DELAY, "eos-delay",
                 "How long feedback is answered behind the last packet, in ms, where feedback_sink is linked", 0, 60000, 500);
    install_uint(class, PROP_SILENCE_DELAY, "silence-delay",
                 "How long no packet comes until the last one is repeated once, in ms, where feedback_sink is linked "
                 "(0 == never)", 0, 60000, 100);
    g_object_class_install_property(
        class, PROP_MIN_INTERVAL, g_param_spec_int("rtx-min-interval", NULL, "How long after its last retransmission a packet is not "
                                                   "retransmitted again, in ms: about a round trip (0 == as soon as it is asked for, -1 == "
                                                   "while its answer may wait in a queue of the path, by what is measured, and 10 at least)",
                                                   -1, G_MAXINT, -1, PROPERTY_FLAGS));
    install_uint(class, PROP_MAX_TIME, "max-size-time",
                 "How long after it was sent, and by its timestamp before the newest one, a packet is retransmitted, in ms: about the "
                 "latency of the other end (0 == as long as it is kept)", 0, G_MAXUINT, 0);
    install_map(class, PROP_TYPE_MAP, "payload-type-map", "The payload types of packets that are kept, and of their retransmissions "
                "(default == all, and rtx-payload-type)", G_PARAM_READWRITE);
    install_map(class, PROP_SSRC_MAP, "ssrc-map", "SSRCs of media, and of their retransmissions (default == random)", G_PARAM_WRITABLE);
    install_map(class, PROP_RATE_MAP, "clock-rate-map", "The clock rates of payload types, for max-size-time (default == that of the "
                "caps)", G_PARAM_READWRITE);
    install_count(class, PROP_REQUESTS, "num-rtx-requests", "How many packets were asked for, each as often as it was");
    install_count(class, PROP_PACKETS, "num-rtx-packets", "How many retransmissions were sent");
    g_object_class_install_property(
        class, PROP_STATS, g_param_spec_boxed("stats", NULL, "What was counted since the element began: the library's counts",
                                              GST_TYPE_STRUCTURE, (GParamFlags)(G_PARAM_READABLE | G_PARAM_STATIC_STRINGS)));
}

static void gst_gozdrit_send_class_init(GstGozdritSendClass *class) {
    GstElementClass *element = GST_ELEMENT_CLASS(class);
    GObjectClass *object = G_OBJECT_CLASS(class);
    object->set_property = set_property;
    object->get_property = get_property;
    object->finalize = finalize;
    element->change_state = change_state;
    element->set_clock = set_clock;
    install_properties(object);
    extensions_install(G_TYPE_FROM_CLASS(class));
    gst_element_class_add_static_pad_template(element, &sink_template);
    gst_element_class_add_static_pad_template(element, &feedback_template);
    gst_element_class_add_static_pad_template(element, &src_template);
    gst_element_class_set_static_metadata(element, "RTP sender that retransmits", "Filter/Network/RTP",
                                          "Sends RTP packets, and again those that generic NACKs name (RFC 4585, RFC 4588)",
                                          "Gozdrit maintainers");
}

static GstPad *add_pad(GstGozdritSend *self, GstStaticPadTemplate *template) {
    GstPad *pad = gst_pad_new_from_static_template(template, template->name_template);
    gst_pad_set_iterate_internal_links_function(pad, linked_inside);
    gst_element_add_pad(GST_ELEMENT(self), pad);
    return pad;
}

static void gst_gozdrit_send_init(GstGozdritSend *self) {
    g_mutex_init(&self->lock);
    g_cond_init(&self->silence_cond);
    self->streams = g_ptr_array_new_with_free_func((GDestroyNotify)stream_free);
    type_map_set(&self->types, NULL);
    type_map_set(&self->rates, NULL);
    self->past = (gozdrit_send_counts)GOZDRIT_SEND_COUNTS_INIT;
    self->settings = (send_settings){.ssrc = SSRC_UNSET, .rtx_ssrc = SSRC_UNSET, .receiver_ssrc = SSRC_UNSET,
                                     .rtx_type = RTX_TYPE, .first = -1, .history = 1024, .repeats = 8, .eos_delay = 500,
                                     .silence_delay = 100, .min_interval = -1};
    self->sink = add_pad(self, &sink_template);
    self->feedback = add_pad(self, &feedback_template);
    self->src = add_pad(self, &src_template);
    gst_pad_set_chain_function(self->sink, chain);
    gst_pad_set_chain_list_function(self->sink, chain_list);
    gst_pad_set_event_function(self->sink, sink_event);
    gst_pad_set_event_function(self->src, src_event);
    gst_pad_set_activatemode_function(self->src, silence_activate);
    GST_PAD_SET_PROXY_CAPS(self->sink);
    GST_PAD_SET_PROXY_CAPS(self->src);
    gst_pad_set_chain_function(self->feedback, feedback_chain);
    gst_pad_set_event_function(self->feedback, feedback_event);
}
