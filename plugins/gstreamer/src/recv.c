/**
 * SECTION:element-gozdritrecv
 * @title: gozdritrecv
 * @short_description: receives RTP packets, and asks for those that were lost
 * @see_also: gozdritsend, rtpjitterbuffer, rtprtxreceive
 *
 * Takes the media and the retransmissions of one RTP stream (RFC 4588, SSRC multiplexing), puts the packets into their
 * order, and asks the far side for those that are missing, by generic NACKs (RFC 4585), which leave by `feedback_src`. A
 * packet goes out as soon as all before it did, or were given up after #GstGozdritRecv:latency.
 *
 * The times of packets are made from their RTP timestamps, so that those of a repaired packet are in line with its
 * neighbours'. The caps have to tell the clock rate, but for static payload types. What the caps don't tell of the session,
 * and no property does, is taken from the first packet: `payload` and `ssrc`. They may tell `rtx-payload-type` or, as
 * rtprtxsend has it, `rtx-payload`, `rtx-ssrc` (or an attribute `a-ssrc-group`, "FID media rtx"), and `seqnum-base`: then what is
 * lost of the first packets is asked for too. Caps of the retransmissions themselves, `encoding-name=RTX` with `apt` as SDP has
 * it, tell both types, and go no further; they count behind caps of the media and before its first packet, as a funnel before
 * the element has them. Where the caps say `rtcp-fb-nack=false`, nothing is asked for.
 *
 * An event `GstForceKeyUnit` that comes from downstream leaves by `feedback_src` as a PLI, or as a FIR where all headers are wanted, where
 * the caps say `rtcp-fb-nack-pli` or `rtcp-fb-ccm-fir`.
 *
 * Where nothing names the SSRC of the media and `feedback_src` is linked, who comes first has the session, and keeps it with two packets in every
 * second. It falls to another sender with the tenth packet in sequence, where its own one never sent ten, or sends less than 1.8 a second
 * meanwhile; and behind a second of silence to the next packet of anybody. Where packets have a #GstNetAddressMeta, as those of an udpsrc have, a
 * sender is an address and an SSRC. What others send is dropped, and counted as `strays` in #GstGozdritRecv:stats. With #GstGozdritRecv:peer nobody
 * else is heard at all.
 *
 * Where `feedback_src` is not linked, the element is one between others, as the auxiliary receiver of an rtpbin: it asks by events
 * `GstRTPRetransmissionRequest` that go upstream, packets of other streams and types go through, and media that are flagged as
 * retransmissions are repairs. With #GstGozdritRecv:payload-type-map each SSRC is a stream there that is repaired, unless caps or properties name
 * the one.
 *
 * Where somebody answers #GstGozdritRecv::request-pt-map as it begins, or took the pad `sink_rtcp` and not `feedback_src`, it stands in the
 * place of an rtpjitterbuffer, as an rtpbin has it from `request-jitterbuffer`: all packets of its stream are media, of whatever types, it asks by those
 * events where #GstGozdritRecv:do-retransmission is set. Wherever it stands, it tells sender reports that come by `sink_rtcp` by
 * #GstGozdritRecv::handle-sync.
 *
 * ## Example pipeline
 * |[
 * gst-launch-1.0 udpsrc port=6004 caps=application/x-rtp,media=video,clock-rate=90000,encoding-name=VP8,payload=96
 *     ! gozdritrecv name=r latency=200 ! rtpvp8depay ! vp8dec ! autovideosink
 *     r.feedback_src ! udpsink host=127.0.0.1 port=6005
 * ]|
 */
#include "recv.h"

static GstStaticPadTemplate sink_template =
    GST_STATIC_PAD_TEMPLATE("sink", GST_PAD_SINK, GST_PAD_ALWAYS, GST_STATIC_CAPS("application/x-rtp"));
static GstStaticPadTemplate src_template =
    GST_STATIC_PAD_TEMPLATE("src", GST_PAD_SRC, GST_PAD_ALWAYS, GST_STATIC_CAPS("application/x-rtp"));
static GstStaticPadTemplate feedback_template =
    GST_STATIC_PAD_TEMPLATE("feedback_src", GST_PAD_SRC, GST_PAD_ALWAYS, GST_STATIC_CAPS("application/x-rtcp"));

static GstStaticPadTemplate reports_template =
    GST_STATIC_PAD_TEMPLATE("sink_rtcp", GST_PAD_SINK, GST_PAD_REQUEST, GST_STATIC_CAPS("application/x-rtcp"));

G_DEFINE_TYPE(GstGozdritRecv, gst_gozdrit_recv, GST_TYPE_ELEMENT)

/* ---- packets */

/* Says what the library refused, once where it is the packet that is to blame, and as an error where it is the session. */
static GstFlowReturn tell_refusal(GstGozdritRecv *self, gint32 number, gsize length) {
    if (number == GOZDRIT_TOO_LONG) {
        if (!self->warned)
            GST_ELEMENT_WARNING(self, STREAM, FORMAT, ("A packet is too long to be taken, and is dropped, as others may be."),
                                ("it has %" G_GSIZE_FORMAT " octets, and this build of the library takes %d of a payload and %d "
                                 "words of a header extension",
                                 length, GOZDRIT_MAX_PAYLOAD, GOZDRIT_MAX_EXTENSION_WORDS));
        self->warned = TRUE;
        return GST_FLOW_OK;
    }
    GST_ELEMENT_ERROR(self, STREAM, FORMAT, ("The session can't begin."),
                      ("%s: two of the payload types or SSRCs are equal, or a type is 64 to 95", gozdrit_refusal_name(number)));
    return GST_FLOW_ERROR;
}

static void tell_strangers(GstGozdritRecv *self, const stranger_told *of) {
    gchar *address = strangers_address_text(&of->last.from);
    GST_ELEMENT_WARNING(self, STREAM, FAILED, ("Packets of another sender are dropped."),
                        ("%" G_GUINT64_FORMAT " since that was told last; SSRC %08x, from %s", of->dropped, of->last.ssrc, address));
    g_free(address);
}

/* What is told without the lock. */
static GstFlowReturn tell(GstGozdritRecv *self, const untold *of, gsize length) {
    if (of->type >= 0)
        GST_ELEMENT_WARNING(self, STREAM, WRONG_TYPE, ("A packet of another payload type is dropped, as others may be."),
                            ("its type is %d, and that of the caps or of payload-type is not", of->type));
    if (of->is_crowded)
        GST_ELEMENT_WARNING(self, LIBRARY, SETTINGS, ("No more than %d streams are repaired at once.", MOST_RECEIVED),
                            ("packets of another one go out as they came, as others may"));
    if (of->strangers.dropped > 0) tell_strangers(self, &of->strangers);
    return of->refused == GOZDRIT_OK ? GST_FLOW_OK : tell_refusal(self, of->refused, length);
}

static GstFlowReturn chain(GstPad *pad, GstObject *parent, GstBuffer *buffer) {
    GstGozdritRecv *self = GST_GOZDRIT_RECV(parent);
    untold found = NOTHING_UNTOLD;
    gsize length = 0;
    GstMapInfo map;
    (void)pad;
    g_mutex_lock(&self->lock);
    ptmap_ask(self, buffer);
    GstFlowReturn flow = self->flow;
    if (flow == GST_FLOW_OK && gst_buffer_map(buffer, &map, GST_MAP_READ)) {
        guint64 now = receiving_now(self);
        length = map.size;
        receiving_packet(self, buffer, map.data, map.size, now);
        gst_buffer_unmap(buffer, &map);
        gst_clear_buffer(&buffer); /* what goes out at once is then nobody's but its own, and is written to */
        playing_all(self, now);
        feedback_schedule(self);
        found = self->untold;
        self->untold = NOTHING_UNTOLD;
    }
    gboolean reported = self->sync.last.buffer != NULL; /* what came before the first packet */
    GstMessage *dropped = g_steal_pointer(&self->drops.next);
    g_mutex_unlock(&self->lock);
    gst_clear_buffer(&buffer);
    if (reported) sync_tell(self);
    if (dropped) gst_element_post_message(GST_ELEMENT(self), dropped);
    GstFlowReturn told = tell(self, &found, length);
    return told == GST_FLOW_OK ? flow : told;
}

/* ---- events and queries */

/* Both streams are flushed: at the end of the media, that of feedback has ended too. */
static void flush_start(GstGozdritRecv *self, GstEvent *event) {
    tasks_halt(self);
    gst_pad_push_event(self->feedback, gst_event_ref(event));
    gst_pad_push_event(self->src, event);
    gst_pad_pause_task(self->src);
    gst_pad_pause_task(self->feedback);
}

static void flush_stop(GstGozdritRecv *self, GstEvent *event) {
    g_mutex_lock(&self->lock);
    receiving_flush(self);
    gst_segment_init(&self->segment, GST_FORMAT_UNDEFINED);
    g_mutex_unlock(&self->lock);
    gst_pad_push_event(self->feedback, gst_event_ref(event));
    gst_pad_push_event(self->src, event);
    tasks_start(self);
}

/* Keeps what an event tells, and puts it behind the packets that came before it. Where downstream wanted no more packets, it
 * still gets the events, as that of the end, and packets again from the next segment on. */
static gboolean take_serialized(GstGozdritRecv *self, GstEvent *event) {
    GstCaps *caps;
    g_mutex_lock(&self->lock);
    if (self->flow == GST_FLOW_EOS && GST_EVENT_TYPE(event) == GST_EVENT_SEGMENT) self->flow = GST_FLOW_OK;
    gboolean taken = self->flow == GST_FLOW_OK || self->flow == GST_FLOW_EOS, goes_on = TRUE;
    if (taken && GST_EVENT_TYPE(event) == GST_EVENT_CAPS) {
        gst_event_parse_caps(event, &caps);
        goes_on = receiving_caps(self, caps);
    } else if (taken && GST_EVENT_TYPE(event) == GST_EVENT_SEGMENT) {
        gst_event_copy_segment(event, &self->segment);
    } else if (taken && GST_EVENT_TYPE(event) == GST_EVENT_EOS) {
        self->ending = TRUE;
    } else if (taken && GST_EVENT_TYPE(event) == GST_EVENT_STREAM_START) {
        self->ending = FALSE;
    }
    if (taken && goes_on) playing_event(self, event);
    g_mutex_unlock(&self->lock);
    if (!taken || !goes_on) gst_event_unref(event);
    return taken;
}

static gboolean sink_event(GstPad *pad, GstObject *parent, GstEvent *event) {
    GstGozdritRecv *self = GST_GOZDRIT_RECV(parent);
    (void)pad;
    if (GST_EVENT_TYPE(event) == GST_EVENT_FLUSH_START) flush_start(self, event);
    else if (GST_EVENT_TYPE(event) == GST_EVENT_FLUSH_STOP) flush_stop(self, event);
    else if (GST_EVENT_IS_SERIALIZED(event)) return take_serialized(self, event);
    else return gst_pad_push_event(self->src, event);
    return TRUE;
}

/* Adds caps of the retransmissions to those that downstream takes. */
static void add_rtx_caps(GstQuery *query) {
    GstCaps *filter, *taken, *rtx = gst_caps_new_simple("application/x-rtp", "encoding-name", G_TYPE_STRING, "RTX", NULL);
    gst_query_parse_caps(query, &filter);
    gst_query_parse_caps_result(query, &taken);
    if (filter) {
        GstCaps *both = gst_caps_intersect_full(filter, rtx, GST_CAPS_INTERSECT_FIRST);
        gst_caps_unref(rtx);
        rtx = both;
    }
    taken = gst_caps_merge(gst_caps_copy(taken), rtx);
    gst_query_set_caps_result(query, taken);
    gst_caps_unref(taken);
}

/* A serialized query is not answered, since what is before it is waited for. What caps may come is asked of downstream, but caps of the
 * retransmissions end here. */
static gboolean sink_query(GstPad *pad, GstObject *parent, GstQuery *query) {
    GstCaps *caps;
    if (GST_QUERY_IS_SERIALIZED(query)) return FALSE;
    if (GST_QUERY_TYPE(query) == GST_QUERY_ACCEPT_CAPS) {
        gst_query_parse_accept_caps(query, &caps);
        if (receiving_is_rtx(caps)) {
            gst_query_set_accept_caps_result(query, TRUE);
            return TRUE;
        }
    }
    gboolean answered = gst_pad_query_default(pad, parent, query);
    if (answered && GST_QUERY_TYPE(query) == GST_QUERY_CAPS) add_rtx_caps(query);
    return answered;
}

static gboolean src_query(GstPad *pad, GstObject *parent, GstQuery *query) {
    GstGozdritRecv *self = GST_GOZDRIT_RECV(parent);
    GstClockTime least, most;
    gboolean live;
    if (GST_QUERY_TYPE(query) != GST_QUERY_LATENCY) return gst_pad_query_default(pad, parent, query);
    if (!gst_pad_peer_query(self->sink, query)) return FALSE;
    gst_query_parse_latency(query, &live, &least, &most);
    g_mutex_lock(&self->lock);
    least += self->settings.latency * MILLISECOND;
    g_mutex_unlock(&self->lock);
    gst_query_set_latency(query, TRUE, least, GST_CLOCK_TIME_NONE);
    return TRUE;
}

/* A key frame that downstream wants is asked for by a datagram where feedback_src is linked and the caps allow it, and else by whoever is
 * upstream. What a jitter
 * buffer behind this element asks for of its stream was asked for here, and given up. */
static gboolean src_event(GstPad *pad, GstObject *parent, GstEvent *event) {
    GstGozdritRecv *self = GST_GOZDRIT_RECV(parent);
    if (!feedback_key_unit(self, event) && !auxiliary_request(self, event)) return gst_pad_event_default(pad, parent, event);
    gst_event_unref(event);
    return TRUE;
}

/* Feedback is sent at once. */
static gboolean feedback_query(GstPad *pad, GstObject *parent, GstQuery *query) {
    if (GST_QUERY_TYPE(query) != GST_QUERY_LATENCY) return gst_pad_query_default(pad, parent, query);
    gst_query_set_latency(query, FALSE, 0, GST_CLOCK_TIME_NONE);
    return TRUE;
}

static GstIterator *linked_inside(GstPad *pad, GstObject *parent) {
    GstGozdritRecv *self = GST_GOZDRIT_RECV(parent);
    GValue value = G_VALUE_INIT;
    if (pad == self->feedback) return NULL;
    g_value_init(&value, GST_TYPE_PAD);
    g_value_set_object(&value, pad == self->sink ? self->src : self->sink);
    GstIterator *found = gst_iterator_new_single(GST_TYPE_PAD, &value);
    g_value_unset(&value);
    return found;
}

/* ---- states */

/* What it stands in the place of is seen as it begins: somebody answers what a jitter buffer asks, or took the pad of reports, and not that of
 * feedback. */
static void begin_in_place(GstGozdritRecv *self, gboolean is_answered) {
    self->in_place = is_answered || (self->reports && !feedback_is_taken(self));
    self->is_playing = FALSE;
    self->npt_due = G_MAXUINT64;
    self->last_out = self->offset.frame = GST_CLOCK_TIME_NONE;
    self->pushed = self->given_up = 0;
    self->has_dropped = FALSE;
    self->drops = (drop_messages){0};
    ptmap_forget(self);
    sync_forget(self);
}

static void begin(GstGozdritRecv *self) {
    gboolean is_answered = ptmap_is_answered(self);
    g_mutex_lock(&self->lock);
    element_time_begin(&self->time, GST_ELEMENT(self));
    begin_in_place(self, is_answered);
    self->caps = (recv_caps){-1, -1, -1, -1, -1, -1, -1, FALSE, FALSE, -1, 0, -1};
    self->past = (gozdrit_receive_counts)GOZDRIT_RECEIVE_COUNTS_INIT;
    self->past_probes = (gozdrit_probe_counts)GOZDRIT_PROBE_COUNTS_INIT;
    self->sessions = self->strays = self->unwanted = self->key_requests = self->passed = self->dropped = self->rtx_came = self->unclaimed = 0;
    self->crowd_told = FALSE;
    self->other = (candidate){0};
    strangers_reset(&self->strangers);
    self->key_wanted = FALSE;
    self->untold = NOTHING_UNTOLD;
    self->warned = FALSE;
    self->timer_until = 0;
    gst_segment_init(&self->segment, GST_FORMAT_UNDEFINED);
    rtp_times_begin(&self->stream->times, 0);
    playing_begin_stream(self);
    guint window = self->settings.window;
    g_mutex_unlock(&self->lock);
    if (window == 0 || window > GOZDRIT_MAX_STORE)
        GST_ELEMENT_WARNING(self, LIBRARY, SETTINGS, ("No more than %d packets are kept while one is missing.", GOZDRIT_MAX_STORE),
                            ("max-size-packets is %u, and that is the most that the library keeps", window));
}

/* The counts can still be read. A message has a reference of the element, and is not kept by it. */
static void end(GstGozdritRecv *self) {
    g_mutex_lock(&self->lock);
    receiving_end_all(self);
    strangers_forget(&self->strangers);
    playing_clear(self);
    streams_drop_others(self);
    element_time_end(&self->time);
    GstMessage *dropped = g_steal_pointer(&self->drops.next);
    g_mutex_unlock(&self->lock);
    if (dropped) gst_element_post_message(GST_ELEMENT(self), dropped);
}

/* A sink that is not yet PAUSED when a live pipeline goes on to PLAYING stays behind until all sinks are PAUSED, that of the media
 * too, and takes no NACK: then what is lost of the first frame could not be asked for. Its gap event is under way. */
static void wait_for_feedback_sink(GstGozdritRecv *self) {
    GstPad *peer = pad_behind(self->feedback);
    GstElement *next = peer ? gst_pad_get_parent_element(peer) : NULL;
    if (next) gst_element_get_state(next, NULL, NULL, 100 * GST_MSECOND);
    gst_clear_object(&next);
    gst_clear_object(&peer);
}

/* What stands still on behalf of a pause comes to no end meanwhile. */
static void set_playing(GstGozdritRecv *self, gboolean is_playing) {
    g_mutex_lock(&self->lock);
    self->is_playing = is_playing;
    self->npt_due = G_MAXUINT64;
    feedback_wake(self);
    g_mutex_unlock(&self->lock);
}

static GstStateChangeReturn change_state(GstElement *element, GstStateChange change) {
    GstGozdritRecv *self = GST_GOZDRIT_RECV(element);
    if (change == GST_STATE_CHANGE_READY_TO_PAUSED) begin(self);
    if (change == GST_STATE_CHANGE_PAUSED_TO_PLAYING || change == GST_STATE_CHANGE_PLAYING_TO_PAUSED)
        set_playing(self, change == GST_STATE_CHANGE_PAUSED_TO_PLAYING);
    GstStateChangeReturn done = GST_ELEMENT_CLASS(gst_gozdrit_recv_parent_class)->change_state(element, change);
    if (change == GST_STATE_CHANGE_READY_TO_PAUSED) wait_for_feedback_sink(self);
    if (change == GST_STATE_CHANGE_PAUSED_TO_READY) end(self);
    return done;
}

/* The pipeline's clock: what waits for the one before waits for this one. */
static gboolean set_clock(GstElement *element, GstClock *clock) {
    GstGozdritRecv *self = GST_GOZDRIT_RECV(element);
    g_mutex_lock(&self->lock);
    element_time_switch(&self->time, clock);
    feedback_wake(self);
    g_mutex_unlock(&self->lock);
    return GST_ELEMENT_CLASS(gst_gozdrit_recv_parent_class)->set_clock(element, clock);
}

static void finalize(GObject *object) {
    GstGozdritRecv *self = GST_GOZDRIT_RECV(object);
    gst_clear_buffer(&self->other.buffer);
    strangers_forget(&self->strangers);
    playing_clear(self);
    streams_free(self);
    element_time_end(&self->time);
    gst_queue_array_free(self->ready);
    sync_forget(self);
    g_clear_pointer(&self->sync.names, g_hash_table_destroy);
    type_map_set(&self->types, NULL);
    g_clear_pointer(&self->ssrcs, gst_structure_free);
    peers_clear(&self->peers);
    g_cond_clear(&self->timer_cond);
    g_cond_clear(&self->ready_cond);
    g_mutex_clear(&self->starting);
    g_mutex_clear(&self->lock);
    G_OBJECT_CLASS(gst_gozdrit_recv_parent_class)->finalize(object);
}

/* ---- the class */

static void gst_gozdrit_recv_class_init(GstGozdritRecvClass *class) {
    GstElementClass *element = GST_ELEMENT_CLASS(class);
    GObjectClass *object = G_OBJECT_CLASS(class);
    object->set_property = properties_set;
    object->get_property = properties_get;
    object->finalize = finalize;
    element->change_state = change_state;
    element->set_clock = set_clock;
    element->request_new_pad = sync_request_pad;
    element->release_pad = sync_release_pad;
    properties_install(object);
    ptmap_install(object);
    sync_install(object);
    jitter_install(object);
    gst_element_class_add_static_pad_template(element, &sink_template);
    gst_element_class_add_static_pad_template(element, &src_template);
    gst_element_class_add_static_pad_template(element, &feedback_template);
    gst_element_class_add_static_pad_template(element, &reports_template);
    gst_element_class_set_static_metadata(element, "RTP receiver that asks for what was lost", "Filter/Network/RTP",
                                          "Receives RTP packets, and asks for the lost ones by generic NACK (RFC 4585, RFC 4588)",
                                          "Gozdrit maintainers");
}

static GstPad *add_pad(GstGozdritRecv *self, GstStaticPadTemplate *template) {
    GstPad *pad = gst_pad_new_from_static_template(template, template->name_template);
    gst_pad_set_iterate_internal_links_function(pad, linked_inside);
    gst_element_add_pad(GST_ELEMENT(self), pad);
    return pad;
}

static void init_pads(GstGozdritRecv *self) {
    self->sink = add_pad(self, &sink_template);
    self->src = add_pad(self, &src_template);
    self->feedback = add_pad(self, &feedback_template);
    gst_pad_set_chain_function(self->sink, chain);
    gst_pad_set_event_function(self->sink, sink_event);
    gst_pad_set_query_function(self->sink, sink_query);
    gst_pad_set_event_function(self->src, src_event);
    gst_pad_set_query_function(self->src, src_query);
    gst_pad_set_query_function(self->feedback, feedback_query);
    gst_pad_set_activatemode_function(self->src, tasks_activate);
    gst_pad_set_activatemode_function(self->feedback, tasks_activate);
    GST_PAD_SET_PROXY_CAPS(self->sink);
    GST_PAD_SET_PROXY_CAPS(self->src);
}

static void gst_gozdrit_recv_init(GstGozdritRecv *self) {
    self->settings = (recv_settings){.latency = 200, .delay = 20, .retry = -1, .nacks = 8, .window = 1024, .earns_nacks = TRUE, .ssrc = SSRC_UNSET,
                                     .rtx_ssrc = SSRC_UNSET, .receiver_ssrc = SSRC_UNSET, .type = -1, .rtx_type = -1,
                                     .drops_interval = 200, .most_ahead = 1000, .mode = MODE_SLAVE};
    g_mutex_init(&self->starting);
    g_mutex_init(&self->lock);
    g_cond_init(&self->ready_cond);
    g_cond_init(&self->timer_cond);
    streams_begin(self);
    self->ready = gst_queue_array_new(64);
    type_map_set(&self->types, NULL);
    init_pads(self);
}
