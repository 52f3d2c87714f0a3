#include "stream.h"

#define MAP "payload-type-map=application/x-rtp-pt-map,96=(uint)97"

/* ---- what comes out */

/* Counts a packet, and a retransmission where the sending side is measured. */
static void count(stream *s, GstBuffer *buffer) {
    guint8 type = 0;
    gst_buffer_extract(buffer, 1, &type, 1);
    g_mutex_lock(&s->lock);
    s->came++;
    if (s->sends && (type & 127) == RTX_TYPE) s->repairs++;
    g_mutex_unlock(&s->lock);
}

static GstFlowReturn take(GstPad *pad, GstObject *parent, GstBuffer *buffer) {
    (void)parent;
    count(gst_pad_get_element_private(pad), buffer);
    gst_buffer_unref(buffer);
    return GST_FLOW_OK;
}

static gboolean take_event(GstPad *pad, GstObject *parent, GstEvent *event) {
    (void)pad, (void)parent;
    gst_event_unref(event);
    return TRUE;
}

/* ---- what is asked for, as ours says it in a NACK, and GStreamer's elements in an event that goes upstream */

static GstFlowReturn take_nack(GstPad *pad, GstObject *parent, GstBuffer *buffer) {
    stream *s = gst_pad_get_element_private(pad);
    GstMapInfo map;
    (void)parent;
    gst_buffer_map(buffer, &map, GST_MAP_READ);
    for (gsize at = 12; at + 4 <= map.size; at += 4) {
        guint16 pid = GST_READ_UINT16_BE(map.data + at), blp = GST_READ_UINT16_BE(map.data + at + 2);
        ask_for(s, pid);
        for (guint i = 0; i < 16; i++)
            if (blp >> i & 1) ask_for(s, (guint16)(pid + i + 1));
    }
    gst_buffer_unmap(buffer, &map);
    gst_buffer_unref(buffer);
    return GST_FLOW_OK;
}

static gboolean take_request(GstPad *pad, GstObject *parent, GstEvent *event) {
    guint number;
    if (gst_event_has_name(event, "GstRTPRetransmissionRequest") &&
        gst_structure_get_uint(gst_event_get_structure(event), "seqnum", &number))
        ask_for(gst_pad_get_element_private(pad), (guint16)number);
    return take_event(pad, parent, event);
}

/* ---- pads, which belong to no element */

static GstPad *make_pad(stream *s, const gchar *name, GstPadDirection direction, GstPadChainFunction chain) {
    GstPad *pad = gst_pad_new(name, direction);
    gst_pad_set_element_private(pad, s);
    gst_pad_set_event_function(pad, direction == GST_PAD_SRC ? take_request : take_event);
    if (chain) gst_pad_set_chain_function(pad, chain);
    gst_pad_set_active(pad, TRUE);
    return pad;
}

static gboolean link_pads(GstPad *from, GstPad *to) { return from && to && gst_pad_link(from, to) == GST_PAD_LINK_OK; }

/* The elements' pad of a name: one that is there, or one on request. */
static GstPad *pad_of(stream *s, const gchar *element, const gchar *name) {
    GstElement *found = gst_bin_get_by_name(GST_BIN(s->pipeline), element);
    GstPad *pad = gst_element_get_static_pad(found, name);
    if (!pad) pad = gst_element_request_pad_simple(found, name);
    gst_object_unref(found);
    return pad;
}

static void begin_pad(GstPad *pad, const gchar *caps_text) {
    GstCaps *caps = gst_caps_from_string(caps_text);
    GstSegment segment;
    gst_segment_init(&segment, GST_FORMAT_TIME);
    gst_pad_push_event(pad, gst_event_new_stream_start(GST_PAD_NAME(pad)));
    gst_pad_push_event(pad, gst_event_new_caps(caps));
    gst_pad_push_event(pad, gst_event_new_segment(&segment));
    gst_caps_unref(caps);
}

/* ---- the elements. The latency is long, so that a process that others hold up loses nothing. */

typedef struct middle {
    const gchar *elements, *last_pad, *feedback; /* the first is `first`, the last `last`, and its feedback's pad this one */
} middle;

static const middle OURS[] = {
    {"gozdritrecv name=last rtx-ssrc=572662306 max-size-packets=8192 latency=1000", "src", "feedback_src"},
    {"gozdritsend name=last rtx-ssrc=572662306 max-size-packets=1024", "src", "feedback_sink"},
};
static const middle THEIRS[] = {
    {"rtprtxreceive name=first " MAP " ! rtpssrcdemux ! rtpjitterbuffer name=last do-retransmission=true latency=1000", "src", NULL},
    {"rtprtxsend name=first " MAP " ssrc-map=application/x-rtp-ssrc-map,286331153=(uint)572662306 max-size-packets=1024"
     " ! last.send_rtp_sink rtpsession name=last rtp-profile=avpf", "send_rtp_src", "recv_rtcp_sink"},
};

static gboolean link_between(stream *s, const middle *m, gboolean ours) {
    GstElement *bin = gst_parse_bin_from_description(m->elements, FALSE, NULL);
    if (!bin) return FALSE;
    gst_bin_add(GST_BIN(s->pipeline), bin);
    gst_element_set_state(s->pipeline, GST_STATE_PLAYING);
    gst_element_get_state(s->pipeline, NULL, NULL, GST_CLOCK_TIME_NONE);
    if (m->feedback) {
        s->feedback = make_pad(s, "feedback", s->sends ? GST_PAD_SRC : GST_PAD_SINK, s->sends ? NULL : take_nack);
        GstPad *theirs = pad_of(s, "last", m->feedback);
        if (!(s->sends ? link_pads(s->feedback, theirs) : link_pads(theirs, s->feedback))) return FALSE;
    }
    return link_pads(s->in, pad_of(s, ours ? "last" : "first", "sink")) && link_pads(pad_of(s, "last", m->last_pad), s->out);
}

gboolean put_between(stream *s, const gchar *kind) {
    gboolean ours = g_str_equal(kind, "ours"), linked;
    s->pipeline = gst_pipeline_new(NULL);
    s->in = make_pad(s, "in", GST_PAD_SRC, NULL);
    s->out = make_pad(s, "out", GST_PAD_SINK, take);
    if (g_str_equal(kind, "neither")) {
        gst_element_set_state(s->pipeline, GST_STATE_PLAYING);
        linked = link_pads(s->in, s->out);
    } else {
        linked = link_between(s, &(ours ? OURS : THEIRS)[s->sends], ours);
    }
    if (!linked) return FALSE;
    begin_pad(s->in, "application/x-rtp,media=video,clock-rate=90000,encoding-name=X,payload=96,ssrc=(uint)286331153,"
                     "rtcp-fb-nack=(boolean)true,seqnum-base=(uint)0,seqnum-offset=(uint)0");
    if (s->sends && s->feedback) begin_pad(s->feedback, "application/x-rtcp");
    return TRUE;
}
