/* The header extensions that a program tells a sender by signals, as it tells rtprtxsend: RtpStreamId and RepairedRtpStreamId. */
#include "send.h"

#define STREAM_URI GST_RTP_HDREXT_BASE "sdes:rtp-stream-id"
#define REPAIRED_URI GST_RTP_HDREXT_BASE "sdes:repaired-rtp-stream-id"

/* Takes an extension, or none, in the place of the one before. */
static void replace(GstGozdritSend *self, GstRTPHeaderExtension **known, GstRTPHeaderExtension *extension) {
    g_mutex_lock(&self->lock);
    GstRTPHeaderExtension *before = *known;
    *known = extension ? gst_object_ref(extension) : NULL;
    g_mutex_unlock(&self->lock);
    gst_clear_object(&before);
}

static void add_extension(GstGozdritSend *self, GstRTPHeaderExtension *extension) {
    g_return_if_fail(GST_IS_RTP_HEADER_EXTENSION(extension));
    g_return_if_fail(gst_rtp_header_extension_get_id(extension) > 0);
    const gchar *uri = gst_rtp_header_extension_get_uri(extension);
    GstRTPHeaderExtension **known = g_strcmp0(uri, STREAM_URI) == 0 ? &self->stream_id : NULL;
    if (g_strcmp0(uri, REPAIRED_URI) == 0) known = &self->repaired_id;
    if (!known) {
        g_warning("%s retransmits the header extension %s as it is, and need not be told", GST_OBJECT_NAME(self), uri);
        return;
    }
    GST_DEBUG_OBJECT(self, "%s has the id %u", uri, gst_rtp_header_extension_get_id(extension));
    replace(self, known, extension);
}

static void clear_extensions(GstGozdritSend *self) {
    replace(self, &self->stream_id, NULL); /* first: without it the other one is not looked at */
    replace(self, &self->repaired_id, NULL);
}

/* A program may set another id at any time. */
rid_ids extensions_ids(const GstGozdritSend *self) {
    rid_ids ids = {0};
    if (self->stream_id) ids.stream = gst_rtp_header_extension_get_id(self->stream_id);
    if (self->repaired_id) ids.repaired = gst_rtp_header_extension_get_id(self->repaired_id);
    return ids;
}

void extensions_tell_unfit(GstGozdritSend *self) {
    GST_ELEMENT_WARNING(self, STREAM, FORMAT, ("A retransmission does not tell which stream it repairs, as others may not."),
                        ("the id of RepairedRtpStreamId is above 14, and the packet's header extension is of the short form, which has no "
                         "such id: the retransmission has the packet's own extension"));
}

void extensions_install(GType type) {
    /**
     * GstGozdritSend::add-extension:
     * @object: the element
     * @extension: (transfer none): a #GstRTPHeaderExtension with an id
     *
     * Tells the id of RtpStreamId (`urn:ietf:params:rtp-hdrext:sdes:rtp-stream-id`), which retransmissions don't have, or that of
     * RepairedRtpStreamId (`urn:ietf:params:rtp-hdrext:sdes:repaired-rtp-stream-id`), which they have in its place, with the same text
     * (RFC 8852). All other header extensions are retransmitted as they are.
     */
    g_signal_new_class_handler("add-extension", type, G_SIGNAL_RUN_LAST | G_SIGNAL_ACTION, G_CALLBACK(add_extension), NULL, NULL, NULL,
                               G_TYPE_NONE, 1, GST_TYPE_RTP_HEADER_EXTENSION);
    /**
     * GstGozdritSend::clear-extensions:
     * @object: the element
     *
     * Forgets both: retransmissions have the header extensions of their packets.
     */
    g_signal_new_class_handler("clear-extensions", type, G_SIGNAL_RUN_LAST | G_SIGNAL_ACTION, G_CALLBACK(clear_extensions), NULL, NULL,
                               NULL, G_TYPE_NONE, 0);
}
