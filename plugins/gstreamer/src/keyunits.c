#include "keyunits.h"

enum { PAYLOAD_FEEDBACK = 206, PLI = 1, FIR = 4 };

/* The length of a packet of a PLI, and of a FIR for one SSRC. */
enum { PLI_LENGTH = 12, FIR_LENGTH = 20 };

/* What one packet asks for: it has a whole header, and `length` octets. */
static guint read_packet(const guint8 *octets, gsize length, key_request *requests, guint room) {
    guint count = 0, format = octets[0] & 31;
    if (octets[1] != PAYLOAD_FEEDBACK || length < PLI_LENGTH) return 0;
    guint32 from = GST_READ_UINT32_BE(octets + 4);
    if (format == PLI && room > 0) requests[count++] = (key_request){.from = from, .media = GST_READ_UINT32_BE(octets + 8)};
    for (gsize at = PLI_LENGTH; format == FIR && at + 8 <= length && count < room; at += 8)
        requests[count++] = (key_request){from, GST_READ_UINT32_BE(octets + at), TRUE, octets[at + 4]};
    return count;
}

guint key_requests_read(const guint8 *octets, gsize length, key_request requests[MOST_REQUESTS]) {
    guint count = 0;
    for (gsize at = 0; at + 4 <= length && octets[at] >> 6 == 2;) {
        gsize words = GST_READ_UINT16_BE(octets + at + 2), packet = 4 * (words + 1);
        if (at + packet > length) break;
        count += read_packet(octets + at, packet, requests + count, MOST_REQUESTS - count);
        at += packet;
    }
    return count;
}

GstBuffer *key_request_write(const key_request *request) {
    guint8 octets[FIR_LENGTH] = {0x80 | PLI, PAYLOAD_FEEDBACK, 0, PLI_LENGTH / 4 - 1};
    GST_WRITE_UINT32_BE(octets + 4, request->from);
    if (!request->is_full) {
        GST_WRITE_UINT32_BE(octets + 8, request->media);
        return gst_buffer_new_memdup(octets, PLI_LENGTH);
    }
    octets[0] = 0x80 | FIR;
    octets[3] = FIR_LENGTH / 4 - 1;
    GST_WRITE_UINT32_BE(octets + 12, request->media); /* that of the header is 0 (RFC 5104, section 4.3.1.2) */
    octets[16] = request->number;
    return gst_buffer_new_memdup(octets, FIR_LENGTH);
}

GstEvent *key_request_event(const key_request *request) {
    GstStructure *told = gst_structure_new("GstForceKeyUnit", "ssrc", G_TYPE_UINT, request->media, "running-time", GST_TYPE_CLOCK_TIME,
                                           GST_CLOCK_TIME_NONE, "all-headers", G_TYPE_BOOLEAN, request->is_full, "count", G_TYPE_UINT, 0, NULL);
    return gst_event_new_custom(GST_EVENT_CUSTOM_UPSTREAM, told);
}

gboolean key_request_parse(const GstEvent *event, guint32 media, gboolean *is_full) {
    const GstStructure *told = gst_event_get_structure((GstEvent *)event);
    guint ssrc;
    if (!told || !gst_structure_has_name(told, "GstForceKeyUnit")) return FALSE;
    if (gst_structure_get_uint(told, "ssrc", &ssrc) && ssrc != media) return FALSE;
    if (!gst_structure_get_boolean(told, "all-headers", is_full)) *is_full = FALSE;
    return TRUE;
}
