#include "rids.h"

#include <string.h>

/* The part of an extension whose elements are still to be read. */
typedef struct reader {
    const guint8 *at, *end;
    gsize head; /* octets in front of what an element says: 1 or 2 */
} reader;

typedef struct element {
    const guint8 *octets; /* `length` of them, with the head */
    gsize length;
    guint id;
} element;

/* The octets of an element's head in an extension of that profile (RFC 8285, sections 4.2 and 4.3), or 0 where it has no elements. */
static gsize head_of(guint16 profile) { return profile == 0xbede ? 1 : profile >> 4 == 0x100 ? 2 : 0; }

static guint id_at(const reader *from) { return from->head == 1 ? *from->at >> 4 : *from->at; }

/* Reads the next element. There is none behind the id 15 of the short form, which ends all, nor where one is longer than what is left. */
static gboolean next_element(reader *from, element *next) {
    while (from->at < from->end && id_at(from) == 0) from->at++; /* padding */
    gsize left = (gsize)(from->end - from->at);
    if (left < 2) return FALSE; /* no element of either form is shorter */
    next->octets = from->at;
    next->id = id_at(from);
    next->length = 2u + (from->head == 1 ? *from->at & 15u : from->at[1]); /* the short form has one octet more than it tells */
    if (next->length > left || (from->head == 1 && next->id == 15)) return FALSE;
    from->at += next->length;
    return TRUE;
}

static gboolean has_element(reader from, guint id) {
    element one;
    while (next_element(&from, &one))
        if (one.id == id) return TRUE;
    return FALSE;
}

/* Writes the elements anew where they stand, whole words of them, and gives the end. */
static guint8 *write_elements(const rid_ids *ids, reader from, guint8 *to) {
    element one;
    guint8 *begin = to;
    while (next_element(&from, &one)) {
        gboolean is_rid = one.id == ids->stream;
        if (is_rid && ids->repaired == 0) continue;
        memmove(to, one.octets, one.length);
        if (is_rid) *to = (guint8)(from.head == 1 ? ids->repaired << 4 | (*to & 15u) : ids->repaired);
        to += one.length;
    }
    while ((to - begin) % 4 != 0) *to++ = 0;
    return to;
}

gsize rids_rename(rid_ids *ids, guint8 *octets, gsize length) {
    guint8 *extension = octets + 12 + 4 * (octets[0] & 15);
    if (ids->stream == 0 || (octets[0] & 16) == 0) return length;
    const guint8 *behind = extension + 4 + 4 * GST_READ_UINT16_BE(extension + 2);
    reader from = {.at = extension + 4, .end = behind, .head = head_of(GST_READ_UINT16_BE(extension))};
    if (from.head == 0 || !has_element(from, ids->stream)) return length;
    if (ids->repaired > (from.head == 1 ? 14 : 255)) {
        ids->is_unfit = TRUE;
        return length;
    }
    guint8 *end = write_elements(ids, from, extension + 4);
    memmove(end, behind, (gsize)(octets + length - behind));
    GST_WRITE_UINT16_BE(extension + 2, (guint16)((end - extension) / 4 - 1));
    return length - (gsize)(behind - end);
}
