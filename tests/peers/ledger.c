/* The ledger of a path: RTP is told apart by its SSRC and its payload type, and NACKs by the SSRC of their media. */
#define _POSIX_C_SOURCE 200809L
#include "ledger.h"

#include <inttypes.h>

static void mark_media(ledger *book, uint32_t number, bool lost) {
    book->media++;
    book->lost += lost;
    book->highest = number;
    book->marks[number] = (uint8_t)(SENT | (lost ? LOST : CAME));
}

static void mark_retransmission(ledger *book, uint32_t number, bool lost) {
    uint8_t *mark = &book->marks[number];
    book->rtx++;
    book->rtx_lost += lost;
    if (lost) return;
    if (number == book->highest && *mark & CAME) book->last++;
    else if (*mark & CAME) book->useless++;
    else book->repaired++;
    *mark |= CAME;
}

void mark_rtp(ledger *books, size_t count, const uint8_t *octets, size_t length, bool lost) {
    if (length < 14) return;
    uint32_t ssrc = number32(octets + 8), type = octets[1] & 127u;
    size_t front = 12 + 4 * (size_t)(octets[0] & 15);
    if (octets[0] & 16 && front + 4 <= length) front += 4 + 4 * (size_t)number16(octets + front + 2);
    for (size_t i = 0; i < count; i++) {
        const stream *of = &books[i].of;
        if (ssrc == of->media && type == of->type) mark_media(&books[i], number16(octets + 2), lost);
        if (ssrc == of->rtx && type == of->rtx_type && front + 2 <= length) {
            mark_retransmission(&books[i], number16(octets + front), lost);
        }
    }
}

static void mark_named(ledger *book, uint32_t number) {
    uint8_t *mark = &book->marks[number & 65535];
    if (!(*mark & LOST)) {
        book->vain++;
    } else if (*mark & CAME) {
        book->again++;
    } else {
        book->named++;
        book->wanted += !(*mark & NAMED);
    }
    *mark |= NAMED;
}

/* One generic NACK (RFC 4585, section 6.2.1), whose numbers stand in its words from 3 on. */
static bool mark_nack(ledger *books, size_t count, const uint8_t *octets, size_t length, size_t *of) {
    for (*of = 0; *of < count && books[*of].of.media != number32(octets + 8); ++*of) {}
    if (*of == count) return false;
    for (size_t at = 12; at + 4 <= length; at += 4) {
        uint32_t number = number16(octets + at), mask = number16(octets + at + 2);
        mark_named(&books[*of], number);
        for (uint32_t bit = 0; bit < 16; bit++)
            if (mask >> bit & 1) mark_named(&books[*of], number + 1 + bit);
    }
    return true;
}

size_t mark_nacks(ledger *books, size_t count, const uint8_t *octets, size_t length) {
    bool has[MAX_STREAMS] = {false};
    size_t streams = 0, of;
    for (size_t at = 0; at + 4 <= length;) {
        size_t size = 4 + 4 * (size_t)number16(octets + at + 2);
        if (at + size > length) break;
        if (octets[at + 1] == 205 && (octets[at] & 31) == 1 && size >= 16
            && mark_nack(books, count, octets + at, size, &of)) {
            streams += !has[of];
            has[of] = true;
        }
        at += size;
    }
    return streams;
}

void tell_ledger(const ledger *book) {
    printf("stream media %" PRIu64 " lost %" PRIu64 " rtx %" PRIu64 " rtx_lost %" PRIu64, book->media, book->lost, book->rtx,
           book->rtx_lost);
    printf(" repaired %" PRIu64 " useless %" PRIu64 " last %" PRIu64, book->repaired, book->useless, book->last);
    printf(" wanted %" PRIu64 " named %" PRIu64 " again %" PRIu64 " vain %" PRIu64 "\n", book->wanted, book->named, book->again,
           book->vain);
}
