#include "runs/recording_search.h"

#include <stdlib.h>
#include <string.h>

/* After the step come the slots of the longest marker, 32 symbols of 320, and a byte: so a marker
 * that begins in the step lies in the copy. */
enum { STEP = 4 << 20, AFTER = MAHYREI_MARKER_MAX * 320 / 8 + 1 };

bool search_begin(struct search *search, const struct recording *recording,
                  const struct bytes *header, const struct bytes *marker) {
    *search = (struct search){.recording = recording, .size = STEP + AFTER, .step = STEP};
    search->lent.header = *header;
    search->lent.marker = *marker;
    if (!make_buffer(search->size, &search->lent.capture)) {
        return false;
    }
    search->lent.capture.len = 0;
    return true;
}

void search_free(struct search *search) {
    free(search->lent.capture.at);
    *search = (struct search){0};
}

/* Bytes of the recording, as many as there are of those that are wanted. */
static size_t copy(const struct recording *recording, uint64_t first, size_t wanted, uint8_t *to) {
    const size_t all = recording->bytes.len;
    const size_t from = first < all ? (size_t)first : all;
    const size_t len = wanted < all - from ? wanted : all - from;
    if (len > 0) {
        memcpy(to, recording->bytes.at + from, len);
    }
    return len;
}

/* Where the copy has the recording's last byte, a marker can begin in all of it. */
static bool is_last(const struct search *search) {
    return search->first + search->lent.capture.len >= search->recording->bytes.len;
}

static void move_to(struct search *search, uint64_t byte) {
    const uint64_t copied = search->lent.capture.len == 0 ? 0 : search->step;
    if (byte < search->first || byte >= search->first + copied) {
        search->first = byte;
        search->lent.capture.len =
            copy(search->recording, byte, search->size, search->lent.capture.at);
    }
}

bool search_next(struct search *search, uint64_t *from, uint64_t *answer, bool *more) {
    move_to(search, *from / 8);
    const uint64_t before = 8 * search->first, end = before + 8 * (uint64_t)search->step;
    *more = false;
    if (!library_find(&search->lent, *from - before, answer)) {
        return false;
    }
    const unsigned number = mahyrei_answer_number(*answer);
    const uint64_t slot = before + mahyrei_answer_place(*answer);
    if (number == MAHYREI_ACCEPTED && (slot < end || is_last(search))) {
        *answer = slot << 8;
    } else if (number == MAHYREI_ACCEPTED || number == MAHYREI_NO_MARKER) {
        *more = !is_last(search);
        *from = end;
    }
    return true;
}

void copy_run(const struct recording *recording, const struct sheet *run, uint64_t slot,
              struct bytes *to, uint64_t *at) {
    to->len = copy(recording, slot / 8, run->sizes.slot_bytes + 1, to->at);
    *at = slot % 8;
}
