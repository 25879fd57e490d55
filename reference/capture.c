/* A run in a capture: the slot at which its marker begins, and its slots cut out. */
#include <string.h>

#include "parts.h"
#include "reference.h"

/* Whether the marker begins at slot x; given up at the first wrong slot. */
static int marker_at(const struct run *run, const uint8_t *marker, const uint8_t *capture,
                     size_t x) {
    for (size_t i = 0; i < run->W * run->group; i++) {
        if (bit_at(capture, x + i) != (i % run->group == marker[i / run->group])) {
            return 0;
        }
    }
    return 1;
}

uint64_t reference_run_find_from(const uint8_t *header, size_t header_len, const uint8_t *marker,
                                 size_t marker_len, const uint8_t *capture, size_t capture_len,
                                 uint64_t from) {
    struct run run;
    const unsigned number = reference_ask_header(&run, header, header_len, marker, marker_len);
    if (number != MAHYREI_ACCEPTED) {
        return number;
    }
    if (marker_len != run.W || capture_len > MAHYREI_CAPTURE_BYTES_MAX) {
        return MAHYREI_BAD_LENGTH;
    }
    if (from >= 8 * capture_len) {
        return MAHYREI_NO_MARKER;
    }
    for (size_t x = from; x + run.W * run.group <= 8 * capture_len; x++) {
        if (marker_at(&run, marker, capture, x)) {
            return answer_of(MAHYREI_ACCEPTED, x);
        }
    }
    return MAHYREI_NO_MARKER;
}

uint64_t reference_run_find(const uint8_t *header, size_t header_len, const uint8_t *marker,
                            size_t marker_len, const uint8_t *capture, size_t capture_len) {
    return reference_run_find_from(header, header_len, marker, marker_len, capture, capture_len, 0);
}

uint64_t reference_run_cut(const uint8_t *header, size_t header_len, const uint8_t *capture,
                           size_t capture_len, uint64_t slot, uint8_t *slots, size_t slots_len) {
    struct run run;
    const unsigned number = reference_ask_header(&run, header, header_len, NULL, 0);
    if (number != MAHYREI_ACCEPTED) {
        return number;
    }
    if (capture_len > MAHYREI_CAPTURE_BYTES_MAX || slots_len != run.slot_bytes ||
        run.slots > 8 * capture_len || slot > 8 * capture_len - run.slots) {
        return MAHYREI_BAD_LENGTH;
    }
    memset(slots, 0, slots_len);
    for (size_t x = 0; x < run.slots; x++) {
        if (bit_at(capture, slot + x)) {
            set_bit(slots, x);
        }
    }
    return MAHYREI_ACCEPTED;
}
