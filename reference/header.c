/* The questions of a header, what follows from it, and the way between its two forms. */
#include <string.h>

#include "parts.h"
#include "reference.h"

static int is_factor(uint64_t copies) {
    return copies >= 1 && copies <= MAHYREI_COPIES_MAX &&
           (copies == 3 || (copies & (copies - 1)) == 0);
}

/* Questions 2 to 6, and W's range of 7, of a header of either length. */
static unsigned ask_fields(struct run *run, const uint8_t *header) {
    run->rate = bits_at(header, 0, 2);
    run->m = bits_at(header, 2, 4);
    run->N = bits_at(header, 6, 8);
    run->B = bits_at(header, 14, 9);
    run->F = bits_at(header, 23, 12);
    run->W = bits_at(header, 35, 6);
    run->A = bits_at(header, 41, 7);
    if (run->rate > 2) {
        return MAHYREI_BAD_RATE;
    }
    if (run->m < 2 || run->m > 8) {
        return MAHYREI_BAD_ORDER;
    }
    if (run->N < 1 || run->N > 128 || run->B < 1 || run->B > 256) {
        return MAHYREI_BAD_ROWS;
    }
    run->S = MAHYREI_WORD_BITS / run->m;
    if (run->N * (run->N - 1) * run->B % run->S != 0) {
        return MAHYREI_BAD_FIT;
    }
    if (run->F < 1 || run->F > 2048 || run->A < 1 || run->A > 64) {
        return MAHYREI_BAD_FRAMES;
    }
    run->M = (size_t)1 << run->m;
    return run->W < 1 || run->W > 32 ? MAHYREI_BAD_MARKER : MAHYREI_ACCEPTED;
}

/* Question 1, which covers the zeros after the fields too, and then those of ask_fields. */
static unsigned ask_form(struct run *run, const uint8_t *header, size_t header_len, size_t bytes,
                         size_t fields_end) {
    if (header_len != bytes || bits_at(header, fields_end, 8 * bytes - fields_end) != 0) {
        return MAHYREI_BAD_HEADER;
    }
    return ask_fields(run, header);
}

unsigned reference_ask_old_header(struct run *run, const uint8_t *header, size_t header_len) {
    return ask_form(run, header, header_len, MAHYREI_OLD_HEADER_BYTES, OLD_FIELDS_END);
}

unsigned reference_ask_header(struct run *run, const uint8_t *header, size_t header_len,
                              const uint8_t *marker, size_t marker_len) {
    const unsigned number = ask_form(run, header, header_len, MAHYREI_HEADER_BYTES, FIELDS_END);
    if (number != MAHYREI_ACCEPTED) {
        return number;
    }
    for (size_t i = 0; i < run->W && i < marker_len; i++) {
        if (marker[i] >= run->M) {
            return MAHYREI_BAD_MARKER;
        }
    }
    run->copies = bits_at(header, OLD_FIELDS_END, FIELDS_END - OLD_FIELDS_END);
    if (!is_factor(run->copies)) {
        return MAHYREI_BAD_COPIES;
    }
    run->k = block_bits(run->rate);
    run->C = (run->A * (8 * run->F + FRAME_MARKER_BITS) + run->k - 1) / run->k;
    run->places = run->C * run->S + run->N * (run->N - 1) * run->B;
    run->symbols = run->places / run->S * (run->S + run->W);
    run->group = run->M + run->M / 4;
    run->slots = run->symbols * run->copies * run->group;
    run->slot_bytes = (run->slots + 7) / 8;
    return MAHYREI_ACCEPTED;
}

/* Either way the fields stay where they are; the factor and the zeros after them change. */
enum { FIELD_BYTES = OLD_FIELDS_END / 8 };

uint64_t reference_header_widen(const uint8_t *eight, size_t eight_len, uint8_t *ten,
                                size_t ten_len) {
    struct run run;
    const unsigned number = reference_ask_old_header(&run, eight, eight_len);
    if (number != MAHYREI_ACCEPTED) {
        return number;
    }
    if (ten_len != MAHYREI_HEADER_BYTES) {
        return MAHYREI_BAD_LENGTH;
    }
    memset(ten, 0, ten_len);
    memcpy(ten, eight, FIELD_BYTES);
    set_bit(ten, FIELDS_END - 1);
    return MAHYREI_ACCEPTED;
}

uint64_t reference_header_narrow(const uint8_t *ten, size_t ten_len, uint8_t *eight,
                                 size_t eight_len) {
    struct run run;
    const unsigned number = reference_ask_header(&run, ten, ten_len, NULL, 0);
    if (number != MAHYREI_ACCEPTED) {
        return number;
    }
    if (eight_len != MAHYREI_OLD_HEADER_BYTES) {
        return MAHYREI_BAD_LENGTH;
    }
    if (run.copies != 1) {
        return MAHYREI_NO_OLD_HEADER;
    }
    memset(eight, 0, eight_len);
    memcpy(eight, ten, FIELD_BYTES);
    return MAHYREI_ACCEPTED;
}
