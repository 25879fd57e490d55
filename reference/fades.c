/* The symbols of each word that a list of fades hits. */
#include "parts.h"
#include "reference.h"

/* Question 22. */
static int fades_good(const struct run *run, const uint32_t *fades, size_t fades_len) {
    uint64_t end = 0;
    for (size_t i = 0; i + 1 < fades_len; i += 2) {
        if (fades[i] < end || fades[i + 1] == 0) {
            return 0;
        }
        end = (uint64_t)fades[i] + fades[i + 1];
    }
    return fades_len % 2 == 0 && end <= run->symbols;
}

/* Whether a symbol is in one of the fades, which can only be the last that begins at or before it:
 * those before `from` begin early enough, those from `to` on too late. */
static int in_fade(const uint32_t *fades, size_t fades_len, size_t symbol) {
    size_t from = 0, to = fades_len / 2;
    while (from < to) {
        const size_t middle = from + (to - from) / 2;
        if (fades[2 * middle] <= symbol) {
            from = middle + 1;
        } else {
            to = middle;
        }
    }
    return from > 0 && symbol - fades[2 * from - 2] < fades[2 * from - 1];
}

uint64_t reference_fades_count(const uint8_t *header, size_t header_len, const uint32_t *fades,
                               size_t fades_len, uint32_t *counts, size_t counts_len) {
    struct run run;
    const unsigned number = reference_ask_header(&run, header, header_len, NULL, 0);
    if (number != MAHYREI_ACCEPTED) {
        return number;
    }
    if (counts_len != run.C) {
        return MAHYREI_BAD_LENGTH;
    }
    if (!fades_good(&run, fades, fades_len)) {
        return MAHYREI_BAD_FADES;
    }
    for (size_t c = 0; c < run.C; c++) {
        counts[c] = 0;
        for (size_t i = 0; i < run.S; i++) {
            counts[c] += (uint32_t)in_fade(fades, fades_len, symbol_of(&run, c * run.S + i));
        }
    }
    return MAHYREI_ACCEPTED;
}
