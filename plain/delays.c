#include <stdbool.h>

#include "mahyrei_plain.h"

/* One step, as the proved calls take it. */
static uint64_t put_step(bool reading, const uint8_t *header, size_t header_len, uint64_t step,
                         uint8_t symbol, uint8_t *area, size_t area_len) {
    return reading ? mahyrei_delay_read(header, header_len, step, symbol, area, area_len)
                   : mahyrei_delay_write(header, header_len, step, symbol, area, area_len);
}

static uint64_t put_steps(bool reading, const uint8_t *header, size_t header_len, uint64_t step,
                          const uint8_t *symbols, size_t symbols_len, uint8_t *area,
                          size_t area_len, uint8_t *given, size_t given_len) {
    if (given_len != symbols_len || (symbols_len != 0 && step > UINT64_MAX - (symbols_len - 1))) {
        return MAHYREI_BAD_LENGTH;
    }
    for (size_t i = 0; i < symbols_len; i++) {
        const uint64_t answer =
            put_step(reading, header, header_len, step + i, symbols[i], area, area_len);
        if (mahyrei_answer_number(answer) != MAHYREI_ACCEPTED) {
            return (uint64_t)i << 8 | mahyrei_answer_number(answer);
        }
        given[i] = (uint8_t)mahyrei_delay_symbol(answer);
    }
    return MAHYREI_ACCEPTED;
}

uint64_t mahyrei_delay_write_many(const uint8_t *header, size_t header_len, uint64_t step,
                                  const uint8_t *symbols, size_t symbols_len, uint8_t *area,
                                  size_t area_len, uint8_t *given, size_t given_len) {
    return put_steps(false, header, header_len, step, symbols, symbols_len, area, area_len, given,
                     given_len);
}

uint64_t mahyrei_delay_read_many(const uint8_t *header, size_t header_len, uint64_t step,
                                 const uint8_t *symbols, size_t symbols_len, uint8_t *area,
                                 size_t area_len, uint8_t *given, size_t given_len) {
    return put_steps(true, header, header_len, step, symbols, symbols_len, area, area_len, given,
                     given_len);
}
