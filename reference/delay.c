/* The delay lines: step 9 and its way back, a symbol at a time. */
#include "parts.h"
#include "reference.h"

/* Row i of the writer has i * B bytes, of the reader (N - 1 - i) * B, one row after the other. A
 * row of no bytes gives back what it takes. */
uint8_t reference_delay_step(bool reading, size_t N, size_t B, uint64_t step, uint8_t symbol,
                             uint8_t *area) {
    const size_t row = (size_t)(step % N), len = (reading ? N - 1 - row : row) * B;
    if (len == 0) {
        return symbol;
    }
    const size_t steps = reading ? row * (2 * N - 1 - row) / 2 : row * (row - 1) / 2;
    uint8_t *const oldest = area + steps * B + (size_t)(step / N % len);
    const uint8_t given = *oldest;
    *oldest = symbol;
    return given;
}

static uint64_t call(bool reading, const uint8_t *header, size_t header_len, uint64_t step,
                     uint64_t symbol, uint8_t *area, size_t area_len) {
    struct run run;
    const unsigned number = reference_ask_header(&run, header, header_len, NULL, 0);
    if (number != MAHYREI_ACCEPTED) {
        return number;
    }
    if (area_len != run.B * run.N * (run.N - 1) / 2) {
        return MAHYREI_BAD_LENGTH;
    }
    if (symbol >> run.m != 0) {
        return MAHYREI_BAD_SYMBOL;
    }
    return answer_of(MAHYREI_ACCEPTED,
                     reference_delay_step(reading, run.N, run.B, step, (uint8_t)symbol, area));
}

uint64_t reference_delay_write(const uint8_t *header, size_t header_len, uint64_t step,
                               uint64_t symbol, uint8_t *area, size_t area_len) {
    return call(false, header, header_len, step, symbol, area, area_len);
}

uint64_t reference_delay_read(const uint8_t *header, size_t header_len, uint64_t step,
                              uint64_t symbol, uint8_t *area, size_t area_len) {
    return call(true, header, header_len, step, symbol, area, area_len);
}
