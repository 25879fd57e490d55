/*
 * Stands before the library's mahyrei_run_read (ld --wrap): the place of a refusal is one too high.
 * What inspect finds is then at odds with it, and must not be shown.
 */
#include "mahyrei.h"

uint64_t __real_mahyrei_run_read(const uint8_t *header, size_t header_len, const uint8_t *marker,
                                 size_t marker_len, const uint8_t *slots, size_t slots_len,
                                 uint8_t *frames, size_t frames_len);
uint64_t __wrap_mahyrei_run_read(const uint8_t *header, size_t header_len, const uint8_t *marker,
                                 size_t marker_len, const uint8_t *slots, size_t slots_len,
                                 uint8_t *frames, size_t frames_len);

uint64_t __wrap_mahyrei_run_read(const uint8_t *header, size_t header_len, const uint8_t *marker,
                                 size_t marker_len, const uint8_t *slots, size_t slots_len,
                                 uint8_t *frames, size_t frames_len) {
    const uint64_t answer = __real_mahyrei_run_read(header, header_len, marker, marker_len, slots,
                                                    slots_len, frames, frames_len);
    return mahyrei_answer_number(answer) < MAHYREI_BAD_PULSE ? answer : answer + 256;
}
