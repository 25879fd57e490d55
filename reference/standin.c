/*
 * The library's names over the reference: an archive of these can stand in for the library, which
 * shows that the tests outside the proofs hold without it. The one file here that exports them.
 */
#include "mahyrei.h"
#include "reference.h"

uint64_t mahyrei_word_write(uint64_t rate, const uint8_t *block, size_t block_len, uint8_t *word,
                            size_t word_len) {
    return reference_word_write(rate, block, block_len, word, word_len);
}

uint64_t mahyrei_word_read(uint64_t rate, const uint8_t *word, size_t word_len, uint8_t *block,
                           size_t block_len) {
    return reference_word_read(rate, word, word_len, block, block_len);
}

uint64_t mahyrei_bit_spread(uint64_t rate, uint64_t bit, uint8_t *places, size_t places_len) {
    return reference_bit_spread(rate, bit, places, places_len);
}

uint64_t mahyrei_pass_write(uint64_t rate, const uint8_t *blocks, size_t blocks_len, uint8_t *words,
                            size_t words_len) {
    return reference_pass_write(rate, blocks, blocks_len, words, words_len);
}

uint64_t mahyrei_pass_read(uint64_t rate, const uint8_t *words, size_t words_len, uint8_t *blocks,
                           size_t blocks_len) {
    return reference_pass_read(rate, words, words_len, blocks, blocks_len);
}

uint64_t mahyrei_run_write(const uint8_t *header, size_t header_len, const uint8_t *marker,
                           size_t marker_len, const uint8_t *frames, size_t frames_len,
                           uint8_t *slots, size_t slots_len) {
    return reference_run_write(header, header_len, marker, marker_len, frames, frames_len, slots,
                               slots_len);
}

uint64_t mahyrei_run_read(const uint8_t *header, size_t header_len, const uint8_t *marker,
                          size_t marker_len, const uint8_t *slots, size_t slots_len,
                          uint8_t *frames, size_t frames_len) {
    return reference_run_read(header, header_len, marker, marker_len, slots, slots_len, frames,
                              frames_len);
}

uint64_t mahyrei_run_find(const uint8_t *header, size_t header_len, const uint8_t *marker,
                          size_t marker_len, const uint8_t *capture, size_t capture_len) {
    return reference_run_find(header, header_len, marker, marker_len, capture, capture_len);
}

uint64_t mahyrei_run_find_from(const uint8_t *header, size_t header_len, const uint8_t *marker,
                               size_t marker_len, const uint8_t *capture, size_t capture_len,
                               uint64_t from) {
    return reference_run_find_from(header, header_len, marker, marker_len, capture, capture_len,
                                   from);
}

uint64_t mahyrei_run_cut(const uint8_t *header, size_t header_len, const uint8_t *capture,
                         size_t capture_len, uint64_t slot, uint8_t *slots, size_t slots_len) {
    return reference_run_cut(header, header_len, capture, capture_len, slot, slots, slots_len);
}

uint64_t mahyrei_header_widen(const uint8_t *eight, size_t eight_len, uint8_t *ten,
                              size_t ten_len) {
    return reference_header_widen(eight, eight_len, ten, ten_len);
}

uint64_t mahyrei_header_narrow(const uint8_t *ten, size_t ten_len, uint8_t *eight,
                               size_t eight_len) {
    return reference_header_narrow(ten, ten_len, eight, eight_len);
}

uint64_t mahyrei_fades_count(const uint8_t *header, size_t header_len, const uint32_t *fades,
                             size_t fades_len, uint32_t *counts, size_t counts_len) {
    return reference_fades_count(header, header_len, fades, fades_len, counts, counts_len);
}

uint64_t mahyrei_delay_write(const uint8_t *header, size_t header_len, uint64_t step,
                             uint64_t symbol, uint8_t *area, size_t area_len) {
    return reference_delay_write(header, header_len, step, symbol, area, area_len);
}

uint64_t mahyrei_delay_read(const uint8_t *header, size_t header_len, uint64_t step,
                            uint64_t symbol, uint8_t *area, size_t area_len) {
    return reference_delay_read(header, header_len, step, symbol, area, area_len);
}

uint64_t mahyrei_rack_load(uint8_t *area, size_t area_len, uint64_t caller, uint64_t owner,
                           uint64_t place, const uint8_t *header, size_t header_len) {
    return reference_rack_load(area, area_len, caller, owner, place, header, header_len);
}

uint64_t mahyrei_rack_read(const uint8_t *area, size_t area_len, uint64_t caller, uint64_t owner,
                           uint64_t place, uint8_t *header, size_t header_len) {
    return reference_rack_read(area, area_len, caller, owner, place, header, header_len);
}

uint64_t mahyrei_rack_drop(uint8_t *area, size_t area_len, uint64_t caller, uint64_t owner,
                           uint64_t place) {
    return reference_rack_drop(area, area_len, caller, owner, place);
}

uint64_t mahyrei_rack_lend(uint8_t *area, size_t area_len, uint64_t caller, uint64_t owner,
                           uint64_t place, uint64_t to) {
    return reference_rack_lend(area, area_len, caller, owner, place, to);
}

uint64_t mahyrei_uplink_write(const uint8_t *frames, size_t frames_len, uint8_t *slots,
                              size_t slots_len) {
    return reference_uplink_write(frames, frames_len, slots, slots_len);
}

uint64_t mahyrei_uplink_read(const uint8_t *slots, size_t slots_len, uint8_t *frames,
                             size_t frames_len) {
    return reference_uplink_read(slots, slots_len, frames, frames_len);
}
