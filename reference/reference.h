/*
 * The reference: every call of mahyrei.h in plain C, one loop per step and one test per question,
 * as docs/SPECIFICATION.md has them. It takes the same arguments, answers the same and writes the
 * same bytes; it shares no code with the library or with the second implementation in Rust.
 *
 * `make bench` measures the library against it, the fuzz target compares the two call by call, and
 * standin.c makes an archive of it that can stand in for the library.
 */
#ifndef REFERENCE_H
#define REFERENCE_H

#include <stdbool.h>
#include <stddef.h>
#include <stdint.h>

uint64_t reference_word_write(uint64_t rate, const uint8_t *block, size_t block_len, uint8_t *word,
                              size_t word_len);
uint64_t reference_word_read(uint64_t rate, const uint8_t *word, size_t word_len, uint8_t *block,
                             size_t block_len);
uint64_t reference_bit_spread(uint64_t rate, uint64_t bit, uint8_t *places, size_t places_len);

uint64_t reference_pass_write(uint64_t rate, const uint8_t *blocks, size_t blocks_len,
                              uint8_t *words, size_t words_len);
uint64_t reference_pass_read(uint64_t rate, const uint8_t *words, size_t words_len, uint8_t *blocks,
                             size_t blocks_len);

uint64_t reference_run_write(const uint8_t *header, size_t header_len, const uint8_t *marker,
                             size_t marker_len, const uint8_t *frames, size_t frames_len,
                             uint8_t *slots, size_t slots_len);
uint64_t reference_run_read(const uint8_t *header, size_t header_len, const uint8_t *marker,
                            size_t marker_len, const uint8_t *slots, size_t slots_len,
                            uint8_t *frames, size_t frames_len);
uint64_t reference_run_find(const uint8_t *header, size_t header_len, const uint8_t *marker,
                            size_t marker_len, const uint8_t *capture, size_t capture_len);
uint64_t reference_run_find_from(const uint8_t *header, size_t header_len, const uint8_t *marker,
                                 size_t marker_len, const uint8_t *capture, size_t capture_len,
                                 uint64_t from);
uint64_t reference_run_cut(const uint8_t *header, size_t header_len, const uint8_t *capture,
                           size_t capture_len, uint64_t slot, uint8_t *slots, size_t slots_len);

uint64_t reference_header_widen(const uint8_t *eight, size_t eight_len, uint8_t *ten,
                                size_t ten_len);
uint64_t reference_header_narrow(const uint8_t *ten, size_t ten_len, uint8_t *eight,
                                 size_t eight_len);

uint64_t reference_fades_count(const uint8_t *header, size_t header_len, const uint32_t *fades,
                               size_t fades_len, uint32_t *counts, size_t counts_len);

uint64_t reference_delay_write(const uint8_t *header, size_t header_len, uint64_t step,
                               uint64_t symbol, uint8_t *area, size_t area_len);
uint64_t reference_delay_read(const uint8_t *header, size_t header_len, uint64_t step,
                              uint64_t symbol, uint8_t *area, size_t area_len);

/* The ring buffer that both delay calls are: one step of a line of N rows that grow by B bytes. It
 * checks nothing. */
uint8_t reference_delay_step(bool reading, size_t N, size_t B, uint64_t step, uint8_t symbol,
                             uint8_t *area);

uint64_t reference_rack_load(uint8_t *area, size_t area_len, uint64_t caller, uint64_t owner,
                             uint64_t place, const uint8_t *header, size_t header_len);
uint64_t reference_rack_read(const uint8_t *area, size_t area_len, uint64_t caller, uint64_t owner,
                             uint64_t place, uint8_t *header, size_t header_len);
uint64_t reference_rack_drop(uint8_t *area, size_t area_len, uint64_t caller, uint64_t owner,
                             uint64_t place);
uint64_t reference_rack_lend(uint8_t *area, size_t area_len, uint64_t caller, uint64_t owner,
                             uint64_t place, uint64_t to);

uint64_t reference_uplink_write(const uint8_t *frames, size_t frames_len, uint8_t *slots,
                                size_t slots_len);
uint64_t reference_uplink_read(const uint8_t *slots, size_t slots_len, uint8_t *frames,
                               size_t frames_len);

#endif
