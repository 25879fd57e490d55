/*
 * Frames to the slots of a run, and back. It allocates, and aborts where it cannot.
 */
#include <stdlib.h>
#include <string.h>

#include "parts.h"
#include "reference.h"

static const uint8_t FRAME_MARKER[FRAME_MARKER_BYTES] = {0x1A, 0xCF, 0xFC, 0x1D};

enum { GROUP_MAX = 320 }; /* slots of a symbol at m = 8 */

static uint8_t *zeros(size_t count) {
    uint8_t *const bytes = calloc(count, 1);
    if (bytes == NULL) {
        abort();
    }
    return bytes;
}

/* Questions 1 to 7, 20 and 8 of both calls. */
static unsigned ask(struct run *run, const uint8_t *header, size_t header_len,
                    const uint8_t *marker, size_t marker_len, size_t frames_len, size_t slots_len) {
    const unsigned number = reference_ask_header(run, header, header_len, marker, marker_len);
    if (number != MAHYREI_ACCEPTED) {
        return number;
    }
    return marker_len == run->W && frames_len == run->A * run->F && slots_len == run->slot_bytes
               ? MAHYREI_ACCEPTED
               : MAHYREI_BAD_LENGTH;
}

/* ---- writing */

/* Step 1: bit x of the stream. */
static unsigned stream_bit(const struct run *run, const uint8_t *frames, size_t x) {
    const size_t marked = FRAME_MARKER_BITS + 8 * run->F, frame = x / marked, in_frame = x % marked;
    if (frame >= run->A) {
        return 0;
    }
    return in_frame < FRAME_MARKER_BITS
               ? bit_at(FRAME_MARKER, in_frame)
               : bit_at(frames + frame * run->F, in_frame - FRAME_MARKER_BITS);
}

/* Steps 1 to 7 of one word. */
static void write_word(const struct run *run, const uint8_t *frames, size_t c,
                       uint8_t word[MAHYREI_WORD_BYTES]) {
    uint8_t block[MAHYREI_BLOCK_BYTES_MAX] = {0};
    for (size_t i = 0; i < run->k; i++) {
        if (stream_bit(run, frames, c * run->k + i)) {
            set_bit(block, i);
        }
    }
    if (reference_word_write(run->rate, block, block_bytes(run->rate), word, MAHYREI_WORD_BYTES) !=
        MAHYREI_ACCEPTED) {
        abort();
    }
}

uint64_t reference_run_write(const uint8_t *header, size_t header_len, const uint8_t *marker,
                             size_t marker_len, const uint8_t *frames, size_t frames_len,
                             uint8_t *slots, size_t slots_len) {
    struct run run;
    const unsigned number =
        ask(&run, header, header_len, marker, marker_len, frames_len, slots_len);
    if (number != MAHYREI_ACCEPTED) {
        return number;
    }
    uint8_t *const symbols = zeros(run.symbols);
    for (size_t i = 0; i < run.symbols; i += run.S + run.W) {
        memcpy(symbols + i, marker, run.W);
    }
    for (size_t c = 0; c < run.C; c++) {
        uint8_t word[MAHYREI_WORD_BYTES];
        write_word(&run, frames, c, word);
        for (size_t i = 0; i < run.S; i++) { /* step 8 */
            symbols[symbol_of(&run, c * run.S + i)] = (uint8_t)bits_at(word, i * run.m, run.m);
        }
    }
    memset(slots, 0, slots_len);
    for (size_t i = 0; i < run.symbols * run.copies; i++) { /* copy i % copies of a symbol */
        set_bit(slots, i * run.group + symbols[i / run.copies]);
    }
    free(symbols);
    return MAHYREI_ACCEPTED;
}

/* ---- reading */

/* The pulses in each slot of a symbol, over its copies. Most bytes hold none and are skipped. */
static void count_pulses(const struct run *run, const uint8_t *slots, size_t symbol,
                         unsigned counts[GROUP_MAX]) {
    const size_t from = symbol * run->copies * run->group, end = from + run->copies * run->group;
    memset(counts, 0, run->group * sizeof *counts);
    for (size_t x = from; x < end; x++) {
        if (x % 8 == 0 && slots[x / 8] == 0) {
            x += 7;
        } else {
            counts[(x - from) % run->group] += bit_at(slots, x);
        }
    }
}

/* The slot that has more pulses than every other, or the number of slots where none has. */
static size_t leader(const unsigned *counts, size_t group) {
    size_t first = 0;
    for (size_t x = 1; x < group; x++) {
        first = counts[x] > counts[first] ? x : first;
    }
    for (size_t x = 0; x < group; x++) {
        if (x != first && counts[x] == counts[first]) {
            return group;
        }
    }
    return first;
}

/* Questions 9 and 10, and the symbols. */
static uint64_t read_slots(const struct run *run, const uint8_t *slots, uint8_t *symbols) {
    for (size_t x = run->slots; x < 8 * run->slot_bytes; x++) {
        if (bit_at(slots, x)) {
            return MAHYREI_BAD_SPARE;
        }
    }
    for (size_t i = 0; i < run->symbols; i++) {
        unsigned counts[GROUP_MAX];
        count_pulses(run, slots, i, counts);
        const size_t symbol = leader(counts, run->group);
        if (symbol >= run->M) {
            return answer_of(MAHYREI_BAD_PULSE, i);
        }
        symbols[i] = (uint8_t)symbol;
    }
    return MAHYREI_ACCEPTED;
}

/* Questions 11 and 12. */
static uint64_t judge_places(const struct run *run, const uint8_t *symbols, const uint8_t *marker) {
    for (size_t i = 0; i < run->symbols; i++) {
        const size_t at = i % (run->S + run->W);
        if (at < run->W && symbols[i] != marker[at]) {
            return answer_of(MAHYREI_WRONG_MARKER, i);
        }
    }
    for (size_t p = 0; p < run->places; p++) {
        const size_t delay = p % run->N * run->B * run->N;
        const size_t i = p / run->S * (run->S + run->W) + run->W + p % run->S;
        const int of_a_word = delay <= p && p < delay + run->C * run->S;
        if (!of_a_word && symbols[i] != 0) {
            return answer_of(MAHYREI_BAD_IDLE, i);
        }
    }
    return MAHYREI_ACCEPTED;
}

/* Questions 13 to 15, and the stream. */
static uint64_t read_words(const struct run *run, const uint8_t *symbols, uint8_t *stream) {
    for (size_t c = 0; c < run->C; c++) {
        uint8_t word[MAHYREI_WORD_BYTES] = {0}, block[MAHYREI_BLOCK_BYTES_MAX];
        for (size_t x = 0; x < MAHYREI_WORD_BITS; x++) { /* step 8 undone */
            const uint8_t symbol = symbols[symbol_of(run, c * run->S + x / run->m)];
            if (symbol >> (run->m - 1 - x % run->m) & 1) {
                set_bit(word, x);
            }
        }
        const uint64_t answer =
            reference_word_read(run->rate, word, sizeof word, block, block_bytes(run->rate));
        if (answer != MAHYREI_ACCEPTED) {
            return answer_of(number_of(answer), c);
        }
        for (size_t i = 0; i < run->k; i++) {
            if (bit_at(block, i)) {
                set_bit(stream, c * run->k + i);
            }
        }
    }
    return MAHYREI_ACCEPTED;
}

/* Questions 16 and 18, and the frames. */
static uint64_t read_stream(const struct run *run, const uint8_t *stream, uint8_t *frames) {
    const size_t marked = FRAME_MARKER_BYTES + run->F; /* bytes */
    for (size_t i = 0; i < run->A; i++) {
        if (memcmp(stream + i * marked, FRAME_MARKER, sizeof FRAME_MARKER) != 0) {
            return answer_of(MAHYREI_BAD_FRAME_MARKER, i);
        }
    }
    for (size_t x = run->A * 8 * marked; x < run->C * run->k; x++) {
        if (bit_at(stream, x)) {
            return MAHYREI_BAD_FILL;
        }
    }
    for (size_t i = 0; i < run->A; i++) {
        memcpy(frames + i * run->F, stream + i * marked + sizeof FRAME_MARKER, run->F);
    }
    return MAHYREI_ACCEPTED;
}

uint64_t reference_run_read(const uint8_t *header, size_t header_len, const uint8_t *marker,
                            size_t marker_len, const uint8_t *slots, size_t slots_len,
                            uint8_t *frames, size_t frames_len) {
    struct run run;
    const unsigned number =
        ask(&run, header, header_len, marker, marker_len, frames_len, slots_len);
    if (number != MAHYREI_ACCEPTED) {
        return number;
    }
    uint8_t *const symbols = zeros(run.symbols), *const stream = zeros((run.C * run.k + 7) / 8);
    uint64_t answer = read_slots(&run, slots, symbols);
    answer = answer != MAHYREI_ACCEPTED ? answer : judge_places(&run, symbols, marker);
    answer = answer != MAHYREI_ACCEPTED ? answer : read_words(&run, symbols, stream);
    answer = answer != MAHYREI_ACCEPTED ? answer : read_stream(&run, stream, frames);
    free(stream);
    free(symbols);
    return answer;
}
