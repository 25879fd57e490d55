#include "runs/findings.h"

#include <errno.h>
#include <stdlib.h>
#include <string.h>

#include "library/library.h"
#include "report/messages.h"
#include "runs/layout.h"

const struct fault_line FAULT_LINES[FAULTS] = {
    [MISSING] = {"symbols missing at the end", NULL, "missing", 'x', "#8c96a0", MAHYREI_BAD_LENGTH},
    [GUARD_PULSE] = {"symbols with a guard pulse", "symbols with most pulses in a guard slot",
                     "guard pulse", 'g', "#c2410c", MAHYREI_BAD_PULSE},
    [NO_PULSE] = {"symbols with no pulse", NULL, "no pulse", 'n', "#1d4ed8", MAHYREI_BAD_PULSE},
    [SEVERAL_PULSES] = {"symbols with several pulses", "symbols with most pulses in several slots",
                        "several pulses", 's', "#e6a100", MAHYREI_BAD_PULSE},
    [WRONG_MARKER] = {"wrong marker symbols", NULL, "wrong marker", 'm', "#c026a3",
                      MAHYREI_WRONG_MARKER},
    [NOT_ZERO] = {"places that should be 0 and are not", NULL, "not zero", 'z', "#0f8a6a",
                  MAHYREI_BAD_IDLE},
};

const char *fault_name(const struct run_slots *slots, size_t fault) {
    const struct fault_line *const line = &FAULT_LINES[fault];
    return line->pooled != NULL && slots->run.fields.copies > 1 ? line->pooled : line->name;
}

static void add(struct found *found, uint64_t at) {
    if (found->count < FIRST_FEW) {
        found->first[found->count] = at;
    }
    found->count++;
}

/* ---- symbols */

static void find_symbols(const struct run_slots *slots, const uint8_t *marker,
                         struct findings *findings) {
    for (uint64_t symbol = 0; symbol < slots->run.sizes.pooled; symbol++) {
        const enum fault fault = fault_of(slots, marker, symbol);
        if (fault != SOUND) {
            add(&findings->symbols[fault], symbol);
        }
    }
    for (uint64_t slot = slots->run.sizes.slots;
         slots->bytes.len == slots->run.sizes.slot_bytes && slot < slots->bytes.len * 8; slot++) {
        if (pulse_at(slots, slot)) {
            add(&findings->spare, slot);
        }
    }
}

/* ---- words */

/* Step 8 undone. False where a symbol of the word has no value. */
static bool word_of(const struct run_slots *slots, uint64_t word,
                    uint8_t bytes[MAHYREI_WORD_BYTES]) {
    const uint64_t m = slots->run.fields.m;
    memset(bytes, 0, MAHYREI_WORD_BYTES);
    for (uint64_t at = 0; at < slots->run.sizes.S; at++) {
        const uint64_t symbol = symbol_of(&slots->run, word, at);
        if (symbol >= slots->present) {
            return false;
        }
        const struct group group = group_of(slots, symbol);
        if (group.pulses != 1 || group.guard_pulses > 0) {
            return false;
        }
        for (uint64_t i = 0, bit = at * m; i < m; i++, bit++) {
            const unsigned set = group.first >> (m - 1 - i) & 1;
            bytes[bit / 8] = (uint8_t)(bytes[bit / 8] | set << (7 - bit % 8));
        }
    }
    return true;
}

static bool find_words(const struct run_slots *slots, struct findings *findings) {
    uint8_t word[MAHYREI_WORD_BYTES];
    for (uint64_t i = 0; i < slots->run.sizes.C; i++) {
        findings->words[i] = NOT_ASKED;
        if (word_of(slots, i, word) &&
            !library_word_read(slots->run.fields.rate, word,
                               findings->blocks + i * MAHYREI_BLOCK_BYTES_MAX,
                               &findings->words[i])) {
            return false;
        }
    }
    return true;
}

/* ---- frames */

/* A bit of the joined frames; known only where its word was accepted. */
static bool stream_bit(const struct run_slots *slots, const struct findings *findings, uint64_t bit,
                       unsigned *value) {
    const uint64_t block = bit / slots->run.sizes.k, in = bit % slots->run.sizes.k;
    const uint8_t *const at = findings->blocks + block * MAHYREI_BLOCK_BYTES_MAX;
    *value = at[in / 8] >> (7 - in % 8) & 1;
    return findings->words[block] == MAHYREI_ACCEPTED;
}

/* A marker with a wrong bit is wrong, even if others of its bits are not known. */
static enum frame_state frame_at(const struct run_slots *slots, const struct findings *findings,
                                 uint64_t frame) {
    enum frame_state state = FRAME_RIGHT;
    for (uint64_t i = 0; i < MAHYREI_FRAME_MARKER_BITS; i++) {
        unsigned bit;
        if (!stream_bit(slots, findings, frame * marked_bits(&slots->run) + i, &bit)) {
            state = FRAME_UNKNOWN;
        } else if (bit != (MAHYREI_FRAME_MARKER >> (MAHYREI_FRAME_MARKER_BITS - 1 - i) & 1)) {
            return FRAME_WRONG;
        }
    }
    return state;
}

static void find_frames(const struct run_slots *slots, struct findings *findings) {
    const uint64_t A = slots->run.fields.A;
    for (uint64_t frame = 0; frame < A; frame++) {
        findings->frames[frame] = frame_at(slots, findings, frame);
    }
    for (uint64_t bit = A * marked_bits(&slots->run); bit < slots->run.sizes.C * slots->run.sizes.k;
         bit++) {
        unsigned set;
        if (stream_bit(slots, findings, bit, &set) && set) {
            add(&findings->fill, bit);
        }
    }
}

/* ---- all of it */

static bool make_buffers(const struct run_slots *slots, struct findings *findings) {
    const uint64_t C = slots->run.sizes.C, A = slots->run.fields.A;
    *findings = (struct findings){0};
    findings->words = calloc(C, sizeof *findings->words);
    findings->blocks = calloc(C, MAHYREI_BLOCK_BYTES_MAX);
    findings->frames = calloc(A, sizeof *findings->frames);
    if (findings->words == NULL || findings->blocks == NULL || findings->frames == NULL) {
        complain("memory", ENOMEM);
        return false;
    }
    return true;
}

bool find_all(const struct run_slots *slots, const uint8_t *marker, struct findings *findings) {
    if (!make_buffers(slots, findings)) {
        return false;
    }
    find_symbols(slots, marker, findings);
    if (!find_words(slots, findings)) {
        return false;
    }
    find_frames(slots, findings);
    return true;
}

void free_findings(struct findings *findings) {
    free(findings->words);
    free(findings->frames);
    free(findings->blocks);
    *findings = (struct findings){0};
}

uint64_t count_words(const struct run_slots *slots, const struct findings *findings,
                     uint64_t number) {
    uint64_t count = 0;
    for (uint64_t i = 0; i < slots->run.sizes.C; i++) {
        const uint64_t answer = findings->words[i];
        count += number == NOT_ASKED
                     ? answer == NOT_ASKED
                     : answer != NOT_ASKED && mahyrei_answer_number(answer) == number;
    }
    return count;
}

uint64_t count_frames(const struct run_slots *slots, const struct findings *findings,
                      enum frame_state state) {
    uint64_t count = 0;
    for (uint64_t i = 0; i < slots->run.fields.A; i++) {
        count += findings->frames[i] == state;
    }
    return count;
}

/* ---- the answer */

static uint64_t answer_of(uint64_t place, enum mahyrei_number number) {
    return place << 8 | number;
}

/* The first symbol that fails this question; UINT64_MAX where none does. */
static uint64_t first_symbol(const struct findings *findings, enum mahyrei_number number) {
    uint64_t first = UINT64_MAX;
    for (size_t i = 0; i < FAULTS; i++) {
        const struct found *const found = &findings->symbols[i];
        if (FAULT_LINES[i].number == number && found->count > 0 && found->first[0] < first) {
            first = found->first[0];
        }
    }
    return first;
}

uint64_t expected_answer(const struct run_slots *slots, const struct findings *findings) {
    static const enum mahyrei_number SYMBOLS[] = {MAHYREI_BAD_PULSE, MAHYREI_WRONG_MARKER,
                                                  MAHYREI_BAD_IDLE};
    if (slots->bytes.len != slots->run.sizes.slot_bytes) {
        return MAHYREI_BAD_LENGTH;
    }
    if (findings->spare.count > 0) {
        return MAHYREI_BAD_SPARE;
    }
    for (size_t i = 0; i < sizeof SYMBOLS / sizeof SYMBOLS[0]; i++) {
        const uint64_t first = first_symbol(findings, SYMBOLS[i]);
        if (first != UINT64_MAX) {
            return answer_of(first, SYMBOLS[i]);
        }
    }
    for (uint64_t i = 0; i < slots->run.sizes.C; i++) {
        if (findings->words[i] != MAHYREI_ACCEPTED) {
            return answer_of(i, mahyrei_answer_number(findings->words[i]));
        }
    }
    for (uint64_t i = 0; i < slots->run.fields.A; i++) {
        if (findings->frames[i] != FRAME_RIGHT) {
            return answer_of(i, MAHYREI_BAD_FRAME_MARKER);
        }
    }
    return findings->fill.count > 0 ? MAHYREI_BAD_FILL : MAHYREI_ACCEPTED;
}
