#include "runs/layout.h"

/* Step 9: how far this place's symbol was moved on. */
static uint64_t delay(const struct sheet *run, uint64_t place) {
    return place % run->fields.N * run->fields.B * run->fields.N;
}

struct position position_of(const struct sheet *run, uint64_t symbol) {
    const uint64_t S = run->sizes.S, W = run->fields.W;
    struct position position = {MARKER_PART, symbol / (S + W), 0, symbol % (S + W)};
    if (position.at < W) {
        return position;
    }
    position.at -= W;
    const uint64_t place = position.row * S + position.at, late = delay(run, place);
    /* A symbol of a word is moved by a multiple of N, so its own delay is that of its place. */
    if (place < late || place - late >= run->sizes.C * S) {
        position.part = IDLE_PART;
        return position;
    }
    position.part = WORD_PART;
    position.word = (place - late) / S;
    position.at = (place - late) % S;
    return position;
}

uint64_t symbol_of(const struct sheet *run, uint64_t word, uint64_t at) {
    const uint64_t S = run->sizes.S, W = run->fields.W, t = word * S + at;
    const uint64_t place = t + delay(run, t);
    return place / S * (S + W) + W + place % S;
}

uint64_t marked_bits(const struct sheet *run) {
    return MAHYREI_FRAME_MARKER_BITS + 8 * run->fields.F;
}
