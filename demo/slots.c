/*
 * Damages the slots of a run, or puts them into a capture, for the demo and the tests. Slots come
 * in on standard input and go out on standard output.
 *
 *   slots HEADER flip SLOT           a pulse where there was none, or none where there was one
 *   slots HEADER lose SYMBOL         the symbol without its pulse
 *   slots HEADER move SYMBOL         the symbol with its pulse in the slot beside
 *   slots HEADER turn WORD BIT...    bits of a word turned over
 *   slots HEADER code WORD BIT...    coded bits turned over: the word that they would have made
 *   slots HEADER capture SLOT BYTE AROUND
 *                                    the run from this slot on of a capture, and so many bytes of
 *                                    the capture after it; around the run there are pulses alone
 *                                    if AROUND is 1, and none if it is 0
 *
 * Symbols count markers, and all copies of one are damaged alike. The terms and letters are those
 * of docs/SPECIFICATION.md.
 */
#include <stdio.h>
#include <stdlib.h>
#include <string.h>

#include "files/inputs.h"
#include "files/outputs.h"
#include "runs/layout.h"
#include "runs/run_slots.h"

static struct run_slots slots;

static _Noreturn void give_up(const char *why) {
    fprintf(stderr, "slots: %s\n", why);
    exit(2);
}

static void flip(uint64_t slot) {
    if (slot / 8 >= slots.bytes.len) {
        give_up("no such slot");
    }
    slots.bytes.at[slot / 8] = (uint8_t)(slots.bytes.at[slot / 8] ^ 0x80 >> slot % 8);
}

/* The slot of a symbol's pulse. */
static uint64_t pulse_of(uint64_t symbol) {
    if (symbol >= slots.run.sizes.pooled || group_of(&slots, symbol).pulses == 0) {
        give_up("no such symbol, or no pulse in it");
    }
    return group_of(&slots, symbol).first;
}

/* A slot of every copy of a symbol. */
static void flip_copies(uint64_t symbol, uint64_t at) {
    for (uint64_t copy = 0; copy < slots.run.fields.copies; copy++) {
        flip(first_slot(&slots, symbol) + copy * slots.run.sizes.group + at);
    }
}

static void lose(uint64_t symbol) {
    flip_copies(symbol, pulse_of(symbol));
}

/* Another symbol, by the bits in which it differs. */
static void change(uint64_t symbol, uint64_t difference) {
    const uint64_t q = pulse_of(symbol);
    flip_copies(symbol, q);
    flip_copies(symbol, q ^ difference);
}

/* Step 8: the symbol that holds this bit of a word. */
static void turn(uint64_t word, uint64_t bit) {
    const uint64_t m = slots.run.fields.m;
    change(symbol_of(&slots.run, word, bit / m), UINT64_C(1) << (m - 1 - bit % m));
}

/* Steps 5 and 6: from the place that takes the coded bit on, the accumulator turns all over. */
static void turn_coded(uint64_t word, uint64_t coded) {
    uint64_t bit = 0;
    while ((11 * bit + 210 * bit * bit) % MAHYREI_WORD_BITS != coded) {
        bit++;
    }
    for (; bit < MAHYREI_WORD_BITS; bit++) {
        turn(word, bit);
    }
}

/* A capture with the run at this slot, and the bits around it all alike. */
static struct bytes capture_around(uint64_t slot, uint64_t after, bool pulses) {
    struct bytes capture;
    const uint64_t count = slots.run.sizes.slots;
    if (slot > UINT32_MAX || after > UINT32_MAX ||
        !make_buffer((size_t)((slot + count + 7) / 8 + after), &capture)) {
        give_up("no room for such a capture");
    }
    memset(capture.at, pulses ? 0xFF : 0, capture.len);
    for (uint64_t x = 0; x < count; x++) {
        const uint64_t at = slot + x;
        if (pulse_at(&slots, x) != pulses) {
            capture.at[at / 8] = (uint8_t)(capture.at[at / 8] ^ 0x80 >> at % 8);
        }
    }
    return capture;
}

/* ---- the command line */

static uint64_t number(const char *text) {
    char *end;
    const uint64_t value = strtoull(text, &end, 10);
    if (text[0] < '0' || text[0] > '9' || *end != '\0') {
        give_up("not a number");
    }
    return value;
}

/* Bits of a word; numbers[0] is the word. */
static void turn_each(char *const numbers[], int count, uint64_t limit,
                      void (*one)(uint64_t, uint64_t)) {
    for (int i = 1; i < count; i++) {
        if (number(numbers[0]) >= slots.run.sizes.C || number(numbers[i]) >= limit) {
            give_up("no such word, or no such bit");
        }
        one(number(numbers[0]), number(numbers[i]));
    }
}

/* What goes out. */
static struct bytes damaged(const char *how, char *const numbers[], int count) {
    if (strcmp(how, "flip") == 0) {
        flip(number(numbers[0]));
    } else if (strcmp(how, "lose") == 0) {
        lose(number(numbers[0]));
    } else if (strcmp(how, "move") == 0) {
        change(number(numbers[0]), 1);
    } else if (strcmp(how, "turn") == 0) {
        turn_each(numbers, count, MAHYREI_WORD_BITS, turn);
    } else if (strcmp(how, "code") == 0) {
        turn_each(numbers, count, MAHYREI_WORD_BITS, turn_coded);
    } else if (strcmp(how, "capture") == 0 && count == 3) {
        return capture_around(number(numbers[0]), number(numbers[1]), number(numbers[2]) != 0);
    } else {
        give_up("no such damage");
    }
    return slots.bytes;
}

int main(int argc, char *argv[]) {
    struct bytes header, given;
    if (argc < 4) {
        give_up("HEADER, what to do, and numbers");
    }
    if (!take_in_text(argv[1], HEADER_LIMIT, &header) || !take_in("-", SLOTS_LIMIT, &given) ||
        run_slots_of(&header, &given, &slots) != 0 || given.len != slots.run.sizes.slot_bytes) {
        give_up("no such header, or slots of another length");
    }
    const struct bytes out = damaged(argv[2], argv + 3, argc - 3);
    const struct output output = {.name = "-"};
    return output_put(&output, out.at, out.len) ? 0 : 2;
}
