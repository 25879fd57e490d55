/*
 * Fuzz target over all calls: an input is read as a call with its arguments, never as slots
 * alone, since no fuzzer would find a run or a word by itself. A word, a pass, a run or an uplink
 * to be read is written by the library first, then damaged as the input says: slots, symbols, coded
 * bits, input bits of the code, bits of the stream under a right check. Or it is the rest of the
 * input itself. A capture to be searched, all of it or from a slot on, has markers put into it,
 * whole or with a slot turned over; one to be cut has a run at some slot. A list of fades keeps the
 * rules or breaks one of them. The area of a delay line or of a rack holds anything.
 *
 * What is demanded of each call: the answer and every byte of the written slice are those of the
 * reference (reference/reference.h), which is built into the fuzzer and guides it, the library
 * being closed to it; a refused call changes no lent byte; what is accepted goes back to where it
 * came from, bit for bit but for a block's spare bits, and slots of several copies at least to the
 * same frames; a symbol that a delay line takes comes out again, and so does a header that is
 * loaded; number and place are ones that the call can give.
 *
 * The sanitizers do not see into the library either. So each slice is lent from pages of its own,
 * right before or right after a page that may not be touched, with a margin of bytes on its other
 * side that is compared, and the slices that a call reads are write-protected.
 */
#define _DEFAULT_SOURCE /* MAP_ANONYMOUS */
#include <fcntl.h>
#include <stdbool.h>
#include <stdio.h>
#include <stdlib.h>
#include <string.h>
#include <sys/mman.h>
#include <unistd.h>

#include "../c/runs.h"
#include "calls.h"
#include "mahyrei.h"
#include "reference.h"

enum {
    PAGE = 4096,
    MARGIN = 64,
    SLOTS_MOST = 1 << 20, /* slot bytes; runs up to the largest of 5.8 GB are too slow to fuzz */
    AREA = SLOTS_MOST + PAGE,
    MARKER_ROOM = 64, /* W has six bits */
    CODEBLOCK = MAHYREI_UPLINK_CODEBLOCK_BYTES
};

/* Bits of the header's fields, in order; the last are the zeros at its end. */
enum { FIELDS = 9 };
static const size_t WIDTHS[FIELDS] = {2, 4, 8, 9, 12, 6, 7, 6, 26};

static const char *const CALL_NAMES[CALLS] = {
    [WORD_WRITE] = "mahyrei_word_write",       [WORD_READ] = "mahyrei_word_read",
    [PASS_WRITE] = "mahyrei_pass_write",       [PASS_READ] = "mahyrei_pass_read",
    [BIT_SPREAD] = "mahyrei_bit_spread",       [UPLINK_WRITE] = "mahyrei_uplink_write",
    [UPLINK_READ] = "mahyrei_uplink_read",     [HEADER_WIDEN] = "mahyrei_header_widen",
    [HEADER_NARROW] = "mahyrei_header_narrow", [RUN_WRITE] = "mahyrei_run_write",
    [RUN_READ] = "mahyrei_run_read",           [RUN_FIND] = "mahyrei_run_find",
    [RUN_FIND_FROM] = "mahyrei_run_find_from", [RUN_CUT] = "mahyrei_run_cut",
    [FADES_COUNT] = "mahyrei_fades_count",     [DELAY_WRITE] = "mahyrei_delay_write",
    [DELAY_READ] = "mahyrei_delay_read",       [RACK_LOAD] = "mahyrei_rack_load",
    [RACK_READ] = "mahyrei_rack_read",         [RACK_DROP] = "mahyrei_rack_drop",
    [RACK_LEND] = "mahyrei_rack_lend",
};

/* The numbers that a call can answer, a bit each. */
static const uint32_t CAN_ANSWER[CALLS] = {
    [WORD_WRITE] = 1U << 0 | 1U << 2 | 1U << 8,
    [WORD_READ] = 1U << 0 | 1U << 2 | 1U << 8 | 1U << 13 | 1U << 14 | 1U << 15,
    [PASS_WRITE] = 1U << 0 | 1U << 2 | 1U << 8,
    [PASS_READ] = 1U << 0 | 1U << 2 | 1U << 8 | 1U << 13 | 1U << 14 | 1U << 15,
    [BIT_SPREAD] = 1U << 0 | 1U << 2 | 1U << 8 | 1U << 27,
    [UPLINK_WRITE] = 1U << 0 | 1U << 8,
    [UPLINK_READ] = 1U << 0 | 1U << 8 | 1U << 28 | 1U << 29,
    [HEADER_WIDEN] = 0x1FF,
    [HEADER_NARROW] = 0x1FF | 1U << 20 | 1U << 21,
    [RUN_WRITE] = 0x1FF | 1U << 20,
    [RUN_READ] = 0x1FFFF | 1U << 18 | 1U << 20,
    [RUN_FIND] = 0x1FF | 1U << 19 | 1U << 20,
    [RUN_FIND_FROM] = 0x1FF | 1U << 19 | 1U << 20,
    [RUN_CUT] = 0x1FF | 1U << 20,
    [FADES_COUNT] = 0x1FF | 1U << 20 | 1U << 22,
    [DELAY_WRITE] = 0x1FF | 1U << 20 | 1U << 26,
    [DELAY_READ] = 0x1FF | 1U << 20 | 1U << 26,
    [RACK_LOAD] = 0x1FF | 1U << 20 | 1U << 23 | 1U << 24 | 1U << 25,
    [RACK_READ] = 1U << 0 | 1U << 8 | 1U << 23 | 1U << 24 | 1U << 25,
    [RACK_DROP] = 1U << 0 | 1U << 8 | 1U << 23 | 1U << 24 | 1U << 25,
    [RACK_LEND] = 1U << 0 | 1U << 8 | 1U << 23 | 1U << 24 | 1U << 25,
};

struct counts *counts;

/* libFuzzer keeps inputs that set a new one of these: here, a number at an order or a rate. */
__attribute__((section("__libfuzzer_extra_counters"),
               used)) static uint8_t seen[CALLS][NUMBERS][16];

static void require(bool ok, enum call call, const char *what) {
    if (!ok) {
        fprintf(stderr, "%s: %s\n", CALL_NAMES[call], what);
        abort();
    }
}

/* ---- the input */

struct input {
    const uint8_t *at;
    size_t left;
};

/* The next bytes as a number; after the end there are zeros. */
static uint64_t take(struct input *in, size_t bytes) {
    uint64_t number = 0;
    for (size_t i = 0; i < bytes; i++) {
        number <<= 8;
        if (in->left > 0) {
            number |= *in->at++;
            in->left--;
        }
    }
    return number;
}

static size_t take_below(struct input *in, size_t bytes, size_t limit) {
    return (size_t)(take(in, bytes) % limit);
}

/* How often to damage: mostly once, since of several the first that is met hides the rest. */
static size_t take_few(struct input *in) {
    static const size_t FEW[8] = {1, 1, 1, 1, 0, 2, 3, 8};
    return FEW[take_below(in, 1, 8)];
}

/* Fills bytes with a piece of the input again and again, or with random ones from a seed. */
static void fill(struct input *in, uint8_t *bytes, size_t len) {
    uint8_t piece[32] = {0};
    const size_t choice = take_below(in, 1, 64), piece_len = choice < 32 ? choice + 1 : 0;
    for (size_t i = 0; i < piece_len; i++) {
        piece[i] = (uint8_t)take(in, 1);
    }
    uint64_t state = piece_len == 0 ? take(in, 4) + 1 : 0; /* xorshift64 */
    for (size_t i = 0; i < len; i++) {
        state ^= state << 13;
        state ^= state >> 7;
        state ^= state << 17;
        bytes[i] = piece_len == 0 ? (uint8_t)(state >> 32) : piece[i % piece_len];
    }
}

/* The rest of the input as it is, then zeros. */
static void fill_raw(struct input *in, uint8_t *bytes, size_t len) {
    const size_t count = in->left < len ? in->left : len;
    memset(bytes, 0, len);
    memcpy(bytes, in->at, count);
}

/* Mostly the right length. */
static size_t choose_len(struct input *in, size_t right) {
    switch (take_below(in, 1, 16)) {
    case 13:
        return right + 1;
    case 14:
        return right > 0 ? right - 1 : 0;
    case 15:
        return take_below(in, 2, PAGE);
    default:
        return right;
    }
}

/* ---- lent slices */

struct lent {
    uint8_t *area; /* the pages before and after it may not be touched */
    uint8_t *slice;
    size_t len;
    bool low; /* the slice is at the start of the area, not at its end */
    uint8_t before[AREA];
};

enum { HEADER, MARKER, FROM, TO, SLICES };

static struct lent lent[SLICES];
static uint64_t block_bit;   /* that mahyrei_bit_spread is asked about */
static uint64_t from_slot;   /* that mahyrei_run_find_from and mahyrei_run_cut are told */
static uint64_t step, taken; /* the number and the symbol that a delay call is told */
static uint64_t caller, owner, rack_place, borrower; /* that a rack call is told */
static uint8_t placement; /* a bit for each slice, and one for NULL in place of an empty slice */

static void map_area(struct lent *slice) {
    uint8_t *pages =
        mmap(NULL, AREA + 2 * PAGE, PROT_NONE, MAP_PRIVATE | MAP_ANONYMOUS | MAP_NORESERVE, -1, 0);
    if (pages == MAP_FAILED || mprotect(pages + PAGE, AREA, PROT_READ | PROT_WRITE) != 0) {
        perror("mmap");
        exit(1);
    }
    slice->area = pages + PAGE;
}

static void protect(const struct lent *slice, int protection) {
    if (mprotect(slice->area, AREA, protection) != 0) {
        perror("mprotect");
        exit(1);
    }
}

/* The slice and the margin on its open side. */
static uint8_t *watched(const struct lent *slice) {
    return slice->low ? slice->area : slice->area + AREA - slice->len - MARGIN;
}

/* Lends the first bytes of what is given, and zeros after them. */
static void lend(int which, size_t len, const uint8_t *given, size_t given_len) {
    struct lent *const slice = &lent[which];
    slice->len = len;
    slice->low = placement >> which & 1;
    memset(watched(slice), 0x5A, len + MARGIN);
    slice->slice = slice->low ? slice->area : slice->area + AREA - len;
    memset(slice->slice, 0, len);
    memcpy(slice->slice, given, given_len < len ? given_len : len);
    if (len == 0 && placement >> SLICES & 1) {
        slice->slice = NULL;
    }
}

/* Lends a slice to be written. */
static void lend_to(size_t len) {
    static uint8_t old[AREA];
    for (size_t i = 0; i < len; i++) {
        old[i] = (uint8_t)(i * 37 + len);
    }
    lend(TO, len, old, len);
}

/* Counts the bytes of the slice that changed; the margin may not change at all. */
static uint64_t changed(const struct lent *slice, enum call call) {
    const uint8_t *now = watched(slice), *before = slice->before;
    uint64_t differ = 0;
    if (memcmp(now, before, slice->len + MARGIN) != 0) {
        const size_t first = slice->low ? 0 : MARGIN, margin = slice->low ? slice->len : 0;
        for (size_t i = 0; i < slice->len; i++) {
            differ += now[first + i] != before[first + i];
        }
        require(memcmp(now + margin, before + margin, MARGIN) == 0, call, "wrote beside a slice");
    }
    return differ;
}

/* ---- a call, and what is demanded of it */

static bool is_run(enum call call) {
    return call >= RUN_WRITE;
}

/* The header as it is lent; only for one of ten bytes. */
static struct run lent_run(void) {
    uint64_t fields[FIELDS] = {0};
    size_t at = 0;
    for (size_t i = 0; i < FIELDS; i++) {
        for (size_t end = at + WIDTHS[i]; at < end; at++) {
            fields[i] = fields[i] << 1 | get_bit(lent[HEADER].slice, at);
        }
    }
    return (struct run){fields[0], fields[1], fields[2], fields[3],
                        fields[4], fields[5], fields[6], fields[7]};
}

/* A slice of numbers begins and ends with one. */
static uint32_t *numbers_of(uint8_t *slice) {
    return (uint32_t *)(void *)slice;
}

static uint64_t put_library(enum call call, uint64_t rate) {
    const struct lent *const h = &lent[HEADER], *const m = &lent[MARKER];
    const struct lent *const from = &lent[FROM], *const to = &lent[TO];
    switch (call) {
    case WORD_WRITE:
        return mahyrei_word_write(rate, from->slice, from->len, to->slice, to->len);
    case WORD_READ:
        return mahyrei_word_read(rate, from->slice, from->len, to->slice, to->len);
    case PASS_WRITE:
        return mahyrei_pass_write(rate, from->slice, from->len, to->slice, to->len);
    case PASS_READ:
        return mahyrei_pass_read(rate, from->slice, from->len, to->slice, to->len);
    case BIT_SPREAD:
        return mahyrei_bit_spread(rate, block_bit, to->slice, to->len);
    case UPLINK_WRITE:
        return mahyrei_uplink_write(from->slice, from->len, to->slice, to->len);
    case UPLINK_READ:
        return mahyrei_uplink_read(from->slice, from->len, to->slice, to->len);
    case HEADER_WIDEN:
        return mahyrei_header_widen(from->slice, from->len, to->slice, to->len);
    case HEADER_NARROW:
        return mahyrei_header_narrow(from->slice, from->len, to->slice, to->len);
    case RUN_WRITE:
        return mahyrei_run_write(h->slice, h->len, m->slice, m->len, from->slice, from->len,
                                 to->slice, to->len);
    case RUN_READ:
        return mahyrei_run_read(h->slice, h->len, m->slice, m->len, from->slice, from->len,
                                to->slice, to->len);
    case RUN_FIND:
        return mahyrei_run_find(h->slice, h->len, m->slice, m->len, from->slice, from->len);
    case RUN_FIND_FROM:
        return mahyrei_run_find_from(h->slice, h->len, m->slice, m->len, from->slice, from->len,
                                     from_slot);
    case RUN_CUT:
        return mahyrei_run_cut(h->slice, h->len, from->slice, from->len, from_slot, to->slice,
                               to->len);
    case FADES_COUNT:
        return mahyrei_fades_count(h->slice, h->len, numbers_of(from->slice), from->len / 4,
                                   numbers_of(to->slice), to->len / 4);
    case DELAY_WRITE:
        return mahyrei_delay_write(h->slice, h->len, step, taken, to->slice, to->len);
    case DELAY_READ:
        return mahyrei_delay_read(h->slice, h->len, step, taken, to->slice, to->len);
    case RACK_LOAD:
        return mahyrei_rack_load(to->slice, to->len, caller, owner, rack_place, h->slice, h->len);
    case RACK_READ:
        return mahyrei_rack_read(from->slice, from->len, caller, owner, rack_place, to->slice,
                                 to->len);
    case RACK_DROP:
        return mahyrei_rack_drop(to->slice, to->len, caller, owner, rack_place);
    default:
        return mahyrei_rack_lend(to->slice, to->len, caller, owner, rack_place, borrower);
    }
}

static uint64_t put_plain(enum call call, uint64_t rate, uint8_t *to, size_t to_len) {
    const struct lent *const h = &lent[HEADER], *const m = &lent[MARKER];
    const struct lent *const from = &lent[FROM];
    switch (call) {
    case WORD_WRITE:
        return reference_word_write(rate, from->slice, from->len, to, to_len);
    case WORD_READ:
        return reference_word_read(rate, from->slice, from->len, to, to_len);
    case PASS_WRITE:
        return reference_pass_write(rate, from->slice, from->len, to, to_len);
    case PASS_READ:
        return reference_pass_read(rate, from->slice, from->len, to, to_len);
    case BIT_SPREAD:
        return reference_bit_spread(rate, block_bit, to, to_len);
    case UPLINK_WRITE:
        return reference_uplink_write(from->slice, from->len, to, to_len);
    case UPLINK_READ:
        return reference_uplink_read(from->slice, from->len, to, to_len);
    case HEADER_WIDEN:
        return reference_header_widen(from->slice, from->len, to, to_len);
    case HEADER_NARROW:
        return reference_header_narrow(from->slice, from->len, to, to_len);
    case RUN_WRITE:
        return reference_run_write(h->slice, h->len, m->slice, m->len, from->slice, from->len, to,
                                   to_len);
    case RUN_READ:
        return reference_run_read(h->slice, h->len, m->slice, m->len, from->slice, from->len, to,
                                  to_len);
    case RUN_FIND:
        return reference_run_find(h->slice, h->len, m->slice, m->len, from->slice, from->len);
    case RUN_FIND_FROM:
        return reference_run_find_from(h->slice, h->len, m->slice, m->len, from->slice, from->len,
                                       from_slot);
    case RUN_CUT:
        return reference_run_cut(h->slice, h->len, from->slice, from->len, from_slot, to, to_len);
    case FADES_COUNT:
        return reference_fades_count(h->slice, h->len, numbers_of(from->slice), from->len / 4,
                                     numbers_of(to), to_len / 4);
    case DELAY_WRITE:
        return reference_delay_write(h->slice, h->len, step, taken, to, to_len);
    case DELAY_READ:
        return reference_delay_read(h->slice, h->len, step, taken, to, to_len);
    case RACK_LOAD:
        return reference_rack_load(to, to_len, caller, owner, rack_place, h->slice, h->len);
    case RACK_READ:
        return reference_rack_read(from->slice, from->len, caller, owner, rack_place, to, to_len);
    case RACK_DROP:
        return reference_rack_drop(to, to_len, caller, owner, rack_place);
    default:
        return reference_rack_lend(to, to_len, caller, owner, rack_place, borrower);
    }
}

/* One more than the highest place that can stand beside this number. */
static uint64_t place_limit(enum call call, unsigned number) {
    if (call == WORD_READ && number == MAHYREI_BAD_CODE) {
        return MAHYREI_WORD_BITS;
    }
    if (call == PASS_READ && number >= MAHYREI_BAD_CODE) {
        return lent[FROM].len / MAHYREI_WORD_BYTES;
    }
    if (call == UPLINK_READ && number == MAHYREI_BAD_GROUP) {
        return 2 * lent[FROM].len;
    }
    if (call == UPLINK_READ && number == MAHYREI_BAD_PARITY) {
        return lent[FROM].len / MAHYREI_UPLINK_CODEBLOCK_BYTES;
    }
    if ((call == RUN_FIND || call == RUN_FIND_FROM) && number == MAHYREI_ACCEPTED) {
        const struct run run = lent_run();
        return 8 * lent[FROM].len + 1 - run.W * group_slots(&run);
    }
    if ((call == DELAY_WRITE || call == DELAY_READ) && number == MAHYREI_ACCEPTED) { /* a symbol */
        return 256;
    }
    if (call != RUN_READ || number < MAHYREI_BAD_PULSE || number > MAHYREI_BAD_FRAME_MARKER) {
        return 1;
    }
    const struct run run = lent_run();
    return number <= MAHYREI_BAD_IDLE    ? symbol_count(&run)
           : number <= MAHYREI_BAD_CHECK ? block_count(&run)
                                         : run.A;
}

static void judge_answer(enum call call, uint64_t rate, uint64_t answer) {
    const unsigned number = mahyrei_answer_number(answer);
    require(number < NUMBERS && CAN_ANSWER[call] >> number & 1, call, "a number it cannot give");
    require(mahyrei_answer_place(answer) < place_limit(call, number), call,
            "a place that there is not");
    counts->call[call].answers[number]++;
    const uint64_t kind = !is_run(call)                              ? rate
                          : lent[HEADER].len != MAHYREI_HEADER_BYTES ? 0
                                                                     : lent_run().m;
    seen[call][number][kind < 16 ? kind : 15] = 1;
}

/* Puts a call on the lent slices to the library, and judges all of it. */
static uint64_t put(enum call call, uint64_t rate) {
    static _Alignas(uint32_t) uint8_t expected[AREA];
    const int first = is_run(call) ? HEADER : FROM;
    for (int i = first; i < SLICES; i++) {
        memcpy(lent[i].before, watched(&lent[i]), lent[i].len + MARGIN);
        protect(&lent[i], i == TO ? PROT_READ | PROT_WRITE : PROT_READ);
    }
    const uint64_t answer = put_library(call, rate);
    uint64_t read_changed = 0;
    for (int i = first; i < TO; i++) {
        protect(&lent[i], PROT_READ | PROT_WRITE);
        read_changed += changed(&lent[i], call);
        counts->call[call].lent += lent[i].len;
    }
    counts->call[call].lent += lent[TO].len;
    const uint64_t to_changed = changed(&lent[TO], call);
    if (mahyrei_answer_number(answer) != MAHYREI_ACCEPTED) {
        counts->call[call].changed += read_changed + to_changed;
        require(to_changed == 0, call, "refused, and changed a lent byte");
    }
    require(read_changed == 0, call, "changed a slice that it only reads");
    judge_answer(call, rate, answer);

    const size_t start = lent[TO].low ? 0 : MARGIN;
    memcpy(expected, lent[TO].before + start, lent[TO].len);
    require(answer == put_plain(call, rate, expected, lent[TO].len), call,
            "another answer than the reference");
    require(lent[TO].len == 0 || memcmp(lent[TO].slice, expected, lent[TO].len) == 0, call,
            "wrote other bytes than the reference");
    return answer;
}

/* Puts a call that is accepted, with what another has written. */
static void put_written(enum call call, uint64_t rate, size_t to_len) {
    static uint8_t written[AREA];
    const size_t len = lent[TO].len;
    memcpy(written, lent[TO].slice, len);
    lend(FROM, len, written, len);
    lend_to(to_len);
    require(put(call, rate) == MAHYREI_ACCEPTED, call, "refused what the other call made");
}

/* Puts a call and, where it is accepted, the call that goes the other way. */
static void put_and_back(enum call call, uint64_t rate) {
    static uint8_t came[AREA], went[AREA];
    static const enum call BACK[CALLS] = {
        [WORD_WRITE] = WORD_READ,      [WORD_READ] = WORD_WRITE,     [PASS_WRITE] = PASS_READ,
        [PASS_READ] = PASS_WRITE,      [UPLINK_WRITE] = UPLINK_READ, [UPLINK_READ] = UPLINK_WRITE,
        [RUN_WRITE] = RUN_READ,        [RUN_READ] = RUN_WRITE,       [HEADER_WIDEN] = HEADER_NARROW,
        [HEADER_NARROW] = HEADER_WIDEN};
    const enum call back = BACK[call];
    if (put(call, rate) != MAHYREI_ACCEPTED) {
        return;
    }
    const size_t from_len = lent[FROM].len, to_len = lent[TO].len;
    memcpy(came, lent[FROM].slice, from_len);
    memcpy(went, lent[TO].slice, to_len);
    if (call == WORD_WRITE || call == PASS_WRITE) { /* the spare bits do not come back */
        const size_t each = mahyrei_word_block_bytes(rate);
        for (size_t last = each - 1; last < from_len; last += each) {
            came[last] &= 0xFC;
        }
    }
    put_written(back, rate, from_len);
    if (call == RUN_READ && lent_run().copies > 1) { /* a copy may have been damaged */
        put_written(call, rate, to_len);
        require(memcmp(lent[TO].slice, went, to_len) == 0, call, "did not lead back");
        return;
    }
    require(memcmp(lent[TO].slice, came, from_len) == 0, back, "did not lead back");
}

/* ---- words */

static uint8_t given[AREA]; /* what is lent to be read */

static void damage_word(struct input *in, uint64_t rate, uint8_t *word) {
    const size_t inputs = code_inputs(rate);
    for (size_t left = take_few(in); left > 0; left--) {
        const size_t how = take_below(in, 1, 8), place = take_below(in, 2, MAHYREI_WORD_BITS);
        switch (how) {
        case 0:
            flip(word, place);
            break;
        case 1:
            flip_coded(word, place);
            break;
        case 2: /* the last coded bits */
            flip_coded(word, MAHYREI_WORD_BITS - 1 - place % 6);
            break;
        case 3: /* check and termination */
            flip_code_input(rate, word, inputs - 1 - place % CODE_TAIL);
            break;
        case 4: /* termination */
            flip_code_input(rate, word, inputs - 1 - place % 2);
            break;
        default:
            flip_code_input(rate, word, place % inputs);
        }
    }
}

static void make_word(struct input *in, uint64_t rate) {
    uint8_t block[MAHYREI_BLOCK_BYTES_MAX];
    if (take_below(in, 1, 4) == 3) {
        fill_raw(in, given, MAHYREI_WORD_BYTES);
        return;
    }
    fill(in, block, mahyrei_word_block_bytes(rate)); /* its spare bits too */
    require(mahyrei_word_write(rate, block, mahyrei_word_block_bytes(rate), given,
                               MAHYREI_WORD_BYTES) == 0,
            WORD_WRITE, "refused a block");
    damage_word(in, rate, given);
}

/* Mostly a rate that there is; `known` is one in any case, to make something by. */
static uint64_t take_rate(struct input *in, uint64_t *known) {
    const uint64_t choice = take(in, 1);
    *known = choice % 3;
    return choice < 240 ? *known : take(in, 8);
}

static void put_word(struct input *in, enum call call) {
    uint64_t known;
    const uint64_t rate = take_rate(in, &known);
    const size_t block_len = choose_len(in, mahyrei_word_block_bytes(known));
    const size_t word_len = choose_len(in, MAHYREI_WORD_BYTES);
    if (call == WORD_WRITE) {
        fill(in, given, mahyrei_word_block_bytes(known));
        lend(FROM, block_len, given, mahyrei_word_block_bytes(known));
        lend_to(word_len);
    } else {
        make_word(in, known);
        lend(FROM, word_len, given, MAHYREI_WORD_BYTES);
        lend_to(block_len);
    }
    put_and_back(call, rate);
}

/* ---- passes */

/* How many blocks or words are lent: mostly few, which is fast, and now and then about the most. */
static size_t take_count(struct input *in) {
    const size_t choice = take_below(in, 1, 128);
    return choice < 124 ? choice % 6 : MAHYREI_PASS_MAX - 2 + choice % 4;
}

/* The words of n blocks, and a few of them damaged; in most passes one. */
static void make_words(struct input *in, uint64_t rate, size_t n) {
    static uint8_t blocks[AREA];
    const size_t len = mahyrei_word_block_bytes(rate);
    fill(in, blocks, n * len);
    for (size_t i = 0; i < n; i++) {
        require(mahyrei_word_write(rate, blocks + i * len, len, given + i * MAHYREI_WORD_BYTES,
                                   MAHYREI_WORD_BYTES) == 0,
                WORD_WRITE, "refused a block");
    }
    for (size_t left = n > 0 ? take_few(in) : 0; left > 0; left--) {
        damage_word(in, rate, given + take_below(in, 1, n) * MAHYREI_WORD_BYTES);
    }
}

static void put_pass(struct input *in, enum call call) {
    uint64_t known;
    const uint64_t rate = take_rate(in, &known);
    const size_t n = take_count(in), other = take_below(in, 1, 16) == 15 ? take_count(in) : n;
    const size_t blocks_len = choose_len(in, n * mahyrei_word_block_bytes(known));
    const size_t words_len = choose_len(in, other * MAHYREI_WORD_BYTES);
    if (call == PASS_WRITE) {
        fill(in, given, blocks_len);
        lend(FROM, blocks_len, given, blocks_len);
        lend_to(words_len);
    } else {
        make_words(in, known, other);
        lend(FROM, words_len, given, other * MAHYREI_WORD_BYTES);
        lend_to(blocks_len);
    }
    put_and_back(call, rate);
}

/* ---- the spread of a bit */

static void put_spread(struct input *in) {
    static const unsigned LIMITS[3] = {110, 73, 56};
    uint64_t known;
    const uint64_t rate = take_rate(in, &known), bits = mahyrei_word_block_bytes(known) * 8 - 2;
    const size_t choice = take_below(in, 1, 8);
    block_bit = choice < 6    ? take(in, 2) % bits
                : choice == 6 ? bits + take(in, 1) % 4
                              : take(in, 8);
    lend(FROM, 0, given, 0); /* it reads nothing */
    lend_to(choose_len(in, MAHYREI_WORD_BYTES));
    if (put(BIT_SPREAD, rate) == MAHYREI_ACCEPTED) {
        unsigned ones = 0;
        for (size_t j = 0; j < MAHYREI_WORD_BITS; j++) {
            ones += (unsigned)get_bit(lent[TO].slice, j);
        }
        require(ones > 0 && ones <= LIMITS[rate], BIT_SPREAD, "more places than can change");
    }
}

/* ---- uplinks */

static void damage_codeblocks(struct input *in, uint8_t *slots, size_t n) {
    for (size_t left = take_few(in); left > 0; left--) {
        const size_t how = take_below(in, 1, 8), byte = take_below(in, 2, n * CODEBLOCK);
        const unsigned shift = take(in, 1) % 2 == 0 ? 4 : 0;
        switch (how) {
        case 0: /* any slot */
            flip(slots, 8 * byte + take_below(in, 1, 8));
            break;
        case 1: /* any four */
            slots[byte] =
                (uint8_t)((slots[byte] & ~(15U << shift)) | (unsigned)take(in, 1) % 16 << shift);
            break;
        case 2: /* one codeblock in the place of another */
            memmove(slots + byte / CODEBLOCK * CODEBLOCK, slots + take_below(in, 1, n) * CODEBLOCK,
                    CODEBLOCK);
            break;
        case 3: /* the half of one */
            memmove(slots + byte / CODEBLOCK * CODEBLOCK, slots + take_below(in, 1, n) * CODEBLOCK,
                    CODEBLOCK / 2);
            break;
        default: /* another bit */
            slots[byte] = (uint8_t)(slots[byte] ^ 12U << shift);
        }
    }
}

/* The slots of n frames, damaged; or any bits, each at its four slots; or the rest of the input. */
static void make_codeblocks(struct input *in, size_t n) {
    static uint8_t frames[AREA];
    const size_t choice = take_below(in, 1, 8), slots_len = n * CODEBLOCK;
    if (choice == 6) {
        fill_raw(in, given, slots_len);
    } else if (choice == 7) {
        fill(in, given, slots_len);
        for (size_t i = 0; i < slots_len; i++) {
            given[i] = (uint8_t)((given[i] & 0x10 ? 0x80 : 0x40) | (given[i] & 1 ? 8 : 4));
        }
    } else if (n > 0 && n <= MAHYREI_UPLINK_MAX) {
        fill(in, frames, n * MAHYREI_UPLINK_FRAME_BYTES);
        require(mahyrei_uplink_write(frames, n * MAHYREI_UPLINK_FRAME_BYTES, given, slots_len) == 0,
                UPLINK_WRITE, "refused frames");
        damage_codeblocks(in, given, n);
    } else {
        fill(in, given, slots_len);
    }
}

static void put_uplink(struct input *in, enum call call) {
    const size_t n = take_below(in, 1, 67), other = take_below(in, 1, 16) == 15 ? n + 1 : n;
    const size_t frames_len = choose_len(in, n * MAHYREI_UPLINK_FRAME_BYTES);
    const size_t slots_len = choose_len(in, other * CODEBLOCK);
    if (call == UPLINK_WRITE) {
        fill(in, given, frames_len);
        lend(FROM, frames_len, given, frames_len);
        lend_to(slots_len);
    } else {
        make_codeblocks(in, other);
        lend(FROM, slots_len, given, other * CODEBLOCK);
        lend_to(frames_len);
    }
    put_and_back(call, 0);
}

/* ---- runs */

static size_t gcd(size_t a, size_t b) {
    while (b != 0) {
        const size_t rest = a % b;
        a = b;
        b = rest;
    }
    return a;
}

/* Makes N and B fit: the steps that do are the multiples of one, if it is in range. */
static void fit_rows(struct run *run) {
    const size_t S = word_symbols(run), fits = S / gcd(S, run->N * (run->N - 1));
    if (run->N > 1 && fits <= 256) {
        run->B = fits * (1 + run->B % (256 / fits));
    } else {
        run->N = 1;
    }
}

static const uint64_t FACTORS[] = {1, 2, 3, 4, 8, 16, 32};
enum { FACTOR_COUNT = sizeof FACTORS / sizeof FACTORS[0] };

/* A header that passes, of a run of at most SLOTS_MOST bytes. */
static struct run make_run(struct input *in) {
    struct run run = {.rate = take(in, 1) % 3, .m = 2 + take(in, 1) % 7};
    run.N = 1 + take(in, 1) % 128;
    run.B = 1 + take(in, 1);
    run.F = 1 + take(in, 2) % 2048;
    run.W = 1 + take(in, 1) % 32;
    run.A = 1 + take(in, 1) % 64;
    size_t factor = take_below(in, 1, 2 * FACTOR_COUNT); /* one copy in half of the runs */
    factor = factor < FACTOR_COUNT ? factor : 0;
    run.copies = FACTORS[factor];
    /* small runs, which are fast, more often than large ones */
    const size_t most = SLOTS_MOST >> take_below(in, 1, 8);
    fit_rows(&run);
    while (slot_bytes(&run) > most && (factor > 0 || run.A > 1 || run.F > 1 || run.N > 1)) {
        if (factor > 0) {
            run.copies = FACTORS[--factor];
        } else if (run.A > 1) {
            run.A /= 2;
        } else if (run.F > 1) {
            run.F /= 2;
        } else {
            run.N = (run.N + 1) / 2;
            fit_rows(&run);
        }
    }
    return run;
}

/* The symbol whose first copy this is: its first pulse, or 0. */
static size_t get_symbol(const struct run *run, const uint8_t *slots, size_t s) {
    for (size_t q = 0; q < pulse_order(run); q++) {
        if (get_bit(slots, copy_start(run, s, 0) + q)) {
            return q;
        }
    }
    return 0;
}

/* One pulse in each of the first copies, at any slot of the group. */
static void put_copies(const struct run *run, uint8_t *slots, size_t s, size_t at, size_t count) {
    for (size_t x = copy_start(run, s, 0); x < copy_start(run, s, count); x++) {
        if (get_bit(slots, x) != (x % group_slots(run) == at)) {
            flip(slots, x);
        }
    }
}

static void put_pulse(const struct run *run, uint8_t *slots, size_t s, size_t at) {
    put_copies(run, slots, s, at, run->copies);
}

static void get_word(const struct run *run, const uint8_t *slots, size_t c, uint8_t *word) {
    const size_t S = word_symbols(run);
    memset(word, 0, MAHYREI_WORD_BYTES);
    for (size_t i = 0; i < S; i++) {
        const size_t symbol = get_symbol(run, slots, run_symbol(run, c * S + i));
        for (size_t j = 0; j < run->m; j++) { /* first bit highest */
            if (symbol >> (run->m - 1 - j) & 1) {
                flip(word, i * run->m + j);
            }
        }
    }
}

static void put_word_back(const struct run *run, uint8_t *slots, size_t c, const uint8_t *word) {
    const size_t S = word_symbols(run);
    for (size_t i = 0; i < S; i++) {
        size_t symbol = 0;
        for (size_t x = i * run->m; x < (i + 1) * run->m; x++) {
            symbol = symbol * 2 + get_bit(word, x);
        }
        const size_t s = run_symbol(run, c * S + i);
        if (!get_bit(slots, copy_start(run, s, 0) + symbol)) { /* most stand already */
            put_pulse(run, slots, s, symbol);
        }
    }
}

/* Changes a bit of a word's block and makes the check right again. */
static void flip_stream(uint8_t *word, uint64_t rate, size_t bit) {
    uint8_t block[MAHYREI_BLOCK_BYTES_MAX];
    const size_t len = mahyrei_word_block_bytes(rate);
    if (mahyrei_word_read(rate, word, MAHYREI_WORD_BYTES, block, len) == MAHYREI_ACCEPTED) {
        flip(block, bit);
        require(mahyrei_word_write(rate, block, len, word, MAHYREI_WORD_BYTES) == 0, WORD_WRITE,
                "refused a block");
    }
}

/* A bit of the stream: of a frame marker, of the fill, where there is some, or any. */
static size_t take_stream_bit(struct input *in, const struct run *run) {
    const size_t marked = marked_bits(run), end = run->A * marked;
    const size_t all = block_count(run) * block_bits(run);
    switch (take_below(in, 1, 4)) {
    case 0:
        return take_below(in, 1, run->A) * marked + take_below(in, 1, FRAME_MARKER_BITS);
    case 1:
        return end < all ? end + take_below(in, 2, all - end) : all - 1;
    default:
        return take_below(in, 3, all);
    }
}

/* Damages one word of the run. */
static void damage_run_word(struct input *in, const struct run *run, uint8_t *slots) {
    uint8_t word[MAHYREI_WORD_BYTES];
    const size_t how = take_below(in, 1, 8);
    size_t c = take_below(in, 1, block_count(run));
    if (how < 4) {
        get_word(run, slots, c, word);
        damage_word(in, run->rate, word);
    } else if (how < 7) {
        const size_t x = take_stream_bit(in, run), k = block_bits(run);
        c = x / k;
        get_word(run, slots, c, word);
        flip_stream(word, run->rate, x % k);
    } else { /* word 0 once more */
        get_word(run, slots, 0, word);
    }
    put_word_back(run, slots, c, word);
}

static void damage_run(struct input *in, const struct run *run, uint8_t *slots) {
    const size_t group = group_slots(run), M = pulse_order(run), symbols = symbol_count(run);
    const size_t spare = 8 * slot_bytes(run) - slot_count(run);
    for (size_t left = take_few(in); left > 0; left--) {
        const size_t how = take_below(in, 1, 16), s = take_below(in, 3, symbols);
        const size_t at = (size_t)take(in, 2);
        switch (how) {
        case 0:
            flip(slots, copy_start(run, s, at / group % run->copies) + at % group);
            break;
        case 1: /* spare, where there are such bits */
            flip(slots, 8 * slot_bytes(run) - 1 - at % (spare > 0 ? spare : 8));
            break;
        case 2: /* a lone guard pulse */
            put_pulse(run, slots, s, M + at % (M / 4));
            break;
        case 3:
        case 4: /* another symbol */
            put_pulse(run, slots, s, at % M);
            break;
        case 5: /* a marker symbol */
            put_pulse(run, slots, s / period(run) * period(run) + at % run->W, s % M);
            break;
        case 6: /* half of the copies, or one more */
            put_copies(run, slots, s, at % group, (run->copies + at / group % 2) / 2);
            break;
        case 7: /* some of the copies */
            put_copies(run, slots, s, at % group, at / group % run->copies);
            break;
        default:
            damage_run_word(in, run, slots);
        }
    }
}

/* Sets a field to any number, so that a header fails where it would not by chance. */
static void set_field(uint8_t *header, size_t field, uint64_t number) {
    size_t end = 0;
    for (size_t i = 0; i <= field; i++) {
        end += WIDTHS[i];
    }
    for (size_t i = 0; i < WIDTHS[field]; i++) {
        if (get_bit(header, end - 1 - i) != (number >> i & 1)) {
            flip(header, end - 1 - i);
        }
    }
}

/* The header as it is lent: mostly that of the run, else changed in one way. */
static void lend_header(struct input *in, const struct run *run) {
    uint8_t header[2 * MAHYREI_HEADER_BYTES] = {0};
    size_t len = MAHYREI_HEADER_BYTES;
    pack_header(run, header);
    const size_t choice = take_below(in, 1, 32);
    if (choice < FIELDS) {
        set_field(header, choice, choice == 0 ? 3 : take(in, 4)); /* any other rate there is */
    } else if (choice == FIELDS) {
        for (size_t i = 0; i < len; i++) {
            header[i] = (uint8_t)take(in, 1);
        }
    } else if (choice == FIELDS + 1) {
        len = take_below(in, 1, sizeof header);
    }
    lend(HEADER, len, header, len);
}

/* ---- forms of headers */

/* The header of a run in one of its forms, mostly as it is, else changed in one way. */
static void put_header(struct input *in, enum call call) {
    const size_t eight = MAHYREI_OLD_HEADER_BYTES, ten = MAHYREI_HEADER_BYTES;
    const size_t bytes = call == HEADER_WIDEN ? eight : ten;
    uint8_t header[2 * MAHYREI_HEADER_BYTES] = {0};
    const struct run run = make_run(in);
    if (call == HEADER_WIDEN) {
        pack_old_header(&run, header);
    } else {
        pack_header(&run, header);
    }
    const size_t choice = take_below(in, 1, 32);
    if (choice < FIELDS - 1) { /* after A, the old form has zeros alone */
        set_field(header, choice, choice == 0 ? 3 : take(in, 4));
    } else if (choice == FIELDS) {
        flip(header, take_below(in, 1, 8 * bytes));
    }
    const size_t len = choose_len(in, bytes) % sizeof header;
    lend(FROM, len, header, sizeof header);
    lend_to(choose_len(in, eight + ten - bytes));
    put_and_back(call, run.m);
}

/* ---- markers and slots */

static void make_marker(struct input *in, const struct run *run, uint8_t marker[MARKER_ROOM]) {
    const size_t choice = take_below(in, 1, 8);
    fill(in, marker, MARKER_ROOM);
    for (size_t i = 0; i < MARKER_ROOM && choice != 7; i++) { /* else as it came */
        marker[i] &= (uint8_t)(pulse_order(run) - 1);
    }
}

/* The slots to be read. */
static void make_slots(struct input *in, const struct run *run, const uint8_t *marker) {
    static uint8_t frames[MAHYREI_FRAMES_BYTES_MAX];
    uint8_t header[MAHYREI_HEADER_BYTES];
    if (take_below(in, 1, 8) == 7) {
        fill_raw(in, given, slot_bytes(run));
        return;
    }
    fill(in, frames, frame_bytes(run));
    pack_header(run, header);
    memset(given, 0, slot_bytes(run)); /* an input says all that it does */
    if (mahyrei_run_write(header, sizeof header, marker, run->W, frames, frame_bytes(run), given,
                          slot_bytes(run)) ==
        MAHYREI_ACCEPTED) { /* not where a marker symbol is M */
        damage_run(in, run, given);
    }
}

static void put_run(struct input *in, enum call call) {
    uint8_t marker[MARKER_ROOM];
    const struct run run = make_run(in);
    lend_header(in, &run);
    make_marker(in, &run, marker);
    lend(MARKER, choose_len(in, run.W) % MARKER_ROOM, marker, MARKER_ROOM);
    const size_t frames_len = choose_len(in, frame_bytes(&run));
    const size_t slots_len = choose_len(in, slot_bytes(&run));
    if (call == RUN_WRITE) {
        fill(in, given, frame_bytes(&run));
        lend(FROM, frames_len, given, frame_bytes(&run));
        lend_to(slots_len);
    } else {
        make_slots(in, &run, marker);
        lend(FROM, slots_len, given, slot_bytes(&run));
        lend_to(frames_len);
    }
    put_and_back(call, 0);
}

/* ---- captures */

/* The slots of the marker from a slot on, as far as the capture goes. */
static void put_marker(const struct run *run, const uint8_t *marker, size_t at, size_t end) {
    const size_t group = group_slots(run);
    for (size_t i = 0; i < run->W * group && at + i < end; i++) {
        if (get_bit(given, at + i) != (i % group == marker[i / group])) {
            flip(given, at + i);
        }
    }
}

/* A capture to be searched, and its length. Plain C is slow on long ones. */
static size_t make_capture(struct input *in, const struct run *run, const uint8_t *marker) {
    static const uint8_t AROUND[2] = {0, 0xFF};
    const size_t len = take_below(in, 2, 6000), how = take_below(in, 1, 8);
    const size_t marker_slots = run->W * group_slots(run);
    if (how == 7) {
        fill_raw(in, given, len);
        return len;
    }
    if (how < 2) {
        memset(given, AROUND[how], len);
    } else {
        fill(in, given, len);
    }
    for (size_t left = len > 0 ? take_few(in) : 0; left > 0; left--) {
        const size_t choice = take_below(in, 1, 8);
        const size_t at = choice == 0 && 8 * len >= marker_slots ? 8 * len - marker_slots
                                                                 : take_below(in, 3, 8 * len);
        put_marker(run, marker, at, 8 * len);
        const size_t wrong = at + take_below(in, 2, marker_slots);
        if (choice > 4 && wrong < 8 * len) {
            flip(given, wrong);
        }
    }
    return len;
}

/* The slot to search from: any, one about the last that has room for a marker, or any number. */
static uint64_t take_slot(struct input *in, const struct run *run, size_t len) {
    const size_t choice = take_below(in, 1, 8), end = 8 * len;
    const size_t marker_slots = run->W * group_slots(run);
    if (choice < 5 || end < marker_slots) {
        return take_below(in, 3, end + 1);
    }
    return choice < 7 ? end - marker_slots + choice - 5 : take(in, 8);
}

static void put_find(struct input *in, enum call call) {
    uint8_t marker[MARKER_ROOM];
    const struct run run = make_run(in);
    lend_header(in, &run);
    make_marker(in, &run, marker);
    lend(MARKER, choose_len(in, run.W) % MARKER_ROOM, marker, MARKER_ROOM);
    const size_t len = make_capture(in, &run, marker);
    lend(FROM, len, given, len);
    lend_to(0); /* it writes nothing */
    if (call == RUN_FIND) {
        put(RUN_FIND, 0);
        return;
    }
    from_slot = take_slot(in, &run, len);
    const uint64_t answer = put(RUN_FIND_FROM, 0), found = mahyrei_answer_place(answer);
    if (mahyrei_answer_number(answer) == MAHYREI_ACCEPTED) {
        require(found >= from_slot, RUN_FIND_FROM, "found a slot below the given one");
        from_slot = found;
        require(put(RUN_FIND_FROM, 0) == answer, RUN_FIND_FROM, "missed the slot that it found");
    }
}

/* A run at some slot of a capture: what is cut out is the run, and reads as its frames. */
static void put_cut(struct input *in) {
    static uint8_t frames[MAHYREI_FRAMES_BYTES_MAX], written[AREA];
    uint8_t marker[MARKER_ROOM], header[MAHYREI_HEADER_BYTES];
    const struct run run = make_run(in);
    const size_t bytes = slot_bytes(&run), count = slot_count(&run);
    lend_header(in, &run);
    make_marker(in, &run, marker);
    fill(in, frames, frame_bytes(&run));
    pack_header(&run, header);
    const bool sound = mahyrei_run_write(header, sizeof header, marker, run.W, frames,
                                         frame_bytes(&run), written, bytes) == MAHYREI_ACCEPTED;
    const size_t at = take_below(in, 1, 256), len = (at + count + 7) / 8 + take_below(in, 1, 32);
    fill(in, given, len);
    for (size_t x = 0; sound && x < count; x++) {
        if (get_bit(given, at + x) != get_bit(written, x)) {
            flip(given, at + x);
        }
    }
    const size_t choice = take_below(in, 1, 8), last = 8 * len - count;
    from_slot = choice < 4 ? at : choice < 6 ? last + choice - 4 : choice == 6 ? 0 : take(in, 8);
    lend(MARKER, 0, marker, 0); /* it is lent none */
    lend(FROM, len, given, len);
    lend_to(choose_len(in, bytes));
    const bool same =
        lent[HEADER].len == sizeof header && memcmp(lent[HEADER].slice, header, sizeof header) == 0;
    if (put(RUN_CUT, 0) != MAHYREI_ACCEPTED || !sound || !same || from_slot != at) {
        return;
    }
    require(memcmp(lent[TO].slice, written, bytes) == 0, RUN_CUT, "cut out another run");
    lend(MARKER, run.W, marker, run.W);
    lend_to(0);
    const uint64_t found = put(RUN_FIND, 0);
    require(run.copies > 1 ||
                (mahyrei_answer_number(found) == 0 && mahyrei_answer_place(found) <= at),
            RUN_FIND, "missed a run");
    lend(FROM, bytes, written, bytes);
    lend_to(frame_bytes(&run));
    require(put(RUN_READ, 0) == MAHYREI_ACCEPTED, RUN_READ, "refused what was cut out");
    require(memcmp(lent[TO].slice, frames, frame_bytes(&run)) == 0, RUN_READ, "read other frames");
}

/* ---- fades */

enum { FADES_MOST = 4000 };

/* A list of fades over a run, and how many numbers it has: mostly one that keeps the rules. */
static size_t make_fades(struct input *in, const struct run *run, uint32_t list[2 * FADES_MOST]) {
    const size_t symbols = symbol_count(run), count = take_below(in, 2, FADES_MOST - 2);
    const size_t gap = (size_t)1 << take_below(in, 1, 18),
                 size = (size_t)1 << take_below(in, 1, 18);
    uint64_t state = take(in, 4) + 1; /* xorshift64 */
    size_t len = 0;
    for (size_t first = take_below(in, 3, symbols), i = 0; i < count && first < symbols; i++) {
        state ^= state << 13;
        state ^= state >> 7;
        state ^= state << 17;
        const size_t wanted = 1 + (size_t)(state >> 8) % size;
        const size_t length = wanted < symbols - first ? wanted : symbols - first;
        list[len++] = (uint32_t)first;
        list[len++] = (uint32_t)length;
        first += length + (size_t)(state >> 32) % gap;
    }
    const size_t how = take_below(in, 1, 16), at = take_below(in, 2, len + 1);
    if (how == 0) { /* any number for one */
        list[at] = (uint32_t)take(in, 4);
        len += at == len;
    } else if (how == 1) { /* one more, or one less */
        list[at] += at % 2 == 0 ? 1 : UINT32_MAX;
        len += at == len;
    } else if (how == 2) {
        list[len++] = (uint32_t)symbols;
        list[len++] = 1;
    }
    return len;
}

/* The counts add up to the covered symbols that are in some word. */
static void judge_sum(const struct run *run, const uint32_t *list, size_t len) {
    uint64_t sum = 0, own = 0;
    for (size_t word = 0; word < block_count(run); word++) {
        sum += numbers_of(lent[TO].slice)[word];
    }
    const size_t S = word_symbols(run), all = block_count(run) * S;
    for (size_t i = 0; i < len; i += 2) {
        for (size_t s = list[i]; s < (size_t)list[i] + list[i + 1]; s++) {
            const size_t at = s % period(run);
            const size_t place = s / period(run) * S + at - run->W;
            const size_t delay = place % run->N * run->B * run->N;
            own += at >= run->W && place >= delay && place - delay < all;
        }
    }
    require(sum == own, FADES_COUNT, "another sum than that of the covered symbols");
}

static void put_fades(struct input *in) {
    static uint32_t list[2 * FADES_MOST];
    uint8_t header[MAHYREI_HEADER_BYTES];
    memset(list, 0, sizeof list); /* an input says all that it does */
    const struct run run = make_run(in);
    lend_header(in, &run);
    pack_header(&run, header);
    lend(MARKER, 0, header, 0); /* it is lent none */
    const size_t len = make_fades(in, &run, list);
    lend(FROM, 4 * len, (const uint8_t *)list, 4 * len);
    lend_to(4 * choose_len(in, block_count(&run)));
    const bool same =
        lent[HEADER].len == sizeof header && memcmp(lent[HEADER].slice, header, sizeof header) == 0;
    if (put(FADES_COUNT, 0) == MAHYREI_ACCEPTED && same) {
        judge_sum(&run, list, len);
    }
}

/* ---- delay lines */

/* The number of a step: one of the first or of the last, or any. */
static uint64_t take_step(struct input *in) {
    const size_t choice = take_below(in, 1, 4);
    return choice == 0 ? take(in, 8) : choice == 1 ? UINT64_MAX - take(in, 2) : take(in, 3);
}

/* One step and, where the symbol that it takes is kept, the one that gives it again. */
static void put_delay(struct input *in, enum call call) {
    const struct run run = make_run(in);
    const size_t len = run.B * run.N * (run.N - 1) / 2, choice = take_below(in, 1, 8);
    lend_header(in, &run);
    lend(MARKER, 0, given, 0); /* it is lent neither */
    lend(FROM, 0, given, 0);
    step = take_step(in);
    taken = choice < 6    ? take(in, 1) % pulse_order(&run)
            : choice == 6 ? pulse_order(&run) + take(in, 1)
                          : take(in, 8);
    fill(in, given, len);
    lend(TO, choose_len(in, len), given, len);
    if (mahyrei_answer_number(put(call, 0)) != MAHYREI_ACCEPTED) {
        return;
    }
    const struct run lent_as = lent_run();
    const uint64_t symbol = taken, row = step % lent_as.N;
    const uint64_t turns = (call == DELAY_WRITE ? row : lent_as.N - 1 - row) * lent_as.B;
    if (turns == 0 || step > UINT64_MAX - turns * lent_as.N) {
        return;
    }
    memcpy(given, lent[TO].slice, lent[TO].len);
    lend(TO, lent[TO].len, given, lent[TO].len);
    step += turns * lent_as.N;
    taken = 0;
    require(mahyrei_delay_symbol(put(call, 0)) == symbol, call, "gave another symbol than it took");
}

/* ---- racks */

/* A mission or a place; now and then one that there is not. */
static uint64_t take_small(struct input *in) {
    const size_t choice = take_below(in, 1, 64);
    return choice == 63 ? take(in, 8) : choice == 62 ? 4 + take(in, 1) : choice % 4;
}

/* A call on a rack of any content. A header that is loaded is then read by its owner and, lent to
 * another, by that one. */
static void put_rack(struct input *in, enum call call) {
    const struct run run = make_run(in);
    const size_t choice = take_below(in, 1, 8);
    caller = take_small(in);
    owner = take_below(in, 1, 4) == 3 ? take_small(in) : caller;
    rack_place = take_small(in);
    borrower = take_small(in);
    lend_header(in, &run);
    lend(MARKER, 0, given, 0); /* it is lent none */
    fill(in, given, MAHYREI_RACK_BYTES);
    for (size_t i = 0; i < MAHYREI_RACK_BYTES && choice < 4; i++) { /* what the first bytes say */
        given[i] = (uint8_t)(given[i] % 8);
    }
    const size_t len = choose_len(in, MAHYREI_RACK_BYTES);
    if (call == RACK_READ) {
        lend(FROM, len, given, MAHYREI_RACK_BYTES);
        lend_to(choose_len(in, MAHYREI_HEADER_BYTES));
    } else {
        lend(FROM, 0, given, 0);
        lend(TO, len, given, MAHYREI_RACK_BYTES);
    }
    if (put(call, 0) != MAHYREI_ACCEPTED || call != RACK_LOAD) {
        return;
    }
    const uint64_t other = borrower % 4 == owner ? (owner + 1) % 4 : borrower % 4;
    for (int turn = 0; turn < 2; turn++) {
        memcpy(given, lent[TO].slice, MAHYREI_RACK_BYTES);
        lend(FROM, MAHYREI_RACK_BYTES, given, MAHYREI_RACK_BYTES);
        lend_to(MAHYREI_HEADER_BYTES);
        require(put(RACK_READ, 0) == MAHYREI_ACCEPTED &&
                    memcmp(lent[TO].slice, lent[HEADER].slice, MAHYREI_HEADER_BYTES) == 0,
                RACK_READ, "gave another header than was loaded");
        lend(TO, MAHYREI_RACK_BYTES, given, MAHYREI_RACK_BYTES);
        lend(FROM, 0, given, 0);
        caller = owner;
        borrower = other;
        require(put(RACK_LEND, 0) == MAHYREI_ACCEPTED, RACK_LEND, "refused its owner");
        caller = other;
    }
}

/* ---- libFuzzer's two functions */

static struct counts *map_counts(void) {
    static struct counts alone;
    const char *const name = getenv("FUZZ_COUNTS");
    if (name == NULL) {
        return &alone;
    }
    const int file = open(name, O_RDWR | O_CREAT, 0666);
    if (file < 0 || ftruncate(file, sizeof(struct counts)) != 0) {
        perror(name);
        exit(1);
    }
    void *const mapped =
        mmap(NULL, sizeof(struct counts), PROT_READ | PROT_WRITE, MAP_SHARED, file, 0);
    if (mapped == MAP_FAILED) {
        perror(name);
        exit(1);
    }
    close(file);
    return mapped;
}

/* NOLINTNEXTLINE(readability-non-const-parameter): libFuzzer gives the signature. */
int LLVMFuzzerInitialize(int *argc, char ***argv) {
    (void)argc, (void)argv;
    counts = map_counts();
    for (int i = 0; i < SLICES; i++) {
        map_area(&lent[i]);
    }
    return 0;
}

int LLVMFuzzerTestOneInput(const uint8_t *data, size_t size) {
    struct input in = {data, size};
    const enum call call = (enum call)take_below(&in, 1, CALLS);
    placement = (uint8_t)take(&in, 1);
    counts->inputs++;
    if (call == RUN_FIND || call == RUN_FIND_FROM) {
        put_find(&in, call);
    } else if (call == RUN_CUT) {
        put_cut(&in);
    } else if (call == FADES_COUNT) {
        put_fades(&in);
    } else if (call == DELAY_WRITE || call == DELAY_READ) {
        put_delay(&in, call);
    } else if (call >= RACK_LOAD) {
        put_rack(&in, call);
    } else if (is_run(call)) {
        put_run(&in, call);
    } else if (call == PASS_WRITE || call == PASS_READ) {
        put_pass(&in, call);
    } else if (call == BIT_SPREAD) {
        put_spread(&in);
    } else if (call == UPLINK_WRITE || call == UPLINK_READ) {
        put_uplink(&in, call);
    } else if (call == HEADER_WIDEN || call == HEADER_NARROW) {
        put_header(&in, call);
    } else {
        put_word(&in, call);
    }
    return 0;
}
