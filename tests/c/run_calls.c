/*
 * Test of the two run calls from C: known answers, runs beside the words that mahyrei_word_write
 * makes, damaged runs, copies that are pooled, and refusals of every number with the lent bytes
 * unchanged.
 *
 * The sanitizers watch this program but not the library, which is not built with them. So each
 * slice is lent from pages of its own: it ends where a page begins that may not be touched, the
 * bytes before it are compared after the call, and the slices that a call reads are
 * write-protected. Large buffers are static, since the test also runs on a small stack.
 */
#define _DEFAULT_SOURCE /* MAP_ANONYMOUS */
#include <inttypes.h>
#include <stdbool.h>
#include <stdio.h>
#include <stdlib.h>
#include <string.h>
#include <sys/mman.h>

#include "check.h"
#include "mahyrei.h"
#include "runs.h"

static unsigned long met[2][256]; /* answers by call and number */

/* ---- lent slices */

enum { PAGE = 4096, AREA = 128 * PAGE, MARGIN = 64 };

struct lent {
    uint8_t *area; /* the slice is at its end; the next page may not be touched */
    uint8_t *slice;
    size_t len;
    uint8_t before[AREA]; /* what margin and slice held when they were lent */
};

static struct lent lent_header, lent_marker, lent_frames, lent_slots;

static void map_area(struct lent *lent) {
    lent->area =
        mmap(NULL, AREA + PAGE, PROT_READ | PROT_WRITE, MAP_PRIVATE | MAP_ANONYMOUS, -1, 0);
    if (lent->area == MAP_FAILED || mprotect(lent->area + AREA, PAGE, PROT_NONE) != 0) {
        perror("mmap");
        exit(1);
    }
}

static void protect(const struct lent *lent, int protection) {
    if (mprotect(lent->area, AREA, protection) != 0) {
        perror("mprotect");
        exit(1);
    }
}

/* A slice, with random bytes before it. */
static void lend_room(struct lent *lent, size_t len) {
    if (len + MARGIN > AREA) {
        fprintf(stderr, "run_calls.c: %zu bytes are too many to lend\n", len);
        exit(1);
    }
    lent->slice = lent->area + AREA - len;
    lent->len = len;
    fill_random(lent->slice - MARGIN, MARGIN);
}

/* A slice of random bytes. */
static void lend(struct lent *lent, size_t len) {
    lend_room(lent, len);
    fill_random(lent->slice, len);
}

static void lend_copy(struct lent *lent, const uint8_t *bytes, size_t len) {
    lend_room(lent, len);
    if (len > 0) {
        memcpy(lent->slice, bytes, len);
    }
}

static void lend_null(struct lent *lent) {
    lend(lent, 0);
    lent->slice = NULL;
}

static uint8_t *margin_of(const struct lent *lent) {
    return lent->area + AREA - lent->len - MARGIN;
}

static void remember(struct lent *lent) {
    memcpy(lent->before, margin_of(lent), lent->len + MARGIN);
}

/* The first so many bytes of margin and slice are as they were lent. */
static bool unchanged(const struct lent *lent, size_t count) {
    return memcmp(margin_of(lent), lent->before, count) == 0;
}

/* One call on the lent slices, and what holds of their bytes after every call. */
static uint64_t call(bool write) {
    struct lent *const read[3] = {&lent_header, &lent_marker, write ? &lent_frames : &lent_slots};
    struct lent *const to = write ? &lent_slots : &lent_frames;
    for (size_t i = 0; i < 3; i++) {
        remember(read[i]);
        protect(read[i], PROT_READ);
    }
    remember(to);
    const uint64_t answer =
        write ? mahyrei_run_write(lent_header.slice, lent_header.len, lent_marker.slice,
                                  lent_marker.len, lent_frames.slice, lent_frames.len,
                                  lent_slots.slice, lent_slots.len)
              : mahyrei_run_read(lent_header.slice, lent_header.len, lent_marker.slice,
                                 lent_marker.len, lent_slots.slice, lent_slots.len,
                                 lent_frames.slice, lent_frames.len);
    for (size_t i = 0; i < 3; i++) {
        protect(read[i], PROT_READ | PROT_WRITE);
        CHECK(unchanged(read[i], read[i]->len + MARGIN));
    }
    CHECK(unchanged(to, answer == MAHYREI_ACCEPTED ? MARGIN : to->len + MARGIN));
    met[write][mahyrei_answer_number(answer)]++;
    return answer;
}

/* ---- runs */

/* The smallest runs with rows, one for each m, then runs with N = 1, one of which has no fill bits;
 * then runs of several copies. The hash is that of the slots for the frames and the marker below,
 * made alike by two programs with no common code, tests/second/run.rs and reference/run.c. */
static const struct {
    struct run run;
    uint64_t fnv1a;
} RUNS[] = {
    {{0, 2, 6, 252, 300, 4, 2, 1}, 0xDA2E8AB5572D7ED0},
    {{1, 3, 5, 252, 500, 1, 3, 1}, 0x824E77D7C50BF292},
    {{2, 4, 5, 189, 2048, 32, 1, 1}, 0x0F2DB8C95DF6FB12},
    {{0, 5, 4, 252, 1, 7, 64, 1}, 0xC14B564606A97BEC},
    {{1, 6, 4, 210, 223, 16, 2, 1}, 0x491AAC9BEC764952},
    {{2, 7, 4, 180, 1000, 3, 3, 1}, 0x062FEDCA568D620A},
    {{0, 8, 6, 63, 1024, 2, 1, 1}, 0xC484DF7237E699B4},
    {{1, 8, 1, 256, 800, 5, 1, 1}, 0xEB30B871FF0D46EA},
    {{2, 3, 1, 9, 700, 2, 2, 1}, 0x74619A6934328A3A},
    {{1, 4, 1, 1, 67, 6, 53, 1}, 0x5546D5C28A19C7DA},
    {{1, 2, 6, 252, 223, 2, 3, 3}, 0x02CDCE83A7BB17A2},
    {{0, 3, 5, 252, 100, 1, 2, 2}, 0x8C40F422E3C0A92C},
    {{2, 4, 1, 1, 300, 3, 4, 8}, 0x617B17C2A34F6E9D},
    {{1, 5, 4, 252, 40, 2, 5, 3}, 0xE58BABCB0CE1981C},
    {{2, 6, 1, 9, 1200, 1, 1, 4}, 0x5CC177E41B78D2B5},
    {{0, 7, 1, 1, 500, 4, 1, 2}, 0xFFEDBA38DCBEE085},
    {{1, 2, 1, 1, 67, 6, 2, 16}, 0xFFF54E468AA5B681},
    {{1, 3, 1, 7, 900, 32, 1, 32}, 0xB304924FB590185D},
};
enum { RUN_COUNT = sizeof RUNS / sizeof RUNS[0] };

static void sample_frames(const struct run *run, uint8_t *frames) {
    for (size_t i = 0; i < frame_bytes(run); i++) {
        frames[i] = (uint8_t)(i + i / 256);
    }
}

static void sample_marker(const struct run *run, uint8_t *marker) {
    for (size_t i = 0; i < run->W; i++) {
        marker[i] = (uint8_t)((5 * i + 1) % pulse_order(run));
    }
}

static uint64_t fnv1a(const uint8_t *bytes, size_t len) {
    uint64_t hash = UINT64_C(0xCBF29CE484222325);
    for (size_t i = 0; i < len; i++) {
        hash = (hash ^ bytes[i]) * UINT64_C(0x100000001B3);
    }
    return hash;
}

static void lend_header(const struct run *run) {
    uint8_t header[MAHYREI_HEADER_BYTES], marker[64]; /* W has six bits */
    pack_header(run, header);
    sample_marker(run, marker);
    lend_copy(&lent_header, header, sizeof header);
    lend_copy(&lent_marker, marker, run->W);
}

static void write_run(const struct run *run, const uint8_t *frames, uint8_t *slots) {
    lend_header(run);
    lend_copy(&lent_frames, frames, frame_bytes(run));
    lend(&lent_slots, slot_bytes(run));
    CHECK(call(true) == MAHYREI_ACCEPTED);
    memcpy(slots, lent_slots.slice, slot_bytes(run));
}

static uint64_t read_run(const struct run *run, const uint8_t *slots) {
    lend_header(run);
    lend_copy(&lent_slots, slots, slot_bytes(run));
    lend(&lent_frames, frame_bytes(run));
    return call(false);
}

static bool read_back(const struct run *run, const uint8_t *slots, const uint8_t *frames) {
    return read_run(run, slots) == MAHYREI_ACCEPTED &&
           memcmp(lent_frames.slice, frames, frame_bytes(run)) == 0;
}

/* ---- words and symbols */

enum { WORDS_MAX = 8, SYMBOLS_MAX = 65536 };

static uint8_t words[WORDS_MAX][MAHYREI_WORD_BYTES];
static uint8_t symbols[SYMBOLS_MAX];
static uint8_t frames[MAHYREI_FRAMES_BYTES_MAX], slots[AREA], damaged[AREA];

/* Block c of the stream in which a marker of so many bits comes before each frame. Bit `wrong` of
 * the stream, if there is one, is changed. */
static void make_block(const struct run *run, uint64_t marker, size_t marker_bits, size_t c,
                       size_t wrong, uint8_t block[MAHYREI_BLOCK_BYTES_MAX]) {
    const size_t marked = marker_bits + 8 * run->F, k = block_bits(run);
    memset(block, 0, MAHYREI_BLOCK_BYTES_MAX);
    for (size_t i = 0; i < k; i++) {
        const size_t x = c * k + i, frame = x / marked, at = x % marked;
        const size_t bit = frame >= run->A    ? 0
                           : at < marker_bits ? marker >> (marker_bits - 1 - at) & 1
                                              : get_bit(frames + frame * run->F, at - marker_bits);
        if (bit != (x == wrong)) {
            flip(block, i);
        }
    }
}

static void make_word(const struct run *run, const uint8_t *block, uint8_t *word) {
    CHECK(mahyrei_word_write(run->rate, block, mahyrei_word_block_bytes(run->rate), word,
                             MAHYREI_WORD_BYTES) == MAHYREI_ACCEPTED);
}

/* The words of a run by mahyrei_word_write. */
static void make_words(const struct run *run, size_t wrong) {
    for (size_t c = 0; c < block_count(run); c++) {
        uint8_t block[MAHYREI_BLOCK_BYTES_MAX];
        make_block(run, 0x1ACFFC1D, FRAME_MARKER_BITS, c, wrong, block);
        make_word(run, block, words[c]);
    }
}

/* Adds step 7's sequence to the first bits. */
static void randomize(uint8_t *bytes, size_t count) {
    unsigned window = 0xFF; /* eight bits of the sequence, the first highest */
    for (size_t i = 0; i < count; i++) {
        if (window >> 7 & 1) {
            flip(bytes, i);
        }
        window = window << 1 | ((window ^ window >> 2 ^ window >> 4 ^ window >> 7) & 1);
    }
}

/* The symbols of the words, interleaved by the draft book's recursion, with markers. */
static void make_symbols(const struct run *run) {
    const size_t S = word_symbols(run);
    assert(S > 0);
    uint8_t marker[MAHYREI_MARKER_MAX];
    sample_marker(run, marker);
    int64_t source = 0; /* of the symbol at place j; outside the words there are zeros */
    for (size_t j = 0; j < place_count(run); j++) {
        source = j % run->N == 0 ? (int64_t)j : source - (int64_t)(run->N * run->B) + 1;
        uint8_t symbol = 0;
        if (source >= 0 && (size_t)source < block_count(run) * S) {
            const size_t t = (size_t)source;
            for (size_t i = 0; i < run->m; i++) { /* first bit highest */
                symbol = (uint8_t)(symbol * 2 + get_bit(words[t / S], t % S * run->m + i));
            }
        }
        symbols[j / S * period(run) + run->W + j % S] = symbol;
        if (j % S == 0) {
            memcpy(symbols + j / S * period(run), marker, run->W);
        }
    }
}

static void make_slots(const struct run *run, uint8_t *to) {
    memset(to, 0, slot_bytes(run));
    for (size_t i = 0; i < symbol_count(run); i++) {
        for (size_t copy = 0; copy < run->copies; copy++) {
            flip(to, copy_start(run, i, copy) + symbols[i]);
        }
    }
}

/* ---- the tests */

static void test_known_runs(void) {
    for (size_t i = 0; i < RUN_COUNT; i++) {
        const struct run *run = &RUNS[i].run;
        sample_frames(run, frames);
        write_run(run, frames, slots);
        CHECK(fnv1a(slots, slot_bytes(run)) == RUNS[i].fnv1a);
        CHECK(read_back(run, slots, frames));
    }
}

/* Sizes that the specification states for its example. */
static void test_example_sizes(void) {
    static const uint8_t EXAMPLE[] = {0x59, 0x50, 0xF0, 0x1B, 0xE8, 0x02, 0x04, 0x00, 0x00, 0x00};
    const struct run run = {1, 6, 84, 120, 223, 16, 2, 1};
    uint8_t header[MAHYREI_HEADER_BYTES];
    pack_header(&run, header);
    CHECK(memcmp(header, EXAMPLE, sizeof header) == 0);
    CHECK(block_count(&run) == 1);
    CHECK(symbol_count(&run) == 844488);
    CHECK(slot_count(&run) == 67559040);
}

static void test_random_runs(const struct run *run) {
    for (int i = 0; i < 4; i++) {
        fill_random(frames, frame_bytes(run));
        write_run(run, frames, slots);
        make_words(run, SIZE_MAX);
        make_symbols(run);
        make_slots(run, damaged);
        CHECK(memcmp(slots, damaged, slot_bytes(run)) == 0);
        CHECK(read_back(run, slots, frames));
    }
}

/* The draft book's randomizer digits, and where the sequence goes: the block that holds it goes
 * into step 2 as zeros, so that all coded bits before those of its check are 0. */
static void test_sequence(uint64_t rate) {
    static const uint8_t DIGITS[] = {0xFF, 0x48, 0x0E, 0xC0, 0x9A};
    const struct run run = {.rate = rate};
    const size_t k = block_bits(&run), inputs = k + 34;
    uint8_t block[MAHYREI_BLOCK_BYTES_MAX] = {0}, word[MAHYREI_WORD_BYTES];
    size_t ones = 0;
    randomize(block, k);
    CHECK(memcmp(block, DIGITS, sizeof DIGITS) == 0);
    make_word(&run, block, word);
    for (uint64_t j = 0; j < MAHYREI_WORD_BITS; j++) {
        const size_t before = j == 0 ? 0 : get_bit(word, j - 1);
        const uint64_t coded = (11 * j + 210 * j * j) % MAHYREI_WORD_BITS;
        if (coded < k * MAHYREI_WORD_BITS / inputs) {
            ones += get_bit(word, j) ^ before;
        }
    }
    CHECK(ones == 0);
}

/* The draft book's symbol example: bits 1101 0101 are the symbols 13 and 5 at m = 4. */
static void test_symbol_example(void) {
    const struct run run = {1, 4, 1, 1, 900, 2, 1, 1};
    size_t found = 0;
    sample_frames(&run, frames);
    write_run(&run, frames, slots);
    make_words(&run, SIZE_MAX);
    for (size_t i = 0; i < MAHYREI_WORD_BYTES; i++) {
        if (words[0][i] == 0xD5) {
            const size_t symbol = run.W + 2 * i;
            CHECK(get_bit(slots, copy_start(&run, symbol, 0) + 13) == 1);
            CHECK(get_bit(slots, copy_start(&run, symbol + 1, 0) + 5) == 1);
            found++;
        }
    }
    CHECK(found > 0);
}

static uint64_t read_flipped(const struct run *run, size_t one, size_t other) {
    memcpy(damaged, slots, slot_bytes(run));
    flip(damaged, one);
    if (other != one) {
        flip(damaged, other);
    }
    return read_run(run, damaged);
}

/* Question 9 on a sound run: slots and symbols are those of the run. */
static void test_spare(const struct run *run) {
    for (size_t x = slot_count(run); x < 8 * slot_bytes(run); x++) {
        CHECK(read_flipped(run, x, x) == MAHYREI_BAD_SPARE);
        CHECK(read_flipped(run, x, symbols[0]) == MAHYREI_BAD_SPARE);
    }
}

/* Question 10 of one copy. */
static void test_slots(const struct run *run) {
    const size_t group = group_slots(run), M = pulse_order(run), last = symbol_count(run) - 1;
    for (int i = 0; i < 30; i++) {
        const size_t s = i == 0 ? 0 : i == 1 ? last : random_below(last + 1);
        const size_t pulse = s * group + symbols[s], guard = s * group + M + random_below(M / 4);
        const size_t second = s * group + (symbols[s] + 1 + random_below(M - 1)) % M;
        const uint64_t refused = s * 256 + MAHYREI_BAD_PULSE;
        CHECK(read_flipped(run, pulse, pulse) == refused);
        CHECK(read_flipped(run, second, second) == refused);
        CHECK(read_flipped(run, guard, guard) == refused);
        CHECK(read_flipped(run, pulse, guard) == refused);
        if (s < last) { /* the first of two that fail */
            CHECK(read_flipped(run, pulse, last * group + symbols[last]) == refused);
        }
    }
}

/* In so many copies of symbol s, from one on, the pulse goes to slot `other`; to its own slot: it
 * goes out. */
static void move_pulses(const struct run *run, size_t s, size_t from, size_t count, size_t other) {
    for (size_t copy = from; copy < from + count; copy++) {
        flip(damaged, copy_start(run, s, copy) + symbols[s]);
        if (other != symbols[s]) {
            flip(damaged, copy_start(run, s, copy) + other);
        }
    }
}

static uint64_t read_moved(const struct run *run, size_t s, size_t from, size_t count,
                           size_t other) {
    memcpy(damaged, slots, slot_bytes(run));
    move_pulses(run, s, from, count, other);
    return read_run(run, damaged);
}

/* Reads what is accepted all the same, as the frames that were written. */
static bool still_told(uint64_t answer, const struct run *run) {
    return answer == MAHYREI_ACCEPTED && memcmp(lent_frames.slice, frames, frame_bytes(run)) == 0;
}

/* Pulses in every slot of the first copies of symbol s but the symbol's own. */
static uint64_t read_noisy(const struct run *run, size_t s, size_t count) {
    memcpy(damaged, slots, slot_bytes(run));
    for (size_t copy = 0; copy < count; copy++) {
        for (size_t q = 0; q < group_slots(run); q++) {
            if (q != symbols[s]) {
                flip(damaged, copy_start(run, s, copy) + q);
            }
        }
    }
    return read_run(run, damaged);
}

/* Question 10 of several copies: each kind of damage to one symbol alone. */
static void test_copies_of(const struct run *run, size_t s) {
    const size_t k = run->copies, M = pulse_order(run), any = random_below(k);
    const size_t own = symbols[s], other = (own + 1 + random_below(M - 1)) % M;
    const size_t guard = M + random_below(M / 4);
    const uint64_t refused = s * 256 + MAHYREI_BAD_PULSE;
    CHECK(still_told(read_moved(run, s, any, 1, own), run));   /* a copy without its pulse */
    CHECK(still_told(read_moved(run, s, 1, k - 1, own), run)); /* one pulse is enough */
    CHECK(read_moved(run, s, 0, k, own) == refused);
    const size_t guard_slot = copy_start(run, s, any) + guard;
    CHECK(still_told(read_flipped(run, guard_slot, guard_slot), run));
    CHECK(still_told(read_noisy(run, s, k - 1), run));
    CHECK(read_noisy(run, s, k) == refused);
    CHECK((k > 2 ? still_told(read_moved(run, s, any, 1, other), run)
                 : read_moved(run, s, any, 1, other) == refused));
    CHECK(read_moved(run, s, 0, k / 2 + 1, guard) == refused);
    if (k % 2 == 0) { /* a tie, with a data slot and with a guard slot */
        CHECK(read_moved(run, s, 0, k / 2, other) == refused);
        CHECK(read_moved(run, s, k / 2, k / 2, guard) == refused);
        CHECK(still_told(read_moved(run, s, 0, k / 2 - 1, guard), run));
    } else { /* another symbol is read */
        const unsigned number = mahyrei_answer_number(read_moved(run, s, 0, k / 2 + 1, other));
        CHECK(number > MAHYREI_BAD_PULSE && number < MAHYREI_BAD_CHECK);
    }
}

static void test_copies(const struct run *run) {
    const size_t last = symbol_count(run) - 1;
    for (int i = 0; i < 12; i++) {
        test_copies_of(run, i == 0 ? 0 : i == 1 ? last : random_below(last + 1));
    }
    memcpy(damaged, slots, slot_bytes(run));
    for (size_t s = 0; s <= last; s++) { /* all symbols, each in another way */
        const size_t M = pulse_order(run), copy = random_below(run->copies);
        const size_t other = run->copies > 2 ? random_below(M) : symbols[s];
        move_pulses(run, s, copy, 1, random_below(2) == 0 ? other : symbols[s]);
    }
    CHECK(still_told(read_run(run, damaged), run));
    const size_t bad = last / 2; /* the first of two that cannot be told */
    memcpy(damaged, slots, slot_bytes(run));
    move_pulses(run, last, 0, run->copies, symbols[last]);
    move_pulses(run, bad, 0, run->copies, symbols[bad]);
    CHECK(read_run(run, damaged) == bad * 256 + MAHYREI_BAD_PULSE);
}

/* What reading answers when symbol s is another one. */
static uint64_t read_changed(const struct run *run, size_t s) {
    const size_t M = pulse_order(run);
    return read_moved(run, s, 0, run->copies, (symbols[s] + 1 + random_below(M - 1)) % M);
}

/* Questions 11 to 13. */
static void test_symbols(const struct run *run) {
    const size_t S = word_symbols(run), C = block_count(run);
    static bool hit[SYMBOLS_MAX];
    memset(hit, 0, sizeof hit);
    for (size_t t = 0; t < C * S; t++) {
        hit[run_symbol(run, t)] = true;
    }
    for (int i = 0; i < 100; i++) {
        const size_t s = i == 0 ? symbol_count(run) - 1 : random_below(symbol_count(run));
        if (s % period(run) >= run->W && !hit[s]) {
            CHECK(read_changed(run, s) == s * 256 + MAHYREI_BAD_IDLE);
        }
    }
    for (int i = 0; i < 20; i++) {
        const size_t s = random_below(place_count(run) / S) * period(run) + random_below(run->W);
        CHECK(read_changed(run, s) == s * 256 + MAHYREI_WRONG_MARKER);
        const size_t t = random_below(C * S);
        const uint64_t answer = read_changed(run, run_symbol(run, t));
        CHECK(mahyrei_answer_number(answer) == MAHYREI_BAD_CODE ||
              mahyrei_answer_number(answer) == MAHYREI_BAD_TERMINATION);
        CHECK(mahyrei_answer_place(answer) == t / S);
    }
}

static void test_damage(const struct run *run) {
    fill_random(frames, frame_bytes(run));
    write_run(run, frames, slots);
    make_words(run, SIZE_MAX);
    make_symbols(run);
    test_spare(run);
    (run->copies == 1 ? test_slots : test_copies)(run);
    test_symbols(run);
    memset(damaged, 0, slot_bytes(run));
    CHECK(read_run(run, damaged) == MAHYREI_BAD_PULSE);
    CHECK(read_back(run, slots, frames));
}

static uint64_t read_words(const struct run *run) {
    make_symbols(run);
    make_slots(run, damaged);
    return read_run(run, damaged);
}

/* Questions 14 and 15 are put to a word before 13 is put to the next. At rate 2/3 the last coded
 * bit depends on the last termination bit alone, and block bit 0 goes into coded bits 0 to 4. */
static void test_words(void) {
    const struct run run = {2, 7, 4, 180, 1000, 3, 3, 1};
    sample_frames(&run, frames);
    CHECK(block_count(&run) == 3);
    make_words(&run, SIZE_MAX);
    CHECK(read_words(&run) == MAHYREI_ACCEPTED);
    flip(words[2], 9000);
    CHECK(read_words(&run) == 2 * 256 + MAHYREI_BAD_CODE);
    flip_coded(words[1], MAHYREI_WORD_BITS - 1);
    CHECK(read_words(&run) == 1 * 256 + MAHYREI_BAD_TERMINATION);
    for (uint64_t coded = 0; coded < 5; coded++) {
        flip_coded(words[0], coded);
    }
    CHECK(read_words(&run) == 0 * 256 + MAHYREI_BAD_CHECK);
    flip_coded(words[0], MAHYREI_WORD_BITS - 1);
    CHECK(read_words(&run) == 0 * 256 + MAHYREI_BAD_TERMINATION);
    flip(words[0], 4);
    CHECK(read_words(&run) == 0 * 256 + MAHYREI_BAD_CODE);
}

/* Questions 16 and 18. */
static void test_stream(const struct run *run) {
    const size_t marked = marked_bits(run), fill = run->A * marked;
    const size_t end = block_count(run) * block_bits(run);
    sample_frames(run, frames);
    for (size_t frame = 0; frame < run->A; frame += 1 + random_below(run->A)) {
        make_words(run, frame * marked + random_below(FRAME_MARKER_BITS));
        CHECK(read_words(run) == frame * 256 + MAHYREI_BAD_FRAME_MARKER);
    }
    if (fill < end) {
        const size_t wrong[] = {fill, end - 1, fill + random_below(end - fill)};
        for (size_t i = 0; i < sizeof wrong / sizeof wrong[0]; i++) {
            make_words(run, wrong[i]);
            CHECK(read_words(run) == MAHYREI_BAD_FILL);
        }
    }
    make_words(run, fill - 1); /* the last frame bit: another frame, and a sound run */
    flip(frames, frame_bytes(run) * 8 - 1);
    CHECK(read_words(run) == MAHYREI_ACCEPTED);
    CHECK(memcmp(lent_frames.slice, frames, frame_bytes(run)) == 0);
}

/* The fewest and the most fill bits that a header can imply: none, and k - 2, since both k and the
 * stream are even. There are never k of them, so nothing is asked about their number. */
static const struct {
    struct run run;
    size_t blocks, fill;
} FILLS[] = {
    {{1, 4, 1, 1, 67, 6, 53, 1}, 4, 0},      {{1, 4, 1, 1, 138, 6, 53, 1}, 8, 0},
    {{0, 4, 1, 1, 622, 6, 1, 1}, 2, 5004},   {{1, 4, 1, 1, 937, 6, 1, 1}, 2, 7524},
    {{2, 4, 1, 1, 1252, 6, 1, 1}, 2, 10044}, {{2, 4, 1, 1, 1, 6, 1, 1}, 1, 10006},
};

static void test_fills(void) {
    for (size_t i = 0; i < sizeof FILLS / sizeof FILLS[0]; i++) {
        const struct run *run = &FILLS[i].run;
        const size_t end = FILLS[i].blocks * block_bits(run);
        CHECK(block_count(run) == FILLS[i].blocks);
        CHECK(end - run->A * marked_bits(run) == FILLS[i].fill);
        fill_random(frames, frame_bytes(run));
        write_run(run, frames, slots);
        CHECK(read_back(run, slots, frames));
        make_words(run, end - 1); /* the last fill bit, or else the last frame bit */
        CHECK(read_words(run) == (FILLS[i].fill > 0 ? MAHYREI_BAD_FILL : MAHYREI_ACCEPTED));
        if (FILLS[i].fill > 0) {
            make_words(run, end - FILLS[i].fill);
            CHECK(read_words(run) == MAHYREI_BAD_FILL);
            make_words(run, end - FILLS[i].fill - 1);
            CHECK(read_words(run) == MAHYREI_ACCEPTED);
        }
    }
}

/* What version 0.1 made, in the draft's order: the sequence on the word and not on the block, and a
 * frame marker of 64 bits. No such word is accepted: the first wrong coded bit is the same for all
 * of a rate, since the sequence alone decides it. So a run is refused at word 0, or for its length
 * where the longer markers make more blocks of it. */
static void test_draft_order(const struct run *run) {
    static const uint64_t MARKER = 0x034776C7272895B0, PLACE[] = {3, 4, 6};
    const size_t k = block_bits(run), len = mahyrei_word_block_bytes(run->rate);
    const size_t blocks = (run->A * (64 + 8 * run->F) + k - 1) / k;
    const size_t more = blocks - block_count(run);
    uint8_t block[MAHYREI_BLOCK_BYTES_MAX];
    fill_random(frames, frame_bytes(run));
    if (more > 0) {
        const size_t draft_slots = copy_start(run, symbol_count(run) + more * period(run), 0);
        lend_header(run);
        lend(&lent_slots, (draft_slots + 7) / 8);
        lend(&lent_frames, frame_bytes(run));
        CHECK(call(false) == MAHYREI_BAD_LENGTH);
        return;
    }
    for (size_t c = 0; c < blocks; c++) {
        make_block(run, MARKER, 64, c, SIZE_MAX, block);
        randomize(block, k); /* so that mahyrei_word_write takes it in as it was */
        make_word(run, block, words[c]);
        randomize(words[c], MAHYREI_WORD_BITS);
        CHECK(mahyrei_word_read(run->rate, words[c], MAHYREI_WORD_BYTES, block, len) ==
              PLACE[run->rate] * 256 + MAHYREI_BAD_CODE);
    }
    CHECK(read_words(run) == MAHYREI_BAD_CODE);
    for (size_t c = 0; c < blocks; c++) { /* the draft's marker alone */
        make_block(run, MARKER, 64, c, SIZE_MAX, block);
        make_word(run, block, words[c]);
    }
    CHECK(read_words(run) == MAHYREI_BAD_FRAME_MARKER);
}

/* Pooled symbols by hand, M = 4: the slots of the copies, and the symbol, or none. */
static void test_pooled_by_hand(void) {
    static const struct {
        size_t copies;
        const char *slots;
        int symbol;
    } POOLED[] = {
        {1, "00100", 2},
        {1, "00001", -1},
        {1, "01100", -1},
        {1, "00101", -1},
        {2, "00100 00010", -1},
        {2, "00100 00000", 2},
        {2, "11111 00100", 2},
        {2, "00100 00001", -1},
        {2, "10001 10001", -1},
        {2, "00000 00000", -1},
        {3, "00100 00100 00010", 2},
        {3, "00100 00001 00001", -1},
        {3, "01100 00100 01000", -1},
        {3, "11000 01100 00110", -1},
        {3, "00010 00000 00000", 3},
        {4, "10000 10000 01000 00100", 0},
        {4, "10000 10000 01000 01000", -1},
        {4, "10001 10000 00001 00001", -1},
    };
    for (size_t i = 0; i < sizeof POOLED / sizeof POOLED[0]; i++) {
        const struct run run = {0, 2, 1, 1, 100, 1, 1, POOLED[i].copies};
        const uint8_t marker = (uint8_t)(POOLED[i].symbol < 0 ? 0 : POOLED[i].symbol);
        fill_random(frames, frame_bytes(&run));
        lend_header(&run);
        lend_copy(&lent_marker, &marker, 1);
        lend_copy(&lent_frames, frames, frame_bytes(&run));
        lend(&lent_slots, slot_bytes(&run));
        CHECK(call(true) == MAHYREI_ACCEPTED);
        size_t x = 0;
        for (const char *at = POOLED[i].slots; *at != '\0'; at++) {
            if (*at != ' ' && get_bit(lent_slots.slice, x++) != (size_t)(*at - '0')) {
                flip(lent_slots.slice, x - 1);
            }
        }
        CHECK(x == copy_start(&run, 1, 0));
        lend(&lent_frames, frame_bytes(&run));
        const uint64_t answer = call(false);
        CHECK(POOLED[i].symbol < 0 ? answer == MAHYREI_BAD_PULSE : still_told(answer, &run));
        const uint8_t other = (uint8_t)(marker ^ 1);
        lend_copy(&lent_marker, &other, 1);
        CHECK(call(false) == (POOLED[i].symbol < 0 ? MAHYREI_BAD_PULSE : MAHYREI_WRONG_MARKER));
    }
}

/* Bytes and spare bits by factor: N = 1, W = 1, one word. */
static void test_sizes_of_copies(void) {
    static const struct {
        uint64_t m, copies;
        size_t bytes, spare;
    } SIZES[] = {{2, 1, 4726, 3},  {2, 2, 9452, 6},  {2, 3, 14177, 1},  {2, 4, 18903, 4},
                 {2, 8, 37805, 0}, {4, 3, 28358, 4}, {3, 16, 100820, 0}};
    for (size_t i = 0; i < sizeof SIZES / sizeof SIZES[0]; i++) {
        const struct run run = {0, SIZES[i].m, 1, 1, 100, 1, 1, SIZES[i].copies};
        CHECK(slot_bytes(&run) == SIZES[i].bytes);
        CHECK(8 * slot_bytes(&run) - slot_count(&run) == SIZES[i].spare);
        fill_random(frames, frame_bytes(&run));
        write_run(&run, frames, slots);
        CHECK(read_back(&run, slots, frames));
    }
}

/* Both calls with a header that fails a question, whatever the slices. */
static void test_refused_header(const struct run *wrong, unsigned number) {
    for (int write = 0; write < 2; write++) {
        lend_header(wrong);
        lend(&lent_frames, 100);
        lend(&lent_slots, 1000);
        CHECK(call(write) == number);
        lend_null(&lent_frames);
        lend_null(&lent_slots);
        CHECK(call(write) == number);
    }
}

static void test_refused_headers(void) {
    static const struct {
        struct run run;
        unsigned number;
    } WRONG[] = {
        {{3, 15, 0, 0, 0, 0, 0, 1}, 2},         {{0, 1, 0, 0, 0, 0, 0, 1}, 3},
        {{0, 9, 0, 0, 0, 0, 0, 1}, 3},          {{0, 2, 0, 1, 0, 0, 0, 1}, 4},
        {{0, 2, 129, 1, 0, 0, 0, 1}, 4},        {{0, 2, 1, 0, 0, 0, 0, 1}, 4},
        {{0, 2, 1, 257, 0, 0, 0, 1}, 4},        {{0, 8, 10, 20, 0, 0, 0, 1}, 5},
        {{0, 8, 2, 256, 0, 0, 0, 1}, 5},        {{0, 8, 10, 21, 0, 0, 1, 1}, 6},
        {{0, 8, 10, 21, 2049, 0, 1, 1}, 6},     {{0, 8, 10, 21, 1, 0, 0, 1}, 6},
        {{0, 8, 10, 21, 2048, 0, 65, 1}, 6},    {{0, 8, 10, 21, 2048, 0, 64, 1}, 7},
        {{0, 8, 10, 21, 2048, 33, 64, 1}, 7},   {{0, 8, 10, 21, 2048, 63, 64, 1}, 7},
        {{0, 8, 127, 255, 2048, 32, 64, 1}, 8},
    };
    for (size_t i = 0; i < sizeof WRONG / sizeof WRONG[0]; i++) {
        test_refused_header(&WRONG[i].run, WRONG[i].number);
    }
}

/* Question 1. */
static void test_refused_header_bytes(const struct run *run) {
    for (int write = 0; write < 2; write++) {
        for (size_t bit = 54; bit < 80; bit++) {
            lend_header(run);
            flip(lent_header.slice, bit);
            lend(&lent_frames, frame_bytes(run));
            lend(&lent_slots, slot_bytes(run));
            CHECK(call(write) == MAHYREI_BAD_HEADER);
        }
        for (size_t len = 0; len < 20; len++) {
            if (len != MAHYREI_HEADER_BYTES) {
                lend_header(run);
                lend(&lent_header, len);
                CHECK(call(write) == MAHYREI_BAD_HEADER);
                lend_header(run); /* cut off, or with zeros after it */
                uint8_t header[20] = {0};
                memcpy(header, lent_header.slice, MAHYREI_HEADER_BYTES);
                lend_copy(&lent_header, header, len);
                CHECK(call(write) == MAHYREI_BAD_HEADER);
            }
        }
        uint8_t old[MAHYREI_OLD_HEADER_BYTES]; /* a good one of the versions before */
        pack_old_header(run, old);
        lend_header(run);
        lend_copy(&lent_header, old, sizeof old);
        CHECK(call(write) == MAHYREI_BAD_HEADER);
        lend_null(&lent_header);
        lend_null(&lent_marker);
        lend_null(&lent_frames);
        lend_null(&lent_slots);
        CHECK(call(write) == MAHYREI_BAD_HEADER);
    }
}

/* Question 7: the first W marker symbols that are lent, before any length. */
static void test_refused_markers(void) {
    const struct run run = {0, 3, 1, 1, 10, 4, 1, 1};
    static const struct {
        uint8_t marker[6];
        size_t len;
        unsigned number;
    } MARKERS[] = {
        {{7, 7, 7, 7}, 4, 0},
        {{7, 7, 7, 8}, 4, 7},
        {{255, 0, 0, 0}, 4, 7},
        {{8}, 1, 7},
        {{7}, 1, 8},
        {{0}, 0, 8},
        {{0, 0, 0, 0, 8}, 5, 8},
        {{0, 0, 8, 0, 8}, 5, 7},
    };
    sample_frames(&run, frames);
    for (size_t i = 0; i < sizeof MARKERS / sizeof MARKERS[0]; i++) {
        lend_header(&run);
        lend_copy(&lent_marker, MARKERS[i].marker, MARKERS[i].len);
        lend_copy(&lent_frames, frames, frame_bytes(&run));
        lend(&lent_slots, slot_bytes(&run));
        CHECK(call(true) == MARKERS[i].number);
        if (MARKERS[i].number != 0) {
            CHECK(call(false) == MARKERS[i].number);
        }
        lend_null(&lent_frames);
        CHECK(call(true) == (MARKERS[i].number != 0 ? MARKERS[i].number : 8));
    }
}

/* Question 20: after 7, marker symbols included, and before any length. The two bits after the
 * factor are zeros of question 1. */
static void test_refused_copies(void) {
    const struct run run = {0, 3, 1, 1, 10, 2, 1, 1}, wrong = {0, 3, 2, 1, 10, 2, 1, 1};
    unsigned good = 0;
    for (unsigned byte = 0; byte < 256; byte++) {
        const unsigned factor = byte >> 2;
        const bool is_good = factor == 1 || factor == 2 || factor == 3 || factor == 4 ||
                             factor == 8 || factor == 16 || factor == 32;
        const unsigned number = byte % 4 != 0 ? MAHYREI_BAD_HEADER
                                : is_good     ? MAHYREI_BAD_LENGTH
                                              : MAHYREI_BAD_COPIES;
        good += number == MAHYREI_BAD_LENGTH;
        for (int write = 0; write < 2; write++) {
            lend_header(&run);
            lent_header.slice[6] = (uint8_t)byte;
            lend(&lent_frames, frame_bytes(&run));
            lend(&lent_slots, 1);
            CHECK(call(write) == number);
            lend_null(&lent_marker);
            CHECK(call(write) == number);
            lend_copy(&lent_marker, (const uint8_t[]){8}, 1);
            CHECK(call(write) == (byte % 4 != 0 ? MAHYREI_BAD_HEADER : MAHYREI_BAD_MARKER));
            lend_header(&wrong);
            lent_header.slice[6] = (uint8_t)byte;
            CHECK(call(write) == (byte % 4 != 0 ? MAHYREI_BAD_HEADER : MAHYREI_BAD_FIT));
        }
    }
    CHECK(good == 7);
}

/* Question 8: each slice too short, too long, empty, or of a size that fits another one. */
static void test_refused_lengths(const struct run *run) {
    const size_t right[3] = {run->W, frame_bytes(run), slot_bytes(run)};
    struct lent *const lent[3] = {&lent_marker, &lent_frames, &lent_slots};
    for (int write = 0; write < 2; write++) {
        for (size_t i = 0; i < 3; i++) {
            const size_t wrong[] = {0, right[i] - 1, right[i] + 1, right[i] + 8, right[i] + 300};
            for (size_t j = 0; j < sizeof wrong / sizeof wrong[0]; j++) {
                lend_header(run);
                lend(&lent_frames, right[1]);
                lend(&lent_slots, right[2]);
                lend(lent[i], wrong[j]);
                for (size_t x = 0; i == 0 && x < lent[i]->len && x < run->W; x++) {
                    lent[i]->slice[x] = 0; /* a marker that passes question 7 */
                }
                CHECK(call(write) == MAHYREI_BAD_LENGTH);
            }
            lend_header(run);
            lend(&lent_frames, right[1]);
            lend(&lent_slots, right[2]);
            lend_null(lent[i]);
            CHECK(call(write) == MAHYREI_BAD_LENGTH);
        }
    }
}

static void test_every_number_met(void) {
    unsigned long total = 0, expected = 0;
    for (size_t number = 0; number < 256; number++) {
        const bool written = number <= 8 || number == 20;
        const bool read = number <= 16 || number == 18 || number == 20;
        total += met[0][number] + met[1][number];
        expected += (written ? met[1][number] : 0) + (read ? met[0][number] : 0);
        CHECK(!written || met[1][number] > 0);
        CHECK(!read || met[0][number] > 0);
    }
    CHECK(total == expected);
    printf("run_calls: %lu calls, %lu checks, %lu failed\n", total, checks, failures);
}

int main(void) {
    map_area(&lent_header);
    map_area(&lent_marker);
    map_area(&lent_frames);
    map_area(&lent_slots);
    test_known_runs();
    test_example_sizes();
    for (uint64_t rate = 0; rate < 3; rate++) {
        test_sequence(rate);
    }
    test_symbol_example();
    test_words();
    test_fills();
    test_pooled_by_hand();
    test_sizes_of_copies();
    test_refused_headers();
    test_refused_markers();
    test_refused_copies();
    for (size_t i = 0; i < RUN_COUNT; i++) {
        const struct run *run = &RUNS[i].run;
        test_random_runs(run);
        test_damage(run);
        test_stream(run);
        test_draft_order(run);
        test_refused_header_bytes(run);
        test_refused_lengths(run);
    }
    test_every_number_met();
    return failures == 0 ? EXIT_SUCCESS : EXIT_FAILURE;
}
