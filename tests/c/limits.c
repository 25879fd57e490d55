/*
 * How far the promises on words and codeblocks are from what is true: the least distance of two
 * words of a rate, the shortest burst that only the check field turns away, and the least distance
 * of the uplink's code. No proof speaks of these figures; docs/PROMISES.md gives them as computed,
 * and this is what computes them. Each figure comes with a pair or a burst that has it, tried on
 * the library.
 */
#include <stdlib.h>
#include <string.h>

#include "check.h"
#include "mahyrei.h"

enum {
    RATES = 3,
    CODED = MAHYREI_WORD_BITS,
    CHECK_BITS = 32,
    TERMINATION_BITS = 2,
    WORD = 64 /* bits of a number, which has 64 bits of a row */
};

static const char *const RATE_NAMES[RATES] = {"1/3", "1/2", "2/3"};
static const size_t BLOCK_BYTES[RATES] = {MAHYREI_BLOCK_BYTES_1_3, MAHYREI_BLOCK_BYTES_1_2,
                                          MAHYREI_BLOCK_BYTES_2_3};

static size_t block_bits(uint64_t rate) {
    return 8 * BLOCK_BYTES[rate] - 2;
}

static unsigned bit_at(const uint8_t *bytes, size_t x) {
    return bytes[x / 8] >> (7 - x % 8) & 1U;
}

static void *room(size_t count, size_t size) {
    void *given = calloc(count, size);
    if (given == NULL) {
        fprintf(stderr, "limits: no memory\n");
        exit(2);
    }
    return given;
}

/* ---- the least distance of two words of one rate
 *
 * The inputs of the code in which two words differ, block and check field, are a multiple of the
 * check's polynomial. The code splits them into stretches that leave its zero state and come back
 * to it. Each stretch costs at least 8, 5 or 3 coded bits, so that below the figures that are
 * claimed there are at most three of them, and all are tried. */

enum { STRETCHES_MAX = 4096, STRETCH_BITS = 60 };

/* A stretch: its inputs, from the first 1 to the last, as a number whose lowest bit is the last;
 * how many there are, how many coded bits it changes, and what its inputs leave by the polynomial.
 */
struct stretch {
    uint64_t inputs;
    unsigned length, weight, odd;
    uint32_t remainder;
};

struct stretches {
    struct stretch all[STRETCHES_MAX];
    size_t count;
};

static const uint32_t CHECK_POLYNOMIAL = 0x20044009; /* D^32 + D^29 + D^18 + D^14 + D^3 + 1 */

static uint32_t times_d(uint32_t remainder) {
    return remainder << 1 ^ (remainder >> 31 != 0 ? CHECK_POLYNOMIAL : 0);
}

static uint32_t remainder_of(uint64_t inputs) {
    uint32_t remainder = 0;
    for (unsigned i = STRETCH_BITS; i-- > 0;) {
        remainder = times_d(remainder) ^ (uint32_t)(inputs >> i & 1);
    }
    return remainder;
}

/* The coded bits that an input changes, whose own number is odd or even, after `one` and `two`. */
static unsigned cost(uint64_t rate, unsigned odd, unsigned input, unsigned one, unsigned two) {
    const unsigned first = input ^ two, second = first ^ one;
    return rate == MAHYREI_RATE_1_3   ? first + 2 * second
           : rate == MAHYREI_RATE_1_2 ? first + second
                                      : (odd ? 0 : first) + second;
}

/* Every stretch that goes on from these inputs and changes fewer than `limit` coded bits. */
/* NOLINTNEXTLINE(misc-no-recursion): at most STRETCH_BITS deep. */
static void go_on(struct stretches *found, uint64_t rate, unsigned start_odd, uint64_t inputs,
                  unsigned length, unsigned weight, unsigned limit) {
    if (weight >= limit) {
        return;
    }
    if ((inputs & 3) == 0) {
        if (found->count == STRETCHES_MAX) {
            fprintf(stderr, "limits: too many stretches\n");
            exit(2);
        }
        const uint64_t whole = inputs >> 2;
        found->all[found->count++] =
            (struct stretch){whole, length - 2, weight, start_odd, remainder_of(whole)};
        return;
    }
    if (length == STRETCH_BITS) {
        fprintf(stderr, "limits: a stretch too long\n");
        exit(2);
    }
    for (unsigned input = 0; input < 2; input++) {
        const unsigned more = cost(rate, start_odd ^ (length & 1U), input, (unsigned)(inputs & 1),
                                   (unsigned)(inputs >> 1 & 1));
        go_on(found, rate, start_odd, inputs << 1 | input, length + 1, weight + more, limit);
    }
}

static void find_stretches(struct stretches *found, uint64_t rate, unsigned limit) {
    found->count = 0;
    for (unsigned odd = 0; odd < (rate == MAHYREI_RATE_2_3 ? 2U : 1U); odd++) {
        go_on(found, rate, odd, 1, 1, cost(rate, odd, 1, 0, 0), limit);
    }
}

/* A stretch `shift` inputs before the last one of all. */
struct placed {
    uint32_t remainder;
    uint32_t shift;
    const struct stretch *stretch;
};

static int by_remainder(const void *a, const void *b) {
    const uint32_t x = ((const struct placed *)a)->remainder,
                   y = ((const struct placed *)b)->remainder;
    return (x > y) - (x < y);
}

/* Whether a stretch may have its last input `shift` inputs before one whose number is odd or even.
 */
static bool fits(uint64_t rate, const struct stretch *stretch, size_t shift, unsigned last_odd) {
    const unsigned own_last_odd = stretch->odd ^ ((stretch->length - 1) & 1U);
    return rate != MAHYREI_RATE_2_3 || own_last_odd == (last_odd ^ (shift & 1U));
}

/* Every stretch of less than `limit` at every shift, in order of what it leaves. */
static struct placed *place_all(const struct stretches *found, unsigned limit, size_t span,
                                size_t *count) {
    struct placed *all = room(found->count * span, sizeof *all);
    *count = 0;
    for (size_t i = 0; i < found->count; i++) {
        const struct stretch *stretch = &found->all[i];
        if (stretch->weight >= limit) {
            continue;
        }
        uint32_t remainder = stretch->remainder;
        for (size_t shift = 0; shift + stretch->length <= span; shift++) {
            all[(*count)++] = (struct placed){remainder, (uint32_t)shift, stretch};
            remainder = times_d(remainder);
        }
    }
    qsort(all, *count, sizeof *all, by_remainder);
    return all;
}

/* The first of those that leave this remainder, or NULL. */
static const struct placed *leaving(const struct placed *all, size_t count, uint32_t remainder) {
    size_t low = 0, high = count;
    while (low < high) {
        const size_t middle = low + (high - low) / 2;
        if (all[middle].remainder < remainder) {
            low = middle + 1;
        } else {
            high = middle;
        }
    }
    return low < count && all[low].remainder == remainder ? &all[low] : NULL;
}

/* The least that one more stretch makes, at least two inputs before `from`, after those that leave
 * `remainder` and cost `weight`; `best` where it makes no less. */
static unsigned with_another(const struct placed *all, size_t count, uint64_t rate,
                             uint32_t remainder, size_t from, unsigned last_odd, unsigned weight,
                             unsigned best) {
    for (const struct placed *it = leaving(all, count, remainder);
         it != NULL && it < all + count && it->remainder == remainder; it++) {
        if (it->shift >= from && fits(rate, it->stretch, it->shift, last_odd) &&
            weight + it->stretch->weight < best) {
            best = weight + it->stretch->weight;
        }
    }
    return best;
}

/* The least number of coded bits, below `limit`, in which two words of a rate differ, or `limit`.
 */
static unsigned least_distance(uint64_t rate, unsigned limit) {
    static struct stretches found;
    const unsigned cheapest = rate == MAHYREI_RATE_1_3 ? 8 : rate == MAHYREI_RATE_1_2 ? 5 : 3;
    const size_t span = block_bits(rate) + CHECK_BITS;
    find_stretches(&found, rate, limit);
    size_t count;
    struct placed *all = place_all(&found, limit - cheapest, span, &count);
    unsigned best = limit;
    for (size_t i = 0; i < found.count; i++) {
        const struct stretch *last = &found.all[i];
        const unsigned last_odd = last->odd ^ ((last->length - 1) & 1U);
        CHECK(last->weight >= cheapest);
        if (last->remainder == 0 && last->weight < best) {
            best = last->weight;
        }
        if (last->weight + cheapest >= limit) {
            continue;
        }
        best = with_another(all, count, rate, last->remainder, last->length + TERMINATION_BITS,
                            last_odd, last->weight, best);
        for (size_t j = 0; j < count && last->weight + 2 * cheapest < limit; j++) {
            const struct stretch *middle = all[j].stretch;
            if (all[j].shift >= last->length + TERMINATION_BITS &&
                fits(rate, middle, all[j].shift, last_odd) &&
                last->weight + middle->weight + cheapest < limit) {
                best = with_another(all, count, rate, last->remainder ^ all[j].remainder,
                                    all[j].shift + middle->length + TERMINATION_BITS, last_odd,
                                    last->weight + middle->weight, best);
            }
        }
    }
    free(all);
    return best;
}

/* In how many coded bits two blocks differ that differ in these bits alone. */
static unsigned differing(uint64_t rate, const size_t *bits, size_t count) {
    static uint8_t sum[MAHYREI_WORD_BYTES], spread[MAHYREI_WORD_BYTES];
    memset(sum, 0, sizeof sum);
    for (size_t i = 0; i < count; i++) {
        CHECK(mahyrei_bit_spread(rate, bits[i], spread, sizeof spread) == MAHYREI_ACCEPTED);
        for (size_t j = 0; j < sizeof sum; j++) {
            sum[j] ^= spread[j];
        }
    }
    unsigned ones = 0;
    for (size_t j = 0; j < CODED; j++) {
        ones += bit_at(sum, j);
    }
    return ones;
}

static void try_distances(void) {
    static const unsigned CLAIMED[RATES] = {20, 14, 10};
    static const size_t BITS[] = {0, 2, 3, 3787, 3788, 3790};
    for (uint64_t rate = 0; rate < RATES; rate++) {
        const unsigned least = least_distance(rate, CLAIMED[rate]);
        const unsigned pair = differing(rate, BITS, sizeof BITS / sizeof *BITS);
        printf("limits: rate %s: no two words differ in fewer than %u coded bits, and two in %u\n",
               RATE_NAMES[rate], least, pair);
        CHECK_FOR(rate, least == CLAIMED[rate] && pair == CLAIMED[rate]);
    }
}

/* ---- the shortest burst that neither 13 nor 14 turns away
 *
 * Flips within n bits of a word that follow one another are, before step 6, sums of neighbours
 * within n + 1 places of step 5's order, an even number of them, or any number at the word's end.
 * They pass 13 and 14 if and only if they are coded bits of some inputs, that is, if the columns of
 * the code's check matrix at these places add up to zero. The places are gone through in order, and
 * among the columns that are independent the latest are kept: a column that the others make then
 * tells the shortest stretch of places that ends there and depends. */

enum {
    ROWS_MAX = CODED / 3 * 2 + 8,
    ROW_WORDS = ROWS_MAX / WORD + 1,
    PLACE_WORDS = CODED / WORD + 1
};

/* A sum of columns: its bits, which columns, and the first of these. */
struct sum {
    uint64_t rows[ROW_WORDS], places[PLACE_WORDS];
    size_t first;
    bool used;
};

static void turn_bit(uint64_t *bits, size_t x) {
    bits[x / WORD] ^= UINT64_C(1) << x % WORD;
}

/* Adds the checks in which an output of input i takes part: D^0 to D^4 of `taps`, as the outputs of
 * that many inputs later see it. At rate 2/3 there is a check for every other input alone. */
static void add_checks(struct sum *sum, uint64_t rate, size_t i, unsigned taps) {
    for (size_t later = 0; later < 5; later++) {
        if ((taps >> later & 1U) != 0 && (rate != MAHYREI_RATE_2_3 || (i + later) % 2 == 0)) {
            turn_bit(sum->rows, rate == MAHYREI_RATE_2_3 ? (i + later) / 2 : i + later);
        }
    }
}

/* With a the first output, by 1 + D^2, and b the second, by 1 + D + D^2: (1 + D + D^2) a is
 * (1 + D^2) b. At rate 2/3, where every other a is missing, the same times 1 + D + D^2, of which
 * the part of a has even powers alone. */
enum { TAPS_OF_A = 7, TAPS_OF_B = 5, EVEN_TAPS_OF_A = 21, EVEN_TAPS_OF_B = 27 };

/* The column of coded bit j; with `even`, a last row that counts columns. */
static void column(struct sum *sum, uint64_t rate, size_t j, bool even) {
    const size_t inputs = block_bits(rate) + CHECK_BITS + TERMINATION_BITS;
    if (rate == MAHYREI_RATE_1_3) {
        const size_t i = j / 3;
        if (j % 3 != 2) {
            add_checks(sum, rate, i, j % 3 == 0 ? TAPS_OF_A : TAPS_OF_B);
        }
        if (j % 3 != 0) { /* the second output comes twice */
            turn_bit(sum->rows, inputs + TERMINATION_BITS + i);
        }
    } else if (rate == MAHYREI_RATE_1_2) {
        add_checks(sum, rate, j / 2, j % 2 == 0 ? TAPS_OF_A : TAPS_OF_B);
    } else {
        const size_t i = j / 3 * 2 + (j % 3 == 2 ? 1 : 0);
        add_checks(sum, rate, i, j % 3 == 0 ? EVEN_TAPS_OF_A : EVEN_TAPS_OF_B);
    }
    if (even) {
        turn_bit(sum->rows, ROWS_MAX);
    }
}

/* Step 5: the coded bit at this place. */
static size_t coded_bit(size_t place) {
    return (11 * place + 210 * place * place) % CODED;
}

static void add(struct sum *to, const struct sum *other) {
    for (size_t w = 0; w < ROW_WORDS; w++) {
        to->rows[w] ^= other->rows[w];
    }
    for (size_t w = 0; w < PLACE_WORDS; w++) {
        to->places[w] ^= other->places[w];
    }
    if (other->first < to->first) {
        to->first = other->first;
    }
}

/* The lowest row of a sum, from row `from` on, or ROW_WORDS * WORD where all are 0. */
static size_t lowest_row(const struct sum *sum, size_t from) {
    for (size_t w = from / WORD; w < ROW_WORDS; w++) {
        if (sum->rows[w] != 0) {
            return w * WORD + (size_t)__builtin_ctzll(sum->rows[w]);
        }
    }
    return (size_t)ROW_WORDS * WORD;
}

/* Puts a sum among the independent ones; false, and `sum` tells of what, if it depends on them. */
static bool put(struct sum *independent, struct sum *sum) {
    static struct sum other;
    for (size_t row = lowest_row(sum, 0); row < (size_t)ROW_WORDS * WORD;
         row = lowest_row(sum, row)) {
        struct sum *there = &independent[row];
        if (!there->used) {
            *there = *sum;
            there->used = true;
            return true;
        }
        if (there->first < sum->first) {
            other = *there;
            *there = *sum;
            there->used = true;
            *sum = other;
        }
        add(sum, there);
    }
    return false;
}

/* A burst of flips: where it begins, how long it is, and the places that make it, before step 6. */
struct burst {
    size_t start, length;
    uint64_t places[PLACE_WORDS];
};

/* The shortest burst; with `even` one that ends anywhere, without it one that ends with the word.
 */
static void shortest_burst(uint64_t rate, bool even, struct burst *best) {
    struct sum *independent = room((size_t)ROW_WORDS * WORD, sizeof *independent);
    best->length = CODED;
    for (size_t place = 0; place < CODED; place++) {
        static struct sum sum;
        memset(&sum, 0, sizeof sum);
        sum.first = place;
        turn_bit(sum.places, place);
        column(&sum, rate, coded_bit(place), even);
        if (put(independent, &sum)) {
            continue;
        }
        const size_t length = even ? place - sum.first : CODED - sum.first;
        if (length < best->length) {
            best->start = sum.first;
            best->length = length;
            memcpy(best->places, sum.places, sizeof best->places);
        }
    }
    free(independent);
}

/* What the reader says of a written word with this burst. */
static uint64_t read_with(uint64_t rate, const struct burst *burst) {
    uint8_t block[MAHYREI_BLOCK_BYTES_2_3], word[MAHYREI_WORD_BYTES];
    fill_random(block, BLOCK_BYTES[rate]);
    CHECK(mahyrei_word_write(rate, block, BLOCK_BYTES[rate], word, sizeof word) ==
          MAHYREI_ACCEPTED);
    unsigned flip = 0;
    for (size_t x = 0; x < CODED; x++) {
        flip ^= (unsigned)(burst->places[x / WORD] >> x % WORD & 1);
        word[x / 8] ^= (uint8_t)(flip << (7 - x % 8));
        CHECK(flip == 0 || (x >= burst->start && x < burst->start + burst->length));
    }
    return mahyrei_word_read(rate, word, sizeof word, block, BLOCK_BYTES[rate]);
}

static void try_bursts(void) {
    static const size_t CLAIMED[RATES] = {4124, 1351, 487};
    static struct burst anywhere, at_the_end;
    for (uint64_t rate = 0; rate < RATES; rate++) {
        shortest_burst(rate, true, &anywhere);
        shortest_burst(rate, false, &at_the_end);
        const struct burst *best = at_the_end.length < anywhere.length ? &at_the_end : &anywhere;
        const uint64_t answer = read_with(rate, best);
        printf("limits: rate %s: the shortest burst that only the check finds has %zu bits, from "
               "bit %zu "
               "on: read with %u\n",
               RATE_NAMES[rate], best->length, best->start, (unsigned)(answer & 255));
        CHECK_FOR(rate, best->length == CLAIMED[rate] && (answer & 255) == MAHYREI_BAD_CHECK);
    }
}

/* ---- the least distance of the uplink's code
 *
 * A codeblock of weight 14 or less has at most seven ones in its frame, or at most six in its
 * parity part. The first are all made from frames; the second from parity parts, by the inverse. */

enum { HALF = 64, GROUP = 4, AT_MOST = 14, ONES_OF_FRAME = 7, ONES_OF_PARITY = 6 };

/* How many codeblocks have this weight, by the weight of each part. */
struct tally {
    uint64_t of_weight[AT_MOST + 1];
};

/* The parity part that the library gives a frame, with the sequence still on it. */
static uint64_t parity_of(const uint8_t frame[MAHYREI_UPLINK_FRAME_BYTES]) {
    uint8_t slots[MAHYREI_UPLINK_CODEBLOCK_BYTES];
    CHECK(mahyrei_uplink_write(frame, MAHYREI_UPLINK_FRAME_BYTES, slots, sizeof slots) ==
          MAHYREI_ACCEPTED);
    uint64_t parity = 0;
    for (size_t t = 0; t < HALF; t++) { /* the pulse of a 1 is in a group's second slot */
        parity = parity << 1 | bit_at(slots, GROUP * (HALF + t) + 1);
    }
    return parity;
}

static void parity_rows(uint64_t rows[HALF]) {
    static const uint8_t zeros[MAHYREI_UPLINK_FRAME_BYTES];
    const uint64_t none = parity_of(zeros);
    for (size_t i = 0; i < HALF; i++) {
        uint8_t frame[MAHYREI_UPLINK_FRAME_BYTES] = {0};
        frame[i / 8] = (uint8_t)(0x80U >> i % 8);
        rows[i] = parity_of(frame) ^ none;
    }
}

/* The rows that undo `rows`, all of which have to be independent: a parity bit's frame bits. */
static void undone(const uint64_t rows[HALF], uint64_t inverse[HALF]) {
    uint64_t left[HALF];
    for (size_t i = 0; i < HALF; i++) {
        left[i] = rows[i];
        inverse[i] = UINT64_C(1) << (HALF - 1 - i);
    }
    for (size_t c = 0; c < HALF; c++) {
        const uint64_t bit = UINT64_C(1) << (HALF - 1 - c);
        size_t pivot = c;
        while (pivot < HALF && (left[pivot] & bit) == 0) {
            pivot++;
        }
        if (pivot == HALF) {
            fprintf(stderr, "limits: the parity part does not decide the frame\n");
            exit(2);
        }
        const uint64_t row = left[pivot], made = inverse[pivot];
        left[pivot] = left[c];
        inverse[pivot] = inverse[c];
        left[c] = row;
        inverse[c] = made;
        for (size_t i = 0; i < HALF; i++) {
            if (i != c && (left[i] & bit) != 0) {
                left[i] ^= row;
                inverse[i] ^= made;
            }
        }
    }
}

/* Counts the sums of `more` rows, from row `from` on, that are light enough beside `ones` ones and
 * of which the other part has at least `least`. */
/* NOLINTNEXTLINE(misc-no-recursion): at most ONES_OF_FRAME deep. */
static void count_sums(const uint64_t rows[HALF], size_t from, unsigned more, uint64_t sum,
                       unsigned ones, unsigned least, struct tally *tally) {
    if (more == 0) {
        const unsigned other = (unsigned)__builtin_popcountll(sum);
        if (other >= least && ones + other <= AT_MOST) {
            tally->of_weight[ones + other]++;
        }
        return;
    }
    for (size_t i = from; i + more <= HALF; i++) {
        count_sums(rows, i + 1, more - 1, sum ^ rows[i], ones, least, tally);
    }
}

static void try_uplink(void) {
    enum { CLAIMED = 14, CLAIMED_COUNT = 16 };
    uint64_t rows[HALF], inverse[HALF];
    parity_rows(rows);
    undone(rows, inverse);
    struct tally tally = {{0}};
    for (unsigned ones = 1; ones <= ONES_OF_FRAME; ones++) {
        count_sums(rows, 0, ones, 0, ones, 0, &tally);
    }
    for (unsigned ones = 1; ones <= ONES_OF_PARITY; ones++) {
        count_sums(inverse, 0, ones, 0, ones, ONES_OF_FRAME + 1, &tally);
    }
    unsigned least = 1;
    while (least < AT_MOST && tally.of_weight[least] == 0) {
        least++;
    }
    printf("limits: uplink: no two codeblocks differ in fewer than %u bits; %" PRIu64
           " codeblocks have that weight\n",
           least, tally.of_weight[least]);
    CHECK(least == CLAIMED && tally.of_weight[least] == CLAIMED_COUNT);
}

int main(void) {
    try_distances();
    try_uplink();
    try_bursts();
    printf("limits: %lu checks, %lu failed\n", checks, failures);
    return failures == 0 ? 0 : 1;
}
