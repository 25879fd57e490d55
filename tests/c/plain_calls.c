/*
 * The plain functions of mahyrei_plain.h beside the proved calls: the number for a header is the
 * one that mahyrei_run_write gives, the sizes are those that it takes, a header goes back and
 * forth, and many steps of a delay line are the steps one by one.
 */
#include <stdlib.h>
#include <string.h>

#include "check.h"
#include "mahyrei_plain.h"

/* A check about a header, which is shown where it fails. */
static void check_header(bool good, int line, const char *what, const uint8_t *header) {
    if (!check(good, __FILE__, line, NULL, 0, what) && header != NULL &&
        failures <= FAILURES_SHOWN) {
        for (size_t i = 0; i < MAHYREI_HEADER_BYTES; i++) {
            fprintf(stderr, "%02X", header[i]);
        }
        fputc('\n', stderr);
    }
}

#define CHECK_HEADER(condition, what, header) check_header((condition), __LINE__, (what), (header))

static void pack(const struct mahyrei_fields *f, uint8_t header[MAHYREI_HEADER_BYTES]) {
    const uint64_t bits = f->rate << 62 | f->m << 58 | f->N << 50 | f->B << 41 | f->F << 29 |
                          f->W << 23 | f->A << 16 | f->copies << 10;
    for (size_t i = 0; i < 8; i++) {
        header[i] = (uint8_t)(bits >> (56 - 8 * i) & 255);
    }
    header[8] = header[9] = 0;
}

/* The proved number of a header alone: with nothing else lent, a good one gets 8. */
static unsigned proved(const uint8_t *header, size_t len) {
    const unsigned number =
        mahyrei_answer_number(mahyrei_run_write(header, len, NULL, 0, NULL, 0, NULL, 0));
    return number == MAHYREI_BAD_LENGTH ? MAHYREI_ACCEPTED : number;
}

static bool zero_sizes(const struct mahyrei_sizes *sizes) {
    return sizes->pooled == 0 && sizes->symbols == 0 && sizes->marker_bytes == 0 &&
           sizes->frame_bytes == 0 && sizes->slot_bytes == 0 && sizes->delay_bytes == 0;
}

/* Any header: the number, the fields, and the way back. */
static void try_header(const uint8_t header[MAHYREI_HEADER_BYTES]) {
    const unsigned number = proved(header, MAHYREI_HEADER_BYTES);
    struct mahyrei_fields fields;
    struct mahyrei_sizes sizes;
    uint8_t back[MAHYREI_HEADER_BYTES];
    const char *wrong = "";
    CHECK_HEADER(mahyrei_header_fields(header, MAHYREI_HEADER_BYTES, &fields) == number, "number",
                 header);
    CHECK_HEADER(mahyrei_sizes(header, MAHYREI_HEADER_BYTES, &sizes) == number, "sizes' number",
                 header);
    CHECK_HEADER((number == MAHYREI_ACCEPTED) == !zero_sizes(&sizes), "sizes", header);
    pack(&fields, back);
    CHECK_HEADER(memcmp(back, header, 6) == 0 && back[6] == (header[6] & 0xFC), "fields", header);
    memset(back, 0xA5, sizeof back);
    const unsigned made = mahyrei_header_make(&fields, back, &wrong);
    if (number != MAHYREI_BAD_HEADER) {
        CHECK_HEADER(made == number, "number of the fields", header);
    }
    CHECK_HEADER((made == MAHYREI_ACCEPTED) == (wrong == NULL), "wrong field", header);
    if (made == MAHYREI_ACCEPTED) {
        CHECK_HEADER(memcmp(back, header, 6) == 0 && back[6] == (header[6] & 0xFC) &&
                         back[7] == 0 && back[8] == 0 && back[9] == 0,
                     "header of the fields", header);
    } else {
        CHECK_HEADER(back[0] == 0xA5 && back[9] == 0xA5, "a refused header is not written", header);
    }
}

/* Fields about their ranges, so that many headers pass. */
static struct mahyrei_fields some_fields(void) {
    static const uint64_t B[] = {0, 1, 21, 60, 120, 180, 189, 255, 256, 257};
    static const uint64_t N[] = {0, 1, 1, 1, 2, 4, 5, 10, 21, 84, 127, 128, 129};
    static const uint64_t COPIES[] = {1, 1, 1, 1, 2, 3, 4, 8, 16, 32, 0, 5, 6, 31, 33, 48, 63};
    return (struct mahyrei_fields){random_below(4),
                                   1 + random_below(9),
                                   N[random_below(sizeof N / sizeof N[0])],
                                   B[random_below(sizeof B / sizeof B[0])],
                                   random_below(8) == 0 ? 2047 + random_below(3)
                                                        : random_below(300),
                                   random_below(34),
                                   random_below(66),
                                   COPIES[random_below(sizeof COPIES / sizeof COPIES[0])]};
}

/* A small run has exactly these sizes. */
static void try_sizes(const uint8_t header[MAHYREI_HEADER_BYTES]) {
    struct mahyrei_sizes sizes;
    if (mahyrei_sizes(header, MAHYREI_HEADER_BYTES, &sizes) != 0 || sizes.slot_bytes > 200000) {
        return;
    }
    uint8_t *const marker = calloc(sizes.marker_bytes, 1);
    uint8_t *const frames = calloc(sizes.frame_bytes, 1), *const slots = malloc(sizes.slot_bytes);
    if (marker == NULL || frames == NULL || slots == NULL) {
        exit(2);
    }
    uint8_t *const area = calloc(sizes.delay_bytes + 1, 1);
    if (area == NULL) {
        exit(2);
    }
    CHECK_HEADER(mahyrei_run_write(header, MAHYREI_HEADER_BYTES, marker, sizes.marker_bytes, frames,
                                   sizes.frame_bytes, slots, sizes.slot_bytes) == MAHYREI_ACCEPTED,
                 "a run of these sizes", header);
    CHECK_HEADER(
        mahyrei_delay_write(header, MAHYREI_HEADER_BYTES, 0, 1, area, sizes.delay_bytes) == 256 &&
            mahyrei_delay_write(header, MAHYREI_HEADER_BYTES, 0, 1, area, sizes.delay_bytes + 1) ==
                MAHYREI_BAD_LENGTH,
        "a delay line of this size", header);
    free(area);
    free(marker);
    free(frames);
    free(slots);
}

/* ---- delay lines */

enum { STEPS = 3000, AREA_MOST = 4000 };

struct line {
    uint8_t area[AREA_MOST], symbols[STEPS], given[STEPS];
};

/* The steps one by one, up to the first refusal. */
static uint64_t one_by_one(bool reading, const uint8_t *header, size_t area_len, uint64_t step,
                           size_t count, struct line *line) {
    for (size_t i = 0; i < count; i++) {
        const uint64_t symbol = line->symbols[i];
        const uint64_t answer = reading
                                    ? mahyrei_delay_read(header, MAHYREI_HEADER_BYTES, step + i,
                                                         symbol, line->area, area_len)
                                    : mahyrei_delay_write(header, MAHYREI_HEADER_BYTES, step + i,
                                                          symbol, line->area, area_len);
        if (mahyrei_answer_number(answer) != MAHYREI_ACCEPTED) {
            return i * 256 + answer;
        }
        line->given[i] = (uint8_t)mahyrei_delay_symbol(answer);
    }
    return MAHYREI_ACCEPTED;
}

/* The same steps in one call, with symbols and given apart or the same: the answer, the area and
 * every byte of given are those of the steps one by one. */
static void try_steps(bool reading, const uint8_t *header, size_t area_len, uint64_t step,
                      size_t count, const struct line *start) {
    static struct line expected;
    expected = *start;
    const uint64_t number = one_by_one(reading, header, area_len, step, count, &expected);
    for (int same = 0; same < 2; same++) {
        static struct line many;
        many = *start;
        uint8_t *const given = same ? many.symbols : many.given;
        const uint64_t answer =
            reading ? mahyrei_delay_read_many(header, MAHYREI_HEADER_BYTES, step, many.symbols,
                                              count, many.area, area_len, given, count)
                    : mahyrei_delay_write_many(header, MAHYREI_HEADER_BYTES, step, many.symbols,
                                               count, many.area, area_len, given, count);
        const size_t done = number == 0 ? count : (size_t)mahyrei_answer_place(number);
        CHECK_HEADER(answer == number, "the answer to many steps", header);
        CHECK_HEADER(memcmp(many.area, expected.area, sizeof many.area) == 0,
                     "the area of many steps", header);
        CHECK_HEADER(memcmp(given, expected.given, done) == 0, "what many steps give", header);
        CHECK_HEADER(
            memcmp(given + done, (same ? start->symbols : start->given) + done, STEPS - done) == 0,
            "nothing is given after the first refusal", header);
    }
}

static void try_lines(void) {
    static struct line line;
    static const struct mahyrei_fields LINES[] = {
        {1, 8, 6, 63, 900, 2, 3, 1},  {1, 4, 5, 189, 500, 5, 3, 2}, {0, 2, 1, 256, 1, 1, 1, 32},
        {2, 5, 4, 252, 223, 3, 1, 1}, {0, 8, 10, 21, 100, 1, 1, 8},
    };
    for (size_t i = 0; i < sizeof LINES / sizeof LINES[0]; i++) {
        uint8_t header[MAHYREI_HEADER_BYTES];
        struct mahyrei_sizes sizes = {.M = 1};
        CHECK_HEADER(mahyrei_header_make(&LINES[i], header, NULL) == 0 &&
                         mahyrei_sizes(header, sizeof header, &sizes) == 0 &&
                         sizes.delay_bytes <= AREA_MOST,
                     "a delay line", header);
        for (unsigned turn = 0; turn < 40; turn++) {
            const bool reading = turn % 2 != 0;
            const uint64_t step = turn < 20 ? random_below(100000) : random_number() >> 1;
            const size_t count = turn < 4 ? turn / 2 : random_below(STEPS);
            fill_random(line.area, sizeof line.area);
            fill_random(line.given, sizeof line.given);
            for (size_t j = 0; j < STEPS; j++) {
                line.symbols[j] = (uint8_t)random_below(sizes.M);
            }
            if (turn % 3 == 0 && count > 0) { /* where M is 256, no byte is too large */
                line.symbols[random_below(count)] = 255;
            }
            try_steps(reading, header, sizes.delay_bytes, step, count, &line);
            try_steps(reading, header, sizes.delay_bytes + 1, step, count, &line);
        }
        try_steps(false, header, sizes.delay_bytes, UINT64_MAX - 9, 10, &line);
        header[0] = 0xFF;
        try_steps(true, header, sizes.delay_bytes, 0, 10, &line);
    }
}

/* Lengths and numbers that no step is put for. */
static void try_no_steps(void) {
    const struct mahyrei_fields fields = {1, 8, 6, 63, 900, 2, 3, 1};
    uint8_t header[MAHYREI_HEADER_BYTES], area[945] = {0};
    uint8_t symbols[10] = {1, 2, 3}, given[10] = {7, 7};
    CHECK_HEADER(mahyrei_header_make(&fields, header, NULL) == 0, "a delay line", header);
    for (size_t len = 0; len < 12; len++) {
        CHECK_HEADER(len == 10 ||
                         (mahyrei_delay_write_many(header, 10, 0, symbols, 10, area, sizeof area,
                                                   given, len) == MAHYREI_BAD_LENGTH &&
                          mahyrei_delay_read_many(header, 10, 0, symbols, 10, area, sizeof area,
                                                  given, len) == MAHYREI_BAD_LENGTH),
                     "another length for what is given", header);
    }
    for (uint64_t late = 0; late < 9; late++) {
        CHECK_HEADER(mahyrei_delay_write_many(header, 10, UINT64_MAX - late, symbols, 10, area,
                                              sizeof area, given, 10) == MAHYREI_BAD_LENGTH,
                     "step numbers after the last", header);
    }
    CHECK_HEADER(area[0] == 0 && given[0] == 7 && given[1] == 7, "nothing was taken", header);
    CHECK_HEADER(mahyrei_delay_write_many(header, 10, UINT64_MAX, NULL, 0, area, sizeof area, NULL,
                                          0) == 0 &&
                     mahyrei_delay_read_many(NULL, 0, 0, NULL, 0, NULL, 0, NULL, 0) == 0,
                 "no symbols", header);
}

static void try_names(void) {
    struct mahyrei_fields fields = {1, 6, 84, 120, 223, 16, 2, 1};
    uint8_t example[] = {0x59, 0x50, 0xF0, 0x1B, 0xE8, 0x02, 4, 0, 0, 0};
    static const char *const NAMES[] = {"rate", "m", "N", "B", "F", "W", "A", "copies"};
    uint8_t header[MAHYREI_HEADER_BYTES];
    const char *wrong = NULL;
    struct mahyrei_sizes sizes;
    CHECK_HEADER(mahyrei_header_make(&fields, header, NULL) == 0 &&
                     memcmp(header, example, 10) == 0,
                 "the example of the specification", header);
    CHECK_HEADER(mahyrei_sizes(example, 10, &sizes) == 0 && sizes.R == 333 && sizes.S == 2520 &&
                     sizes.pooled == 844488 && sizes.symbols == 844488 && sizes.slots == 67559040 &&
                     sizes.slot_bytes == 8444880 && sizes.frame_bytes == 446 &&
                     sizes.marker_bytes == 16 && sizes.group == 80 && sizes.delay_bytes == 418320,
                 "its sizes", header);
    example[6] = 32 << 2;
    CHECK_HEADER(mahyrei_sizes(example, 10, &sizes) == 0 && sizes.pooled == 844488 &&
                     sizes.symbols == 27023616 && sizes.slots == 2161889280 &&
                     sizes.slot_bytes == 270236160 && sizes.frame_bytes == 446,
                 "its sizes with 32 copies", example);
    for (size_t i = 0; i < 8; i++) {
        struct mahyrei_fields changed = fields;
        CHECK_HEADER(strcmp(mahyrei_field_name(i), NAMES[i]) == 0, "the name of a field", NULL);
        *mahyrei_field(&changed, NAMES[i]) = 5000;
        mahyrei_fields_check(&changed, &wrong);
        CHECK_HEADER(wrong != NULL && strcmp(wrong, NAMES[i]) == 0, "the field that is wrong",
                     NULL);
    }
    CHECK_HEADER(mahyrei_field_name(8) == NULL && mahyrei_field(&fields, "n") == NULL,
                 "no more fields", NULL);
    fields.B = 121;
    CHECK_HEADER(mahyrei_fields_check(&fields, &wrong) == MAHYREI_BAD_FIT &&
                     strcmp(wrong, "N and B") == 0,
                 "fields that do not fit", NULL);
    for (unsigned number = 0; number < 256; number++) {
        const bool given = number <= 29 && number != 17;
        CHECK_HEADER((mahyrei_sentence(number) != NULL) == given, "sentences", NULL);
    }
    CHECK_HEADER(mahyrei_sentence(256) == NULL && mahyrei_sentence(UINT32_MAX) == NULL, "sentences",
                 NULL);
}

int main(void) {
    uint8_t header[MAHYREI_HEADER_BYTES + 1] = {0x59, 0x50, 0xF0, 0x1B, 0xE8, 0x02, 4};
    struct mahyrei_fields fields;
    for (size_t len = 0; len <= sizeof header; len++) {
        CHECK_HEADER(mahyrei_header_fields(header, len, &fields) == proved(header, len), "length",
                     header);
    }
    for (unsigned byte = 0; byte < 256; byte++) {
        header[6] = (uint8_t)byte;
        try_header(header);
    }
    CHECK_HEADER(mahyrei_header_fields(NULL, 0, &fields) == MAHYREI_BAD_HEADER, "no header", NULL);
    for (unsigned i = 0; i < 20000; i++) {
        fields = some_fields();
        pack(&fields, header);
        if (random_below(50) == 0) { /* one of the zeros at the end */
            const uint64_t bit = 54 + random_below(26);
            header[bit / 8] = (uint8_t)(header[bit / 8] | 0x80U >> bit % 8);
        }
        try_header(header);
        if (i % 20 == 0) {
            try_sizes(header);
        }
    }
    for (unsigned i = 0; i < 20000; i++) { /* any bits */
        for (size_t j = 0; j < MAHYREI_HEADER_BYTES; j++) {
            header[j] = (uint8_t)(j < 6 ? random_below(256) : j == 6 ? random_below(64) << 2 : 0);
        }
        try_header(header);
    }
    try_names();
    try_lines();
    try_no_steps();
    printf("plain functions: %lu checks, %lu failed\n", checks, failures);
    return failures == 0 ? 0 : 1;
}
