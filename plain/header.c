#include "mahyrei_plain.h"

#include <string.h>

/* One line a field, in the order in which they are packed: its bits, its range, and the number of
 * the question that asks for the range. */
struct field {
    const char *name;
    unsigned bits;
    uint64_t least, most;
    unsigned number;
    size_t at;
};

static const struct field FIELDS[] = {
    {"rate", 2, 0, 2, MAHYREI_BAD_RATE, offsetof(struct mahyrei_fields, rate)},
    {"m", 4, 2, 8, MAHYREI_BAD_ORDER, offsetof(struct mahyrei_fields, m)},
    {"N", 8, 1, 128, MAHYREI_BAD_ROWS, offsetof(struct mahyrei_fields, N)},
    {"B", 9, 1, 256, MAHYREI_BAD_ROWS, offsetof(struct mahyrei_fields, B)},
    {"F", 12, 1, 2048, MAHYREI_BAD_FRAMES, offsetof(struct mahyrei_fields, F)},
    {"W", 6, 1, 32, MAHYREI_BAD_MARKER, offsetof(struct mahyrei_fields, W)},
    {"A", 7, 1, 64, MAHYREI_BAD_FRAMES, offsetof(struct mahyrei_fields, A)},
    {"copies", 6, 1, MAHYREI_COPIES_MAX, MAHYREI_BAD_COPIES,
     offsetof(struct mahyrei_fields, copies)},
};

/* The questions put to fields, in their order. */
static const unsigned QUESTIONS[] = {MAHYREI_BAD_RATE,  MAHYREI_BAD_ORDER,  MAHYREI_BAD_ROWS,
                                     MAHYREI_BAD_FIT,   MAHYREI_BAD_FRAMES, MAHYREI_BAD_MARKER,
                                     MAHYREI_BAD_COPIES};

enum {
    FIELD_COUNT = sizeof FIELDS / sizeof FIELDS[0],
    QUESTION_COUNT = sizeof QUESTIONS / sizeof QUESTIONS[0],
    HEADER_BITS = 8 * MAHYREI_HEADER_BYTES
};

static uint64_t value_of(const struct mahyrei_fields *fields, const struct field *field) {
    return *(const uint64_t *)(const void *)((const char *)fields + field->at);
}

static uint64_t *field_of(struct mahyrei_fields *fields, const struct field *field) {
    return (uint64_t *)(void *)((char *)fields + field->at);
}

const char *mahyrei_field_name(size_t which) {
    return which < FIELD_COUNT ? FIELDS[which].name : NULL;
}

uint64_t *mahyrei_field(struct mahyrei_fields *fields, const char *name) {
    for (size_t i = 0; i < FIELD_COUNT; i++) {
        if (strcmp(name, FIELDS[i].name) == 0) {
            return field_of(fields, &FIELDS[i]);
        }
    }
    return NULL;
}

/* ---- questions */

/* The first field whose range this question asks for and that is outside it, or NULL. */
static const char *out_of_range(const struct mahyrei_fields *fields, unsigned number) {
    for (size_t i = 0; i < FIELD_COUNT; i++) {
        const uint64_t value = value_of(fields, &FIELDS[i]);
        if (FIELDS[i].number == number && (value < FIELDS[i].least || value > FIELDS[i].most)) {
            return FIELDS[i].name;
        }
    }
    return NULL;
}

/* Question 5, which comes when m, N and B are in range. */
static const char *misfit(const struct mahyrei_fields *fields) {
    const uint64_t S = MAHYREI_WORD_BITS / fields->m;
    return fields->N * (fields->N - 1) * fields->B % S == 0 ? NULL : "N and B";
}

/* Question 20: 3, and the powers of 2 in its range. */
static const char *no_factor(const struct mahyrei_fields *fields) {
    const uint64_t k = fields->copies;
    return k != 3 && (k & (k - 1)) != 0 ? "copies" : out_of_range(fields, MAHYREI_BAD_COPIES);
}

/* The field that fails this question, or NULL. */
static const char *failing(const struct mahyrei_fields *fields, unsigned number) {
    switch (number) {
    case MAHYREI_BAD_FIT:
        return misfit(fields);
    case MAHYREI_BAD_COPIES:
        return no_factor(fields);
    default:
        return out_of_range(fields, number);
    }
}

unsigned mahyrei_fields_check(const struct mahyrei_fields *fields, const char **wrong) {
    unsigned number = MAHYREI_ACCEPTED;
    const char *name = NULL;
    for (size_t i = 0; i < QUESTION_COUNT && name == NULL; i++) {
        name = failing(fields, QUESTIONS[i]);
        number = name == NULL ? MAHYREI_ACCEPTED : QUESTIONS[i];
    }
    if (wrong != NULL) {
        *wrong = name;
    }
    return number;
}

/* ---- headers */

/* So many bits from a place on, most significant first. The header may be longer than any number.
 */
static uint64_t bits_at(const uint8_t *header, unsigned at, unsigned count) {
    uint64_t value = 0;
    for (unsigned i = at; i < at + count; i++) {
        value = value << 1 | (header[i / 8] >> (7 - i % 8) & 1U);
    }
    return value;
}

static void put_bits(uint8_t *header, unsigned at, unsigned count, uint64_t value) {
    for (unsigned i = at + count; i-- > at; value >>= 1) {
        header[i / 8] = (uint8_t)(header[i / 8] | (value & 1) << (7 - i % 8));
    }
}

unsigned mahyrei_header_fields(const uint8_t *header, size_t header_len,
                               struct mahyrei_fields *fields) {
    unsigned at = 0;
    *fields = (struct mahyrei_fields){0};
    if (header_len != MAHYREI_HEADER_BYTES) {
        return MAHYREI_BAD_HEADER;
    }
    for (size_t i = 0; i < FIELD_COUNT; i++) {
        *field_of(fields, &FIELDS[i]) = bits_at(header, at, FIELDS[i].bits);
        at += FIELDS[i].bits;
    }
    return bits_at(header, at, HEADER_BITS - at) != 0 ? MAHYREI_BAD_HEADER
                                                      : mahyrei_fields_check(fields, NULL);
}

unsigned mahyrei_header_make(const struct mahyrei_fields *fields,
                             uint8_t header[MAHYREI_HEADER_BYTES], const char **wrong) {
    const unsigned number = mahyrei_fields_check(fields, wrong);
    unsigned at = 0;
    if (number != MAHYREI_ACCEPTED) {
        return number;
    }
    memset(header, 0, MAHYREI_HEADER_BYTES);
    for (size_t i = 0; i < FIELD_COUNT; i++) {
        put_bits(header, at, FIELDS[i].bits, value_of(fields, &FIELDS[i]));
        at += FIELDS[i].bits;
    }
    return number;
}

/* The quantities as mahyrei.h has them. */
unsigned mahyrei_sizes(const uint8_t *header, size_t header_len, struct mahyrei_sizes *sizes) {
    struct mahyrei_fields fields;
    const unsigned number = mahyrei_header_fields(header, header_len, &fields);
    *sizes = (struct mahyrei_sizes){0};
    if (number != MAHYREI_ACCEPTED) {
        return number;
    }
    sizes->k = mahyrei_word_block_bytes(fields.rate) * 8 - 2;
    sizes->M = UINT64_C(1) << fields.m;
    sizes->group = sizes->M + sizes->M / 4;
    sizes->S = MAHYREI_WORD_BITS / fields.m;
    sizes->C = (fields.A * (8 * fields.F + MAHYREI_FRAME_MARKER_BITS) + sizes->k - 1) / sizes->k;
    sizes->R = sizes->C + fields.N * (fields.N - 1) * fields.B / sizes->S;
    sizes->pooled = sizes->R * (sizes->S + fields.W);
    sizes->symbols = sizes->pooled * fields.copies;
    sizes->slots = sizes->symbols * sizes->group;
    sizes->marker_bytes = (size_t)fields.W;
    sizes->frame_bytes = (size_t)(fields.A * fields.F);
    sizes->slot_bytes = (size_t)((sizes->slots + 7) / 8);
    sizes->delay_bytes = (size_t)(fields.B * fields.N * (fields.N - 1) / 2);
    return number;
}
