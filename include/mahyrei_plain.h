/*
 * Beside mahyrei.h: what follows from a header, a header from its fields, many steps of a delay
 * line in one call, and the sentence of a number.
 *
 * These functions are plain C. They are tested, against the proved calls and the proved runsheet,
 * and they are not proved. Nothing rests on them: mahyrei_run_write and mahyrei_run_read put every
 * question to the header themselves, so a size that came out wrong here would be refused there,
 * with 8. The two that take many steps of a delay line are a loop around the proved calls. All are
 * for headers of ten bytes; mahyrei_header_widen makes one of eight.
 *
 * They keep no state, allocate nothing, and need memset, strcmp and a few hundred bytes of stack.
 * They are in libmahyrei with the calls.
 */
#ifndef MAHYREI_PLAIN_H
#define MAHYREI_PLAIN_H

#include <stddef.h>
#include <stdint.h>

#include "mahyrei.h"

#ifdef __cplusplus
extern "C" {
#endif

/* What comes before each frame of a run, highest bit first. */
#define MAHYREI_FRAME_MARKER UINT32_C(0x1ACFFC1D)
#define MAHYREI_FRAME_MARKER_BITS 32

/* The fields of a run header; mahyrei.h says what they are. copies is the factor. */
struct mahyrei_fields {
    uint64_t rate, m, N, B, F, W, A, copies;
};

/* What a header implies. */
struct mahyrei_sizes {
    uint64_t k;       /* information bits of a block */
    uint64_t M;       /* pulse order */
    uint64_t group;   /* slots of a symbol, guard slots counted: M + M / 4 */
    uint64_t S;       /* symbols of a word */
    uint64_t C;       /* blocks, and words */
    uint64_t R;       /* rows of S symbols, each with a marker before it */
    uint64_t pooled;  /* symbols of the run, markers counted, as places count: R * (S + W) */
    uint64_t symbols; /* the same with all copies, as runsheet counts: pooled * copies */
    uint64_t slots;   /* of the run: symbols * group */
    size_t marker_bytes, frame_bytes, slot_bytes; /* of the slices that the run calls are lent */
    size_t delay_bytes;                           /* of the area that the delay calls are lent */
};

/* The names of the fields, in the order of the header, counted from 0; NULL after the last. */
const char *mahyrei_field_name(size_t which);

/* A field by its name; NULL where there is none of that name. */
uint64_t *mahyrei_field(struct mahyrei_fields *fields, const char *name);

/*
 * Takes a header apart, and puts questions 1 to 6, W's range of 7, and 20 to it, as runsheet does.
 *
 * Returns 0, or the number of the first question answered no, 1 to 7 or 20. The fields are set
 * whenever the header has its ten bytes, also where it is refused; otherwise they are all 0.
 */
unsigned mahyrei_header_fields(const uint8_t *header, size_t header_len,
                               struct mahyrei_fields *fields);

/*
 * Puts questions 2 to 6, W's range of 7, and 20 to fields.
 *
 * Returns 0, or the number of the first answered no. Where wrong is not NULL, it is set to the name
 * of the field that fails ("rate", "m", "N", "B", "F", "W", "A", "copies"; "N and B" for 5), or to
 * NULL.
 */
unsigned mahyrei_fields_check(const struct mahyrei_fields *fields, const char **wrong);

/*
 * Makes the header of these fields. Returns as mahyrei_fields_check does, and writes nothing but
 * wrong unless that is 0.
 */
unsigned mahyrei_header_make(const struct mahyrei_fields *fields,
                             uint8_t header[MAHYREI_HEADER_BYTES], const char **wrong);

/*
 * Works out what follows from a header. Returns as mahyrei_header_fields does; unless that is 0,
 * all sizes are 0.
 */
unsigned mahyrei_sizes(const uint8_t *header, size_t header_len, struct mahyrei_sizes *sizes);

/*
 * Many steps of a delay line in one call: mahyrei_delay_write is called for one symbol after
 * another, in steps step, step + 1 and so on, and the first refusal ends it. A step costs what it
 * costs alone; what is saved is the way into the library, which from another language takes longer
 * than the step.
 *
 * Reads   header and step as mahyrei_delay_write does; symbols, symbols_len of them, a byte each.
 * Writes  area as mahyrei_delay_write does; given, given_len symbols, which is symbols_len. given
 *         may be symbols itself, and otherwise overlaps nothing. The area overlaps neither.
 * Returns 0 when every symbol was taken. Otherwise place * 256 + number, with a number from 1 to 8,
 *         or 20 or 26; the place is the symbol that was refused, counted from 0. Those before it
 *         were taken, and given holds what they gave; nothing after that has been changed. Only 26
 *         can come after the first symbol. 8 is also returned for a given_len that is not
 *         symbols_len, and for step numbers that would pass 2^64 - 1; then nothing was taken. Where
 *         there are no symbols, the call accepts and asks no question.
 */
uint64_t mahyrei_delay_write_many(const uint8_t *header, size_t header_len, uint64_t step,
                                  const uint8_t *symbols, size_t symbols_len, uint8_t *area,
                                  size_t area_len, uint8_t *given, size_t given_len);

/* The same for the way back, by mahyrei_delay_read. */
uint64_t mahyrei_delay_read_many(const uint8_t *header, size_t header_len, uint64_t step,
                                 const uint8_t *symbols, size_t symbols_len, uint8_t *area,
                                 size_t area_len, uint8_t *given, size_t given_len);

/* The version of the library, such as "0.5.0": MAHYREI_VERSION of the headers it was built with. */
const char *mahyrei_version(void);

/* One sentence on what a number of an answer tells the operator; NULL where no call gives it. */
const char *mahyrei_sentence(unsigned number);

#ifdef __cplusplus
}
#endif

#endif
