/*
 * Metadata beside slots, in the form of SigMF, the Signal Metadata Format: what the bytes are,
 * their digest, and in an extension of our own, `mahyrei`, the header and the marker of their runs.
 * What was found in them are its annotations.
 *
 * A sample is a byte of eight slots there, the first in the most significant bit.
 */
#ifndef RUNS_SIGMF_H
#define RUNS_SIGMF_H

#include <stdbool.h>
#include <stdint.h>
#include <stdio.h>

#include "files/bytes.h"
#include "formats/sha512.h"

enum { SIGMF_DIGEST = 2 * SHA512_BYTES + 1 };

/* The name of the metadata beside these slots: X.sigmf-meta for X.sigmf-data, as SigMF has it, and
 * NAME.sigmf-meta for any other NAME. On the heap; NULL where memory is short, which has been said.
 */
char *sigmf_name(const char *slots);

/* ---- reading */

struct sigmf {
    struct bytes header, marker;
    char digest[SIGMF_DIGEST]; /* of the slots; empty where it is not given */
    uint64_t slot_rate;        /* slots a second; 0 where it is not given */
};

/* Reads the metadata of this name. False where it is not what `write --sigmf` could have made,
 * which has been said; free it in any case. */
bool sigmf_take_in(const char *name, struct sigmf *sigmf);
void sigmf_free(struct sigmf *sigmf);

/* Whether the metadata is of these bytes, as far as it says; if not, that is said. */
bool sigmf_is_of(const struct sigmf *sigmf, const char *name, const struct bytes *data);

/* ---- writing */

/* What metadata tells of. */
struct sigmf_dataset {
    const char *name;         /* the file, or `-` */
    const struct bytes *data; /* all of its bytes; NULL where they are not known, and no digest */
    const struct bytes *header, *marker;
    uint64_t slot_rate; /* 0 where it is not known */
};

/* Something in it, from a slot on. */
struct sigmf_annotation {
    uint64_t slot, slots;
    const char *label, *comment;
    uint64_t answer; /* the library's, or for a symbol that is wrong its question's number */
};

/* The whole except for annotations, which come between, in the order of their slots. */
void sigmf_print_begin(FILE *to, const struct sigmf_dataset *dataset);
void sigmf_print_annotation(FILE *to, const struct sigmf_annotation *annotation, bool first);
void sigmf_print_end(FILE *to);

#endif
