/* After a refusal: which field, file, slot or byte it is about. */
#ifndef RUNS_REFUSAL_DETAILS_H
#define RUNS_REFUSAL_DETAILS_H

#include <stdbool.h>
#include <stdint.h>

#include "library/library.h"
#include "mahyrei_plain.h"

/* The operands that were lent, as they were given. Slots that were cut from a capture are said by
 * their places in it. */
struct sigmf;
struct operands {
    const char *header, *marker, *frames, *slots, *capture;
    struct sigmf *sigmf; /* header and marker are in this metadata, whose name both are; or NULL */
    uint64_t from;       /* where the search in the capture began */
    uint64_t slot;       /* where the slots begin in the capture */
};

/* Whether these look like slots that have a byte each: each is 0 or 1, and some are 1. */
bool look_unpacked(const struct bytes *slots);

/* Says on standard error what more there is to say about this answer. */
void say_where(uint64_t answer, const struct lent *run, const struct operands *operands);

/* The same for a run that is not whole in a capture, or whose header is refused. */
void say_where_cut(uint64_t answer, const struct lent *run, const struct operands *operands);

/* The same for a pass, whose blocks or words were read from this operand. */
void say_where_in_pass(uint64_t answer, const struct pass *pass, bool writing, const char *operand);

/* The same for an uplink, whose frames or slots were read from this operand. */
void say_where_in_uplink(uint64_t answer, const struct uplink *uplink, bool writing,
                         const char *operand);

/* The same for a header of either form, which was read from this operand. */
void say_where_in_form(unsigned number, const struct forms *forms, bool widening,
                       const char *operand);

/* The same for a rack, which is the first of these operands; where a header is loaded, that is the
 * last. Of a place that is closed there is nothing more to say. */
void say_where_in_rack(uint64_t answer, const struct rack *rack, char *const operands[]);

/* The same for a header alone, whose number this is. */
void say_header(unsigned number, const struct bytes *header, const char *operand);

/* The same for fields that do not make one. */
void say_field(struct mahyrei_fields *fields, const char *about);

#endif
