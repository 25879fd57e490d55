/*
 * The slots of a run, from its first on: what they hold at each symbol, sound or damaged.
 *
 * This is plain C, to count and to show with. No answer about a run rests on it: that is the
 * library's alone.
 */
#ifndef RUNS_RUN_SLOTS_H
#define RUNS_RUN_SLOTS_H

#include <stdbool.h>
#include <stdint.h>

#include "runs/sheet.h"

struct run_slots {
    struct sheet run;
    struct bytes bytes;
    uint64_t present; /* symbols whose slots are all there: the end may be missing */
};

/* Lays a header over slots of any length. The number of the question that the header fails, or 0.
 */
unsigned run_slots_of(const struct bytes *header, const struct bytes *bytes,
                      struct run_slots *slots);

/* The slots of a capture from this one on, packed anew, as many as a run of this header has and as
 * far as whole bytes of them go. For showing what mahyrei_run_cut does not take, since its end is
 * missing. False where memory is short, which has been said. */
bool pack_slots(const struct sheet *run, const struct bytes *capture, uint64_t slot,
                struct bytes *slots);

/* The slots of a symbol that have the most pulses, over all its copies: where it is sent once,
 * those that have a pulse. Places count from the first slot of a copy. The symbol is known if there
 * is one such slot, and it is among the M. */
struct group {
    unsigned most;                 /* pulses that each of them has */
    unsigned pulses, guard_pulses; /* how many there are among the M slots, and after them */
    uint64_t first, second, guard; /* two of the former, and one of the latter */
};

struct group group_of(const struct run_slots *slots, uint64_t symbol);

/* The first slot of a symbol's first copy. */
uint64_t first_slot(const struct run_slots *slots, uint64_t symbol);
bool pulse_at(const struct run_slots *slots, uint64_t slot);

/* What can be wrong with a symbol; each has the first of these that holds. */
enum fault { MISSING, GUARD_PULSE, NO_PULSE, SEVERAL_PULSES, WRONG_MARKER, NOT_ZERO, SOUND };
enum { FAULTS = SOUND };

enum fault fault_of(const struct run_slots *slots, const uint8_t *marker, uint64_t symbol);

/* The slot to look at: the pulse that should not be there, or the symbol's first slot. */
uint64_t fault_slot(const struct run_slots *slots, uint64_t symbol, enum fault fault);

#endif
