#include "runs/run_slots.h"

#include <string.h>

#include "runs/layout.h"

unsigned run_slots_of(const struct bytes *header, const struct bytes *bytes,
                      struct run_slots *slots) {
    *slots = (struct run_slots){.bytes = *bytes};
    const unsigned number = sheet_of(header, &slots->run);
    if (number != MAHYREI_ACCEPTED) {
        return number;
    }
    const uint64_t there = (uint64_t)bytes->len * 8 / symbol_slots(&slots->run);
    slots->present = there < slots->run.sizes.pooled ? there : slots->run.sizes.pooled;
    return number;
}

bool pack_slots(const struct sheet *run, const struct bytes *capture, uint64_t slot,
                struct bytes *slots) {
    const uint64_t all = 8 * (uint64_t)capture->len, there = slot < all ? (all - slot) / 8 : 0;
    const uint64_t wanted = run->sizes.slots / 8;
    const size_t len = (size_t)(there < wanted ? there : wanted), first = (size_t)(slot / 8);
    const unsigned shift = (unsigned)(slot % 8);
    if (!make_buffer(len, slots)) {
        return false;
    }
    for (size_t i = 0; i < len; i++) {
        const unsigned here = capture->at[first + i];
        const unsigned next = shift == 0 ? 0 : capture->at[first + i + 1];
        slots->at[i] = (uint8_t)(here << shift | next >> (8 - shift));
    }
    return true;
}

/* ---- slots */

bool pulse_at(const struct run_slots *slots, uint64_t slot) {
    return (slots->bytes.at[slot / 8] >> (7 - slot % 8) & 1) != 0;
}

uint64_t first_slot(const struct run_slots *slots, uint64_t symbol) {
    return symbol * symbol_slots(&slots->run);
}

static void add_leader(struct group *group, uint64_t at, uint64_t M) {
    if (at >= M) {
        group->guard = group->guard_pulses == 0 ? at : group->guard;
        group->guard_pulses++;
        return;
    }
    group->first = group->pulses == 0 ? at : group->first;
    group->second = group->pulses == 1 ? at : group->second;
    group->pulses++;
}

/* One more pulse at a slot, which now has so many. */
static void add_pulse(struct group *group, unsigned count, uint64_t at, uint64_t M) {
    if (count > group->most) {
        *group = (struct group){.most = count};
    }
    if (count == group->most) {
        add_leader(group, at, M);
    }
}

/* The most slots of a symbol: 256, and 64 guard slots. */
enum { GROUP_MOST = 320 };

/* Most bytes are empty, so they are gone over first. */
struct group group_of(const struct run_slots *slots, uint64_t symbol) {
    const uint64_t from = first_slot(slots, symbol), end = first_slot(slots, symbol + 1);
    const struct mahyrei_sizes *const sizes = &slots->run.sizes;
    uint8_t counts[GROUP_MOST]; /* over the copies, of which there are at most 32 */
    struct group group = {0};
    memset(counts, 0, sizes->group);
    for (uint64_t byte = from / 8; byte * 8 < end; byte++) {
        for (uint64_t slot = byte * 8; slots->bytes.at[byte] != 0 && slot < byte * 8 + 8; slot++) {
            if (slot >= from && slot < end && pulse_at(slots, slot)) {
                const uint64_t at = (slot - from) % sizes->group;
                add_pulse(&group, ++counts[at], at, sizes->M);
            }
        }
    }
    return group;
}

/* ---- faults */

enum fault fault_of(const struct run_slots *slots, const uint8_t *marker, uint64_t symbol) {
    if (symbol >= slots->present) {
        return MISSING;
    }
    const struct group group = group_of(slots, symbol);
    if (group.guard_pulses > 0) {
        return GUARD_PULSE;
    }
    if (group.pulses != 1) {
        return group.pulses == 0 ? NO_PULSE : SEVERAL_PULSES;
    }
    const struct position position = position_of(&slots->run, symbol);
    if (position.part == MARKER_PART && group.first != marker[position.at]) {
        return WRONG_MARKER;
    }
    return position.part == IDLE_PART && group.first != 0 ? NOT_ZERO : SOUND;
}

/* The first copy of a symbol that has a pulse here. */
static uint64_t pulse_of(const struct run_slots *slots, uint64_t symbol, uint64_t at) {
    uint64_t slot = first_slot(slots, symbol) + at;
    while (!pulse_at(slots, slot)) {
        slot += slots->run.sizes.group;
    }
    return slot;
}

uint64_t fault_slot(const struct run_slots *slots, uint64_t symbol, enum fault fault) {
    const struct group group = fault != MISSING ? group_of(slots, symbol) : (struct group){0};
    switch (fault) {
    case GUARD_PULSE:
        return pulse_of(slots, symbol, group.guard);
    case SEVERAL_PULSES:
        return pulse_of(slots, symbol, group.second);
    case WRONG_MARKER:
    case NOT_ZERO:
        return pulse_of(slots, symbol, group.first);
    default:
        return first_slot(slots, symbol);
    }
}
