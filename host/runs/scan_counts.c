#include "runs/scan_counts.h"

#include <errno.h>
#include <inttypes.h>
#include <stdlib.h>
#include <string.h>

#include "report/messages.h"

bool scan_add_sound(struct scan_counts *counts, uint64_t slot, const char *digest) {
    if (counts->count == counts->room) {
        const size_t room = counts->room == 0 ? 64 : 2 * counts->room;
        struct sound_run *const grown = realloc(counts->runs, room * sizeof *grown);
        if (grown == NULL) {
            complain("memory", ENOMEM);
            return false;
        }
        counts->runs = grown;
        counts->room = room;
    }
    struct sound_run *const run = &counts->runs[counts->count++];
    run->slot = slot;
    snprintf(run->digest, sizeof run->digest, "%s", digest);
    return true;
}

/* A recording of 2^53 bytes has 2^56 slots, so nothing runs over. */
void scan_add_refused(struct scan_counts *counts, uint64_t slot, uint64_t answer) {
    if (counts->refused == 0) {
        counts->first_refusal = answer;
    }
    if (counts->starts != NULL && counts->refused < REFUSED_KEPT) {
        counts->starts[counts->refused] = (struct refused_start){slot, answer};
    }
    counts->refused++;
    counts->by_number[mahyrei_answer_number(answer)]++;
    counts->columns[slot / (counts->slots / SCAN_COLUMNS + 1)]++;
}

void scan_free(struct scan_counts *counts) {
    free(counts->runs);
    free(counts->starts);
    counts->runs = NULL;
    counts->starts = NULL;
}

bool scan_keep_starts(struct scan_counts *counts) {
    counts->starts = calloc(REFUSED_KEPT, sizeof *counts->starts);
    if (counts->starts == NULL) {
        complain("memory", ENOMEM);
    }
    return counts->starts != NULL;
}

uint64_t scan_outside(const struct scan_counts *counts) {
    return counts->slots - counts->from - counts->count * counts->run.sizes.slots;
}

struct gap scan_longest_gap(const struct scan_counts *counts) {
    struct gap longest = {counts->from, 0};
    uint64_t end = counts->from; /* of the run before */
    for (size_t i = 0; i <= counts->count; i++) {
        const uint64_t next = i < counts->count ? counts->runs[i].slot : counts->slots;
        if (next - end > longest.slots) {
            longest = (struct gap){end, next - end};
        }
        end = next + counts->run.sizes.slots;
    }
    return longest;
}

void scan_print_file(FILE *to, const char *folder, uint64_t slot) {
    const size_t len = strlen(folder);
    fprintf(to, "%s%srun-%" PRIu64 ".frames", folder, len > 0 && folder[len - 1] == '/' ? "" : "/",
            slot);
}

const char *scan_reason(unsigned number) {
    switch (number) {
    case MAHYREI_BAD_LENGTH:
        return "the recording ends within the run";
    case MAHYREI_BAD_PULSE:
        return "a symbol cannot be determined";
    case MAHYREI_WRONG_MARKER:
        return "a later marker is not the one given";
    case MAHYREI_BAD_IDLE:
        return "a symbol that must be 0 is not";
    case MAHYREI_BAD_CODE:
        return "a word was damaged";
    case MAHYREI_BAD_TERMINATION:
        return "a word does not end in zeros";
    case MAHYREI_BAD_CHECK:
        return "a word's check is wrong";
    case MAHYREI_BAD_FRAME_MARKER:
        return "a frame marker is missing";
    case MAHYREI_BAD_FILL:
        return "a bit is set after the last frame";
    default:
        return "see `mahyrei explain`";
    }
}
