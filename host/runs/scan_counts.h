/* What came of going through a recording: the runs that are sound, and the starts that are not. */
#ifndef RUNS_SCAN_COUNTS_H
#define RUNS_SCAN_COUNTS_H

#include <stdbool.h>
#include <stddef.h>
#include <stdint.h>
#include <stdio.h>

#include "report/entry.h"
#include "runs/sheet.h"

enum { SCAN_COLUMNS = 840, SCAN_NUMBERS = 256 };

struct sound_run {
    uint64_t slot;
    char digest[ENTRY_DIGEST]; /* of its frames */
};

/* Of starts that are refused, so many are kept one by one where that is asked for. */
enum { REFUSED_KEPT = 10000 };

struct refused_start {
    uint64_t slot, answer;
};

struct scan_counts {
    const char *name, *folder; /* the recording, and where frames went or NULL */
    struct sheet run;
    uint64_t slots; /* of the recording */
    uint64_t from;  /* the first of them that was searched */
    size_t count, room;
    struct sound_run *runs; /* in the order of their slots */
    uint64_t refused, by_number[SCAN_NUMBERS], first_refusal;
    struct refused_start *starts;   /* the first of those refused, in order, or NULL */
    uint32_t columns[SCAN_COLUMNS]; /* starts refused, by where they are in the recording */
};

/* Adds what came of one start. False where memory is short, which has been said. */
bool scan_add_sound(struct scan_counts *counts, uint64_t slot, const char *digest);
void scan_add_refused(struct scan_counts *counts, uint64_t slot, uint64_t answer);
void scan_free(struct scan_counts *counts);

/* Before the first start: those that are refused are to be kept. False likewise. */
bool scan_keep_starts(struct scan_counts *counts);

/* Slots that are in no run, of those that were searched, and the longest stretch of them. */
uint64_t scan_outside(const struct scan_counts *counts);
struct gap {
    uint64_t first, slots;
};
struct gap scan_longest_gap(const struct scan_counts *counts);

/* The name of the file that a run's frames go to, in this folder. */
void scan_print_file(FILE *to, const char *folder, uint64_t slot);

/* In a few words, what a start that is refused by this number has. */
const char *scan_reason(unsigned number);

#endif
