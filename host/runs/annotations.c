#include "runs/annotations.h"

#include <inttypes.h>

#include "mahyrei_plain.h"
#include "runs/findings.h"
#include "runs/sigmf.h"

enum { COMMENT = 512 };

static uint64_t least(uint64_t a, uint64_t b) {
    return a < b ? a : b;
}

/* ---- of a recording */

static void annotate_sound(FILE *to, const struct scan_counts *counts, size_t i, bool first) {
    const uint64_t frames = counts->run.fields.A;
    char comment[COMMENT];
    snprintf(comment, sizeof comment, "sound, %" PRIu64 " frame%s, whose SHA-256 is %s", frames,
             frames == 1 ? "" : "s", counts->runs[i].digest);
    const struct sigmf_annotation annotation = {.slot = counts->runs[i].slot,
                                                .slots = counts->run.sizes.slots,
                                                .label = "sound run",
                                                .comment = comment,
                                                .answer = MAHYREI_ACCEPTED};
    sigmf_print_annotation(to, &annotation, first);
}

/* It would be a run's, as far as the recording goes. */
static void annotate_refused(FILE *to, const struct scan_counts *counts, size_t i, bool first) {
    const struct refused_start *const start = &counts->starts[i];
    char comment[COMMENT];
    snprintf(comment, sizeof comment, "refused, number %u, place %" PRIu64 ": %s",
             mahyrei_answer_number(start->answer), mahyrei_answer_place(start->answer),
             scan_reason(mahyrei_answer_number(start->answer)));
    const struct sigmf_annotation annotation = {
        .slot = start->slot,
        .slots = least(counts->run.sizes.slots, counts->slots - start->slot),
        .label = "refused start",
        .comment = comment,
        .answer = start->answer};
    sigmf_print_annotation(to, &annotation, first);
}

void annotate_scan(FILE *to, const struct scan_counts *counts) {
    const uint64_t kept = counts->starts == NULL ? 0 : least(counts->refused, REFUSED_KEPT);
    size_t runs = 0, starts = 0;
    while (runs < counts->count || starts < kept) {
        const bool first = runs + starts == 0;
        if (starts == kept ||
            (runs < counts->count && counts->runs[runs].slot < counts->starts[starts].slot)) {
            annotate_sound(to, counts, runs++, first);
        } else {
            annotate_refused(to, counts, starts++, first);
        }
    }
}

/* ---- of a run */

static void annotate_whole(FILE *to, const struct run_slots *slots, uint64_t slot, uint64_t answer,
                           const char *sentence) {
    char comment[COMMENT] = "sound";
    if (answer != MAHYREI_ACCEPTED) {
        snprintf(comment, sizeof comment, "refused, number %u, place %" PRIu64 ": %s",
                 mahyrei_answer_number(answer), mahyrei_answer_place(answer), sentence);
    }
    const struct sigmf_annotation annotation = {
        .slot = slot,
        .slots = least(slots->run.sizes.slots, 8 * (uint64_t)slots->bytes.len),
        .label = answer == MAHYREI_ACCEPTED ? "sound run" : "refused run",
        .comment = comment,
        .answer = answer};
    sigmf_print_annotation(to, &annotation, true);
}

/* Symbols from one to before another, which all have this fault. */
static void annotate_symbols(FILE *to, const struct run_slots *slots, uint64_t slot, uint64_t from,
                             uint64_t end, enum fault fault) {
    const uint64_t begins = first_slot(slots, from), ends = first_slot(slots, end);
    char comment[COMMENT];
    snprintf(comment, sizeof comment, "%s: %" PRIu64 " to %" PRIu64, fault_name(slots, fault), from,
             end - 1);
    const struct sigmf_annotation annotation = {.slot = slot + begins,
                                                .slots = ends - begins,
                                                .label = FAULT_LINES[fault].label,
                                                .comment = comment,
                                                .answer = from << 8 | FAULT_LINES[fault].number};
    sigmf_print_annotation(to, &annotation, false);
}

/* Of symbols that are missing there is nothing in the data to annotate. */
void annotate_run(FILE *to, const struct run_slots *slots, const uint8_t *marker, uint64_t slot,
                  uint64_t answer, const char *sentence) {
    uint64_t from = 0, stretches = 0;
    if (slots->bytes.len == 0) {
        return;
    }
    annotate_whole(to, slots, slot, answer, sentence);
    while (from < slots->present && stretches < STRETCHES_MOST) {
        const enum fault fault = fault_of(slots, marker, from);
        uint64_t end = from + 1;
        while (end < slots->present && fault_of(slots, marker, end) == fault) {
            end++;
        }
        if (fault != SOUND) {
            annotate_symbols(to, slots, slot, from, end, fault);
            stretches++;
        }
        from = end;
    }
}
