/* find and cut: where a run begins in a capture, and the slots of the run that begins there. */
#include <inttypes.h>
#include <stdio.h>

#include "commands/captured_run.h"
#include "commands/line.h"
#include "commands/number_operands.h"
#include "files/inputs.h"
#include "files/outputs.h"
#include "library/library.h"
#include "report/progress.h"
#include "runs/refusal_details.h"
#include "runs/sigmf.h"

/* ---- find */

enum { SLOT_TEXT = 24 }; /* the digits of a slot, and the end of its line */

static bool print_slots(const uint64_t *slots, size_t count) {
    static char text[STARTS_MOST * SLOT_TEXT];
    size_t len = 0;
    for (size_t i = 0; i < count; i++) {
        len += (size_t)snprintf(text + len, SLOT_TEXT, "%" PRIu64 "\n", slots[i]);
    }
    return put_text(text, len);
}

/* The slots after this one at which the marker begins too. */
static bool print_others(const struct lent *run, uint64_t slot) {
    static struct starts starts;
    do {
        if (!library_find_many(run, slot + 1, &starts) ||
            !print_slots(starts.slots, starts.count)) {
            return false;
        }
        slot = starts.count > 0 ? starts.slots[starts.count - 1] : slot;
    } while (starts.count == STARTS_MOST);
    return true;
}

static enum status find(const struct line *line, struct lent *run, struct entry *entry) {
    struct operands operands = {
        .header = line->operands[0], .marker = line->operands[1], .capture = line->operands[2]};
    struct sigmf sigmf = {0};
    operands.sigmf = by_sigmf(line) ? &sigmf : NULL;
    entry_capture(entry, operands.capture);
    if (!take_from(line, &operands.from) || !take_in_captured(&operands, run, entry)) {
        return FAILED;
    }
    const enum status status = find_start(&operands, run, entry);
    if (status != DONE) {
        return status;
    }
    entry_answer(entry, operands.slot << 8);
    const bool printed = print_slots(&operands.slot, 1) &&
                         (line->options[ALL] == NULL || print_others(run, operands.slot));
    return printed && end_text() ? DONE : FAILED;
}

enum status find_command(const struct line *line, struct entry *entry) {
    struct lent run = {0};
    const enum status status = find(line, &run, entry);
    free_lent(&run);
    return status;
}

/* ---- cut */

static enum status cut(const struct line *line, struct lent *run, struct entry *entry) {
    struct output output = output_as_told(line, line->operands[3]);
    struct operands operands = {.header = line->operands[0], .capture = line->operands[1]};
    entry_capture(entry, operands.capture);
    entry->slots.name = output.name;
    if (!take_number(line->operands[2], &operands.slot)) {
        return FAILED;
    }
    entry_slot(entry, operands.slot);
    spare_capture(&output, input_id(operands.capture));
    if (!output_ready(&output) || !take_in_captured(&operands, run, entry)) {
        return FAILED;
    }
    const enum status status = cut_run(&operands, run, entry);
    if (status != DONE) {
        return status;
    }
    entry_answer(entry, MAHYREI_ACCEPTED);
    progress_phase(PUTTING_OUT);
    spare_capture(&output, run->captured);
    if (!output_put(&output, run->slots.at, run->slots.len)) {
        return FAILED;
    }
    entry_part(&entry->slots, run->slots.at, run->slots.len, true);
    return DONE;
}

enum status cut_command(const struct line *line, struct entry *entry) {
    struct lent run = {0};
    const enum status status = cut(line, &run, entry);
    free_lent(&run);
    return status;
}
