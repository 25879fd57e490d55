/* show: symbols of a run as slots, sound or damaged. */
#include <inttypes.h>
#include <stdio.h>

#include "commands/captured_run.h"
#include "commands/commands.h"
#include "commands/number_operands.h"
#include "commands/printed_output.h"
#include "files/inputs.h"
#include "files/outputs.h"
#include "library/library.h"
#include "report/messages.h"
#include "runs/layout.h"
#include "runs/refusal_details.h"
#include "runs/run_slots.h"
#include "runs/sheet.h"

enum { BEFORE_SLOTS = 36 }; /* columns of a line */

/* What is at a symbol: a marker symbol, a symbol of a word, or nothing. */
static void print_position(FILE *to, const struct position *position) {
    if (position->part == MARKER_PART) {
        fprintf(to, "marker %-2" PRIu64 "             ", position->at);
    } else if (position->part == WORD_PART) {
        fprintf(to, "word %-3" PRIu64 " symbol %-4" PRIu64 "  ", position->word, position->at);
    } else {
        fprintf(to, "no word's symbol here ");
    }
}

static void print_slots(FILE *to, const struct run_slots *slots, uint64_t start) {
    for (uint64_t slot = 0; slot < slots->run.sizes.group; slot++) {
        const bool guard = slot >= slots->run.sizes.M, pulse = pulse_at(slots, start + slot);
        fputc(pulse ? (guard ? '!' : '|') : (guard ? '_' : '.'), to);
    }
}

/* What is wrong with a symbol, in a few words. */
static void print_fault(FILE *to, const struct group *group, bool once) {
    if (group->guard_pulses > 0) {
        fputs(once ? "  a pulse in a guard slot" : "  no data slot has the most pulses alone", to);
    } else if (group->pulses == 0) {
        fputs("  no pulse", to);
    } else if (group->pulses > 1 && once) {
        fprintf(to, "  %u pulses", group->pulses);
    } else if (group->pulses > 1) {
        fprintf(to, "  %u slots with %u pulse%s", group->pulses, group->most,
                group->most == 1 ? "" : "s");
    }
}

/* The copies after the first, each below the one before. */
static void print_copies(FILE *to, const struct run_slots *slots, uint64_t symbol) {
    const uint64_t group = slots->run.sizes.group, start = first_slot(slots, symbol);
    for (uint64_t copy = 1; copy < slots->run.fields.copies; copy++) {
        fprintf(to, "%*s", BEFORE_SLOTS, "");
        print_slots(to, slots, start + copy * group);
        fputc('\n', to);
    }
}

static void print_symbol(FILE *to, const struct run_slots *slots, uint64_t symbol) {
    const struct position position = position_of(&slots->run, symbol);
    const struct group group = group_of(slots, symbol);
    fprintf(to, "%7" PRIu64 "  ", symbol);
    print_position(to, &position);
    if (group.pulses == 1 && group.guard_pulses == 0) {
        fprintf(to, "%3" PRIu64 "  ", group.first);
    } else {
        fputs("  -  ", to);
    }
    print_slots(to, slots, first_slot(slots, symbol));
    print_fault(to, &group, slots->run.fields.copies == 1);
    fputc('\n', to);
    print_copies(to, slots, symbol);
}

/* Some symbols at a time: all of a long run would be gigabytes of text. */
enum { AT_ONCE = 1024 };

struct some {
    const struct run_slots *slots;
    uint64_t from, count;
};

static bool print_some(FILE *to, const void *what) {
    const struct some *const some = what;
    for (uint64_t i = 0; i < some->count; i++) {
        print_symbol(to, some->slots, some->from + i);
    }
    return true;
}

static enum status draw(const struct run_slots *slots, uint64_t from, uint64_t count) {
    const uint64_t there = slots->present - from, end = from + (count < there ? count : there);
    while (from < end) {
        const struct some some = {slots, from, end - from < AT_ONCE ? end - from : AT_ONCE};
        if (!put_piece(print_some, &some)) {
            return FAILED;
        }
        from += some.count;
    }
    return end_text() ? DONE : FAILED;
}

/* The run of a capture: found by its marker, or where there is none, taken to begin where the
 * search would. */
static enum status take_captured(struct operands *operands, struct lent *run, struct entry *entry) {
    enum status status = DONE;
    if (!take_in_captured(operands, run, entry)) {
        return FAILED;
    }
    operands->slot = operands->from;
    if (operands->marker != NULL) {
        status = sent_once(operands, run) ? find_start(operands, run, entry) : FAILED;
    }
    return status == DONE ? cut_to_look(operands, run, entry) : status;
}

static enum status take_slots(struct operands *operands, struct lent *run, struct entry *entry) {
    struct sheet sheet;
    if (operands->capture != NULL) {
        return take_captured(operands, run, entry);
    }
    if (!take_in_header(operands, run, entry)) {
        return FAILED;
    }
    sheet_of(&run->header, &sheet);
    if (!take_in(operands->slots, slots_limit(&sheet), &run->slots)) {
        return FAILED;
    }
    if (operands->marker != NULL) {
        say_elsewhere(operands, run);
    }
    return DONE;
}

static enum status judge_header(const struct operands *operands, const struct lent *run) {
    uint64_t answer;
    if (!library_header(&run->header, &answer)) {
        return FAILED;
    }
    if (answer != MAHYREI_ACCEPTED) {
        say_refusal(answer, NULL);
        say_header(mahyrei_answer_number(answer), &run->header, operands->header);
        return REFUSED;
    }
    return DONE;
}

static enum status show(const struct line *line, struct lent *run, struct entry *entry) {
    char *const *const given = line->operands;
    struct operands operands = {.header = given[0], .marker = line->options[MARKER]};
    struct run_slots slots;
    uint64_t from, count;
    *(line->options[CAPTURE] != NULL ? &operands.capture : &operands.slots) = given[1];
    if (!take_number(given[2], &from) || !take_number(given[3], &count) ||
        !take_from(line, &operands.from) || !from_is_meant(line)) {
        return FAILED;
    }
    enum status status = take_slots(&operands, run, entry);
    status = status == DONE ? judge_header(&operands, run) : status;
    if (status != DONE) {
        return status;
    }
    run_slots_of(&run->header, &run->slots, &slots);
    if (from >= slots.present) {
        complain_text(given[2], "there is no such symbol");
        return FAILED;
    }
    if (operands.capture != NULL && line->options[QUIET] == NULL) {
        say_start(&operands, "symbols are counted from");
    }
    return draw(&slots, from, count);
}

enum status show_command(const struct line *line, struct entry *entry) {
    struct lent run = {0};
    const enum status status = show(line, &run, entry);
    free_lent(&run);
    return status;
}
