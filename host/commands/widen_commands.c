/* widen and narrow: archived headers of eight bytes to those of ten, and back. */
#include <stdlib.h>

#include "commands/line.h"
#include "files/inputs.h"
#include "files/outputs.h"
#include "library/library.h"
#include "report/messages.h"
#include "report/progress.h"
#include "runs/refusal_details.h"

/* A header and where it goes: from eight bytes to ten, or the other way. */
struct trip {
    bool widening;
    struct forms forms;
    struct bytes *from, *to;
    struct entry_form *from_entry, *to_entry;
};

static struct trip *trip_begin(bool widening, struct trip *trip, struct entry *entry) {
    *trip = (struct trip){.widening = widening};
    trip->from = widening ? &trip->forms.eight : &trip->forms.ten;
    trip->to = widening ? &trip->forms.ten : &trip->forms.eight;
    trip->from_entry = widening ? &entry->eight : &entry->ten;
    trip->to_entry = widening ? &entry->ten : &entry->eight;
    return trip;
}

/* Hexadecimal text is no file. Both names go to the log before anything is read. */
static void name_operands(const struct trip *trip, const struct line *line, struct entry *entry) {
    entry_forms(entry);
    trip->from_entry->name = is_text(line->operands[0]) ? NULL : line->operands[0];
    trip->to_entry->name = line->operands[1];
}

static enum status call(const struct trip *trip, const struct line *line, struct entry *entry) {
    uint64_t answer = 0;
    progress_phase(CODING);
    if (!(trip->widening ? library_widen : library_narrow)(&trip->forms, &answer)) {
        return FAILED;
    }
    entry_answer(entry, answer);
    if (answer != MAHYREI_ACCEPTED) {
        say_refusal(answer, NULL);
        say_where_in_form(mahyrei_answer_number(answer), &trip->forms, trip->widening,
                          line->operands[0]);
        return REFUSED;
    }
    return DONE;
}

static enum status make_trip(struct trip *trip, const struct line *line, struct entry *entry) {
    struct output output = output_as_told(line, line->operands[1]);
    const size_t to_len = trip->widening ? MAHYREI_HEADER_BYTES : MAHYREI_OLD_HEADER_BYTES;
    name_operands(trip, line, entry);
    progress_phase(TAKING_IN);
    if (!output_ready(&output) || !take_in_text(line->operands[0], HEADER_LIMIT, trip->from)) {
        return FAILED;
    }
    entry_form(trip->from_entry, trip->from->at, trip->from->len);
    if (!make_buffer(to_len, trip->to)) {
        return FAILED;
    }
    const enum status status = call(trip, line, entry);
    if (status != DONE) {
        return status;
    }
    progress_phase(PUTTING_OUT);
    if (!output_put(&output, trip->to->at, trip->to->len)) {
        return FAILED;
    }
    entry_form(trip->to_entry, trip->to->at, trip->to->len);
    return DONE;
}

static enum status go(bool widening, const struct line *line, struct entry *entry) {
    struct trip trip;
    const enum status status = make_trip(trip_begin(widening, &trip, entry), line, entry);
    free(trip.forms.eight.at);
    free(trip.forms.ten.at);
    return status;
}

enum status widen_command(const struct line *line, struct entry *entry) {
    return go(true, line, entry);
}

enum status narrow_command(const struct line *line, struct entry *entry) {
    return go(false, line, entry);
}
