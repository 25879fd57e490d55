#include "commands/captured_run.h"

#include <inttypes.h>

#include "commands/number_operands.h"
#include "files/inputs.h"
#include "report/messages.h"
#include "report/progress.h"
#include "runs/run_slots.h"
#include "runs/sheet.h"
#include "runs/sigmf.h"
#include "system/descriptors.h"

void spare_capture(struct output *output, struct file_id capture) {
    output->spared.what = "this is the capture, and what is around the run would be lost";
    output_spare(output, capture);
}

bool take_from(const struct line *line, uint64_t *from) {
    *from = 0;
    return line->options[FROM] == NULL || take_number(line->options[FROM], from);
}

bool from_is_meant(const struct line *line) {
    if (line->options[FROM] != NULL && line->options[CAPTURE] == NULL) {
        complain_text("--from", "slots begin with the run; --capture says that this is a capture");
        return false;
    }
    return true;
}

/* Both go over to the run. */
static bool take_in_described(const struct operands *operands, struct lent *run,
                              struct entry *entry) {
    struct sigmf *const sigmf = operands->sigmf;
    if (!sigmf_take_in(operands->header, sigmf)) {
        sigmf_free(sigmf);
        return false;
    }
    run->header = sigmf->header;
    run->marker = sigmf->marker;
    sigmf->header = sigmf->marker = (struct bytes){NULL, 0};
    entry_header(entry, run->header.at, run->header.len);
    entry_marker(entry, run->marker.at, run->marker.len);
    return true;
}

bool is_described(const struct operands *operands, const struct bytes *data) {
    return operands->sigmf == NULL || sigmf_is_of(operands->sigmf, operands->header, data);
}

bool take_in_header(const struct operands *operands, struct lent *run, struct entry *entry) {
    progress_phase(TAKING_IN);
    if (operands->sigmf != NULL) {
        return take_in_described(operands, run, entry);
    }
    if (!take_in_text(operands->header, HEADER_LIMIT, &run->header)) {
        return false;
    }
    entry_header(entry, run->header.at, run->header.len);
    if (operands->marker != NULL) {
        if (!take_in_text(operands->marker, MARKER_LIMIT, &run->marker)) {
            return false;
        }
        entry_marker(entry, run->marker.at, run->marker.len);
    }
    return true;
}

bool take_in_captured(const struct operands *operands, struct lent *run, struct entry *entry) {
    if (!take_in_header(operands, run, entry) ||
        !take_in_all(operands->capture, &run->capture, &run->captured)) {
        return false;
    }
    entry_part(&entry->capture, run->capture.at, run->capture.len, true);
    return is_described(operands, &run->capture);
}

bool sent_once(const struct operands *operands, const struct lent *run) {
    struct sheet sheet;
    if (sheet_of(&run->header, &sheet) == MAHYREI_ACCEPTED && sheet.fields.copies > 1) {
        complain_text(is_dash(operands->header) ? "standard input" : operands->header,
                      "a run that is found in a capture has symbols that are sent once; cut takes "
                      "a run whose first slot is known");
        return false;
    }
    return true;
}

enum status find_start(struct operands *operands, struct lent *run, struct entry *entry) {
    uint64_t answer;
    progress_phase(CODING);
    if (!library_find(run, operands->from, &answer)) {
        return FAILED;
    }
    if (mahyrei_answer_number(answer) != MAHYREI_ACCEPTED) {
        entry_refuse(entry, answer, "The marker is longer or shorter than the header says.");
        say_where(answer, run, operands);
        return REFUSED;
    }
    operands->slot = mahyrei_answer_place(answer);
    entry_slot(entry, operands->slot);
    return DONE;
}

void say_start(const struct operands *operands, const char *what) {
    remark(is_dash(operands->capture) ? "standard input" : operands->capture,
           "%s slot %" PRIu64 ", in byte %" PRIu64, what, operands->slot, operands->slot / 8);
}

enum status cut_run(const struct operands *operands, struct lent *run, struct entry *entry) {
    struct sheet sheet;
    uint64_t answer;
    /* Where the header is refused there is no buffer, and the call says why. */
    sheet_of(&run->header, &sheet);
    if (!make_buffer(sheet.sizes.slot_bytes, &run->slots)) {
        return FAILED;
    }
    progress_phase(CODING);
    if (!library_cut(run, operands->slot, &answer)) {
        return FAILED;
    }
    if (answer != MAHYREI_ACCEPTED) {
        entry_refuse(entry, answer, "The run does not end in the capture.");
        say_where_cut(answer, run, operands);
        return REFUSED;
    }
    return DONE;
}

enum status cut_to_look(const struct operands *operands, struct lent *run, struct entry *entry) {
    struct sheet sheet;
    const uint64_t all = 8 * (uint64_t)run->capture.len, slot = operands->slot;
    const bool sized = sheet_of(&run->header, &sheet) == MAHYREI_ACCEPTED;
    if (!sized || (slot <= all && all - slot >= sheet.sizes.slots)) {
        return cut_run(operands, run, entry);
    }
    return pack_slots(&sheet, &run->capture, slot, &run->slots) ? DONE : FAILED;
}

/* ---- slots that are a capture */

/* A marker that is damaged at slot 0 is found again where the next line begins, and that is no sign
 * of a capture. */
bool marker_found_elsewhere(const struct lent *run, uint64_t *slot) {
    struct sheet sheet;
    struct lent as_capture = {.header = run->header, .marker = run->marker};
    uint64_t answer;
    as_capture.capture = run->slots;
    if (sheet_of(&run->header, &sheet) != MAHYREI_ACCEPTED || sheet.fields.copies > 1 ||
        !library_find(&as_capture, 0, &answer) ||
        mahyrei_answer_number(answer) != MAHYREI_ACCEPTED) {
        return false;
    }
    *slot = mahyrei_answer_place(answer);
    return *slot % ((sheet.sizes.S + sheet.fields.W) * sheet.sizes.group) != 0;
}

void say_elsewhere(const struct operands *operands, const struct lent *run) {
    uint64_t slot;
    if (marker_found_elsewhere(run, &slot)) {
        remark(is_dash(operands->slots) ? "standard input" : operands->slots,
               "the whole marker begins at slot %" PRIu64
               " and not at slot 0. Slots begin with the run; if this is a capture, which begins "
               "anywhere, --capture finds the run",
               slot);
    }
}
