/* write, read and verify: a run from frames to slots and back, also out of a capture. */
#include <inttypes.h>
#include <stdio.h>
#include <stdlib.h>
#include <string.h>
#include <strings.h>
#include <unistd.h>

#include "commands/captured_run.h"
#include "commands/line.h"
#include "commands/metadata_output.h"
#include "files/inputs.h"
#include "files/outputs.h"
#include "formats/numbers.h"
#include "library/library.h"
#include "report/messages.h"
#include "report/progress.h"
#include "runs/refusal_details.h"
#include "runs/sheet.h"
#include "runs/sigmf.h"
#include "system/descriptors.h"

enum way { WRITING, READING, VERIFYING };

static bool in_capture(const struct line *line) {
    return line->options[CAPTURE] != NULL;
}

/* Both names of the run's data go to the log before anything is read. Slots that are cut from a
 * capture have none. */
static struct operands name_operands(enum way way, const struct line *line, struct entry *entry) {
    char *const *const given = line->operands;
    struct operands operands = {.header = given[0], .marker = given[1]};
    *(way == WRITING     ? &operands.frames
      : in_capture(line) ? &operands.capture
                         : &operands.slots) = given[2];
    entry->frames.name = way == WRITING ? given[2] : way == READING ? given[3] : NULL;
    entry->slots.name = way == WRITING ? given[3] : operands.slots;
    if (in_capture(line)) {
        entry_capture(entry, operands.capture);
    }
    return operands;
}

static bool take_in_run(bool writing, const struct operands *operands, struct lent *run,
                        struct entry *entry) {
    struct bytes *const from = writing ? &run->frames : &run->slots;
    if (!take_in_header(operands, run, entry)) {
        return false;
    }
    struct sheet sheet;
    sheet_of(&run->header, &sheet);
    const size_t limit = writing ? FRAMES_LIMIT : slots_limit(&sheet);
    if (!take_in(writing ? operands->frames : operands->slots, limit, from)) {
        return false;
    }
    const bool whole = from->len < limit;
    entry_part(writing ? &entry->frames : &entry->slots, from->at, from->len, whole);
    /* What is longer is refused by its length, and has more bytes than were read. */
    return writing || !whole || is_described(operands, from);
}

/* Lends the run's buffers to the library, and says what comes back. */
static enum status call(bool writing, const struct operands *operands, struct lent *run,
                        struct entry *entry) {
    struct sheet sheet;
    struct bytes *const to = writing ? &run->slots : &run->frames;
    uint64_t answer = 0;
    /* Where the header is refused there is no buffer, and the call says why. */
    sheet_of(&run->header, &sheet);
    if (!make_buffer(writing ? sheet.sizes.slot_bytes : sheet.sizes.frame_bytes, to)) {
        return FAILED;
    }
    progress_phase(CODING);
    if (!(writing ? library_write : library_read)(run, &answer)) {
        return FAILED;
    }
    if (answer != MAHYREI_ACCEPTED) {
        entry_refuse(entry, answer,
                     writing
                         ? "The marker or the frames are longer or shorter than the header says."
                         : "The marker or the slots are longer or shorter than the header says.");
        say_where(answer, run, operands);
        if (!writing && operands->slots != NULL) {
            say_elsewhere(operands, run);
        }
        return REFUSED;
    }
    entry_answer(entry, answer);
    return DONE;
}

/* Whether the output can be meant, before anything is done. */
static bool ready(const struct operands *operands, struct output *output) {
    if (operands->capture != NULL) {
        spare_capture(output, input_id(operands->capture));
    }
    return output_ready(output);
}

/* Every line of a run begins with the marker, so that a run may begin later. */
static void say_refused_start(const struct operands *operands) {
    char from[64] = "";
    if (operands->from > 0) {
        snprintf(from, sizeof from, " from slot %" PRIu64 " on", operands->from);
    }
    remark(is_dash(operands->capture) ? "standard input" : operands->capture,
           "the first whole marker%s begins at slot %" PRIu64 ", in byte %" PRIu64
           "; `mahyrei scan` tries every start",
           from, operands->slot, operands->slot / 8);
}

/* A run in a capture is found, cut out and read. What is refused once the marker is found is said
 * with where that is. */
static enum status call_captured(struct operands *operands, struct lent *run, struct entry *entry) {
    enum status status = sent_once(operands, run) ? find_start(operands, run, entry) : FAILED;
    if (status != DONE) {
        return status;
    }
    status = cut_run(operands, run, entry);
    if (status == DONE) {
        entry_part(&entry->slots, run->slots.at, run->slots.len, true);
        status = call(false, operands, run, entry);
    }
    if (status == REFUSED) {
        say_refused_start(operands);
    }
    return status;
}

/* ---- what was asked for besides */

/* Only a file can be read back, and standard output is either the result or what is said of it. */
static bool is_meant(const struct line *line, const struct output *output) {
    if (line->options[READ_BACK] != NULL && !output_is_file(output)) {
        complain_text(output->name, "only a file can be read back from the disk");
        return false;
    }
    if (line->options[JSON] != NULL && output->name != NULL &&
        (is_dash(output->name) || descriptor_of(output->name) == STDOUT_FILENO)) {
        complain_text("--json", "standard output has the result already");
        return false;
    }
    return true;
}

/* A digest as sha256sum prints it. */
static bool take_expected(const struct line *line) {
    const char *const digest = line->options[EXPECTED];
    if (digest != NULL && (strlen(digest) != ENTRY_DIGEST - 1 ||
                           strspn(digest, "0123456789abcdefABCDEF") != ENTRY_DIGEST - 1)) {
        complain_text(digest, "a SHA-256 digest has 64 hexadecimal digits");
        return false;
    }
    return true;
}

/* Sound frames that are not those, or not of the slots, that were expected. The library's answer is
 * 0 then, whose sentence would say that all is well. */
static enum status check_expected(const struct line *line, const struct entry *with,
                                  struct entry *entry) {
    const char *const expected = line->options[EXPECTED];
    if (expected == NULL || strcasecmp(expected, with->frames.digest) == 0 ||
        strcasecmp(expected, with->slots.digest) == 0) {
        return DONE;
    }
    entry->sentence = "The run is sound, but not the one that was expected; nothing was written.";
    remark(NULL,
           "refused: the run is sound, but not the one that was expected. SHA-256 of its frames is "
           "%s, of its slots %s",
           with->frames.digest, with->slots.digest);
    return REFUSED;
}

/* What is on the disk is what was written, and the library reads the frames out of it. */
static bool read_back(const struct output *output, const struct lent *run) {
    struct lent back = {.header = run->header, .marker = run->marker};
    uint64_t answer = 0;
    back.slots = run->slots;
    bool good = output_read_back(output, run->slots.at, run->slots.len) &&
                make_buffer(run->frames.len, &back.frames) && library_read(&back, &answer);
    if (good && (answer != MAHYREI_ACCEPTED ||
                 memcmp(back.frames.at, run->frames.at, run->frames.len) != 0)) {
        complain_text(output->name, "what is read back gives other frames");
        good = false;
    }
    free(back.frames.at);
    return good;
}

/* What all is well means here, for programs. */
static const char *const SENTENCES[] = {
    [WRITING] = "All is well: the slots have been written, every byte of them.",
    [READING] =
        "All is well: the run is sound, and its frames have been written, every byte of them.",
    [VERIFYING] = "All is well: the run is sound. Nothing was written."};

/* For somebody at a terminal, who may erase another copy next. */
static void put_words(enum way way, const struct line *line, const struct lent *run,
                      struct entry *entry) {
    struct sheet sheet;
    char bytes[GROUPED], slots[GROUPED];
    sheet_of(&run->header, &sheet);
    const uint64_t count = sheet.fields.A;
    grouped(run->frames.len, bytes);
    grouped(run->slots.len, slots);
    if (way == WRITING) {
        snprintf(entry->in_words, sizeof entry->in_words,
                 "%" PRIu64 " frame%s, %s bytes, as %s bytes of slots%s", count,
                 count == 1 ? "" : "s", bytes, slots,
                 line->options[READ_BACK] == NULL ? "" : ", read back and the same");
    } else {
        snprintf(entry->in_words, sizeof entry->in_words, "%" PRIu64 " frame%s, %s bytes, sound",
                 count, count == 1 ? "" : "s", bytes);
    }
    entry->made = way == VERIFYING ? NULL : line->operands[3];
}

/* ---- the command */

/* What the library gave goes out, if it is what was expected. Sizes and digests of an output that
 * did not get there are no part of the entry. */
static enum status put_out(enum way way, const struct line *line, struct lent *run,
                           struct output *output, struct metadata *metadata, struct entry *entry) {
    const bool writing = way == WRITING;
    const struct bytes *const to = writing ? &run->slots : &run->frames;
    struct entry with = *entry;
    progress_phase(PUTTING_OUT);
    entry_part(writing ? &with.slots : &with.frames, to->at, to->len, true);
    const enum status status = check_expected(line, &with, entry);
    if (status != DONE) {
        return status;
    }
    spare_capture(output, run->captured);
    if (output->name != NULL && !output_put(output, to->at, to->len)) {
        return FAILED;
    }
    *entry = with;
    if ((line->options[READ_BACK] != NULL && !read_back(output, run)) ||
        !metadata_put(line, metadata, output->name, run)) {
        return FAILED;
    }
    entry->sentence = SENTENCES[way];
    put_words(way, line, run, entry);
    return DONE;
}

static enum status make_run(enum way way, const struct line *line, struct lent *run,
                            struct metadata *metadata, struct entry *entry) {
    const bool writing = way == WRITING, captured = in_capture(line);
    struct operands operands = name_operands(way, line, entry);
    struct sigmf sigmf = {0};
    operands.sigmf = by_sigmf(line) ? &sigmf : NULL;
    const char *const name = way == VERIFYING ? NULL : line->operands[3];
    struct output output = output_as_told(line, name);
    if (!take_from(line, &operands.from) || !from_is_meant(line) || !is_meant(line, &output) ||
        !take_expected(line) || (name != NULL && !ready(&operands, &output)) ||
        (writing && !metadata_ready(line, &output, metadata)) ||
        !(captured ? take_in_captured(&operands, run, entry)
                   : take_in_run(writing, &operands, run, entry))) {
        return FAILED;
    }
    const enum status status =
        captured ? call_captured(&operands, run, entry) : call(writing, &operands, run, entry);
    if (status != DONE) {
        return status;
    }
    const enum status put = put_out(way, line, run, &output, metadata, entry);
    if (put == DONE && captured && line->options[QUIET] == NULL) {
        say_start(&operands, "the run begins at");
    }
    return put;
}

static enum status go(enum way way, const struct line *line, struct entry *entry) {
    struct lent run = {0};
    struct metadata metadata = {0};
    const enum status status = make_run(way, line, &run, &metadata, entry);
    metadata_free(&metadata);
    free_lent(&run);
    return status;
}

enum status write_command(const struct line *line, struct entry *entry) {
    return go(WRITING, line, entry);
}

enum status read_command(const struct line *line, struct entry *entry) {
    return go(READING, line, entry);
}

enum status verify_command(const struct line *line, struct entry *entry) {
    return go(VERIFYING, line, entry);
}
