/* scan: a recording from its first slot to its last, and the frames of every run in it that is
 * sound.
 */
#include <errno.h>
#include <inttypes.h>
#include <stdlib.h>
#include <string.h>
#include <sys/stat.h>

#include "commands/captured_run.h"
#include "commands/line.h"
#include "commands/printed_output.h"
#include "commands/scan_report.h"
#include "files/folder.h"
#include "files/outputs.h"
#include "files/recording.h"
#include "formats/text.h"
#include "library/library.h"
#include "pictures/scan_picture.h"
#include "report/log.h"
#include "report/messages.h"
#include "report/progress.h"
#include "runs/annotations.h"
#include "runs/recording_search.h"
#include "runs/refusal_details.h"
#include "runs/scan_counts.h"
#include "runs/sigmf.h"
#include "system/descriptors.h"
#include "system/file_id.h"

/* A recording that is gone through, and what came of it. */
struct scan {
    const struct line *line;
    struct operands operands;
    struct sigmf sigmf; /* that the operands may be in */
    struct recording recording;
    struct search search;
    struct lent run; /* one run: header, marker, its bytes in the recording, slots and frames */
    struct scan_counts counts;
    struct entry *entry;
};

/* ---- one start */

static bool is_verbose(const struct scan *scan) {
    return scan->line->options[VERBOSE] != NULL;
}

/* The file for the frames of the run from this slot on. False where memory is short, which has been
 * said; free it in any case. */
static bool name_frames(const struct scan *scan, uint64_t slot, struct text *name) {
    bool good = text_begin(name);
    if (good) {
        scan_print_file(name->to, scan->counts.folder, slot);
        good = text_end(name);
    }
    if (!good) {
        complain("memory", errno);
    }
    return good;
}

/* The bytes that were judged go out, in a file of their own. One that a scan before this one has
 * left, and which has the very bytes, is as good. */
static bool put_frames(struct scan *scan, uint64_t slot, struct entry *of_run) {
    struct text name;
    bool good = name_frames(scan, slot, &name);
    if (good) {
        struct output output = output_as_told(scan->line, name.at);
        output.ask = false;
        output.same_will_do = true;
        output.to_disk = true;
        spare_capture(&output, scan->recording.id);
        output_spare(&output, log_id(scan->line->log));
        output.spared.what = "this is the recording or the log, which would be lost";
        of_run->frames.name = name.at;
        good = output_put(&output, scan->run.frames.at, scan->run.frames.len) &&
               log_add(scan->line->log, of_run, DONE);
    }
    text_free(&name);
    return good;
}

/* The log has a line for each run that is sound, as it has for one that is read. */
static bool keep_run(struct scan *scan, uint64_t slot) {
    struct entry of_run = *scan->entry;
    entry_slot(&of_run, slot);
    entry_answer(&of_run, MAHYREI_ACCEPTED);
    entry_part(&of_run.frames, scan->run.frames.at, scan->run.frames.len, true);
    entry_part(&of_run.slots, scan->run.slots.at, scan->run.slots.len, true);
    if (!scan_add_sound(&scan->counts, slot, of_run.frames.digest) ||
        !(scan->counts.folder != NULL ? put_frames(scan, slot, &of_run)
                                      : log_add(scan->line->log, &of_run, DONE))) {
        return false;
    }
    if (is_verbose(scan)) {
        remark(scan->counts.name, "slot %" PRIu64 ": a run begins here, and is sound", slot);
    }
    return true;
}

static void say_start_refused(const struct scan *scan, uint64_t slot, uint64_t answer) {
    if (is_verbose(scan)) {
        remark(scan->counts.name, "slot %" PRIu64 ": refused, number %u, place %" PRIu64 ": %s",
               slot, mahyrei_answer_number(answer), mahyrei_answer_place(answer),
               scan_reason(mahyrei_answer_number(answer)));
    }
}

static enum status refuse(struct scan *scan, uint64_t answer) {
    struct lent whole = scan->run;
    whole.capture = scan->recording.bytes;
    entry_refuse(scan->entry, answer, "The marker is longer or shorter than the header says.");
    say_where(answer, &whole, &scan->operands);
    return REFUSED;
}

/* ---- some of them, and all */

/* Starts that are tried one after another, on one stack of the library's: a recording can have one
 * in each byte. They are no more than have so many bytes of slots together, so that what came of
 * them is said soon. The last is a run that is sound, or there are no more, or there may be. */
enum { TRIED_MOST = 256, TRIED_BYTES = 4 << 20 };
struct tried {
    struct scan *scan;
    uint64_t from; /* the slot to go on from */
    size_t most, count;
    struct refused_start refused[TRIED_MOST];
    enum { MAY_GO_ON, A_SOUND_RUN, NO_MORE } end;
    uint64_t last; /* the slot of the run, or the answer of a search that found nothing */
};

/* What the run from this slot on is: its bytes are copied first, and the copy is judged, so that
 * nothing that becomes of the recording can come between. */
static bool try_start(struct scan *scan, uint64_t slot, uint64_t *answer) {
    uint64_t at;
    copy_run(&scan->recording, &scan->counts.run, slot, &scan->run.capture, &at);
    return library_cut(&scan->run, at, answer) &&
           (*answer != MAHYREI_ACCEPTED || library_read(&scan->run, answer));
}

static void show_progress(const struct scan *scan, uint64_t at) {
    const uint64_t hundredth = scan->counts.slots / 100 + 1;
    progress_scan((int)(at / hundredth), (int)(scan->counts.count & INT32_MAX));
}

/* The next slot at which the marker begins, however far that is. */
static bool find_next(struct tried *tried, uint64_t *found) {
    bool more = true;
    while (more) {
        show_progress(tried->scan, tried->from);
        if (!search_next(&tried->scan->search, &tried->from, found, &more)) {
            return false;
        }
    }
    return true;
}

/* Every slot at which the marker begins, except those in a run that is sound. */
static bool try_some(void *given) {
    struct tried *const tried = given;
    struct scan *const scan = tried->scan;
    tried->end = MAY_GO_ON;
    for (tried->count = 0; tried->count < tried->most && tried->count < TRIED_MOST;
         tried->count++) {
        uint64_t found, answer;
        if (!find_next(tried, &found)) {
            return false;
        }
        const uint64_t slot = mahyrei_answer_place(found);
        if (mahyrei_answer_number(found) != MAHYREI_ACCEPTED) {
            tried->end = NO_MORE;
            tried->last = found;
            return true;
        }
        if (!try_start(scan, slot, &answer)) {
            return false;
        }
        if (answer == MAHYREI_ACCEPTED) {
            tried->end = A_SOUND_RUN;
            tried->last = slot;
            tried->from = slot + scan->counts.run.sizes.slots;
            return true;
        }
        tried->refused[tried->count] = (struct refused_start){slot, answer};
        tried->from = slot + 1;
    }
    return true;
}

/* Of what came of them, what is to be counted, said and kept. */
static bool take_tried(const struct tried *tried) {
    struct scan *const scan = tried->scan;
    for (size_t i = 0; i < tried->count; i++) {
        const struct refused_start *const start = &tried->refused[i];
        scan_add_refused(&scan->counts, start->slot, start->answer);
        say_start_refused(scan, start->slot, start->answer);
    }
    return tried->end != A_SOUND_RUN || keep_run(scan, tried->last);
}

static enum status try_all(struct scan *scan) {
    struct tried tried = {.scan = scan, .from = scan->operands.from};
    tried.most = TRIED_BYTES / (scan->counts.run.sizes.slot_bytes + 1) + 1;
    do {
        if (!library_together(try_some, &tried) || !take_tried(&tried)) {
            return FAILED;
        }
    } while (tried.end != NO_MORE);
    return mahyrei_answer_number(tried.last) == MAHYREI_NO_MARKER ? DONE : refuse(scan, tried.last);
}

/* ---- the summary */

static bool in_json(const struct scan *scan) {
    return scan->line->options[JSON] != NULL;
}

static bool report(FILE *to, const void *what) {
    const struct scan *const scan = what;
    if (in_json(scan)) {
        print_scan_json(to, &scan->counts, scan->entry);
    } else {
        print_scan(to, &scan->counts);
    }
    return true;
}

static bool draw(FILE *to, const void *what) {
    const struct scan *const scan = what;
    draw_scan(to, &scan->counts);
    return true;
}

static bool annotate(FILE *to, const void *what) {
    const struct scan *const scan = what;
    const struct sigmf_dataset dataset = {.name = scan->operands.capture,
                                          .data = &scan->recording.bytes,
                                          .header = &scan->run.header,
                                          .marker = &scan->run.marker,
                                          .slot_rate = scan->sigmf.slot_rate};
    sigmf_print_begin(to, &dataset);
    annotate_scan(to, &scan->counts);
    sigmf_print_end(to);
    return true;
}

/* The answer that it ends with: a run that is sound is what a recording was gone through for. */
static uint64_t outcome(const struct scan_counts *counts) {
    return counts->count > 0      ? MAHYREI_ACCEPTED
           : counts->refused == 0 ? MAHYREI_NO_MARKER
                                  : counts->first_refusal;
}

/* The same in a sentence; NULL where the number's own will do. */
static const char *sentence_of(const struct scan_counts *counts) {
    const unsigned number = mahyrei_answer_number(outcome(counts));
    if (number == MAHYREI_BAD_LENGTH) {
        return "The recording ends within the run.";
    }
    return number != MAHYREI_ACCEPTED ? NULL
           : counts->folder == NULL
               ? "All is well: a run is sound. Nothing was written."
               : "All is well: a run is sound, and the frames of each that is are on the disk.";
}

static enum status conclude(struct scan *scan) {
    if (scan->counts.count > 0) {
        return DONE;
    }
    if (scan->counts.refused == 0) {
        return refuse(scan, MAHYREI_NO_MARKER);
    }
    remark(scan->counts.name, "no run in it is sound");
    return REFUSED;
}

/* What goes to files of their own beside the report. */
struct drawings {
    struct output picture, annotations;
};

static bool drawings_ready(const struct line *line, struct drawings *drawings) {
    *drawings = (struct drawings){picture_as_told(line, SVG), annotations_as_told(line)};
    return picture_ready(&drawings->picture) && picture_ready(&drawings->annotations);
}

/* Neither goes over frames that have just been written, not even with --force. */
static bool spares_frames(const struct scan *scan, const struct output *output) {
    const bool any = output->name != NULL && scan->counts.folder != NULL;
    const struct file_id there = any ? file_id_named(output->name) : (struct file_id){0};
    for (size_t i = 0; there.known && i < scan->counts.count; i++) {
        struct text name;
        bool good = name_frames(scan, scan->counts.runs[i].slot, &name);
        if (good) {
            const struct file_id frames = file_id_named(name.at);
            good = !same_id(&there, &frames);
            if (!good) {
                complain_text(output->name, "this file has the frames of a run");
            }
        }
        text_free(&name);
        if (!good) {
            return false;
        }
    }
    return true;
}

static enum status summarize(struct scan *scan, const struct drawings *drawings) {
    progress_phase(PUTTING_OUT);
    if (!recording_unchanged(&scan->recording) || !spares_frames(scan, &drawings->picture) ||
        !spares_frames(scan, &drawings->annotations) ||
        (drawings->picture.name != NULL && !put_printed(&drawings->picture, draw, scan)) ||
        (drawings->annotations.name != NULL &&
         !put_printed(&drawings->annotations, annotate, scan))) {
        return FAILED;
    }
    entry_answer(scan->entry, outcome(&scan->counts));
    scan->entry->sentence = sentence_of(&scan->counts);
    if (!put_printed(NULL, report, scan)) {
        return FAILED;
    }
    if (drawings->annotations.name != NULL && scan->counts.refused > REFUSED_KEPT) {
        remark(drawings->annotations.name, "of the starts refused it has the first %d",
               REFUSED_KEPT);
    }
    return conclude(scan);
}

/* ---- the command */

/* Where the header is refused there are no buffers, and the search says why. */
static bool make_buffers(struct scan *scan) {
    const struct mahyrei_sizes *const sizes = &scan->counts.run.sizes;
    sheet_of(&scan->run.header, &scan->counts.run);
    return make_buffer(sizes->slot_bytes + 1, &scan->run.capture) &&
           make_buffer(sizes->slot_bytes, &scan->run.slots) &&
           make_buffer(sizes->frame_bytes, &scan->run.frames) &&
           search_begin(&scan->search, &scan->recording, &scan->run.header, &scan->run.marker);
}

static bool take_in_recording(struct scan *scan) {
    if (!take_in_header(&scan->operands, &scan->run, scan->entry) ||
        !recording_open(scan->operands.capture, &scan->recording) ||
        !is_described(&scan->operands, &scan->recording.bytes)) {
        return false;
    }
    const uint64_t slots = 8 * (uint64_t)scan->recording.bytes.len, from = scan->operands.from;
    scan->counts.slots = slots;
    scan->counts.from = from < slots ? from : slots;
    entry_part(&scan->entry->capture, NULL, scan->recording.bytes.len, false);
    return make_buffers(scan) && sent_once(&scan->operands, &scan->run);
}

static enum status go(struct scan *scan) {
    struct drawings drawings;
    if (!take_from(scan->line, &scan->operands.from) || !drawings_ready(scan->line, &drawings) ||
        (drawings.annotations.name != NULL && !scan_keep_starts(&scan->counts)) ||
        !take_in_recording(scan)) {
        return FAILED;
    }
    output_spare(&drawings.picture, scan->recording.id);
    output_spare(&drawings.annotations, scan->recording.id);
    if (scan->counts.folder != NULL && !folder_ready(scan->counts.folder)) {
        return FAILED;
    }
    const enum status status = try_all(scan);
    if (status == DONE) {
        return summarize(scan, &drawings);
    }
    /* Whoever reads JSON is told of a header or marker that is refused there too. */
    return status == REFUSED && in_json(scan) && !put_printed(NULL, report, scan) ? FAILED : status;
}

enum status scan_command(const struct line *line, struct entry *entry) {
    char *const *const given = line->operands;
    struct scan scan = {.line = line,
                        .operands = {.header = given[0], .marker = given[1], .capture = given[2]},
                        .recording = {.file = -1},
                        .counts = {.name = is_dash(given[2]) ? "standard input" : given[2],
                                   .folder = line->count > 3 ? given[3] : NULL},
                        .entry = entry};
    scan.operands.sigmf = by_sigmf(line) ? &scan.sigmf : NULL;
    entry_capture(entry, given[2]);
    const enum status status = go(&scan);
    search_free(&scan.search);
    free_lent(&scan.run);
    recording_close(&scan.recording);
    scan_free(&scan.counts);
    return status;
}
