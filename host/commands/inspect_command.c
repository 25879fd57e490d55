/* inspect: what is wrong in the slots of a run, counted and listed, and as a picture. */
#include <errno.h>
#include <inttypes.h>
#include <stdio.h>

#include "commands/captured_run.h"
#include "commands/commands.h"
#include "commands/line.h"
#include "commands/printed_output.h"
#include "files/inputs.h"
#include "files/outputs.h"
#include "formats/text.h"
#include "library/library.h"
#include "pictures/run_page.h"
#include "pictures/run_picture.h"
#include "report/messages.h"
#include "report/progress.h"
#include "runs/annotations.h"
#include "runs/findings.h"
#include "runs/layout.h"
#include "runs/refusal_details.h"
#include "runs/run_slots.h"
#include "runs/sheet.h"
#include "runs/sigmf.h"
#include "system/descriptors.h"

static const char FOREWORD[] = "Words are judged by the library's mahyrei_word_read, whose answers "
                               "are proved. All else here is\n"
                               "counted in plain C, which is tested and agrees with the answer of "
                               "mahyrei_run_read. Nothing has been\n"
                               "corrected.\n";

/* ---- how many */

/* The letter stands for it in the histogram. */
static void count_line(FILE *to, char letter, const char *what, uint64_t count, uint64_t of) {
    fprintf(to, "%c %-44s %10" PRIu64 " of %" PRIu64 "\n", letter, what, count, of);
}

/* How many symbols could have this fault. */
static uint64_t candidates(const struct run_slots *slots, size_t fault) {
    const struct mahyrei_sizes *const sizes = &slots->run.sizes;
    return fault == WRONG_MARKER ? sizes->R * slots->run.fields.W
           : fault == NOT_ZERO   ? (sizes->R - sizes->C) * sizes->S
                                 : sizes->pooled;
}

struct word_line {
    uint64_t number;
    const char *what;
};

static const struct word_line WORD_LINES[] = {
    {MAHYREI_ACCEPTED, "words accepted, 0"},
    {MAHYREI_BAD_CODE, "words that no input of the code makes, 13"},
    {MAHYREI_BAD_TERMINATION, "words with wrong termination bits, 14"},
    {MAHYREI_BAD_CHECK, "words with a wrong check, 15"},
    {NOT_ASKED, "words not judged: a symbol has no value"},
};

static const char *const FRAME_LINES[] = {
    [FRAME_RIGHT] = "frames after their frame marker",
    [FRAME_WRONG] = "frames without it",
    [FRAME_UNKNOWN] = "frames not known: a word was not accepted",
};

static void print_counts(FILE *to, const struct run_slots *slots, const struct findings *findings) {
    const struct mahyrei_sizes *const sizes = &slots->run.sizes;
    const uint64_t frame_bits = slots->run.fields.A * marked_bits(&slots->run);
    for (size_t i = 0; i < FAULTS; i++) {
        count_line(to, FAULT_LINES[i].letter, fault_name(slots, i), findings->symbols[i].count,
                   candidates(slots, i));
    }
    count_line(to, ' ', "spare bits set after the slots", findings->spare.count,
               sizes->slot_bytes * 8 - sizes->slots);
    for (size_t i = 0; i < sizeof WORD_LINES / sizeof WORD_LINES[0]; i++) {
        count_line(to, ' ', WORD_LINES[i].what, count_words(slots, findings, WORD_LINES[i].number),
                   sizes->C);
    }
    for (size_t i = 0; i <= FRAME_UNKNOWN; i++) {
        count_line(to, ' ', FRAME_LINES[i], count_frames(slots, findings, (enum frame_state)i),
                   slots->run.fields.A);
    }
    count_line(to, ' ', "fill bits set after the frames", findings->fill.count,
               sizes->C * sizes->k - frame_bits);
}

/* ---- the first few */

static void print_position(FILE *to, const struct position *position) {
    if (position->part == MARKER_PART) {
        fprintf(to, "row %" PRIu64 ", marker symbol %" PRIu64 "\n", position->row, position->at);
    } else if (position->part == WORD_PART) {
        fprintf(to, "row %" PRIu64 ", word %" PRIu64 " symbol %" PRIu64 "\n", position->row,
                position->word, position->at);
    } else {
        fprintf(to, "row %" PRIu64 ", no word's symbol\n", position->row);
    }
}

static void print_symbol(FILE *to, const struct scene *scene, uint64_t symbol, enum fault fault) {
    const struct run_slots *const slots = scene->slots;
    const uint64_t slot = scene->slot + fault_slot(slots, symbol, fault);
    const struct position position = position_of(&slots->run, symbol);
    fprintf(to, "    symbol %" PRIu64 ", slot %" PRIu64 ", byte %" PRIu64 ": ", symbol, slot,
            slot / 8);
    print_position(to, &position);
}

static void print_rest(FILE *to, uint64_t count) {
    if (count > FIRST_FEW) {
        fprintf(to, "    and %" PRIu64 " more\n", count - FIRST_FEW);
    }
}

static void print_symbols(FILE *to, const struct scene *scene) {
    for (size_t i = 0; i < FAULTS; i++) {
        const struct found *const found = &scene->findings->symbols[i];
        if (found->count > 0) {
            fprintf(to, "  %s\n", fault_name(scene->slots, i));
        }
        for (size_t j = 0; j < found->count && j < FIRST_FEW; j++) {
            print_symbol(to, scene, found->first[j], (enum fault)i);
        }
        print_rest(to, found->count);
    }
}

static void print_bits(FILE *to, const struct found *found, const char *what, const char *which) {
    if (found->count > 0) {
        fprintf(to, "  %s\n", what);
    }
    for (size_t j = 0; j < found->count && j < FIRST_FEW; j++) {
        fprintf(to, "    %s %" PRIu64 "\n", which, found->first[j]);
    }
    print_rest(to, found->count);
}

static void print_words(FILE *to, const struct run_slots *slots, const struct findings *findings,
                        const struct word_line *line) {
    uint64_t listed = 0;
    for (uint64_t i = 0; i < slots->run.sizes.C; i++) {
        const uint64_t answer = findings->words[i];
        const uint64_t number = answer == NOT_ASKED ? NOT_ASKED : mahyrei_answer_number(answer);
        if (number != line->number || ++listed > FIRST_FEW) {
            continue;
        }
        if (listed == 1) {
            fprintf(to, "  %s\n", line->what);
        }
        fprintf(to, "    word %" PRIu64, i);
        if (number == MAHYREI_BAD_CODE) {
            fprintf(to, ", first wrong coded bit %" PRIu64, mahyrei_answer_place(answer));
        }
        fprintf(to, ", its first symbol is symbol %" PRIu64 "\n", symbol_of(&slots->run, i, 0));
    }
    print_rest(to, listed);
}

static void print_frames(FILE *to, const struct run_slots *slots, const struct findings *findings,
                         enum frame_state state) {
    const uint64_t marked = marked_bits(&slots->run);
    uint64_t listed = 0;
    for (uint64_t i = 0; i < slots->run.fields.A; i++) {
        if (findings->frames[i] != state || ++listed > FIRST_FEW) {
            continue;
        }
        if (listed == 1) {
            fprintf(to, "  %s\n", FRAME_LINES[state]);
        }
        fprintf(to, "    frame %" PRIu64 ", from word %" PRIu64 " bit %" PRIu64 " on\n", i,
                i * marked / slots->run.sizes.k, i * marked % slots->run.sizes.k);
    }
    print_rest(to, listed);
}

static void print_first(FILE *to, const struct scene *scene) {
    const struct run_slots *const slots = scene->slots;
    const struct findings *const findings = scene->findings;
    print_symbols(to, scene);
    print_bits(to, &findings->spare, "spare bits set after the slots", "slot");
    for (size_t i = 1; i < sizeof WORD_LINES / sizeof WORD_LINES[0]; i++) {
        print_words(to, slots, findings, &WORD_LINES[i]);
    }
    print_frames(to, slots, findings, FRAME_WRONG);
    print_frames(to, slots, findings, FRAME_UNKNOWN);
    print_bits(to, &findings->fill, "fill bits set after the frames", "bit of the joined frames");
}

/* ---- where in the run */

enum { PARTS = 24, BAR = 48 };

struct parts {
    uint64_t counts[PARTS][FAULTS], totals[PARTS], most;
};

static void count_parts(const struct run_slots *slots, const uint8_t *marker, struct parts *parts) {
    for (uint64_t symbol = 0; symbol < slots->run.sizes.pooled; symbol++) {
        const enum fault fault = fault_of(slots, marker, symbol);
        const uint64_t part = symbol * PARTS / slots->run.sizes.pooled;
        if (fault != SOUND) {
            parts->counts[part][fault]++;
            parts->totals[part]++;
        }
    }
    for (size_t i = 0; i < PARTS; i++) {
        parts->most = parts->totals[i] > parts->most ? parts->totals[i] : parts->most;
    }
}

/* A kind that is there has a letter at least. */
static void print_bar(FILE *to, const uint64_t counts[FAULTS], uint64_t most) {
    for (size_t i = 0; i < FAULTS; i++) {
        for (uint64_t j = 0; j < (counts[i] * BAR + most - 1) / most; j++) {
            fputc(FAULT_LINES[i].letter, to);
        }
    }
}

static void print_histogram(FILE *to, const struct run_slots *slots, const uint8_t *marker) {
    struct parts parts = {0};
    count_parts(slots, marker, &parts);
    if (parts.most == 0) {
        return;
    }
    fputs("\nOver the run, from which symbol on, how many, and of which letter:\n", to);
    for (uint64_t i = 0; i < PARTS; i++) {
        /* The first symbol of a part: the division in count_parts, turned round. */
        const uint64_t first = (i * slots->run.sizes.pooled + PARTS - 1) / PARTS;
        fprintf(to, "  %9" PRIu64 " %9" PRIu64 "  ", first, parts.totals[i]);
        print_bar(to, parts.counts[i], parts.most);
        fputs("\n", to);
    }
}

/* ---- the command */

static void print_answer(FILE *to, const struct scene *scene) {
    print_escaped(to, scene->name, false);
    if (scene->answer == MAHYREI_ACCEPTED) {
        fputs(": mahyrei_run_read accepts it.\n\n", to);
        return;
    }
    fprintf(to, ": mahyrei_run_read refuses it, number %u, place %" PRIu64 ": %s\n\n",
            mahyrei_answer_number(scene->answer), mahyrei_answer_place(scene->answer),
            scene->sentence);
}

/* Where the run begins in a capture, or that these slots look like one. */
static void print_start(FILE *to, const struct scene *scene) {
    if (scene->captured) {
        fprintf(to,
                "\nThe run begins at slot %" PRIu64 " of the capture, in byte %" PRIu64
                "; slots and bytes are the capture's.\n",
                scene->slot, scene->slot / 8);
    } else if (scene->elsewhere != 0) {
        fprintf(to,
                "\nThe whole marker begins at slot %" PRIu64
                " and not at slot 0. Slots begin with the run; if this is a\n"
                "capture, which begins anywhere, --capture finds the run.\n",
                scene->elsewhere);
    }
}

static void print_report(FILE *to, const struct scene *scene) {
    const struct run_slots *const slots = scene->slots;
    const struct findings *const findings = scene->findings;
    print_answer(to, scene);
    fputs(FOREWORD, to);
    print_start(to, scene);
    if (slots->bytes.len != slots->run.sizes.slot_bytes) {
        fprintf(to, "\nThe %s %zu bytes, and the header implies %zu.\n",
                scene->captured ? "capture has of the run" : "slots have", slots->bytes.len,
                slots->run.sizes.slot_bytes);
    }
    if (scene->answer != MAHYREI_ACCEPTED && !scene->captured && look_unpacked(&slots->bytes)) {
        fputs(
            "\nEach byte is 0 or 1: these look like slots that are not packed, a byte to a slot;\n"
            "`mahyrei pack` packs them.\n",
            to);
    }
    if (slots->run.fields.copies > 1) {
        fprintf(to, "\nEach symbol is sent %" PRIu64 " times, and its copies are pooled.\n",
                slots->run.fields.copies);
    }
    fputs("\nHow many:\n", to);
    print_counts(to, slots, findings);
    if (scene->answer != MAHYREI_ACCEPTED) {
        fputs("\nThe first of each:\n", to);
        print_first(to, scene);
        print_histogram(to, slots, scene->marker);
    }
}

static bool report(FILE *to, const void *scene) {
    print_report(to, scene);
    return true;
}

static bool draw(FILE *to, const void *scene) {
    return draw_picture(to, scene);
}

/* The run's slots: those that are given, or those of the run in a capture. */
static enum status take_in_slots(struct operands *operands, struct lent *run, struct entry *entry) {
    struct sheet sheet;
    if (operands->capture == NULL) {
        if (!take_in_header(operands, run, entry)) {
            return FAILED;
        }
        sheet_of(&run->header, &sheet);
        const size_t limit = slots_limit(&sheet);
        const bool good = take_in(operands->slots, limit, &run->slots) &&
                          (run->slots.len == limit || is_described(operands, &run->slots));
        return good ? DONE : FAILED;
    }
    if (!take_in_captured(operands, run, entry) || !sent_once(operands, run)) {
        return FAILED;
    }
    const enum status status = find_start(operands, run, entry);
    return status == DONE ? cut_to_look(operands, run, entry) : status;
}

static bool make_frames(struct lent *run) {
    struct sheet sheet;
    sheet_of(&run->header, &sheet);
    return make_buffer(sheet.sizes.frame_bytes, &run->frames);
}

/* There is nothing to inspect where the header or the marker is wrong. */
static bool has_run(const struct lent *run, const struct run_slots *slots, uint64_t answer) {
    const unsigned number = mahyrei_answer_number(answer);
    return number == MAHYREI_ACCEPTED ||
           (number > MAHYREI_BAD_LENGTH && number != MAHYREI_BAD_COPIES) ||
           (number == MAHYREI_BAD_LENGTH && run->marker.len == slots->run.sizes.marker_bytes);
}

/* The page has the report too. */
static bool draw_with_report(FILE *to, const void *scene) {
    struct text text;
    bool good = text_begin(&text);
    if (good) {
        print_report(text.to, scene);
        good = text_end(&text);
    }
    if (!good) {
        complain("memory", errno);
    }
    good = good && draw_page(to, scene, text.at);
    text_free(&text);
    return good;
}

/* Where the picture, the page and the annotations go, and what these are of. */
struct drawings {
    struct output picture, page, annotations;
    struct sigmf_dataset dataset;
};

struct annotated {
    const struct sigmf_dataset *dataset;
    const struct scene *scene;
};

static bool annotate(FILE *to, const void *what) {
    const struct annotated *const annotated = what;
    const struct scene *const scene = annotated->scene;
    sigmf_print_begin(to, annotated->dataset);
    annotate_run(to, scene->slots, scene->marker, scene->slot, scene->answer, scene->sentence);
    sigmf_print_end(to);
    return true;
}

/* Of slots that are longer than any of the header, not all have been read. */
static struct sigmf_dataset dataset_of(const struct operands *operands, const struct lent *run) {
    struct sheet sheet;
    sheet_of(&run->header, &sheet);
    const struct bytes *const data = operands->capture != NULL              ? &run->capture
                                     : run->slots.len < slots_limit(&sheet) ? &run->slots
                                                                            : NULL;
    return (struct sigmf_dataset){
        .name = operands->capture != NULL ? operands->capture : operands->slots,
        .data = data,
        .header = &run->header,
        .marker = &run->marker,
        .slot_rate = operands->sigmf == NULL ? 0 : operands->sigmf->slot_rate};
}

static bool drawings_ready(const struct line *line, struct drawings *drawings) {
    *drawings = (struct drawings){.picture = picture_as_told(line, SVG),
                                  .page = picture_as_told(line, HTML),
                                  .annotations = annotations_as_told(line)};
    return picture_ready(&drawings->picture) && picture_ready(&drawings->page) &&
           picture_ready(&drawings->annotations);
}

static enum status put_report(const struct drawings *drawings, const struct scene *scene) {
    const struct annotated annotated = {&drawings->dataset, scene};
    if (expected_answer(scene->slots, scene->findings) != scene->answer) {
        complain_text("inspect",
                      "what was found does not agree with the answer of mahyrei_run_read, so it is "
                      "not shown");
        return FAILED;
    }
    if ((drawings->picture.name != NULL && !put_printed(&drawings->picture, draw, scene)) ||
        (drawings->page.name != NULL && !put_printed(&drawings->page, draw_with_report, scene)) ||
        (drawings->annotations.name != NULL &&
         !put_printed(&drawings->annotations, annotate, &annotated)) ||
        !put_printed(NULL, report, scene)) {
        return FAILED;
    }
    return scene->answer == MAHYREI_ACCEPTED ? DONE : REFUSED;
}

static struct operands operands_of(const struct line *line) {
    struct operands operands = {.header = line->operands[0], .marker = line->operands[1]};
    *(line->options[CAPTURE] != NULL ? &operands.capture : &operands.slots) = line->operands[2];
    return operands;
}

/* The marker has been looked at, so 8 is about the slots. */
static const char *sentence_of(uint64_t answer, bool captured) {
    const unsigned number = mahyrei_answer_number(answer);
    return number != MAHYREI_BAD_LENGTH ? mahyrei_sentence(number)
           : captured                   ? "The run does not end in the capture."
                                        : "The slots are longer or shorter than the header says.";
}

/* What was found, said and drawn. */
static enum status put_findings(const struct drawings *drawings, const struct operands *operands,
                                const struct lent *run, uint64_t answer) {
    struct findings findings = {0};
    struct run_slots slots;
    run_slots_of(&run->header, &run->slots, &slots);
    if (!has_run(run, &slots, answer)) {
        say_refusal(answer, "The marker is longer or shorter than the header says.");
        say_where(answer, run, operands);
        return REFUSED;
    }
    const bool captured = operands->capture != NULL;
    const char *const name = captured ? operands->capture : operands->slots;
    struct scene scene = {.name = is_dash(name) ? "standard input" : name,
                          .slots = &slots,
                          .marker = run->marker.at,
                          .findings = &findings,
                          .answer = answer,
                          .sentence = sentence_of(answer, captured),
                          .captured = captured,
                          .slot = operands->slot};
    if (answer != MAHYREI_ACCEPTED && !captured && !marker_found_elsewhere(run, &scene.elsewhere)) {
        scene.elsewhere = 0;
    }
    const enum status status =
        find_all(&slots, run->marker.at, &findings) ? put_report(drawings, &scene) : FAILED;
    free_findings(&findings);
    return status;
}

static enum status inspect(const struct line *line, struct lent *run, struct entry *entry) {
    struct operands operands = operands_of(line);
    struct sigmf sigmf = {0};
    struct drawings drawings;
    uint64_t answer;
    operands.sigmf = by_sigmf(line) ? &sigmf : NULL;
    if (!take_from(line, &operands.from) || !from_is_meant(line) ||
        !drawings_ready(line, &drawings)) {
        return FAILED;
    }
    const enum status status = take_in_slots(&operands, run, entry);
    if (status != DONE) {
        return status;
    }
    progress_phase(CODING);
    if (!make_frames(run) || !library_read(run, &answer)) {
        return FAILED;
    }
    drawings.dataset = dataset_of(&operands, run);
    return put_findings(&drawings, &operands, run, answer);
}

enum status inspect_command(const struct line *line, struct entry *entry) {
    struct lent run = {0};
    const enum status status = inspect(line, &run, entry);
    free_lent(&run);
    return status;
}
