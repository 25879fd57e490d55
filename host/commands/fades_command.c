/* fades: how many symbols of each word a list of fades hits, for the header's rows and step or for
 * others. */
#include <inttypes.h>
#include <stdlib.h>

#include "commands/commands.h"
#include "commands/fades_try.h"
#include "commands/printed_output.h"
#include "files/inputs.h"
#include "files/outputs.h"
#include "library/library.h"
#include "pictures/fades_picture.h"
#include "report/messages.h"
#include "report/progress.h"
#include "runs/fade_counts.h"
#include "runs/fade_list.h"
#include "runs/refusal_details.h"
#include "runs/sheet.h"
#include "system/descriptors.h"

enum { LIST_LIMIT = 1 << 28 };

/* ---- the table */

enum { BAR = 20 };

/* How many words from this one on have no hit. */
static uint64_t unhit_from(const struct reckoning *reckoning, uint64_t word) {
    uint64_t end = word;
    while (end < reckoning->run.sizes.C && reckoning->counts[end] == 0) {
        end++;
    }
    return end - word;
}

static void print_label(FILE *to, uint64_t word, uint64_t words) {
    char label[48];
    const int len = snprintf(label, sizeof label, "%" PRIu64, word);
    if (words > 1) {
        snprintf(label + len, sizeof label - (size_t)len, "..%" PRIu64, word + words - 1);
    }
    fprintf(to, "%8s", label);
}

/* A word that is hit has a piece of bar at least. */
static void print_bar(FILE *to, uint32_t count, uint32_t most) {
    const uint64_t length = ((uint64_t)count * BAR + most - 1) / most;
    fputs("  |", to);
    for (uint64_t i = 0; i < BAR; i++) {
        fputc(i < length ? '#' : ' ', to);
    }
    fputs("|\n", to);
}

static void print_fades_table(FILE *to, const struct reckoning *reckoning) {
    const struct mahyrei_sizes *const sizes = &reckoning->run.sizes;
    const uint64_t worst = worst_word(reckoning->counts, sizes->C);
    const uint32_t most = reckoning->counts[worst];
    fprintf(to,
            "%" PRIu64 " word%s of %" PRIu64 " symbols, %zu fade%s over %" PRIu64 " of %" PRIu64
            " symbols\n    word     hit\n",
            sizes->C, sizes->C == 1 ? "" : "s", sizes->S, reckoning->list.count,
            reckoning->list.count == 1 ? "" : "s", fade_symbols(&reckoning->list), sizes->pooled);
    for (uint64_t word = 0, words; word < sizes->C; word += words) {
        const uint64_t unhit = unhit_from(reckoning, word);
        words = unhit > 0 ? unhit : 1;
        print_label(to, word, words);
        fprintf(to, " %7" PRIu32, reckoning->counts[word]);
        if (unhit > 0) {
            fputc('\n', to);
        } else {
            print_bar(to, reckoning->counts[word], most);
        }
    }
    if (most == 0) {
        fputs("no word is hit\n", to);
    } else {
        fprintf(to, "worst: word %" PRIu64 ", %" PRIu32 " of %" PRIu64 " symbols\n", worst, most,
                sizes->S);
    }
}

/* ---- the command */

/* What is shown: the pairs are NULL for the header's own alone. */
struct shown {
    const struct reckoning *reckoning;
    const struct pairs *pairs;
};

static bool print_shown(FILE *to, const void *what) {
    const struct shown *const shown = what;
    if (shown->pairs != NULL) {
        return print_tried(to, shown->reckoning, shown->pairs);
    }
    print_fades_table(to, shown->reckoning);
    return true;
}

static bool draw_shown(FILE *to, const void *what) {
    const struct shown *const shown = what;
    return draw_fades(to, shown->reckoning);
}

static enum status put_shown(const struct output *picture, const struct shown *shown) {
    return (picture->name == NULL || put_printed(picture, draw_shown, shown)) &&
                   put_printed(NULL, print_shown, shown)
               ? DONE
               : FAILED;
}

static bool take_in_list(const char *name, struct reckoning *reckoning, struct entry *entry) {
    struct bytes text;
    const bool got = take_in(name, LIST_LIMIT, &text);
    if (got) {
        entry_part(&entry->list, text.at, text.len, text.len < LIST_LIMIT);
    }
    bool good = got && text.len < LIST_LIMIT;
    if (got && !good) {
        complain_text(reckoning->name, "too long");
    }
    good = good && fade_list_take(reckoning->name, &text, &reckoning->list);
    free(text.at);
    return good;
}

/* Puts the header and the list to the library, and says what comes back. */
static enum status call(const struct line *line, const struct bytes *header,
                        struct reckoning *reckoning, struct entry *entry) {
    struct bytes counts;
    uint64_t answer;
    /* Where the header is refused there is no buffer, and the call says why. */
    const unsigned refused = sheet_of(header, &reckoning->run);
    if (!make_buffer(reckoning->run.sizes.C * sizeof *reckoning->counts, &counts)) {
        return FAILED;
    }
    reckoning->counts = (uint32_t *)(void *)counts.at;
    const struct reckoned reckoned = {*header, reckoning->list.numbers, 2 * reckoning->list.count,
                                      reckoning->counts, reckoning->run.sizes.C};
    progress_phase(CODING);
    if (!library_fades(&reckoned, &answer)) {
        return FAILED;
    }
    entry_answer(entry, answer);
    if (answer == MAHYREI_ACCEPTED) {
        return DONE;
    }
    say_refusal(answer, NULL);
    if (refused != MAHYREI_ACCEPTED) {
        say_header(refused, header, line->operands[0]);
    } else {
        say_fade(&reckoning->list, reckoning->run.sizes.pooled, reckoning->name);
    }
    return REFUSED;
}

static enum status reckon(const struct line *line, struct bytes *header,
                          struct reckoning *reckoning, struct pairs *pairs, struct entry *entry) {
    const bool trying = line->options[TRY] != NULL;
    struct output picture = picture_as_told(line, SVG);
    entry_fades(entry, line->operands[1]);
    if (!trying && line->options[PAIRS] != NULL) {
        complain_text("--pairs", "this goes with --try");
        return FAILED;
    }
    if (!pairs_take(line->options[PAIRS], pairs) || !picture_ready(&picture)) {
        return FAILED;
    }
    progress_phase(TAKING_IN);
    if (!take_in_text(line->operands[0], HEADER_LIMIT, header)) {
        return FAILED;
    }
    entry_header(entry, header->at, header->len);
    if (!take_in_list(line->operands[1], reckoning, entry)) {
        return FAILED;
    }
    const enum status status = call(line, header, reckoning, entry);
    const struct shown shown = {reckoning, trying ? pairs : NULL};
    return status == DONE ? put_shown(&picture, &shown) : status;
}

enum status fades_command(const struct line *line, struct entry *entry) {
    const char *const name = line->operands[1];
    struct reckoning reckoning = {.name = is_dash(name) ? "standard input" : name};
    struct bytes header = {0};
    struct pairs pairs = {0};
    const enum status status = reckon(line, &header, &reckoning, &pairs, entry);
    pairs_free(&pairs);
    free(header.at);
    free(reckoning.counts);
    fade_list_free(&reckoning.list);
    return status;
}
