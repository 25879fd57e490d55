#include "commands/scan_report.h"

#include <inttypes.h>
#include <stdlib.h>

#include "formats/json.h"
#include "formats/numbers.h"
#include "formats/text.h"
#include "mahyrei.h"
#include "report/messages.h"
#include "report/status.h"

/* ---- for people */

static void print_count(FILE *to, const char *what, uint64_t count, const char *more) {
    char text[GROUPED];
    fprintf(to, "  %-26s %15s%s%s\n", what, grouped(count, text), more[0] == '\0' ? "" : "  ",
            more);
}

static void print_refused(FILE *to, const struct scan_counts *counts) {
    print_count(to, "starts refused", counts->refused, "");
    for (unsigned number = 0; number < SCAN_NUMBERS; number++) {
        if (counts->by_number[number] > 0) {
            char what[32];
            snprintf(what, sizeof what, "  by number %u", number);
            print_count(to, what, counts->by_number[number], scan_reason(number));
        }
    }
}

static void print_gap(FILE *to, const struct scan_counts *counts) {
    const struct gap gap = scan_longest_gap(counts);
    char text[64] = "";
    if (gap.slots > 0) {
        snprintf(text, sizeof text, "from slot %" PRIu64 " to slot %" PRIu64, gap.first,
                 gap.first + gap.slots - 1);
    }
    print_count(to, "longest gap", gap.slots, text);
}

/* A name is escaped as a whole. */
static void print_file(FILE *to, const struct scan_counts *counts, uint64_t slot) {
    struct text name;
    if (counts->folder == NULL || !text_begin(&name)) {
        return;
    }
    scan_print_file(name.to, counts->folder, slot);
    if (text_end(&name)) {
        fputs("  ", to);
        print_escaped(to, name.at, false);
    }
    text_free(&name);
}

static void print_runs(FILE *to, const struct scan_counts *counts) {
    char bytes[GROUPED];
    const uint64_t frames = counts->run.fields.A;
    grouped(counts->run.sizes.frame_bytes, bytes);
    for (size_t i = 0; i < counts->count; i++) {
        fprintf(to, "%s  slot %-12" PRIu64 " sound, %" PRIu64 " frame%s, %s bytes",
                i == 0 ? "\n" : "", counts->runs[i].slot, frames, frames == 1 ? "" : "s", bytes);
        print_file(to, counts, counts->runs[i].slot);
        fputc('\n', to);
    }
}

void print_scan(FILE *to, const struct scan_counts *counts) {
    char runs[GROUPED], refused[GROUPED];
    print_escaped(to, counts->name, false);
    fprintf(to, ": %s run%s sound, %s start%s refused\n\n", grouped(counts->count, runs),
            counts->count == 1 ? "" : "s", grouped(counts->refused, refused),
            counts->refused == 1 ? "" : "s");
    print_count(to, "slots in the recording", counts->slots, "");
    if (counts->from > 0) {
        print_count(to, "slots not searched", counts->from, "");
    }
    print_count(to, "runs sound", counts->count, "");
    print_refused(to, counts);
    print_count(to, "slots not in any run", scan_outside(counts), "");
    print_gap(to, counts);
    print_runs(to, counts);
}

/* ---- for programs */

static void print_run_json(FILE *to, const struct scan_counts *counts,
                           const struct sound_run *run) {
    struct text name;
    fprintf(to, "{\"slot\":%" PRIu64 ",\"frames\":%" PRIu64 ",\"bytes\":%zu,\"sha256\":\"%s\"",
            run->slot, counts->run.fields.A, counts->run.sizes.frame_bytes, run->digest);
    if (counts->folder != NULL && text_begin(&name)) {
        scan_print_file(name.to, counts->folder, run->slot);
        if (text_end(&name)) {
            fputs(",\"file\":", to);
            json_print(to, name.at);
        }
        text_free(&name);
    }
    fputc('}', to);
}

void print_scan_json(FILE *to, const struct scan_counts *counts, const struct entry *entry) {
    const struct gap gap = scan_longest_gap(counts);
    const char *before = "";
    fputs("{\"capture\":", to);
    json_print(to, counts->name);
    fprintf(to, ",\"slots\":%" PRIu64 ",\"runs_sound\":%zu,\"runs\":[", counts->slots,
            counts->count);
    for (size_t i = 0; i < counts->count; i++) {
        fputs(i == 0 ? "" : ",", to);
        print_run_json(to, counts, &counts->runs[i]);
    }
    fprintf(to, "],\"starts_refused\":%" PRIu64 ",\"refused_by_number\":{", counts->refused);
    for (unsigned number = 0; number < SCAN_NUMBERS; number++) {
        if (counts->by_number[number] > 0) {
            fprintf(to, "%s\"%u\":%" PRIu64, before, number, counts->by_number[number]);
            before = ",";
        }
    }
    fputc('}', to);
    if (counts->from > 0) {
        fprintf(to, ",\"slots_not_searched\":%" PRIu64, counts->from);
    }
    fprintf(to,
            ",\"slots_not_in_any_run\":%" PRIu64 ",\"longest_gap\":{\"slot\":%" PRIu64
            ",\"slots\":%" PRIu64 "}",
            scan_outside(counts), gap.first, gap.slots);
    const int status = entry->answer == MAHYREI_ACCEPTED ? DONE : REFUSED;
    fprintf(to, ",\"status\":%d", status);
    entry_print_answer_json(to, entry, status);
    fputs("}\n", to);
}
