#include "pictures/scan_picture.h"

#include <inttypes.h>

#include "formats/numbers.h"
#include "pictures/svg.h"

/* In pixels. */
enum {
    LEFT = 30,
    LENGTH = SCAN_COLUMNS,
    WIDTH = LEFT + LENGTH + 30,
    TOP = 92,
    BAR = 34,
    TICKS = 18, /* below the bar: starts refused */
    KEYS = TOP + BAR + TICKS + 58,
    KEY_LINE = 18
};

#define SOUND_COLOUR "#2f8f4e"
#define REFUSED_COLOUR "#b91c1c"
#define EMPTY_COLOUR "#e3e9f0"
#define UNSEARCHED_COLOUR "#ffffff"

/* Where a slot is. */
static uint64_t x_of(const struct scan_counts *counts, uint64_t slot) {
    return counts->slots == 0 ? LEFT
                              : LEFT + (uint64_t)((double)slot / (double)counts->slots * LENGTH);
}

static void print_title(FILE *to, const struct scan_counts *counts) {
    const struct mahyrei_fields *const f = &counts->run.fields;
    char runs[GROUPED], refused[GROUPED];
    open_text(to, LEFT, 32, 16, BOLD);
    fprintf(to, "%s run%s sound, %s start%s refused: ", grouped(counts->count, runs),
            counts->count == 1 ? "" : "s", grouped(counts->refused, refused),
            counts->refused == 1 ? "" : "s");
    print_short(to, counts->name);
    fputs("</text>\n", to);
    open_text(to, LEFT, 52, 12, PALE);
    fprintf(to,
            "rate %s, M %" PRIu64 ", N %" PRIu64 ", B %" PRIu64 ", F %" PRIu64 ", W %" PRIu64
            ", A %" PRIu64 ": a run has %s slots, the recording ",
            rate_name(f->rate), counts->run.sizes.M, f->N, f->B, f->F, f->W, f->A,
            grouped(counts->run.sizes.slots, runs));
    fprintf(to, "%s</text>\n", grouped(counts->slots, runs));
}

/* The bar, and over it what was not searched. */
static void print_bar(FILE *to, const struct scan_counts *counts) {
    fprintf(to, "<rect x=\"%d\" y=\"%d\" width=\"%d\" height=\"%d\" fill=\"" EMPTY_COLOUR "\"/>\n",
            LEFT, TOP, LENGTH, BAR);
    if (counts->from > 0) {
        fprintf(to,
                "<rect x=\"%d\" y=\"%d\" width=\"%" PRIu64
                "\" height=\"%d\" fill=\"" UNSEARCHED_COLOUR "\" stroke=\"" GREY
                "\" stroke-width=\"0.5\"/>\n",
                LEFT, TOP, x_of(counts, counts->from) - LEFT, BAR);
    }
}

static void print_runs(FILE *to, const struct scan_counts *counts) {
    const uint64_t slots = counts->run.sizes.slots;
    for (size_t i = 0; i < counts->count; i++) {
        const uint64_t slot = counts->runs[i].slot;
        const uint64_t x = x_of(counts, slot), end = x_of(counts, slot + slots);
        fprintf(to,
                "<rect x=\"%" PRIu64 "\" y=\"%d\" width=\"%" PRIu64
                "\" height=\"%d\" fill=\"" SOUND_COLOUR
                "\" stroke=\"#ffffff\" stroke-width=\"0.6\"><title>slots %" PRIu64 " to %" PRIu64
                ": a run, sound</title></rect>\n",
                x, TOP, end > x + 2 ? end - x : 2, BAR, slot, slot + slots - 1);
    }
}

/* The more starts lie at a place, the longer the mark. */
static void print_refused(FILE *to, const struct scan_counts *counts) {
    for (uint64_t column = 0; column < SCAN_COLUMNS; column++) {
        const uint32_t count = counts->columns[column];
        if (count > 0) {
            fprintf(to,
                    "<rect x=\"%" PRIu64 "\" y=\"%d\" width=\"1\" height=\"%d\" fill=\"" //
                    REFUSED_COLOUR "\"><title>%" PRIu32 " start%s refused</title></rect>\n",
                    x_of(counts, column * (counts->slots / SCAN_COLUMNS + 1)), TOP + BAR + 2,
                    count > 9   ? TICKS
                    : count > 1 ? TICKS * 2 / 3
                                : TICKS / 3,
                    count, count == 1 ? "" : "s");
        }
    }
}

static void print_scale(FILE *to, const struct scan_counts *counts) {
    const uint64_t step = round_step(counts->slots, 8);
    for (uint64_t slot = 0; slot < counts->slots; slot += step) {
        print_tick(to, x_of(counts, slot), TOP + BAR + TICKS + 6, slot);
    }
    print_text(to, LEFT, TOP - 10, 11, PALE, "slots of the recording");
}

/* What the colours say, of those that there are. Starts refused all have one colour, and below are
 * the numbers. */
static void print_keys(FILE *to, const struct scan_counts *counts) {
    uint64_t x = LEFT, y = KEYS;
    if (counts->count > 0) {
        print_key(to, x, y, SOUND_COLOUR, "runs sound", counts->count);
        x += LENGTH / 2;
    }
    if (scan_outside(counts) > 0) {
        print_key(to, x, y, EMPTY_COLOUR, "slots not in any run", scan_outside(counts));
    }
    y += counts->refused > 0 || counts->from > 0 ? KEY_LINE : 0;
    if (counts->from > 0) {
        print_key(to, LEFT + LENGTH / 2, y, UNSEARCHED_COLOUR, "slots not searched", counts->from);
    }
    if (counts->refused > 0) {
        print_key(to, LEFT, y, REFUSED_COLOUR, "starts refused", counts->refused);
    }
    for (unsigned number = 0; number < SCAN_NUMBERS; number++) {
        if (counts->by_number[number] > 0) {
            y += KEY_LINE;
            open_text(to, LEFT + 2 * KEY_TEXT, y, 12, PALE);
            fprintf(to, "by number %u, %s: %" PRIu64 "</text>\n", number, scan_reason(number),
                    counts->by_number[number]);
        }
    }
}

static uint64_t key_lines(const struct scan_counts *counts) {
    uint64_t lines = counts->refused > 0 || counts->from > 0 ? 2 : 1;
    for (unsigned number = 0; number < SCAN_NUMBERS; number++) {
        lines += counts->by_number[number] > 0;
    }
    return lines;
}

void draw_scan(FILE *to, const struct scan_counts *counts) {
    const uint64_t end = KEYS + key_lines(counts) * KEY_LINE;
    svg_begin(to, counts->name, WIDTH, end + 24);
    print_title(to, counts);
    print_bar(to, counts);
    print_runs(to, counts);
    print_refused(to, counts);
    print_scale(to, counts);
    print_keys(to, counts);
    print_text(
        to, LEFT, end + 8, 11, PALE,
        "Each start is judged by the library's mahyrei_run_read. Nothing has been corrected.");
    svg_end(to);
}
