/* Fades as a picture: the run row by row, and below it a bar a word. */
#include "pictures/fades_picture.h"

#include <inttypes.h>

#include "formats/numbers.h"
#include "pictures/map.h"
#include "pictures/svg.h"
#include "runs/layout.h"

enum {
    WIDTH = MAP_SYMBOLS + MAP_WIDTH + 24,
    LEGEND_LINE = 18,
    CHART_HEIGHT = 140,
    BAR_MOST = 24, /* pixels of a bar's width */
    LEVELS = 4,    /* lines across the chart, and ticks below it, at most */
    WORD_TICKS = 12
};

/* Symbols of words that are hit, and others, which do no harm. */
enum kind { HIT, HARMLESS, KINDS };
static const char *const COLOURS[KINDS] = {"#b91c1c", "#8c96a0"};

static void print_title(FILE *to, const struct reckoning *reckoning, uint32_t most,
                        uint64_t worst) {
    const struct mahyrei_fields *const f = &reckoning->run.fields;
    const struct mahyrei_sizes *const s = &reckoning->run.sizes;
    open_text(to, 24, 32, 16, BOLD);
    if (most == 0) {
        fputs("No word is hit: ", to);
    } else {
        fprintf(to, "Worst is word %" PRIu64 ", %" PRIu32 " of %" PRIu64 " symbols: ", worst, most,
                s->S);
    }
    print_short(to, reckoning->name);
    fputs("</text>\n", to);
    open_text(to, 24, 51, 12, "");
    fprintf(to, "%zu fade%s over %" PRIu64 " of %" PRIu64 " symbols</text>\n",
            reckoning->list.count, reckoning->list.count == 1 ? "" : "s",
            fade_symbols(&reckoning->list), s->pooled);
    open_text(to, 24, 69, 12, PALE);
    fprintf(to,
            "rate %s, M %" PRIu64 ", N %" PRIu64 ", B %" PRIu64 ", F %" PRIu64 ", W %" PRIu64
            ", A %" PRIu64 ": %" PRIu64 " word%s in %" PRIu64 " row%s of %" PRIu64 " + %" PRIu64
            "</text>\n",
            rate_name(f->rate), s->M, f->N, f->B, f->F, f->W, f->A, s->C, s->C == 1 ? "" : "s",
            s->R, s->R == 1 ? "" : "s", f->W, s->S);
}

/* ---- the map */

static uint64_t end_of(const struct fade_list *list, size_t fade) {
    return (uint64_t)list->numbers[2 * fade] + list->numbers[2 * fade + 1];
}

static void fill_map(const struct reckoning *reckoning, struct map *map) {
    const struct fade_list *const list = &reckoning->list;
    size_t fade = 0; /* the first that is not over */
    for (uint64_t symbol = 0; symbol < reckoning->run.sizes.pooled; symbol++) {
        while (fade < list->count && end_of(list, fade) <= symbol) {
            fade++;
        }
        const bool faded = fade < list->count && list->numbers[2 * fade] <= symbol;
        const bool in_word = position_of(&reckoning->run, symbol).part == WORD_PART;
        map_add(map, symbol, !faded ? KINDS : in_word ? HIT : HARMLESS);
    }
}

/* ---- the bars */

/* A word's bar, in pixels. */
static uint64_t bar_width(uint64_t C) {
    const uint64_t room = MAP_WIDTH / C, wide = room > 2 ? room - 1 : room;
    return wide < BAR_MOST ? wide : BAR_MOST;
}

/* Lines across the chart, with their numbers. */
static void print_levels(FILE *to, uint32_t most, uint64_t top) {
    const uint64_t step = round_step(most, LEVELS);
    for (uint64_t level = 0; level <= most; level += step) {
        const uint64_t y = top + CHART_HEIGHT - level * CHART_HEIGHT / most;
        fprintf(to, "<path stroke=\"#d5dde6\" d=\"M%d %" PRIu64 "h%d\"/>\n", MAP_SYMBOLS - 4, y,
                MAP_WIDTH + 4);
        open_text(to, MAP_SYMBOLS - 8, y + 3, 10, PALE_RIGHT);
        fprintf(to, "%" PRIu64 "</text>\n", level);
    }
}

static void print_axis(FILE *to, const struct reckoning *reckoning, uint32_t most, uint64_t top) {
    const uint64_t bottom = top + CHART_HEIGHT;
    const uint64_t C = reckoning->run.sizes.C, step = round_step(C, WORD_TICKS);
    print_text(to, MAP_SYMBOLS, top - 12, 11, PALE, "symbols hit, by word");
    print_levels(to, most, top);
    fprintf(to, "<path stroke=\"" GREY "\" d=\"M%d %" PRIu64 "h%d\"/>\n", MAP_SYMBOLS, bottom,
            MAP_WIDTH);
    for (uint64_t word = 0; word < C; word += step) {
        print_tick(to, MAP_SYMBOLS + word * MAP_WIDTH / C + bar_width(C) / 2, bottom, word);
    }
}

/* A word that is hit has a pixel at least. */
static void print_bars(FILE *to, const struct reckoning *reckoning, uint32_t most, uint64_t top) {
    const uint64_t C = reckoning->run.sizes.C, width = bar_width(C);
    for (uint64_t word = 0; word < C; word++) {
        const uint64_t count = reckoning->counts[word];
        if (count > 0) {
            const uint64_t height = (count * CHART_HEIGHT + most - 1) / most;
            fprintf(to,
                    "<rect x=\"%" PRIu64 "\" y=\"%" PRIu64 "\" width=\"%" PRIu64
                    "\" height=\"%" PRIu64 "\" fill=\"%s\"><title>word %" PRIu64 ": %" PRIu64
                    " of %" PRIu64 " symbols</title></rect>\n",
                    MAP_SYMBOLS + word * MAP_WIDTH / C, top + CHART_HEIGHT - height, width, height,
                    COLOURS[HIT], word, count, reckoning->run.sizes.S);
        }
    }
}

/* ---- the whole */

static uint64_t sum_of(const struct reckoning *reckoning) {
    uint64_t sum = 0;
    for (uint64_t word = 0; word < reckoning->run.sizes.C; word++) {
        sum += reckoning->counts[word];
    }
    return sum;
}

static void print_picture(FILE *to, const struct reckoning *reckoning, const struct map *map) {
    const uint64_t worst = worst_word(reckoning->counts, reckoning->run.sizes.C);
    const uint32_t most = reckoning->counts[worst];
    const uint64_t sum = sum_of(reckoning), harmless = fade_symbols(&reckoning->list) - sum;
    const uint64_t legend = map_end(map) + MAP_SCALE + 28;
    const uint64_t keys = (sum > 0 ? 1U : 0U) + (harmless > 0 ? 1U : 0U);
    const uint64_t chart = legend + keys * LEGEND_LINE + 22;
    const uint64_t end = sum > 0 ? chart + CHART_HEIGHT + 34 : chart - 22;
    svg_begin(to, reckoning->name, WIDTH, end + 30);
    print_title(to, reckoning, most, worst);
    map_print(to, map);
    if (sum > 0) {
        print_key(to, MAP_SYMBOLS, legend, COLOURS[HIT], "symbols of words that are hit", sum);
    }
    if (harmless > 0) {
        print_key(to, MAP_SYMBOLS, legend + (sum > 0 ? LEGEND_LINE : 0), COLOURS[HARMLESS],
                  "markers, and places of no word, that are hit", harmless);
    }
    if (sum > 0) {
        print_axis(to, reckoning, most, chart);
        print_bars(to, reckoning, most, chart);
    }
    print_text(
        to, 24, end + 12, 11, PALE,
        "Words are counted by the library's mahyrei_fades_count. The map is drawn in plain C.");
    svg_end(to);
}

bool draw_fades(FILE *to, const struct reckoning *reckoning) {
    struct map map;
    const bool good = map_make(&map, &reckoning->run, KINDS, COLOURS);
    if (good) {
        map.ranked = true; /* a single hit should be seen */
        fill_map(reckoning, &map);
        print_picture(to, reckoning, &map);
    }
    map_free(&map);
    return good;
}
