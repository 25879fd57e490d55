#include "pictures/map.h"

#include <inttypes.h>
#include <stdlib.h>
#include <string.h>

#include "pictures/svg.h"
#include "runs/layout.h"

enum {
    FEW_ROWS = 40,
    MOST_LINES = 120,
    MAP_HEIGHT = 480,
    MARKER_CELL_MOST = 12,
    ROW_GAP = 3,
    LABEL_GAP = 14,
    SHADES = 5,    /* from all symbols of words to none */
    STRENGTHS = 6, /* from few symbols of a cell to most */
    FEW = 32, /* a share of one in so many is the least, and each strength is for twice as many */
    TICKS_MOST = 10
};

const char MAP_WORDS[] = "#c9d8ea", MAP_IDLE[] = "#f5f8fb";
static const char *const SHADE_COLOURS[SHADES] = {MAP_WORDS, "#d5e1ef", "#e1eaf4", "#edf2f8",
                                                  MAP_IDLE};
static const char *const STRENGTH_OPACITIES[STRENGTHS] = {"0.25", "0.4",  "0.55",
                                                          "0.7",  "0.85", "1"};

/* ---- cells */

static uint64_t least(uint64_t a, uint64_t b) {
    return a < b ? a : b;
}

/* Sets how the map is cut; a cell has a symbol at least. */
static void cut_map(struct map *map) {
    const uint64_t R = map->run->sizes.R;
    map->lines_per_row = R > FEW_ROWS ? 1 : least(FEW_ROWS / R, map->run->sizes.S / MAP_COLUMNS);
    map->rows_per_line = (R + MOST_LINES - 1) / MOST_LINES;
    map->lines = (R + map->rows_per_line - 1) / map->rows_per_line * map->lines_per_row;
    map->height = least(MAP_HEIGHT / map->lines < 4 ? 4 : MAP_HEIGHT / map->lines, 12);
}

/* How wide a marker's symbol is drawn: few of them are no wider than a line is high. */
static uint64_t marker_cell(const struct map *map) {
    return least(MAP_MARKER_WIDTH / map->run->fields.W, MARKER_CELL_MOST);
}

static struct map_cell *make_cells(uint64_t count) {
    struct bytes buffer;
    if (!make_buffer(count * sizeof(struct map_cell), &buffer)) {
        return NULL;
    }
    memset(buffer.at, 0, buffer.len);
    return (void *)buffer.at;
}

bool map_make(struct map *map, const struct sheet *run, size_t kinds, const char *const *colours) {
    *map = (struct map){.run = run, .kinds = kinds, .colours = colours};
    cut_map(map);
    map->cells = make_cells(map->lines * MAP_COLUMNS);
    map->markers = map->cells == NULL ? NULL : make_cells(map->lines * run->fields.W);
    return map->markers != NULL;
}

void map_free(struct map *map) {
    free(map->cells);
    free(map->markers);
}

static uint64_t line_top(const struct map *map, uint64_t line) {
    const uint64_t gaps = map->lines_per_row > 1 ? line / map->lines_per_row * ROW_GAP : 0;
    return MAP_TOP + line * map->height + gaps;
}

uint64_t map_end(const struct map *map) {
    return line_top(map, map->lines - 1) + map->height;
}

/* The cell of a symbol, by line and column; of a marker's symbol in the markers. */
struct spot {
    bool marker;
    uint64_t line, column;
};

static struct spot spot_of(const struct map *map, uint64_t symbol) {
    const uint64_t S = map->run->sizes.S, W = map->run->fields.W;
    const uint64_t line = symbol / (S + W) / map->rows_per_line * map->lines_per_row;
    const uint64_t in = symbol % (S + W);
    if (in < W) {
        return (struct spot){true, line, in};
    }
    const uint64_t cell = (in - W) * (map->lines_per_row * MAP_COLUMNS) / S;
    return (struct spot){false, line + cell / MAP_COLUMNS, cell % MAP_COLUMNS};
}

void map_add(struct map *map, uint64_t symbol, size_t kind) {
    const struct spot spot = spot_of(map, symbol);
    struct map_cell *const cell = spot.marker
                                      ? &map->markers[spot.line * map->run->fields.W + spot.column]
                                      : &map->cells[spot.line * MAP_COLUMNS + spot.column];
    cell->total++;
    cell->idle += position_of(map->run, symbol).part == IDLE_PART;
    if (kind < map->kinds) {
        cell->kinds[kind]++;
    }
}

void map_middle(const struct map *map, uint64_t symbol, uint64_t *x, uint64_t *y) {
    const struct spot spot = spot_of(map, symbol);
    const uint64_t width = spot.marker ? marker_cell(map) : MAP_CELL;
    *x = (spot.marker ? MAP_LEFT : MAP_SYMBOLS) + spot.column * width + width / 2;
    *y = line_top(map, spot.line) + map->height / 2;
}

/* ---- looks */

/* How strong the colour is of a cell with so many marked symbols of its total. */
static size_t strength_of(uint32_t marked, uint32_t total) {
    size_t strength = 0;
    for (uint64_t share = FEW; strength < STRENGTHS - 1 && marked * share > total; share /= 2) {
        strength++;
    }
    return strength;
}

/* How a cell is drawn: a shade where nothing is marked, else the kind that it has most of. */
static size_t look_of(const struct map *map, const struct map_cell *cell) {
    uint32_t all = 0;
    size_t kind = 0;
    for (size_t i = 0; i < map->kinds; i++) {
        all += cell->kinds[i];
        kind = cell->kinds[i] > cell->kinds[kind] ? i : kind;
    }
    if (all == 0) {
        return cell->total == 0 ? SHADES - 1 : cell->idle * (SHADES - 1) / cell->total;
    }
    if (map->ranked) {
        for (kind = 0; cell->kinds[kind] == 0;) {
            kind++;
        }
        all = cell->kinds[kind];
    }
    return SHADES + kind * STRENGTHS + strength_of(all, cell->total);
}

/* Opens the path of a look when it is met first. */
static void open_path(FILE *to, const struct map *map, size_t look, bool *open) {
    if (*open) {
        return;
    }
    *open = true;
    if (look < SHADES) {
        fprintf(to, "<path fill=\"%s\" d=\"", SHADE_COLOURS[look]);
    } else {
        fprintf(to, "<path fill=\"%s\" fill-opacity=\"%s\" d=\"",
                map->colours[(look - SHADES) / STRENGTHS],
                STRENGTH_OPACITIES[(look - SHADES) % STRENGTHS]);
    }
}

/* Cells in a row, and where they lie. */
struct cell_row {
    const struct map_cell *cells;
    uint64_t count, left, top, width, height;
};

/* Those of this look, neighbours joined. */
static void print_cells(FILE *to, const struct map *map, const struct cell_row *row, size_t look,
                        bool *open) {
    for (uint64_t i = 0, run; i < row->count; i += run) {
        for (run = 0; i + run < row->count && look_of(map, &row->cells[i + run]) == look; run++) {
        }
        if (run > 0) {
            open_path(to, map, look, open);
            fprintf(to, "M%" PRIu64 " %" PRIu64 "h%" PRIu64 "v%" PRIu64 "h-%" PRIu64 "z",
                    row->left + i * row->width, row->top, run * row->width, row->height,
                    run * row->width);
        }
        run = run > 0 ? run : 1;
    }
}

static void print_look(FILE *to, const struct map *map, size_t look) {
    const uint64_t W = map->run->fields.W;
    bool open = false;
    for (uint64_t line = 0; line < map->lines; line++) {
        const uint64_t top = line_top(map, line);
        const struct cell_row symbols = {
            map->cells + line * MAP_COLUMNS, MAP_COLUMNS, MAP_SYMBOLS, top, MAP_CELL, map->height};
        print_cells(to, map, &symbols, look, &open);
        if (line % map->lines_per_row == 0) {
            const struct cell_row marker = {map->markers + line * W, W,          MAP_LEFT, top,
                                            marker_cell(map),        map->height};
            print_cells(to, map, &marker, look, &open);
        }
    }
    if (open) {
        fputs("\"/>\n", to);
    }
}

static bool is_marked(const struct map *map) {
    uint64_t i = 0;
    while (i < map->lines * MAP_COLUMNS && look_of(map, &map->cells[i]) < SHADES) {
        i++;
    }
    return i < map->lines * MAP_COLUMNS;
}

/* How rows and lines go together, and what pale spots are. */
static void print_caption(FILE *to, const struct map *map) {
    const uint64_t cells = map->lines_per_row * MAP_COLUMNS;
    const uint64_t spot = (map->run->sizes.S + cells - 1) / cells * map->rows_per_line;
    open_text(to, MAP_SYMBOLS, MAP_TOP - 10, 11, PALE);
    if (map->lines_per_row != 1) {
        fprintf(to, "a row of words' symbols, over %" PRIu64 " lines", map->lines_per_row);
    } else if (map->rows_per_line > 1) {
        fprintf(to, "words' symbols, %" PRIu64 " rows to a line", map->rows_per_line);
    } else {
        fputs("words' symbols, a row to a line", to);
    }
    if (spot > 1 && is_marked(map)) {
        fprintf(to, "; up to %" PRIu64 " symbols make a spot, pale where few of them are marked",
                spot);
    }
    fputs("</text>\n", to);
}

/* The first symbol of a line, where the number before is not too near; clear of a ring around the
 * marker's first symbol. */
static void print_scale(FILE *to, const struct map *map) {
    const uint64_t row = map->run->sizes.S + map->run->fields.W, per_row = map->lines_per_row;
    uint64_t free_from = 0;
    print_text(to, MAP_LEFT - LABEL_GAP, MAP_TOP - 10, 11, PALE_RIGHT, "symbol");
    print_text(to, MAP_LEFT, MAP_TOP - 10, 11, PALE, "marker");
    print_caption(to, map);
    for (uint64_t line = 0; line < map->lines; line += per_row) {
        const uint64_t y = line_top(map, line) + map->height;
        if (y >= free_from) {
            open_text(to, MAP_LEFT - LABEL_GAP, y, 10, PALE_RIGHT);
            fprintf(to, "%" PRIu64 "</text>\n", line / per_row * map->rows_per_line * row);
            free_from = y + 16;
        }
    }
}

/* Below the last line: how far from its left end a symbol is, markers not counted. */
static void print_ticks(FILE *to, const struct map *map) {
    const uint64_t S = map->run->sizes.S, line = S / map->lines_per_row;
    const uint64_t step = round_step(line, TICKS_MOST), bottom = map_end(map) + 3;
    for (uint64_t symbol = 0; symbol < line; symbol += step) {
        print_tick(to, MAP_SYMBOLS + symbol * map->lines_per_row * MAP_WIDTH / S, bottom, symbol);
    }
}

void map_print(FILE *to, const struct map *map) {
    print_scale(to, map);
    print_ticks(to, map);
    for (size_t look = 0; look < SHADES + map->kinds * STRENGTHS; look++) {
        print_look(to, map, look);
    }
}

void map_print_numbers(FILE *to, const struct map *map) {
    fprintf(to,
            "\"columns\":%d,\"cell\":%d,\"left\":%d,\"markerCell\":%" PRIu64
            ",\"symbols\":%d,\"top\":%d,\"gap\":%d,\"linesPerRow\":%" PRIu64
            ",\"rowsPerLine\":%" PRIu64 ",\"lines\":%" PRIu64 ",\"height\":%" PRIu64,
            MAP_COLUMNS, MAP_CELL, MAP_LEFT, marker_cell(map), MAP_SYMBOLS, MAP_TOP, ROW_GAP,
            map->lines_per_row, map->rows_per_line, map->lines, map->height);
}
