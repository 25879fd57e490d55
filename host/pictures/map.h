/*
 * A run as a map: a line for each row of S symbols, several where there are few rows, one for
 * several rows where there are many. A line is cut into cells; before it are the marker's
 * symbols. A cell is shaded by how many of its symbols are a word's, or has the colour of the kind
 * that most of its marked symbols have; where kinds are ranked, of the first that it has any of.
 */
#ifndef PICTURES_MAP_H
#define PICTURES_MAP_H

#include <stdbool.h>
#include <stdint.h>
#include <stdio.h>

#include "runs/sheet.h"

enum { KINDS_MOST = 8 };

/* Where a map lies in its picture, in pixels. */
enum {
    MAP_COLUMNS = 160,
    MAP_CELL = 4,
    MAP_LEFT = 92,
    MAP_MARKER_WIDTH = 64,
    MAP_SYMBOLS = MAP_LEFT + MAP_MARKER_WIDTH + 8, /* the left end of the symbols */
    MAP_WIDTH = MAP_COLUMNS * MAP_CELL,            /* of the symbols */
    MAP_TOP = 112,
    MAP_SCALE = 24 /* below the last line */
};

struct map_cell {
    uint32_t total, idle, kinds[KINDS_MOST];
};

struct map {
    const struct sheet *run;
    size_t kinds;
    const char *const *colours; /* by kind */
    bool ranked;
    uint64_t lines_per_row, rows_per_line, lines, height;
    struct map_cell *cells;   /* by line and column */
    struct map_cell *markers; /* by line and marker symbol */
};

/* The shades of cells with nothing to mark: all symbols of words, and none. */
extern const char MAP_WORDS[], MAP_IDLE[];

/* An empty map. False where memory is short, which has been said; free it in any case. */
bool map_make(struct map *map, const struct sheet *run, size_t kinds, const char *const *colours);
void map_free(struct map *map);

/* Every symbol of the run goes in once: of a kind, or of none where that is the number of kinds. */
void map_add(struct map *map, uint64_t symbol, size_t kind);

void map_print(FILE *to, const struct map *map);

/* Prints where its cells lie, as members of an object of JSON, for a page that finds a symbol below
 * the pointer. */
void map_print_numbers(FILE *to, const struct map *map);

/* Where the map ends, and the middle of a symbol's cell. */
uint64_t map_end(const struct map *map);
void map_middle(const struct map *map, uint64_t symbol, uint64_t *x, uint64_t *y);

#endif
