#include "pictures/run_page.h"

#include <inttypes.h>
#include <string.h>

#include "pictures/map.h"
#include "pictures/svg.h"
#include "runs/layout.h"

/* Of a ruin, the first faults are enough for the page; the report counts them all. */
enum { STRETCHES_MOST = 20000 };

static const char HEAD[] =
    "<meta name=\"viewport\" content=\"width=device-width\">\n<style>\n"
    "body { font: 14px Helvetica, Arial, sans-serif; color: " INK "; margin: 0 1em 2em }\n"
    "#at { position: sticky; top: 0; background: #fff; border-bottom: 1px solid #d5dde6;\n"
    "      padding: .6em 24px; min-height: 3.6em; white-space: pre-line }\n"
    "pre { font-size: 13px; padding: 0 24px; white-space: pre-wrap }\n"
    "svg { cursor: crosshair; max-width: none }\n</style>\n";

/* The same places as in runs/layout.c, for the symbol below the pointer. */
static const char SCRIPT[] =
    "const picture = document.querySelector('svg'), box = document.getElementById('at');\n"
    "function position(s) {\n"
    "  const row = Math.floor(s / (run.S + run.W)), at = s % (run.S + run.W);\n"
    "  if (at < run.W) return `row ${row}, marker symbol ${at}`;\n"
    "  const place = row * run.S + at - run.W, late = place % run.N * run.B * run.N;\n"
    "  if (place < late || place - late >= run.C * run.S) return `row ${row}, no word's symbol`;\n"
    "  const t = place - late;\n"
    "  return `row ${row}, word ${Math.floor(t / run.S)} symbol ${t % run.S}`;\n"
    "}\n"
    "function fault(s) {\n"
    "  const found = faults.find(f => f[0] <= s && s < f[0] + f[1]);\n"
    "  return found ? names[found[2]] : s < listed ? 'sound' : 'not listed here';\n"
    "}\n"
    "function tell(s) {\n"
    "  const size = run.group * run.copies, first = run.slot + s * size, last = first + size - 1;\n"
    "  box.textContent = `symbol ${s}: ${position(s)}\\n` +\n"
    "    `slots ${first} to ${last}, bytes ${Math.floor(first / 8)} to ${Math.floor(last / 8)}: ` "
    "+\n"
    "    fault(s);\n"
    "}\n"
    /* The symbols of the spot there: stretches of them, a row each, and the one pointed at. */
    "function spotAt(x, y) {\n"
    "  const high = map.height * map.linesPerRow + (map.linesPerRow > 1 ? map.gap : 0);\n"
    "  const group = Math.floor((y - map.top) / high), inGroup = y - map.top - group * high;\n"
    "  const line = Math.floor(inGroup / map.height), row = group * map.rowsPerLine;\n"
    "  if (group < 0 || row >= run.R || line >= map.linesPerRow) return null;\n"
    "  const marker = Math.floor((x - map.left) / map.markerCell);\n"
    "  const part = (x - map.symbols) / map.cell, column = Math.floor(part);\n"
    "  let first, end, at;\n"
    "  if (line === 0 && marker >= 0 && marker < run.W) {\n"
    "    first = at = marker;\n"
    "    end = first + 1;\n"
    "  } else if (column >= 0 && column < map.columns) {\n"
    "    const cells = map.linesPerRow * map.columns, cell = line * map.columns + column;\n"
    "    first = run.W + Math.ceil(cell * run.S / cells);\n"
    "    end = run.W + Math.ceil((cell + 1) * run.S / cells);\n"
    "    at = first + Math.floor((part - column) * (end - first));\n"
    "  } else return null;\n"
    "  const size = run.S + run.W, rows = Math.min(map.rowsPerLine, run.R - row);\n"
    "  const stretches = Array.from({length: rows},\n"
    "    (_, i) => [(row + i) * size + first, (row + i) * size + end]);\n"
    "  const below = Math.floor((inGroup / map.height - line) * rows);\n"
    "  return {stretches, symbol: (row + below) * size + at, count: rows * (end - first)};\n"
    "}\n"
    "function faultsOf(spot) {\n"
    "  let first = -1, count = 0;\n"
    "  for (const [from, end] of spot.stretches)\n"
    "    for (const f of faults) {\n"
    "      const a = Math.max(from, f[0]), b = Math.min(end, f[0] + f[1]);\n"
    "      if (a >= b) continue;\n"
    "      first = first < 0 ? a : first;\n"
    "      count += b - a;\n"
    "    }\n"
    "  return {first, count};\n"
    "}\n"
    /* A spot that is coloured has symbols with faults: the first of them is shown. */
    "function point(x, y) {\n"
    "  const spot = spotAt(x, y);\n"
    "  if (spot === null) return;\n"
    "  const {first, count} = faultsOf(spot);\n"
    "  tell(first < 0 ? spot.symbol : first);\n"
    "  if (count > 0 && spot.count > 1)\n"
    "    box.textContent += count > 1\n"
    "      ? `\\nthe first of ${count} faults among the ${spot.count} symbols of this spot`\n"
    "      : `\\nthe only fault among the ${spot.count} symbols of this spot`;\n"
    "}\n"
    "picture.addEventListener('pointermove', event => {\n"
    "  const corner = picture.getBoundingClientRect();\n"
    "  const scale = picture.viewBox.baseVal.width / corner.width;\n"
    "  point((event.clientX - corner.left) * scale, (event.clientY - corner.top) * scale);\n"
    "});\n"
    "function goTo() {\n"
    "  const at = /^#at=([0-9.]+),([0-9.]+)$/.exec(location.hash);\n"
    "  const symbol = /^#symbol=([0-9]+)$/.exec(location.hash);\n"
    "  if (at) point(Number(at[1]), Number(at[2]));\n"
    "  if (symbol && Number(symbol[1]) < run.pooled) tell(Number(symbol[1]));\n"
    "}\n"
    "addEventListener('hashchange', goTo);\n"
    "goTo();\n";

/* Text of several lines. */
static void print_lines(FILE *to, const char *text) {
    while (*text != '\0') {
        char line[256];
        const size_t len = strcspn(text, "\n");
        const size_t some = len < sizeof line - 1 ? len : sizeof line - 1;
        memcpy(line, text, some);
        line[some] = '\0';
        print_xml(to, line);
        text += some;
        if (*text == '\n') {
            fputc('\n', to);
            text++;
        }
    }
}

/* ---- what the script needs */

static void print_run(FILE *to, const struct scene *scene) {
    const struct mahyrei_fields *const f = &scene->slots->run.fields;
    const struct mahyrei_sizes *const s = &scene->slots->run.sizes;
    fprintf(to,
            "const run = {\"S\":%" PRIu64 ",\"W\":%" PRIu64 ",\"N\":%" PRIu64 ",\"B\":%" PRIu64
            ",\"C\":%" PRIu64 ",\"R\":%" PRIu64 ",\"group\":%" PRIu64 ",\"copies\":%" PRIu64
            ",\"pooled\":%" PRIu64 ",\"slot\":%" PRIu64 "};\n",
            s->S, f->W, f->N, f->B, s->C, s->R, s->group, f->copies, s->pooled, scene->slot);
}

static void print_names(FILE *to) {
    fputs("const names = [", to);
    for (size_t i = 0; i < FAULTS; i++) {
        fprintf(to, "%s\"%s\"", i == 0 ? "" : ",", FAULT_LINES[i].label);
    }
    fputs("];\n", to);
}

/* Stretches of symbols that have the same fault: first, how many, and which. */
static void print_faults(FILE *to, const struct scene *scene) {
    const struct run_slots *const slots = scene->slots;
    const uint64_t all = slots->run.sizes.pooled;
    uint64_t symbol = 0, stretches = 0;
    fputs("const faults = [", to);
    while (symbol < all && stretches < STRETCHES_MOST) {
        const enum fault fault = fault_of(slots, scene->marker, symbol);
        const uint64_t first = symbol;
        while (symbol < all && fault_of(slots, scene->marker, symbol) == fault) {
            symbol++;
        }
        if (fault != SOUND) {
            fprintf(to, "%s[%" PRIu64 ",%" PRIu64 ",%d]", stretches == 0 ? "" : ",", first,
                    symbol - first, (int)fault);
            stretches++;
        }
    }
    fprintf(to, "];\nconst listed = %" PRIu64 ";\n", symbol);
}

static bool print_data(FILE *to, const struct scene *scene) {
    static const char *const NO_COLOURS[1] = {""};
    struct map map;
    const bool good = map_make(&map, &scene->slots->run, 0, NO_COLOURS);
    if (good) {
        print_run(to, scene);
        fputs("const map = {", to);
        map_print_numbers(to, &map);
        fputs("};\n", to);
        print_names(to);
        print_faults(to, scene);
    }
    map_free(&map);
    return good;
}

bool draw_page(FILE *to, const struct scene *scene, const char *report) {
    fputs("<!DOCTYPE html>\n<html lang=\"en\">\n<meta charset=\"utf-8\">\n<title>", to);
    print_xml(to, scene->name);
    fputs("</title>\n", to);
    fputs(HEAD, to);
    fputs("<div id=\"at\">Point at a symbol: its word, slots and bytes are shown here.</div>\n",
          to);
    if (!draw_picture(to, scene)) {
        return false;
    }
    fputs("<pre>\n", to);
    print_lines(to, report);
    fputs("</pre>\n<script>\n'use strict';\n", to);
    const bool good = print_data(to, scene);
    fputs(SCRIPT, to);
    fputs("</script>\n</html>\n", to);
    return good;
}
