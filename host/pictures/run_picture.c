#include "pictures/run_picture.h"

#include <inttypes.h>

#include "formats/numbers.h"
#include "pictures/map.h"
#include "pictures/svg.h"

enum {
    SIDE = MAP_SYMBOLS + MAP_WIDTH + 28, /* words and frames */
    SIDE_COLUMNS = 12,
    SQUARE = 13,
    WIDTH = SIDE + SIDE_COLUMNS * SQUARE + 20,
    LEGEND_LINE = 18,
    KEY_GAP = 18 /* between squares and what their colours say */
};

#define GOOD "#93c99d"
#define BAD "#b91c1c"

static void print_title(FILE *to, const struct scene *scene) {
    const struct mahyrei_fields *const f = &scene->slots->run.fields;
    const struct mahyrei_sizes *const s = &scene->slots->run.sizes;
    const unsigned number = mahyrei_answer_number(scene->answer);
    uint64_t y = 49;
    open_text(to, 24, 32, 16, BOLD);
    if (number == MAHYREI_ACCEPTED) {
        fputs("Accepted: ", to);
    } else {
        fprintf(to, "Refused, number %u, place %" PRIu64 ": ", number,
                mahyrei_answer_place(scene->answer));
    }
    print_short(to, scene->name);
    fputs("</text>\n", to);
    if (number != MAHYREI_ACCEPTED) {
        y = print_sentence(to, 24, y, scene->sentence);
    }
    open_text(to, 24, y, 12, PALE);
    if (scene->captured) {
        fprintf(to, "from slot %" PRIu64 " of the capture on: ", scene->slot);
    }
    fprintf(to,
            "rate %s, M %" PRIu64 ", N %" PRIu64 ", B %" PRIu64 ", F %" PRIu64 ", W %" PRIu64
            ", A %" PRIu64 ": %" PRIu64 " symbols of %" PRIu64 " slots, in %" PRIu64
            " row%s of %" PRIu64 " + %" PRIu64,
            rate_name(f->rate), s->M, f->N, f->B, f->F, f->W, f->A, s->pooled, s->group, s->R,
            s->R == 1 ? "" : "s", f->W, s->S);
    if (f->copies > 1) {
        fprintf(to, ", each sent %" PRIu64 " times", f->copies);
    }
    fputs("</text>\n", to);
}

/* ---- words and frames */

/* The same words as the text's report. */
struct state_line {
    uint64_t value;
    const char *colour, *text;
};

static const struct state_line WORD_STATES[] = {
    {MAHYREI_ACCEPTED, GOOD, "accepted"},
    {MAHYREI_BAD_CODE, BAD, "13, coded bits"},
    {MAHYREI_BAD_TERMINATION, "#7c3aed", "14, termination"},
    {MAHYREI_BAD_CHECK, "#a16207", "15, check"},
    {NOT_ASKED, "#aab4be", "not judged"},
};
static const struct state_line FRAME_STATES[] = {
    {FRAME_RIGHT, GOOD, "after their marker"},
    {FRAME_WRONG, BAD, "without it"},
    {FRAME_UNKNOWN, "#aab4be", "not known"},
};
enum {
    WORD_STATE_COUNT = sizeof WORD_STATES / sizeof WORD_STATES[0],
    FRAME_STATE_COUNT = sizeof FRAME_STATES / sizeof FRAME_STATES[0]
};

static const struct state_line *state_of(const struct state_line *lines, uint64_t value) {
    while (lines->value != value) {
        lines++;
    }
    return lines;
}

static const struct state_line *word_state(const struct scene *scene, uint64_t word) {
    const uint64_t answer = scene->findings->words[word];
    return state_of(WORD_STATES, answer == NOT_ASKED ? NOT_ASKED : mahyrei_answer_number(answer));
}

static const struct state_line *frame_state(const struct scene *scene, uint64_t frame) {
    return state_of(FRAME_STATES, scene->findings->frames[frame]);
}

static uint64_t square_x(uint64_t i) {
    return SIDE + i % SIDE_COLUMNS * SQUARE;
}

static uint64_t square_y(uint64_t top, uint64_t i) {
    return top + i / SIDE_COLUMNS * SQUARE;
}

/* Squares in rows; how far down they go. */
static uint64_t print_squares(FILE *to, const struct scene *scene, const char *what, uint64_t count,
                              uint64_t top,
                              const struct state_line *(*state)(const struct scene *, uint64_t)) {
    for (uint64_t i = 0; i < count; i++) {
        const struct state_line *const line = state(scene, i);
        open_square(to, square_x(i), square_y(top, i), line->colour);
        fprintf(to, "><title>%s %" PRIu64 ": %s</title></rect>\n", what, i, line->text);
    }
    return square_y(top, count - 1) + SQUARE;
}

static uint64_t count_of_words(const struct scene *scene, size_t state) {
    return count_words(scene->slots, scene->findings, WORD_STATES[state].value);
}

static uint64_t count_of_frames(const struct scene *scene, size_t state) {
    return count_frames(scene->slots, scene->findings, (enum frame_state)FRAME_STATES[state].value);
}

/* How many states have a line: those that there are. */
static uint64_t count_lines(const struct scene *scene, size_t states,
                            uint64_t (*count)(const struct scene *, size_t)) {
    uint64_t lines = 0;
    for (size_t i = 0; i < states; i++) {
        lines += count(scene, i) > 0;
    }
    return lines;
}

/* The lines; where the next one would be. */
static uint64_t print_keys(FILE *to, const struct scene *scene, uint64_t y,
                           const struct state_line *states, size_t number,
                           uint64_t (*count)(const struct scene *, size_t)) {
    for (size_t i = 0; i < number; i++) {
        if (count(scene, i) > 0) {
            print_key(to, SIDE, y, states[i].colour, states[i].text, count(scene, i));
            y += LEGEND_LINE;
        }
    }
    return y;
}

static uint64_t frames_top(const struct scene *scene) {
    return square_y(MAP_TOP, scene->slots->run.sizes.C - 1) + SQUARE + KEY_GAP +
           count_lines(scene, WORD_STATE_COUNT, count_of_words) * LEGEND_LINE + 28;
}

/* Words, then frames. */
static void print_side(FILE *to, const struct scene *scene) {
    const struct run_slots *const slots = scene->slots;
    print_text(to, SIDE, MAP_TOP - 10, 11, PALE, "words, by mahyrei_word_read");
    uint64_t y =
        print_squares(to, scene, "word", slots->run.sizes.C, MAP_TOP, word_state) + KEY_GAP;
    print_keys(to, scene, y, WORD_STATES, WORD_STATE_COUNT, count_of_words);
    y = frames_top(scene);
    print_text(to, SIDE, y - 10, 11, PALE, "frames");
    y = print_squares(to, scene, "frame", slots->run.fields.A, y, frame_state) + KEY_GAP;
    print_keys(to, scene, y, FRAME_STATES, FRAME_STATE_COUNT, count_of_frames);
}

/* ---- what mahyrei_run_read names */

static void ring(FILE *to, uint64_t x, uint64_t y) {
    fprintf(to,
            "<circle cx=\"%" PRIu64 "\" cy=\"%" PRIu64
            "\" r=\"10\" fill=\"none\" stroke=\"#111\" stroke-width=\"2\"/>\n",
            x, y);
}

static void ring_symbol(FILE *to, const struct map *map, uint64_t symbol) {
    uint64_t x, y;
    map_middle(map, symbol, &x, &y);
    ring(to, x, y);
}

static void print_place(FILE *to, const struct scene *scene, const struct map *map) {
    const uint64_t place = mahyrei_answer_place(scene->answer);
    switch (mahyrei_answer_number(scene->answer)) {
    case MAHYREI_BAD_PULSE:
    case MAHYREI_WRONG_MARKER:
    case MAHYREI_BAD_IDLE:
        ring_symbol(to, map, place);
        break;
    case MAHYREI_BAD_CODE:
    case MAHYREI_BAD_TERMINATION:
    case MAHYREI_BAD_CHECK:
        ring(to, square_x(place) + 5, square_y(MAP_TOP, place) + 5);
        break;
    case MAHYREI_BAD_FRAME_MARKER:
        ring(to, square_x(place) + 5, square_y(frames_top(scene), place) + 5);
        break;
    default:
        break;
    }
}

/* ---- the whole */

/* Below the map: what the colours say, of those that there are. */
static void print_legend(FILE *to, const struct scene *scene, uint64_t top) {
    const struct mahyrei_sizes *const sizes = &scene->slots->run.sizes;
    uint64_t shown = 2;
    print_key(to, MAP_SYMBOLS, top, MAP_WORDS, "symbols of words", sizes->C * sizes->S);
    if (sizes->R > sizes->C) {
        print_key(to, MAP_SYMBOLS + MAP_WIDTH / 2, top, MAP_IDLE, "places of no word",
                  (sizes->R - sizes->C) * sizes->S);
    }
    for (size_t i = 0; i < FAULTS; i++) {
        if (scene->findings->symbols[i].count > 0) {
            print_key(to, MAP_SYMBOLS + shown % 2 * (MAP_WIDTH / 2), top + shown / 2 * LEGEND_LINE,
                      FAULT_LINES[i].colour, fault_name(scene->slots, i),
                      scene->findings->symbols[i].count);
            shown++;
        }
    }
}

static uint64_t legend_lines(const struct scene *scene) {
    uint64_t shown = 2;
    for (size_t i = 0; i < FAULTS; i++) {
        shown += scene->findings->symbols[i].count > 0;
    }
    return (shown + 1) / 2;
}

static void print_picture(FILE *to, const struct scene *scene, const struct map *map) {
    const uint64_t legend_top = map_end(map) + MAP_SCALE + 28;
    const uint64_t left_end = legend_top + legend_lines(scene) * LEGEND_LINE;
    const uint64_t side_end = square_y(frames_top(scene), scene->slots->run.fields.A - 1) + SQUARE +
                              14 +
                              count_lines(scene, FRAME_STATE_COUNT, count_of_frames) * LEGEND_LINE;
    const uint64_t end = left_end > side_end ? left_end : side_end;
    svg_begin(to, scene->name, WIDTH, end + 30);
    print_title(to, scene);
    map_print(to, map);
    print_legend(to, scene, legend_top);
    print_side(to, scene);
    print_place(to, scene, map);
    print_text(
        to, 24, end + 12, 11, PALE,
        "Words are judged by the library's mahyrei_word_read. All else is counted in plain C. "
        "Nothing has been corrected.");
    svg_end(to);
}

bool draw_picture(FILE *to, const struct scene *scene) {
    const struct run_slots *const slots = scene->slots;
    const char *colours[FAULTS];
    struct map map;
    for (size_t i = 0; i < FAULTS; i++) {
        colours[i] = FAULT_LINES[i].colour;
    }
    const bool good = map_make(&map, &slots->run, FAULTS, colours);
    if (good) {
        for (uint64_t symbol = 0; symbol < slots->run.sizes.pooled; symbol++) {
            map_add(&map, symbol, fault_of(slots, scene->marker, symbol));
        }
        print_picture(to, scene, &map);
    }
    map_free(&map);
    return good;
}
