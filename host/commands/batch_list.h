/*
 * A list of runs, one to a line: either words with tabs between them,
 *
 *   write HEADER MARKER FRAMES SLOTS
 *   read --capture HEADER MARKER CAPTURE FRAMES
 *
 * which are those of the command line, or an object of JSON,
 *
 *   {"run": "write", "header": "..", "marker": "..", "frames": "..", "slots": ".."}
 *   {"run": "read", "header": "..", "marker": "..", "capture": "..", "frames": ".."}
 *
 * where other members are left alone, so that a line of results is one too. A line that begins with
 * # is a remark.
 */
#ifndef COMMANDS_BATCH_LIST_H
#define COMMANDS_BATCH_LIST_H

#include <stdbool.h>
#include <stddef.h>

#include "files/bytes.h"

/* What a list can have runs of, and how their operands are called. */
enum { FIRSTS_MOST = 2, OPERANDS_MOST = FIRSTS_MOST + 2 };
struct run_kind {
    const char *name;
    size_t firsts;
    const char *first[FIRSTS_MOST]; /* header and marker, or the rate */
    const char *input, *output;     /* the output is NULL where nothing is written */
    bool capturable;                /* the input may be a capture */
};

/* The kind of this name, or NULL. */
const struct run_kind *kind_named(const char *name);

struct item {
    size_t line; /* from 1 */
    const struct run_kind *kind;
    bool captured;
    char *operands[OPERANDS_MOST + 1]; /* as on the command line */
};

size_t item_count(const struct item *item);
const char *item_input(const struct item *item);
const char *item_output(const struct item *item); /* NULL where nothing is written */

/* What the input is called: frames, slots, capture and so on. */
const char *item_input_name(const struct item *item);

struct batch_list {
    size_t count;
    struct item *items;
    struct bytes text; /* what the operands lie in */
};

/* Reads a list, and says what is wrong with it. */
bool list_take(const char *name, struct batch_list *list);
void list_free(struct batch_list *list);

/* A file beside the list's; the name is NULL where there is none. */
struct other {
    const char *name;
    bool written;
};

/* Runs of a list go in any order and at once. So all their operands are files, and none that is
 * written is named a second time, by the list or among the others. Says what is wrong. */
bool list_check(const struct batch_list *list, const struct other others[], size_t count);

#endif
