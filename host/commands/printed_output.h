/* Reports and pictures: printed into memory first, and then put out whole. */
#ifndef COMMANDS_PRINTED_OUTPUT_H
#define COMMANDS_PRINTED_OUTPUT_H

#include <stdio.h>

#include "commands/commands.h"
#include "files/outputs.h"

/* Prints what is given. False where something is missing for it, which has been said. */
typedef bool printer(FILE *to, const void *what);

/* What is printed goes out as every output does, or where there is none to standard output. */
bool put_printed(const struct output *output, printer *print, const void *what);

/* The same for a piece of what goes to standard output; end_text comes after the last. */
bool put_piece(printer *print, const void *what);

/* The picture of --svg or the page of --html, which goes over none of the files that are read; no
 * name where none is asked for. */
struct output picture_as_told(const struct line *line, enum option_id option);

/* The metadata of --annotations, likewise. */
struct output annotations_as_told(const struct line *line);

/* Before anything is done: whether it can be meant. It is a file. */
bool picture_ready(struct output *picture);

#endif
