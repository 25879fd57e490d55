/* A command line that has been taken apart, and what it says. */
#ifndef COMMANDS_LINE_H
#define COMMANDS_LINE_H

#include <stdbool.h>

#include "commands/commands.h"
#include "files/outputs.h"

/* The command of this name, or NULL. */
const struct command *command_named(const char *name);

/* How many names of operands there are. */
int count_names(const char *names);

/* The options that a command has. */
unsigned options_of(const struct command *command);

/* Whether header and marker are those of the metadata beside the slots that this line reads. */
bool by_sigmf(const struct line *line);

/* An output of this command, as its options say. */
struct output output_as_told(const struct line *line, const char *name);

#endif
