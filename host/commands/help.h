/* Usage and help: of all commands, of one, and which one was meant by a name that none has. */
#ifndef COMMANDS_HELP_H
#define COMMANDS_HELP_H

#include <stdbool.h>
#include <stdio.h>

#include "commands/commands.h"

/* `usage: mahyrei NAME ...`, in one line. */
void print_usage_of(FILE *to, const char *before, const struct command *command);

/* The help of a command, or of all where it is NULL, and the version; as put_printed wants them. */
bool print_help(FILE *to, const void *command);
bool print_version(FILE *to, const void *none);

/* The command whose name is nearest to this one, if it is near; else NULL. */
const struct command *nearest_command(const char *typed);

#endif
