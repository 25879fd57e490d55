/* The command line: what was asked for, and running it. */
#ifndef COMMANDS_COMMAND_LINE_H
#define COMMANDS_COMMAND_LINE_H

#include "commands/commands.h"

/* Takes argv apart, says what is wrong, and runs what is asked for. */
enum status obey(int argc, char *argv[]);

/* Runs a command that is logged. The entry has begun, and says afterwards what became of the run.
 */
enum status run_logged(const struct line *line, struct entry *entry);

#endif
