#include "commands/line.h"

#include <string.h>
#include <unistd.h>

#include "system/descriptors.h"

/* ---- commands */

const struct command *command_named(const char *name) {
    for (const struct command *each = COMMANDS; each->name != NULL; each++) {
        if (strcmp(name, each->name) == 0) {
            return each;
        }
    }
    return NULL;
}

int count_names(const char *names) {
    int count = 0;
    for (; names != NULL && *names != '\0'; names += strcspn(names, " ")) {
        names += strspn(names, " ");
        count++;
    }
    return count;
}

enum { FOR_ALL = WITH(QUIET) | WITH(HELP) | WITH(VERSION) };

unsigned options_of(const struct command *command) {
    return FOR_ALL | command->options | (command->logged ? WITH(LOG) : 0);
}

/* ---- what a line says */

bool by_sigmf(const struct line *line) {
    return line->options[SIGMF] != NULL && line->command->run != write_command &&
           (options_of(line->command) & WITH(SIGMF)) != 0;
}

/* Nobody is asked where an answer would be taken from the input. */
static bool may_ask(const struct line *line) {
    for (int i = 0; i < line->count; i++) {
        if (is_dash(line->operands[i]) || descriptor_of(line->operands[i]) == STDIN_FILENO) {
            return false;
        }
    }
    return line->options[QUIET] == NULL;
}

struct output output_as_told(const struct line *line, const char *name) {
    struct output output = {
        .name = name, .force = line->options[FORCE] != NULL, .ask = may_ask(line)};
    if (line->resumed != NULL) {
        output.same_will_do = true;
        output.own = line->resumed->own;
    }
    return output;
}
