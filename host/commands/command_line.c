/* The command line: what was asked for, what is wrong with it, and help. */
#include "commands/command_line.h"

#include <getopt.h>
#include <stdio.h>
#include <stdlib.h>
#include <string.h>
#include <sys/stat.h>
#include <unistd.h>

#include "commands/help.h"
#include "commands/line.h"
#include "commands/printed_output.h"
#include "report/log.h"
#include "report/messages.h"
#include "report/progress.h"
#include "runs/sigmf.h"
#include "system/descriptors.h"

/* ---- taking a line apart */

/* Wrong usage: what, why, and one line on the command, or on where to find one. */
static enum status misused(const struct command *command, const char *what, const char *why) {
    complain_text(what, why);
    if (command == NULL) {
        remark(NULL, "`mahyrei --help` lists all commands");
    } else {
        print_usage_of(stderr, "usage:", command);
    }
    return FAILED;
}

static enum status no_such_command(const char *name) {
    const struct command *const meant = nearest_command(name);
    if (meant == NULL) {
        return misused(NULL, name, "no such command");
    }
    complain_text(name, "no such command");
    remark(NULL, "did you mean `mahyrei %s`?", meant->name);
    return FAILED;
}

/* What getopt_long gives back for an option that has no letter. */
enum { NO_LETTER = 256, OPERAND = 1 };

/* The table of options as getopt_long wants it. `-` gives operands in their order, whatever
 * POSIXLY_CORRECT says, and `:` tells a missing word from a wrong option. */
struct options {
    struct option longs[OPTION_COUNT + 1];
    char letters[2 * OPTION_COUNT + 3];
};

static void fill_options(struct options *options) {
    char *letter = options->letters;
    *letter++ = '-';
    *letter++ = ':';
    for (int i = 0; i < OPTION_COUNT; i++) {
        const struct option_line *const line = &OPTIONS[i];
        const int word = line->value == NULL ? no_argument : required_argument;
        options->longs[i] = (struct option){line->name, word, NULL, NO_LETTER + i};
        if (line->letter != '\0') {
            *letter++ = line->letter;
            *letter = ':';
            letter += line->value != NULL;
        }
    }
    *letter = '\0';
}

static int option_of(int got) {
    for (int i = 0; i < OPTION_COUNT; i++) {
        if (got == NO_LETTER + i || (got < NO_LETTER && got == OPTIONS[i].letter)) {
            return i;
        }
    }
    return OPTION_COUNT;
}

/* The first thing that is wrong with a line. */
struct wrong {
    char what[64]; /* an option, as much of it as there is room for */
    const char *why;
};

static void note(struct wrong *wrong, int got, const char *word) {
    if (wrong->why != NULL) {
        return;
    }
    if (optopt > 0 && optopt < NO_LETTER) {
        snprintf(wrong->what, sizeof wrong->what, "-%c", optopt);
    } else {
        snprintf(wrong->what, sizeof wrong->what, "%s", word);
    }
    wrong->why = got == ':' ? "its argument is missing" : "no such option";
}

/* Options may be anywhere before `--`. The other words are moved to the front of argv, where
 * getopt_long has been already. */
static void take_line(int argc, char *argv[], struct line *line, struct wrong *wrong) {
    struct options options = {.letters = ""};
    int got, at = 1;
    fill_options(&options);
    line->operands = argv + 1;
    opterr = 0;
    optind = 1;
    while ((got = getopt_long(argc, argv, options.letters, options.longs, NULL)) != -1) {
        if (got == OPERAND) {
            line->operands[line->count++] = optarg;
        } else if (got == '?' || got == ':') {
            note(wrong, got, argv[at]);
        } else {
            line->options[option_of(got)] = optarg == NULL ? "" : optarg;
        }
        at = optind;
    }
    for (; optind < argc; optind++) {
        line->operands[line->count++] = argv[optind];
    }
}

/* Of operands, HEADER and MARKER, which are not given where metadata has them. */
enum { DESCRIBED = 2 };

/* What is wrong with the number of operands, or NULL. */
static const char *wrong_count(const struct line *line) {
    const struct command *const command = line->command;
    const int wanted = count_names(command->first) + count_names(command->inputs) +
                       count_names(command->words) + count_names(command->output) -
                       (by_sigmf(line) ? DESCRIBED : 0);
    const bool open = command->words != NULL && strstr(command->words, "...") != NULL;
    const bool optional = command->words != NULL && strchr(command->words, '[') != NULL;
    if (line->count < wanted - optional) {
        return "the wrong number of operands";
    }
    return line->count > wanted && !open ? "one operand too many" : NULL;
}

/* The first option that this command does not have, or NULL. */
static const char *foreign_option(const struct line *line) {
    for (int option = 0; option < OPTION_COUNT; option++) {
        if (line->options[option] != NULL && (options_of(line->command) & WITH(option)) == 0) {
            return OPTIONS[option].name;
        }
    }
    return NULL;
}

/* The operands that are inputs, and how many they are. */
static char *const *inputs_of(const struct line *line, int *count) {
    *count = count_names(line->command->inputs);
    return line->operands + count_names(line->command->first);
}

static bool several_dashes(const struct line *line) {
    int count, dashes = 0;
    char *const *const inputs = inputs_of(line, &count);
    for (int i = 0; i < count; i++) {
        dashes += is_dash(inputs[i]);
    }
    return dashes > 1;
}

/* ---- running */

/* Whether a file, by its name or as a standard file, is this one on the disk. */
static bool is_file(const char *name, int standard, const struct stat *file) {
    struct stat status;
    const int got = is_dash(name) ? fstat(standard, &status) : stat(name, &status);
    return got == 0 && status.st_dev == file->st_dev && status.st_ino == file->st_ino;
}

/* The operand that is called HEADER among the words, or NULL. */
static const char *late_header(const struct line *line) {
    const struct command *const command = line->command;
    const char *const found = command->words == NULL ? NULL : strstr(command->words, "HEADER");
    if (found == NULL) {
        return NULL;
    }
    int at = count_names(command->first) + count_names(command->inputs);
    for (const char *c = command->words; c < found; c++) {
        at += *c == ' ';
    }
    return line->operands[at];
}

/* The first file of this line that is the log, or NULL: the log's line would end up in the data, or
 * be lost with the file that is replaced. */
static const char *clash(const struct line *line, int log) {
    struct stat file;
    int count;
    char *const *const inputs = inputs_of(line, &count);
    if (fstat(log, &file) != 0 || (!S_ISREG(file.st_mode) && !S_ISBLK(file.st_mode))) {
        return NULL;
    }
    for (int i = 0; i < count; i++) {
        if (is_file(inputs[i], STDIN_FILENO, &file)) {
            return inputs[i];
        }
    }
    const char *const header = late_header(line);
    if (header != NULL && is_file(header, STDIN_FILENO, &file)) {
        return header;
    }
    const char *const last = line->count == 0 ? NULL : line->operands[line->count - 1];
    if (line->command->output != NULL && is_file(last, STDOUT_FILENO, &file)) {
        return last;
    }
    for (int option = 0; option < OPTION_COUNT; option++) {
        const char *const value = option == LOG ? NULL : line->options[option];
        const char *const kind = OPTIONS[option].value;
        if (value != NULL && kind != NULL && strcmp(kind, "FILE") == 0 &&
            is_file(value, STDOUT_FILENO, &file)) {
            return value;
        }
    }
    return NULL;
}

/* The entry as JSON, for those that print nothing else. */
struct printed_entry {
    const struct entry *entry;
    int status;
};

static bool print_entry(FILE *to, const void *what) {
    const struct printed_entry *const printed = what;
    entry_print_json(to, printed->entry, printed->status);
    return true;
}

static bool put_entry(const struct line *line, const struct entry *entry, int status) {
    const struct printed_entry printed = {entry, status};
    return line->options[JSON] == NULL || !line->command->entry_json ||
           put_printed(NULL, print_entry, &printed);
}

enum status run_logged(const struct line *line, struct entry *entry) {
    struct log log;
    const char *const name = line->options[LOG];
    if (!log_open(&log, name)) {
        return FAILED;
    }
    const char *const both = clash(line, log.file);
    if (both != NULL) {
        log_drop(&log);
        complain_text(both, name != NULL ? "this is the log's file too"
                                         : "this is standard error too, where the log goes");
        return FAILED;
    }
    const bool at_terminal = isatty(STDERR_FILENO) != 0;
    if (name == NULL && (line->options[QUIET] != NULL || at_terminal)) {
        log.file = -1;
    }
    struct line with_log = *line;
    with_log.log = &log;
    const enum status status = line->command->run(&with_log, entry);
    progress_stop();
    const bool ended = log_end(&log, entry, (int)status) && put_entry(line, entry, (int)status);
    if (ended && status == DONE && at_terminal && line->options[QUIET] == NULL) {
        entry_say(entry);
    }
    return ended ? status : FAILED;
}

static enum status run(struct line *line) {
    const char *const from_environment = getenv("MAHYREI_LOG");
    struct entry entry;
    if (line->options[LOG] == NULL && from_environment != NULL && from_environment[0] != '\0') {
        line->options[LOG] = from_environment;
    }
    if (line->options[QUIET] == NULL) {
        progress_start();
    }
    entry_begin(&entry, line->command->name);
    if (line->command->logged) {
        return run_logged(line, &entry);
    }
    const enum status status = line->command->run(line, &entry);
    progress_stop();
    return status;
}

/* The metadata's name stands for the header and for the marker. */
static enum status run_described(const struct line *line) {
    enum { MOST = 8 };
    char *operands[MOST];
    struct line described = *line;
    if (line->count + DESCRIBED > MOST || is_dash(line->operands[0])) {
        return misused(line->command, "--sigmf", "standard input has no metadata beside it");
    }
    char *const name = sigmf_name(line->operands[0]);
    if (name == NULL) {
        return FAILED;
    }
    operands[0] = operands[1] = name;
    memcpy(operands + DESCRIBED, line->operands, (size_t)line->count * sizeof *operands);
    described.operands = operands;
    described.count += DESCRIBED;
    const enum status status = run(&described);
    free(name);
    return status;
}

static enum status obey_command(struct line *line) {
    const char *const name = line->operands[-1];
    const char *const count = wrong_count(line), *const option = foreign_option(line);
    if (count != NULL) {
        return misused(line->command, name, count);
    }
    if (option != NULL) {
        char text[32];
        snprintf(text, sizeof text, "--%s", option);
        return misused(line->command, text, "this command has no such option");
    }
    if (by_sigmf(line)) {
        return run_described(line);
    }
    return several_dashes(line) ? misused(line->command, name, "only one input can be -")
                                : run(line);
}

enum status help_command(const struct line *line, struct entry *entry) {
    const char *const name = line->count == 0 ? NULL : line->operands[0];
    const struct command *const command = name == NULL ? NULL : command_named(name);
    (void)entry;
    if (name != NULL && command == NULL) {
        return no_such_command(name);
    }
    return put_printed(NULL, print_help, command) ? DONE : FAILED;
}

enum status obey(int argc, char *argv[]) {
    struct line line = {0};
    struct wrong wrong = {.why = NULL};
    take_line(argc, argv, &line, &wrong);
    const char *const name = line.count == 0 ? NULL : line.operands[0];
    line.command = name == NULL ? NULL : command_named(name);
    if (wrong.why != NULL) {
        return misused(line.command, wrong.what, wrong.why);
    }
    if (line.options[HELP] != NULL && (name == NULL || line.command != NULL)) {
        return put_printed(NULL, print_help, line.command) ? DONE : FAILED;
    }
    if (line.options[VERSION] != NULL) {
        return put_printed(NULL, print_version, NULL) ? DONE : FAILED;
    }
    if (line.command == NULL) {
        return name == NULL ? misused(NULL, "no command", "one is needed") : no_such_command(name);
    }
    line.operands++;
    line.count--;
    return obey_command(&line);
}
