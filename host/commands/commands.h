/*
 * The subcommands and the options, each in one table (commands.c) that usage, help and dispatch
 * come from. A new subcommand is a function in a file of its own, its prototype here, and a line in
 * the table; a new option is a name in the enum and a line in the other.
 */
#ifndef COMMANDS_COMMANDS_H
#define COMMANDS_COMMANDS_H

#include <stdbool.h>

#include "report/entry.h"
#include "report/log.h"
#include "report/status.h"
#include "system/file_id.h"

/* getopt has a struct of the obvious name. */
enum option_id {
    LOG,
    QUIET,
    NO_CLOBBER,
    FORCE,
    OUTPUT,
    LONG,
    JSON,
    CAPTURE,
    READ_BACK,
    EXPECTED,
    FROM,
    ALL,
    VERBOSE,
    MARKER,
    SVG,
    HTML,
    TRY,
    PAIRS,
    SIGMF,
    SLOT_RATE,
    ANNOTATIONS,
    JOBS,
    RESULTS,
    WAIT,
    HELP,
    VERSION,
    OPTION_COUNT
};

/* Options as bits of a set. */
#define WITH(option) (1U << (option))

struct option_line {
    const char *name;
    char letter;       /* the short form, or '\0' */
    const char *value; /* what its word is called, FILE if that is a file; NULL where it has none */
    const char *help;
};

/* A command line, taken apart. */
struct line {
    const struct command *command;
    int count;
    char **operands;
    const char *options[OPTION_COUNT]; /* the word, "" for one without, NULL where not given */
    const struct resumed *resumed;     /* for a run of a list; otherwise NULL */
    const struct log *log;             /* where a command that is logged adds its lines */
};

/* A run of a list that may have been made before. */
struct resumed {
    struct file_id own; /* an output that the list itself has written */
};

/* Names of operands, with blanks between them, or NULL. They are in this order: `first`, which
 * are no files; inputs, which are files to be read (HEADER and MARKER can be hexadecimal text);
 * words, which are no files except a HEADER, any number of them where the last ends in `...`, and
 * none needed of one in brackets; the output. An AREA among the inputs is written too. With --sigmf
 * those who read HEADER and MARKER before slots are given the name of the slots' metadata for both.
 */
struct command {
    const char *name, *first, *inputs, *words, *output;
    unsigned options; /* the set of those that are not for all */
    bool logged;      /* adds a line to the log */
    bool entry_json;  /* and prints it as JSON with --json */
    enum status (*run)(const struct line *line, struct entry *entry);
    const char *help, *example;
};

extern const struct command COMMANDS[]; /* the last has no name */
extern const struct option_line OPTIONS[OPTION_COUNT];

/* The functions of the table. */
enum status write_command(const struct line *line, struct entry *entry);
enum status read_command(const struct line *line, struct entry *entry);
enum status verify_command(const struct line *line, struct entry *entry);
enum status find_command(const struct line *line, struct entry *entry);
enum status scan_command(const struct line *line, struct entry *entry);
enum status cut_command(const struct line *line, struct entry *entry);
enum status pass_write_command(const struct line *line, struct entry *entry);
enum status pass_read_command(const struct line *line, struct entry *entry);
enum status uplink_write_command(const struct line *line, struct entry *entry);
enum status uplink_read_command(const struct line *line, struct entry *entry);
enum status spread_command(const struct line *line, struct entry *entry);
enum status sheet_command(const struct line *line, struct entry *entry);
enum status header_command(const struct line *line, struct entry *entry);
enum status widen_command(const struct line *line, struct entry *entry);
enum status narrow_command(const struct line *line, struct entry *entry);
enum status fades_command(const struct line *line, struct entry *entry);
enum status rack_load_command(const struct line *line, struct entry *entry);
enum status rack_read_command(const struct line *line, struct entry *entry);
enum status rack_drop_command(const struct line *line, struct entry *entry);
enum status rack_lend_command(const struct line *line, struct entry *entry);
enum status explain_command(const struct line *line, struct entry *entry);
enum status inspect_command(const struct line *line, struct entry *entry);
enum status show_command(const struct line *line, struct entry *entry);
enum status pack_command(const struct line *line, struct entry *entry);
enum status unpack_command(const struct line *line, struct entry *entry);
enum status rack_list_command(const struct line *line, struct entry *entry);
enum status help_command(const struct line *line, struct entry *entry);
enum status batch_command(const struct line *line, struct entry *entry);

#endif
