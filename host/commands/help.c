#include "commands/help.h"

#include <string.h>

#include "commands/line.h"
#include "mahyrei_plain.h"

/* ---- all commands */

static void print_names(FILE *to, const char *names) {
    if (names != NULL) {
        fprintf(to, " %s", names);
    }
}

static void print_option(FILE *to, enum option_id option) {
    fprintf(to, " [--%s", OPTIONS[option].name);
    print_names(to, OPTIONS[option].value);
    fputc(']', to);
}

/* Operands that --sigmf takes the place of, where a command reads slots or a capture. */
static const char DESCRIBED_NAMES[] = "HEADER MARKER ";

static bool reads_described(const struct command *command) {
    return (command->options & WITH(SIGMF)) != 0 && command->run != write_command;
}

void print_usage_of(FILE *to, const char *before, const struct command *command) {
    const char *inputs = command->inputs;
    fprintf(to, "%s mahyrei %s", before, command->name);
    for (int option = 0; option < OPTION_COUNT; option++) {
        if ((command->options & WITH(option)) != 0 &&
            !(option == SIGMF && reads_described(command))) {
            print_option(to, (enum option_id)option);
        }
    }
    print_names(to, command->first);
    if (reads_described(command)) {
        fputs(" {--sigmf | HEADER MARKER}", to);
        inputs += strlen(DESCRIBED_NAMES);
    }
    print_names(to, inputs);
    print_names(to, command->words);
    print_names(to, command->output);
    fputc('\n', to);
}

static void print_usage(FILE *to) {
    const char *before = "usage:";
    for (const struct command *each = COMMANDS; each->name != NULL; each++) {
        print_usage_of(to, before, each);
        before = "      ";
    }
    fprintf(to, "%s mahyrei --help | --version\n", before);
}

/* What an option does for a command, or for all of them where that is NULL. */
static const char *option_help(const struct command *command, int option) {
    if (option != SIGMF || command == NULL) {
        return OPTIONS[option].help;
    }
    return reads_described(command) ? "takes header and marker from the metadata beside the slots"
                                    : "puts metadata beside SLOTS";
}

/* The options that a command has, or all. */
static void print_options(FILE *to, const struct command *command) {
    const unsigned set =
        command == NULL ? ~0U : options_of(command) & ~(WITH(HELP) | WITH(VERSION));
    for (int option = 0; option < OPTION_COUNT; option++) {
        const struct option_line *const line = &OPTIONS[option];
        char letter[] = "    ", text[40];
        if ((set & WITH(option)) == 0) {
            continue;
        }
        if (line->letter != '\0') {
            snprintf(letter, sizeof letter, "-%c, ", line->letter);
        }
        snprintf(text, sizeof text, "%s--%s%s%s", letter, line->name,
                 line->value == NULL ? "" : " ", line->value == NULL ? "" : line->value);
        fprintf(to, "  %-28s %s\n", text, option_help(command, option));
    }
}

static void print_all_help(FILE *to) {
    print_usage(to);
    fputs("\nTurns transfer frames into the slots of CCSDS high photon efficiency telemetry and "
          "back.\n\n",
          to);
    for (const struct command *each = COMMANDS; each->name != NULL; each++) {
        fprintf(to, "  %-12s %s\n", each->name, each->help);
    }
    fputs(
        "\nEach operand is a file, or - for standard input or output. HEADER, MARKER and the "
        "header\n"
        "that widen or narrow reads can be hexadecimal text instead, such as 5950F01BE80204000000\n"
        "or hex:050C; a file whose name has nothing but such digits is given as ./NAME. RATE is\n"
        "1/3, 1/2 or 2/3, or its number. SLOT is the number of a slot, from 0 on. LIST has one "
        "fade\n"
        "a line, its first symbol and its length, and for batch one run a line. AREA is the file\n"
        "of a rack; CALLER, OWNER and TO are missions, 0 to 3, and PLACE is 0 to 3.\n\n",
        to);
    print_options(to, NULL);
    fputs("\nThe log is the file of --log, or the one that MAHYREI_LOG names, or standard error if "
          "that "
          "is\nnot a terminal.\n"
          "Status: 0 done; 1 refused, with number, place and sentence on standard error; 2 wrong\n"
          "usage, or input or output failed. An output file is never half written: it is whole or\n"
          "as it was, and one that is there is replaced only with --force.\n"
          "`mahyrei help COMMAND` has one command's operands, options and an example.\n",
          to);
}

bool print_version(FILE *to, const void *none) {
    (void)none;
    fprintf(to, "mahyrei %s\n", mahyrei_version());
    return true;
}

/* ---- one command */

struct operand_line {
    const char *name, *help;
};

static const struct operand_line OPERANDS[] = {
    {"HEADER", "the run header: a file of ten bytes, or hexadecimal text"},
    {"MARKER", "its marker, a byte for each symbol: a file, or hexadecimal text"},
    {"FRAMES", "transfer frames, back to back; of an uplink, command frames of eight bytes"},
    {"SLOTS", "slots, eight to a byte, the first the highest bit"},
    {"CAPTURE", "what a recorder has: slots, eight to a byte, which begin anywhere"},
    {"SLOT", "the number of a slot of the capture, from 0 on"},
    {"[FOLDER]", "where the frames go, a file for each run; it is created if there is none"},
    {"RATE", "the code rate: 1/3, 1/2 or 2/3"},
    {"BIT", "the number of a block's bit, from 0 on"},
    {"BLOCKS", "packed blocks of 626, 941 or 1256 bytes, by rate, back to back"},
    {"WORDS", "words of 1890 bytes, back to back"},
    {"AREA", "the file of a rack; a missing one is the empty rack"},
    {"CALLER", "the mission that calls, 0 to 3"},
    {"OWNER", "the mission whose place it is, 0 to 3"},
    {"PLACE", "a place of the owner's, 0 to 3"},
    {"TO", "the mission that it is lent to, 0 to 3, or none, which ends a loan"},
    {"OLD", "a header of eight bytes, as up to version 0.3"},
    {"NEW", "a header of ten bytes"},
    {"LIST", "fades or runs, one to a line"},
    {"FROM", "the first symbol, from 0 on"},
    {"COUNT", "how many symbols"},
    {"NUMBER", "the number of a refusal"},
    {"BYTES", "slots that are not packed, a byte to a slot: 0, or 1 for a pulse"},
    {"FIELD=VALUE...", "the fields rate, m, N, B, F, W, A and copies"},
    {"[COMMAND]", "the command that is asked about; all of them where there is none"},
};

static const char *operand_help(const char *name, size_t len) {
    for (size_t i = 0; i < sizeof OPERANDS / sizeof OPERANDS[0]; i++) {
        if (strncmp(OPERANDS[i].name, name, len) == 0 && OPERANDS[i].name[len] == '\0') {
            return OPERANDS[i].help;
        }
    }
    return "";
}

static void print_operands(FILE *to, const struct command *command, const char *names) {
    const bool anywhere = (options_of(command) & WITH(CAPTURE)) != 0;
    for (size_t len; names != NULL && *names != '\0'; names += len + strspn(names + len, " ")) {
        len = strcspn(names, " ");
        const bool slots = len == strlen("SLOTS") && strncmp(names, "SLOTS", len) == 0;
        fprintf(to, "  %-28.*s %s%s\n", (int)len, names, operand_help(names, len),
                anywhere && slots ? "; they begin with the run, unless --capture is given" : "");
    }
}

static void print_one_help(FILE *to, const struct command *command) {
    print_usage_of(to, "usage:", command);
    fprintf(to, "\n%s: %s\n\n", command->name, command->help);
    print_operands(to, command, command->first);
    print_operands(to, command, command->inputs);
    print_operands(to, command, command->words);
    print_operands(to, command, command->output);
    fputc('\n', to);
    print_options(to, command);
    fprintf(to, "\nFor example:\n  %s\n", command->example);
}

bool print_help(FILE *to, const void *command) {
    if (command == NULL) {
        print_all_help(to);
    } else {
        print_one_help(to, command);
    }
    return true;
}

/* ---- a command that was mistyped */

enum { NAME_MOST = 24, NEAR = 2 };

static size_t least(size_t a, size_t b) {
    return a < b ? a : b;
}

static int lower(char c) {
    return c >= 'A' && c <= 'Z' ? c - 'A' + 'a' : c;
}

/* How many letters have to be put in, left out, changed, or exchanged with their neighbour. */
static size_t distance(const char *typed, const char *name) {
    size_t rows[3][NAME_MOST + 1];
    const size_t width = strlen(name), height = strlen(typed);
    for (size_t x = 0; x <= width; x++) {
        rows[0][x] = x;
    }
    for (size_t y = 1; y <= height; y++) {
        size_t *const row = rows[y % 3];
        const size_t *const above = rows[(y + 2) % 3], *const higher = rows[(y + 1) % 3];
        row[0] = y;
        for (size_t x = 1; x <= width; x++) {
            const bool same = lower(typed[y - 1]) == name[x - 1];
            row[x] = least(least(row[x - 1], above[x]) + 1, above[x - 1] + !same);
            if (x > 1 && y > 1 && typed[y - 1] == name[x - 2] && typed[y - 2] == name[x - 1]) {
                row[x] = least(row[x], higher[x - 2] + 1);
            }
        }
    }
    return rows[height % 3][width];
}

const struct command *nearest_command(const char *typed) {
    const struct command *found = NULL;
    size_t best = NEAR + 1;
    for (const struct command *each = COMMANDS; each->name != NULL; each++) {
        const size_t here = strlen(typed) > NAME_MOST || strlen(each->name) > NAME_MOST
                                ? best
                                : distance(typed, each->name);
        if (here < best && here < strlen(each->name)) {
            best = here;
            found = each;
        }
    }
    return found;
}
