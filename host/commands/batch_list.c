#include "commands/batch_list.h"

#include <errno.h>
#include <stdio.h>
#include <stdlib.h>
#include <string.h>
#include <sys/stat.h>
#include <unistd.h>

#include "files/inputs.h"
#include "formats/json.h"
#include "report/messages.h"
#include "system/descriptors.h"
#include "system/file_id.h"

enum { LIST_LIMIT = 1 << 28 };

/* ---- kinds */

static const struct run_kind KINDS[] = {
    {"write", 2, {"header", "marker"}, "frames", "slots", false},
    {"read", 2, {"header", "marker"}, "slots", "frames", true},
    {"verify", 2, {"header", "marker"}, "slots", NULL, true},
    {"pass-write", 1, {"rate", NULL}, "blocks", "words", false},
    {"pass-read", 1, {"rate", NULL}, "words", "blocks", false},
    {"uplink-write", 0, {NULL, NULL}, "frames", "slots", false},
    {"uplink-read", 0, {NULL, NULL}, "slots", "frames", false},
};

const struct run_kind *kind_named(const char *name) {
    for (size_t i = 0; name != NULL && i < sizeof KINDS / sizeof KINDS[0]; i++) {
        if (strcmp(name, KINDS[i].name) == 0) {
            return &KINDS[i];
        }
    }
    return NULL;
}

size_t item_count(const struct item *item) {
    return item->kind->firsts + (item->kind->output == NULL ? 1 : 2);
}

const char *item_input(const struct item *item) {
    return item->operands[item->kind->firsts];
}

const char *item_output(const struct item *item) {
    return item->kind->output == NULL ? NULL : item->operands[item->kind->firsts + 1];
}

const char *item_input_name(const struct item *item) {
    return item->captured ? "capture" : item->kind->input;
}

/* Whether an operand names a file: not the rate, nor hexadecimal text. */
static bool is_named_file(const struct item *item, size_t operand) {
    const struct run_kind *const kind = item->kind;
    return operand >= kind->firsts ||
           (strcmp(kind->first[operand], "rate") != 0 && !is_text(item->operands[operand]));
}

/* ---- lines */

static bool complain_line(size_t line, const char *why) {
    char what[40];
    snprintf(what, sizeof what, "line %zu of the list", line);
    complain_text(what, why);
    return false;
}

/* The name of an operand among the members of an object. */
static const char *member_of(const struct item *item, size_t operand) {
    const size_t firsts = item->kind->firsts;
    return operand < firsts    ? item->kind->first[operand]
           : operand == firsts ? item_input_name(item)
                               : item->kind->output;
}

static bool take_object(char *line, struct item *item) {
    struct json_object object;
    if (!json_take(line, &object)) {
        return complain_line(item->line, "not a JSON object of strings and whole numbers");
    }
    item->kind = kind_named(json_text(&object, "run"));
    if (item->kind == NULL) {
        return complain_line(item->line, "\"run\" names no command that a list can have");
    }
    item->captured = item->kind->capturable && json_text(&object, "capture") != NULL;
    for (size_t i = 0; i < item_count(item); i++) {
        item->operands[i] = (char *)json_text(&object, member_of(item, i));
        if (item->operands[i] == NULL) {
            char why[48];
            snprintf(why, sizeof why, "\"%s\" has to be a string", member_of(item, i));
            return complain_line(item->line, why);
        }
    }
    return true;
}

/* A name with a control character is given in JSON: here it is more often a line end of another
 * system. */
static bool take_words(char *line, struct item *item) {
    enum { MOST = OPERANDS_MOST + 3 }; /* the command, --capture, and one too many */
    char *words[MOST];
    size_t count = 0;
    for (char *at = line; count < MOST; at++) {
        words[count++] = at;
        at += strcspn(at, "\t");
        if (*at == '\0') {
            break;
        }
        *at = '\0';
    }
    item->kind = kind_named(words[0]);
    if (item->kind == NULL) {
        return complain_line(item->line,
                             "no command that a list can have; words have tabs between them");
    }
    item->captured = item->kind->capturable && count > 1 && strcmp(words[1], "--capture") == 0;
    char **const operands = words + (item->captured ? 2 : 1);
    if (words + count != operands + item_count(item)) {
        return complain_line(item->line,
                             "the wrong number of operands, which have tabs between them");
    }
    for (size_t i = 0; i < item_count(item); i++) {
        item->operands[i] = operands[i];
        for (const char *at = operands[i]; *at != '\0'; at++) {
            if ((unsigned char)*at < ' ' || *at == 0x7F) {
                return complain_line(item->line, "a control character; such a name needs JSON");
            }
        }
    }
    return true;
}

static bool take_item(char *line, struct item *item) {
    return line[strspn(line, " \t")] == '{' ? take_object(line, item) : take_words(line, item);
}

static bool take_lines(struct batch_list *list) {
    size_t line = 0;
    char *at = (char *)list->text.at;
    bool good = true;
    while (at != NULL && *at != '\0') {
        char *const end = strchr(at, '\n');
        line++;
        if (end != NULL) {
            *end = '\0';
        }
        if (end != at && at[strspn(at, " \t")] != '#') { /* neither blank nor a remark */
            struct item *const item = &list->items[list->count++];
            *item = (struct item){.line = line};
            good = take_item(at, item) && good;
        }
        at = end == NULL ? NULL : end + 1;
    }
    return good;
}

static size_t count_lines(const struct bytes *text) {
    size_t lines = 1;
    for (size_t i = 0; i < text->len; i++) {
        lines += text->at[i] == '\n';
    }
    return lines;
}

/* Makes a text of the bytes, with an end. */
static bool make_text(const char *name, struct bytes *text) {
    if (text->len == LIST_LIMIT || memchr(text->at, '\0', text->len) != NULL) {
        complain_text(name, text->len == LIST_LIMIT ? "too long" : "a NUL in a line");
        return false;
    }
    uint8_t *const longer = realloc(text->at, text->len + 1);
    if (longer == NULL) {
        complain("memory", errno);
        return false;
    }
    longer[text->len] = '\0';
    text->at = longer;
    return true;
}

bool list_take(const char *name, struct batch_list *list) {
    struct bytes buffer;
    *list = (struct batch_list){0};
    if (!take_in(name, LIST_LIMIT, &list->text) || !make_text(name, &list->text) ||
        !make_buffer(count_lines(&list->text) * sizeof *list->items, &buffer)) {
        return false;
    }
    list->items = (void *)buffer.at;
    return take_lines(list);
}

void list_free(struct batch_list *list) {
    free(list->items);
    free(list->text.at);
    *list = (struct batch_list){0};
}

/* ---- names */

/* A file that a list names, by the path that leads to it. */
struct named {
    char *path;
    bool output; /* it is written */
    size_t line;
    struct file_id id;
};

/* Its folder's path and its own name, for a file that is not there yet; NULL without memory. */
static char *path_of_new(const char *name) {
    const char *const slash = strrchr(name, '/');
    char *const folder = slash == NULL   ? strdup(".")
                         : slash == name ? strdup("/")
                                         : strndup(name, (size_t)(slash - name));
    char *const found = folder == NULL ? NULL : realpath(folder, NULL);
    const char *const last = slash == NULL ? name : slash + 1;
    char *path = NULL;
    free(folder);
    if (found == NULL) {
        return strdup(name); /* no such folder: the run will say so */
    }
    const size_t len = strlen(found) + strlen(last) + 2;
    path = malloc(len);
    if (path != NULL) {
        snprintf(path, len, "%s/%s", found, last);
    }
    free(found);
    return path;
}

/* On the heap; NULL without memory. */
static char *path_of(const char *name) {
    char *const path = realpath(name, NULL);
    return path == NULL ? path_of_new(name) : path;
}

/* Room for names, and how many there are. */
struct names {
    struct named *at;
    size_t count;
};

/* Takes the path over. */
#ifndef __clang__ /* which does not know the name */
#pragma GCC diagnostic push
#pragma GCC diagnostic ignored "-Wanalyzer-malloc-leak" /* list_check frees the paths */
#endif
static bool add_name(struct names *names, char *path, struct named name) {
    if (path == NULL) {
        complain("memory", ENOMEM);
        return false;
    }
    name.path = path;
    names->at[names->count++] = name;
    return true;
}
#ifndef __clang__
#pragma GCC diagnostic pop
#endif

/* The list, its results or the log; the first two can be standard files. */
static bool add_other(struct names *names, const struct other *other) {
    struct named name = {.output = other->written};
    if (!is_dash(other->name)) {
        name.id = file_id_named(other->name);
        return add_name(names, path_of(other->name), name);
    }
    name.id = file_id_of(other->written ? STDOUT_FILENO : STDIN_FILENO);
    return add_name(names, strdup(other->written ? "standard output" : "standard input"), name);
}

/* By path, what is written first, then by line. */
static int compare_names(const void *a, const void *b) {
    const struct named *const x = a, *const y = b;
    const int order = strcmp(x->path, y->path);
    if (order != 0 || x->output != y->output) {
        return order != 0 ? order : (int)y->output - (int)x->output;
    }
    return x->line < y->line ? -1 : x->line > y->line;
}

/* A line of 0 is that of the list, its results or the log. */
static void complain_names(const struct named *one, const struct named *other) {
    if (one->line == 0 && other->line == 0) {
        complain_text(one->path, "the list, its results and the log have to be different files");
    } else if (one->line == 0 || other->line == 0) {
        complain_line(one->line + other->line, "it names the list, its results or the log");
    } else {
        complain_line(other->line, "it names a file that another run writes, or itself");
    }
}

/* The results and the log are written where they are, so that another hard link to one of them
 * counts too. */
static bool apart(const struct named *names, size_t count) {
    bool good = true;
    for (size_t i = 0; i < count; i++) {
        for (size_t j = 0; names[i].line == 0 && names[i].output && j < count; j++) {
            const bool seen = j <= i && names[j].line == 0 && names[j].output;
            if (!seen && strcmp(names[i].path, names[j].path) != 0 &&
                same_id(&names[i].id, &names[j].id)) {
                complain_names(&names[i], &names[j]);
                good = false;
            }
        }
    }
    return good;
}

static bool differ(struct named *names, size_t count) {
    bool good = true;
    qsort(names, count, sizeof *names, compare_names);
    for (size_t i = 1, first = 0; i < count; i++) {
        first = strcmp(names[i].path, names[first].path) == 0 ? first : i;
        if (first < i && names[first].output) {
            complain_names(&names[first], &names[i]);
            good = false;
        }
    }
    return good;
}

/* A file, or nothing as yet. Of others, none can be read or written twice with the same end. */
static bool is_plain(const char *name) {
    struct stat status;
    return !is_dash(name) && (stat(name, &status) != 0 || S_ISREG(status.st_mode));
}

static bool check_kinds(const struct item *item) {
    for (size_t i = 0; i < item_count(item); i++) {
        if (is_named_file(item, i) && !is_plain(item->operands[i])) {
            return complain_line(item->line, "an operand is not a file");
        }
    }
    return true;
}

/* The files of one run; false without memory. */
static bool gather_item(const struct item *item, size_t count, struct names *names) {
    for (size_t i = 0; i < count; i++) {
        if (is_named_file(item, i)) {
            const char *const name = item->operands[i];
            const struct named named = {NULL, i > item->kind->firsts, item->line,
                                        file_id_named(name)};
            if (!add_name(names, path_of(name), named)) {
                return false;
            }
        }
    }
    return true;
}

/* All names, into a buffer for them; false without memory. */
static bool gather(const struct batch_list *list, const struct other others[], size_t count,
                   struct names *names) {
    for (size_t i = 0; i < list->count; i++) {
        const struct item *const item = &list->items[i];
        if (!gather_item(item, item_count(item), names)) {
            return false;
        }
    }
    for (size_t i = 0; i < count; i++) {
        if (others[i].name != NULL && !add_other(names, &others[i])) {
            return false;
        }
    }
    return true;
}

bool list_check(const struct batch_list *list, const struct other others[], size_t count) {
    bool good = true;
    for (size_t i = 0; i < list->count; i++) {
        good = check_kinds(&list->items[i]) && good;
    }
    if (!good) {
        return false;
    }
    struct names names = {calloc(list->count * OPERANDS_MOST + count, sizeof *names.at), 0};
    if (names.at == NULL) {
        complain("memory", ENOMEM);
        return false;
    }
    good = gather(list, others, count, &names) && differ(names.at, names.count) &&
           apart(names.at, names.count);
    for (size_t i = 0; i < names.count; i++) {
        free(names.at[i].path);
    }
    free(names.at);
    return good;
}
