#include "commands/batch_results.h"

#include <errno.h>
#include <fcntl.h>
#include <inttypes.h>
#include <stdlib.h>
#include <string.h>
#include <sys/stat.h>
#include <unistd.h>

#include "files/inputs.h"
#include "files/outputs.h"
#include "formats/json.h"
#include "formats/sha256.h"
#include "formats/text.h"
#include "mahyrei_plain.h"
#include "report/messages.h"
#include "report/progress.h"
#include "report/status.h"
#include "system/appending.h"
#include "system/descriptors.h"

enum { NAME_ROOM = 24 }; /* for the name of a member */

/* ---- reading */

/* The member of this name and ending, such as frames_sha256. */
static const char *joined(char text[NAME_ROOM], const char *name, const char *end) {
    snprintf(text, NAME_ROOM, "%s%s", name, end);
    return text;
}

/* The size and digest of the input or the output. */
static bool take_part(const struct json_object *object, const char *name, uint64_t *bytes,
                      const char **sha256) {
    char text[NAME_ROOM];
    *sha256 = json_text(object, joined(text, name, "_sha256"));
    return json_number(object, joined(text, name, "_bytes"), bytes) && *sha256 != NULL;
}

/* Header and marker are there as digits too, whatever the list calls them. */
static bool take_firsts(const struct json_object *object, const struct run_kind *kind,
                        struct record *record) {
    for (size_t i = 0; i < kind->firsts; i++) {
        char text[NAME_ROOM];
        const bool rate = strcmp(kind->first[i], "rate") == 0;
        record->firsts[i] = json_text(object, joined(text, kind->first[i], rate ? "" : "_hex"));
        if (record->firsts[i] == NULL) {
            return false;
        }
    }
    return true;
}

/* Only lines with all of it count; what else is in the file is left alone. A run that was tried
 * again and failed is not done. */
static bool take_record(char *line, struct record *record) {
    struct json_object object;
    uint64_t status;
    *record = (struct record){0};
    if (!json_take(line, &object) || !json_number(&object, "status", &status)) {
        return false;
    }
    record->run = json_text(&object, "run");
    const struct run_kind *const kind = kind_named(record->run);
    if (kind == NULL) {
        return false;
    }
    const bool captured = kind->capturable && json_text(&object, "capture") != NULL;
    const char *const input = captured ? "capture" : kind->input;
    record->input = json_text(&object, input);
    record->output = kind->output == NULL ? "" : json_text(&object, kind->output);
    record->done = status == 0 && take_firsts(&object, kind, record) &&
                   take_part(&object, input, &record->input_bytes, &record->input_sha256) &&
                   (kind->output == NULL || take_part(&object, kind->output, &record->output_bytes,
                                                      &record->output_sha256));
    return record->input != NULL && record->output != NULL;
}

static int compare_runs(const struct record *x, const char *run, const char *input,
                        const char *output) {
    int order = strcmp(x->input, input);
    order = order != 0 ? order : strcmp(x->output, output);
    return order != 0 ? order : strcmp(x->run, run);
}

/* By run, and then in the order of the file. */
static int compare_records(const void *a, const void *b) {
    const struct record *const x = a, *const y = b;
    const int order = compare_runs(x, y->run, y->input, y->output);
    return order != 0 ? order : x->order < y->order ? -1 : x->order > y->order;
}

static bool take_records(struct results *results) {
    struct bytes buffer;
    size_t lines = 1, order = 0;
    for (size_t i = 0; i < results->text.len; i++) {
        lines += results->text.at[i] == '\n';
    }
    if (!make_buffer(lines * sizeof *results->records, &buffer)) {
        return false;
    }
    results->records = (void *)buffer.at;
    /* What a power cut leaves can have NUL bytes, so lines end by length and not by the first. */
    char *const all = (char *)results->text.at;
    for (size_t at = 0, end; at < results->text.len; at = end + 1) {
        const char *const stop = memchr(all + at, '\n', results->text.len - at);
        end = stop == NULL ? results->text.len : (size_t)(stop - all);
        all[end] = '\0';
        struct record *const record = &results->records[results->count];
        if (strlen(all + at) == end - at && take_record(all + at, record)) {
            record->order = order++;
            results->count++;
        }
    }
    qsort(results->records, results->count, sizeof *results->records, compare_records);
    return true;
}

/* By the names that a record has of it. */
static int compare_item(const struct record *record, const struct item *item) {
    const char *const output = item_output(item);
    return compare_runs(record, item->kind->name, item_input(item), output == NULL ? "" : output);
}

/* The number of records up to the last line of this run. */
static size_t end_of(const struct results *results, const struct item *item) {
    size_t from = 0, end = results->count;
    while (from < end) { /* the end of those that are not after it */
        const size_t middle = from + (end - from) / 2;
        if (compare_item(&results->records[middle], item) <= 0) {
            from = middle + 1;
        } else {
            end = middle;
        }
    }
    return from;
}

const struct record *results_find(const struct results *results, const struct item *item) {
    const size_t end = end_of(results, item);
    const struct record *const last = end == 0 ? NULL : &results->records[end - 1];
    return last != NULL && compare_item(last, item) == 0 && last->done ? last : NULL;
}

/* ---- the file */

/* One list at a time writes to it. Its name is on the disk before there is a line in it. */
static bool prepare(struct results *results, const char *name) {
    struct flock lock = {.l_type = F_WRLCK, .l_whence = SEEK_SET};
    struct stat status;
    if (fstat(results->file, &status) != 0) {
        complain(name, errno);
        return false;
    }
    if (!S_ISREG(status.st_mode)) {
        complain_text(name, "results go to a file, or to -");
        return false;
    }
    if (fcntl(results->file, F_SETLK, &lock) != 0) {
        if (errno == EACCES || errno == EAGAIN) {
            complain_text(name, "another batch is using it");
        } else {
            complain_at(name, "this file cannot be", "locked", errno);
        }
        return false;
    }
    if (!sync_name(name) && (errno != EACCES || status.st_size == 0)) {
        complain(name, errno);
        return false;
    }
    return true;
}

static bool read_text(struct results *results, const char *name) {
    struct stat status;
    if (fstat(results->file, &status) != 0 ||
        !make_buffer((size_t)status.st_size + 1, &results->text)) {
        complain(name, errno);
        return false;
    }
    results->text.len = 0;
    while (results->text.len < (size_t)status.st_size) {
        const ssize_t got =
            pread(results->file, results->text.at + results->text.len,
                  (size_t)status.st_size - results->text.len, (off_t)results->text.len);
        if (got < 0 && errno == EINTR) {
            continue;
        }
        if (got <= 0) {
            complain(name, got == 0 ? EIO : errno);
            return false;
        }
        results->text.len += (size_t)got;
    }
    results->text.at[results->text.len] = '\0';
    return true;
}

bool results_open(const char *name, struct results *results) {
    *results = (struct results){.file = STDOUT_FILENO};
    if (is_dash(name)) {
        return true;
    }
    results->name = name;
    results->file = open(name, O_RDWR | O_APPEND | O_CREAT | O_NOCTTY | O_CLOEXEC, 0666);
    if (results->file < 0) {
        complain(name, errno);
        return false;
    }
    return prepare(results, name) && read_text(results, name) && take_records(results);
}

bool results_close(struct results *results) {
    bool good = results->name != NULL || results->file < 0 || end_text();
    if (results->name != NULL && results->file >= 0) {
        const bool synced = fsync(results->file) == 0;
        const int kept = errno;
        const bool closed = close(results->file) == 0;
        good = synced && closed;
        if (!good) {
            complain(results->name, synced ? errno : kept);
        }
    }
    free(results->records);
    free(results->text.at);
    *results = (struct results){.file = -1};
    return good;
}

/* ---- what is done */

static bool is_file_of(const char *name, uint64_t size) {
    struct stat status;
    return stat(name, &status) == 0 && S_ISREG(status.st_mode) && (uint64_t)status.st_size == size;
}

static bool has_digest(const char *name, size_t limit, const char *digest, struct file_id *id) {
    struct bytes bytes = {0};
    struct entry_part part = {0};
    const bool read = take_in_known(name, limit, &bytes, id);
    if (read) {
        entry_part(&part, bytes.at, bytes.len, bytes.len < limit);
    }
    free(bytes.at);
    return read && strcmp(part.digest, digest) == 0;
}

static bool has_hex(const char *operand, size_t limit, const char *hex) {
    struct bytes bytes = {0};
    struct entry entry;
    entry_begin(&entry, "");
    const bool read = take_in_text(operand, limit, &bytes);
    if (read) {
        entry_marker(&entry, bytes.at, bytes.len);
    }
    free(bytes.at);
    return read && strcmp(entry.marker_digits, hex) == 0;
}

static bool has_firsts(const struct item *item, const struct record *record) {
    static const size_t LIMITS[FIRSTS_MOST] = {HEADER_LIMIT, MARKER_LIMIT};
    for (size_t i = 0; i < item->kind->firsts && i < FIRSTS_MOST; i++) {
        const bool rate = strcmp(item->kind->first[i], "rate") == 0;
        if (rate ? strcmp(item->operands[i], record->firsts[i]) != 0
                 : !has_hex(item->operands[i], LIMITS[i], record->firsts[i])) {
            return false;
        }
    }
    return true;
}

bool still_done(const struct item *item, const struct record *record) {
    struct file_id id;
    const char *const input = item_input(item), *const output = item_output(item);
    return is_file_of(input, record->input_bytes) &&
           (output == NULL || is_file_of(output, record->output_bytes)) &&
           has_firsts(item, record) &&
           has_digest(input, record->input_bytes + 1, record->input_sha256, &id) &&
           (output == NULL ||
            has_digest(output, record->output_bytes + 1, record->output_sha256, &id));
}

struct file_id own_output(const struct results *results, const struct item *item) {
    const char *const name = item_output(item);
    struct file_id id = {0};
    for (size_t i = end_of(results, item);
         name != NULL && i > 0 && compare_item(&results->records[i - 1], item) == 0; i--) {
        const struct record *const record = &results->records[i - 1];
        if (record->done && is_file_of(name, record->output_bytes) &&
            has_digest(name, record->output_bytes + 1, record->output_sha256, &id)) {
            return id;
        }
    }
    return (struct file_id){0};
}

/* ---- writing */

static void print_member(FILE *to, const char *name, const char *text) {
    fprintf(to, ", \"%s\": ", name);
    if (text == NULL || text[0] == '\0') {
        fputs("null", to);
    } else {
        json_print(to, text);
    }
}

static void print_part(FILE *to, const char *name, const struct entry_part *part) {
    char text[NAME_ROOM];
    fprintf(to, ", \"%s\": ", joined(text, name, "_bytes"));
    if (part->size == NO_SIZE) {
        fputs("null", to);
    } else {
        fprintf(to, "%zu", part->size);
    }
    print_member(to, joined(text, name, "_sha256"), part->size == NO_SIZE ? NULL : part->digest);
}

/* What an entry has of this name. */
static const struct entry_part *part_of(const struct entry *entry, const char *name) {
    return strcmp(name, "frames") == 0    ? &entry->frames
           : strcmp(name, "slots") == 0   ? &entry->slots
           : strcmp(name, "capture") == 0 ? &entry->capture
           : strcmp(name, "blocks") == 0  ? &entry->blocks
                                          : &entry->words;
}

/* Sizes and digests: of the input and the output, and of what a run has besides. */
static void print_entry(FILE *to, const struct item *item, const struct entry *entry) {
    if (item->kind->firsts == FIRSTS_MOST) {
        print_member(to, "header_hex", entry->header);
        print_member(to, "marker_hex", entry->marker_digits);
        print_part(to, "frames", &entry->frames);
        print_part(to, "slots", &entry->slots);
        if (item->captured) {
            print_part(to, "capture", &entry->capture);
            print_member(to, "slot", entry->slot);
        }
    } else {
        print_part(to, item->kind->input, part_of(entry, item->kind->input));
        if (item->kind->output != NULL) {
            print_part(to, item->kind->output, part_of(entry, item->kind->output));
        }
    }
}

/* Where the output failed, the sentence of 0 would say what is not so. */
static void print_answer(FILE *to, const struct entry *entry, int status) {
    if (!entry->answered) {
        fputs(", \"number\": null, \"place\": null", to);
        return;
    }
    fprintf(to, ", \"number\": %u, \"place\": %" PRIu64, mahyrei_answer_number(entry->answer),
            mahyrei_answer_place(entry->answer));
    if (status != FAILED) {
        print_member(to, "sentence", entry_sentence(entry));
    }
}

static void print_result(FILE *to, const struct result *result) {
    const struct item *const item = result->item;
    fprintf(to, "{\"line\": %zu, \"status\": %d", item->line, result->status);
    print_member(to, "run", item->kind->name);
    for (size_t i = 0; i < item->kind->firsts; i++) {
        print_member(to, item->kind->first[i], item->operands[i]);
    }
    print_member(to, item_input_name(item), item_input(item));
    if (item->kind->output != NULL) {
        print_member(to, item->kind->output, item_output(item));
    }
    if (result->entry != NULL) {
        print_entry(to, item, result->entry);
        print_answer(to, result->entry, result->status);
    }
    if (result->signal != 0) {
        fprintf(to, ", \"signal\": %d", result->signal);
    }
    if (result->said != NULL && result->said[0] != '\0') {
        print_member(to, "said", result->said);
    }
    fputs("}\n", to);
}

bool results_add(struct results *results, const struct result *result) {
    struct text text;
    if (!text_begin(&text)) {
        complain("memory", errno);
        return false;
    }
    print_result(text.to, result);
    bool good = text_end(&text);
    if (results->name == NULL) {
        progress_wipe(); /* both may be the same terminal */
    }
    good = good && append_line(results->file, text.at, text.len);
    if (!good) {
        complain(results->name == NULL ? "standard output" : results->name, errno);
    }
    text_free(&text);
    return good;
}
