#include "runs/fade_list.h"

#include <errno.h>
#include <inttypes.h>
#include <stdlib.h>
#include <string.h>

#include "report/messages.h"

/* ---- a line */

/* The next word of a line; its length is 0 where there is none. A # ends the line. */
static const char *next_word(const char *at, const char *end, size_t *len) {
    static const char BLANKS[] = " \t\r";
    *len = 0;
    while (at < end && *at != '\0' && strchr(BLANKS, *at) != NULL) {
        at++;
    }
    while (at + *len < end && at[*len] != '#' && at[*len] != '\0' &&
           strchr(BLANKS, at[*len]) == NULL) {
        ++*len;
    }
    return at;
}

static bool read_word(const char *word, size_t len, uint32_t *number) {
    uint64_t value = 0;
    for (size_t i = 0; i < len; i++) {
        if (word[i] < '0' || word[i] > '9') {
            return false;
        }
        value = value * 10 + (uint64_t)(word[i] - '0');
        if (value > UINT32_MAX) {
            return false;
        }
    }
    *number = (uint32_t)value;
    return true;
}

/* How many numbers the line has, up to two; -1 where there is anything else. */
static int take_line(const char *at, const char *end, uint32_t pair[2]) {
    for (int count = 0;; count++) {
        size_t len;
        at = next_word(at, end, &len);
        if (len == 0) {
            return at == end || *at == '#' ? count : -1;
        }
        if (count == 2 || !read_word(at, len, &pair[count])) {
            return -1;
        }
        at += len;
    }
}

/* ---- the list */

static size_t count_lines(const struct bytes *text) {
    size_t lines = 1;
    for (size_t i = 0; i < text->len; i++) {
        lines += text->at[i] == '\n';
    }
    return lines;
}

static bool take_lines(const char *name, const struct bytes *text, struct fade_list *list) {
    const char *at = (const char *)text->at, *const end = at + text->len;
    for (size_t line = 1; at != NULL && at < end; line++) {
        const char *const stop = memchr(at, '\n', (size_t)(end - at));
        const int got = take_line(at, stop == NULL ? end : stop, list->numbers + 2 * list->count);
        if (got == -1 || got == 1) {
            remark(name,
                   "line %zu is not the first symbol of a fade and its length, two numbers below "
                   "2^32",
                   line);
            return false;
        }
        if (got == 2) {
            list->lines[list->count++] = line;
        }
        at = stop == NULL ? NULL : stop + 1;
    }
    return true;
}

bool fade_list_take(const char *name, const struct bytes *text, struct fade_list *list) {
    const size_t most = count_lines(text);
    *list = (struct fade_list){0, calloc(most, 2 * sizeof(uint32_t)), calloc(most, sizeof(size_t))};
    if (list->numbers == NULL || list->lines == NULL) {
        complain("memory", ENOMEM);
        return false;
    }
    return take_lines(name, text, list);
}

void fade_list_free(struct fade_list *list) {
    free(list->numbers);
    free(list->lines);
    *list = (struct fade_list){0};
}

uint64_t fade_symbols(const struct fade_list *list) {
    uint64_t symbols = 0;
    for (size_t i = 0; i < list->count; i++) {
        symbols += list->numbers[2 * i + 1];
    }
    return symbols;
}

void say_fade(const struct fade_list *list, uint64_t symbols, const char *about) {
    uint64_t end = 0; /* of the fade before */
    for (size_t i = 0; i < list->count; i++) {
        const uint64_t first = list->numbers[2 * i], length = list->numbers[2 * i + 1];
        if (length == 0) {
            remark(about, "line %zu: the fade has no symbol", list->lines[i]);
            return;
        }
        if (first < end) {
            remark(about,
                   "line %zu: the fade begins at symbol %" PRIu64
                   ", and the one before it ends with symbol %" PRIu64,
                   list->lines[i], first, end - 1);
            return;
        }
        end = first + length;
        if (end > symbols) {
            remark(about,
                   "line %zu: the fade ends with symbol %" PRIu64
                   ", and the run with symbol %" PRIu64,
                   list->lines[i], end - 1, symbols - 1);
            return;
        }
    }
}
