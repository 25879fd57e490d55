#include "formats/json.h"

#include <string.h>

#include "formats/utf8.h"

/* ---- reading */

static void skip_blanks(char **at) {
    *at += strspn(*at, " \t\r\n");
}

static bool skip(char **at, char wanted) {
    skip_blanks(at);
    if (**at != wanted) {
        return false;
    }
    (*at)++;
    return true;
}

/* Four hexadecimal digits. */
static bool take_digits(const char *at, unsigned *value) {
    static const char DIGITS[] = "0123456789abcdef0123456789ABCDEF";
    *value = 0;
    for (size_t i = 0; i < 4; i++) {
        const char *const found = at[i] == '\0' ? NULL : strchr(DIGITS, at[i]);
        if (found == NULL) {
            return false;
        }
        *value = *value << 4 | ((unsigned)(found - DIGITS) & 15);
    }
    return true;
}

static char *put_utf8(char *to, unsigned code) {
    if (code < 0x80) {
        *to++ = (char)code;
    } else if (code < 0x800) {
        *to++ = (char)(0xC0 | code >> 6);
        *to++ = (char)(0x80 | (code & 63));
    } else if (code < 0x10000) {
        *to++ = (char)(0xE0 | code >> 12);
        *to++ = (char)(0x80 | (code >> 6 & 63));
        *to++ = (char)(0x80 | (code & 63));
    } else {
        *to++ = (char)(0xF0 | code >> 18);
        *to++ = (char)(0x80 | (code >> 12 & 63));
        *to++ = (char)(0x80 | (code >> 6 & 63));
        *to++ = (char)(0x80 | (code & 63));
    }
    return to;
}

/* What follows \u, after which *at is; NULL where it is no character that can be in a name. */
static char *take_code(const char **at, char *to) {
    unsigned code, low;
    if (!take_digits(*at, &code) || code == 0) {
        return NULL;
    }
    *at += 4;
    if (code >= 0xDC80 && code <= 0xDCFF) { /* a byte that is no part of UTF-8 */
        *to++ = (char)(code - 0xDC00);
        return to;
    }
    if (code >= 0xD800 && code <= 0xDBFF) {
        if ((*at)[0] != '\\' || (*at)[1] != 'u' || !take_digits(*at + 2, &low) || low < 0xDC00 ||
            low > 0xDFFF) {
            return NULL;
        }
        *at += 6;
        code = 0x10000 + ((code - 0xD800) << 10) + (low - 0xDC00);
    }
    return code >= 0xDC00 && code <= 0xDFFF ? NULL : put_utf8(to, code);
}

/* One escaped character; *at is after the backslash. */
static char *take_escape(const char **at, char *to) {
    static const char LETTERS[] = "\"\\/bfnrt", VALUES[] = "\"\\/\b\f\n\r\t";
    const char letter = *(*at)++;
    if (letter == 'u') {
        return take_code(at, to);
    }
    const char *const found = letter == '\0' ? NULL : strchr(LETTERS, letter);
    if (found == NULL) {
        return NULL;
    }
    *to++ = VALUES[found - LETTERS];
    return to;
}

/* A text, unescaped where it lies, which never makes it longer; NULL where it is none. */
static const char *take_text(char **at) {
    if (!skip(at, '"')) {
        return NULL;
    }
    char *const text = *at, *to = text;
    const char *from = text;
    while (*from != '"') {
        if ((unsigned char)*from < ' ') {
            return NULL; /* the end of the line, too */
        }
        if (*from != '\\') {
            *to++ = *from++;
            continue;
        }
        from++;
        to = take_escape(&from, to);
        if (to == NULL) {
            return NULL;
        }
    }
    *at = text + (from - text) + 1;
    *to = '\0';
    return text;
}

static bool take_whole(char **at, uint64_t *number) {
    const char *const start = *at;
    *number = 0;
    for (; **at >= '0' && **at <= '9'; (*at)++) {
        const unsigned digit = (unsigned)(**at - '0');
        if (*number > (UINT64_MAX - digit) / 10) {
            return false;
        }
        *number = *number * 10 + digit;
    }
    return *at > start;
}

static bool take_member(char **at, struct json_object *object) {
    struct json_member member = {0};
    member.name = take_text(at);
    if (member.name == NULL || !skip(at, ':') || object->count == JSON_MEMBERS) {
        return false;
    }
    for (size_t i = 0; i < object->count; i++) {
        if (strcmp(object->members[i].name, member.name) == 0) {
            return false;
        }
    }
    skip_blanks(at);
    if (**at == '"') {
        member.text = take_text(at);
    } else if (strncmp(*at, "null", 4) == 0) {
        *at += 4;
    } else {
        member.whole = take_whole(at, &member.number);
    }
    /* Any other value is left where it is, and what should come next does not. */
    object->members[object->count++] = member;
    return true;
}

bool json_take(char *line, struct json_object *object) {
    char *at = line;
    object->count = 0;
    if (!skip(&at, '{')) {
        return false;
    }
    while (take_member(&at, object)) {
        if (skip(&at, '}')) {
            skip_blanks(&at);
            return *at == '\0';
        }
        if (!skip(&at, ',')) {
            return false;
        }
    }
    return false;
}

static const struct json_member *find(const struct json_object *object, const char *name) {
    for (size_t i = 0; i < object->count; i++) {
        if (strcmp(object->members[i].name, name) == 0) {
            return &object->members[i];
        }
    }
    return NULL;
}

const char *json_text(const struct json_object *object, const char *name) {
    const struct json_member *const member = find(object, name);
    return member == NULL ? NULL : member->text;
}

bool json_number(const struct json_object *object, const char *name, uint64_t *number) {
    const struct json_member *const member = find(object, name);
    *number = member == NULL ? 0 : member->number;
    return member != NULL && member->whole;
}

/* ---- documents */

static bool skip_digits(char **at) {
    const size_t digits = strspn(*at, "0123456789");
    *at += digits;
    return digits > 0;
}

static bool skip_numeral(char **at) {
    *at += **at == '-';
    if (**at == '0') {
        (*at)++; /* no digit may follow it */
    } else if (!skip_digits(at)) {
        return false;
    }
    if (**at == '.') {
        (*at)++;
        if (!skip_digits(at)) {
            return false;
        }
    }
    if (**at != 'e' && **at != 'E') {
        return true;
    }
    (*at)++;
    *at += **at == '-' || **at == '+';
    return skip_digits(at);
}

/* A value that has no others in it. */
static bool skip_single(char **at) {
    static const char *const WORDS[] = {"true", "false", "null"};
    for (size_t i = 0; i < sizeof WORDS / sizeof WORDS[0]; i++) {
        const size_t length = strlen(WORDS[i]);
        if (strncmp(*at, WORDS[i], length) == 0) {
            *at += length;
            return true;
        }
    }
    return **at == '"' ? take_text(at) != NULL : skip_numeral(at);
}

static bool skip_name(char **at) {
    return take_text(at) != NULL && skip(at, ':');
}

/* What is open, by what ends it. */
struct nest {
    char ends[JSON_DEPTH];
    size_t depth;
};

/* A value, or as much of it as comes before the first that is in it. The end of one that is empty
 * is left. */
static bool begin_value(char **at, struct nest *nest, bool *ended) {
    skip_blanks(at);
    const char first = **at;
    *ended = true;
    if (first != '{' && first != '[') {
        return skip_single(at);
    }
    if (nest->depth == JSON_DEPTH) {
        return false;
    }
    (*at)++;
    skip_blanks(at);
    const char end = first == '{' ? '}' : ']';
    nest->ends[nest->depth++] = end;
    *ended = **at == end;
    return *ended || end == ']' || skip_name(at);
}

/* A value of any kind, so deep in others. */
static bool skip_value(char **at, size_t before) {
    struct nest nest = {.depth = before};
    for (;;) {
        bool ended;
        if (!begin_value(at, &nest, &ended)) {
            return false;
        }
        if (!ended) {
            continue;
        }
        while (nest.depth > before && skip(at, nest.ends[nest.depth - 1])) {
            nest.depth--;
        }
        if (nest.depth == before) {
            return true;
        }
        if (!skip(at, ',') || (nest.ends[nest.depth - 1] == '}' && !skip_name(at))) {
            return false;
        }
    }
}

static bool take_value(char **at, size_t before, struct json_wanted *to) {
    skip_blanks(at);
    to->found = true;
    if (**at == '"') {
        to->is.text = take_text(at);
        return to->is.text != NULL;
    }
    char *end = *at;
    const bool digits = take_whole(&end, &to->is.number);
    if (!skip_value(at, before)) {
        return false;
    }
    to->is.whole = digits && end == *at;
    return true;
}

static struct json_wanted *find_wanted(struct json_wanted *wanted, size_t count, const char *name) {
    for (size_t i = 0; i < count; i++) {
        if (strcmp(wanted[i].name, name) == 0) {
            return &wanted[i];
        }
    }
    return NULL;
}

/* An object that is itself a value of the document. */
static bool take_wanted(char **at, struct json_wanted *wanted, size_t count) {
    if (!skip(at, '{')) {
        return false;
    }
    if (skip(at, '}')) {
        return true;
    }
    do {
        const char *const name = take_text(at);
        if (name == NULL || !skip(at, ':')) {
            return false;
        }
        struct json_wanted *const one = find_wanted(wanted, count, name);
        if (one == NULL ? !skip_value(at, 2) : one->found || !take_value(at, 2, one)) {
            return false;
        }
    } while (skip(at, ','));
    return skip(at, '}');
}

bool json_take_part(char *document, const char *part, struct json_wanted *wanted, size_t count) {
    char *at = document;
    bool found = false;
    if (!skip(&at, '{')) {
        return false;
    }
    do {
        const char *const name = take_text(&at);
        if (name == NULL || !skip(&at, ':')) {
            return false;
        }
        const bool is_part = strcmp(name, part) == 0;
        if (is_part ? found || !take_wanted(&at, wanted, count) : !skip_value(&at, 1)) {
            return false;
        }
        found = found || is_part;
    } while (skip(&at, ','));
    if (!skip(&at, '}')) {
        return false;
    }
    skip_blanks(&at);
    return found && *at == '\0';
}

/* ---- writing */

static bool is_control(const char *at, size_t length) {
    return (length == 1 && ((unsigned char)*at < ' ' || *at == 0x7F)) ||
           (length == 2 && (unsigned char)at[0] == 0xC2 && (unsigned char)at[1] < 0xA0);
}

void json_print(FILE *to, const char *text) {
    fputc('"', to);
    for (size_t length; *text != '\0'; text += length) {
        length = utf8_length(text);
        const unsigned last = (unsigned char)text[length == 2 ? 1 : 0];
        if (length == 0) {
            fprintf(to, "\\udc%02x", last);
            length = 1;
        } else if (is_control(text, length)) {
            fprintf(to, "\\u%04x", last);
        } else if (*text == '"' || *text == '\\') {
            fprintf(to, "\\%c", *text);
        } else {
            fwrite(text, 1, length, to);
        }
    }
    fputc('"', to);
}
