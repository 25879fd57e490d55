#include "report/messages.h"

#include <inttypes.h>
#include <stdarg.h>
#include <string.h>
#include <unistd.h>

#include "formats/text.h"
#include "mahyrei_plain.h"
#include "report/progress.h"
#include "system/appending.h"
#include "system/descriptors.h"

void print_escaped(FILE *to, const char *text, bool blanks) {
    static const char PLAIN[] = "\n\t\r\\", LETTERS[] = "ntr\\";
    for (; *text != '\0'; text++) {
        const unsigned char c = (unsigned char)*text;
        const char *const found = strchr(PLAIN, *text);
        if (found != NULL) {
            fprintf(to, "\\%c", LETTERS[found - PLAIN]);
        } else if (c < ' ' || c > '~' || (blanks && c == ' ')) {
            fprintf(to, "\\x%02X", c);
        } else {
            fputc(c, to);
        }
    }
}

/* A line that is said goes out whole, in one write. */
static bool begin(struct text *line) {
    if (!text_begin(line)) {
        static const char TEXT[] = "mahyrei: no memory is left to say what was to be said\n";
        (void)write_all(STDERR_FILENO, TEXT, sizeof TEXT - 1);
        return false;
    }
    fputs("mahyrei: ", line->to);
    return true;
}

/* Where even this fails, there is nobody left to tell. Standard error may be a log, whose last line
 * was cut off. */
static void say(struct text *line, const char *end) {
    progress_stop();
    fputs(end, line->to);
    if (text_end(line)) {
        (void)append_line(STDERR_FILENO, line->at, line->len);
    }
    text_free(line);
}

static void complain_parts(const char *what, const char *step, const char *where, const char *why) {
    struct text line;
    if (!begin(&line)) {
        return;
    }
    print_escaped(line.to, what, false);
    if (step != NULL && where != NULL) {
        fprintf(line.to, ": %s ", step);
        print_escaped(line.to, where, false);
    }
    fprintf(line.to, ": %s", why);
    say(&line, "\n");
}

void complain_text(const char *what, const char *why) {
    complain_parts(what, NULL, NULL, why);
}

void complain(const char *what, int error) {
    complain_parts(what, NULL, NULL, strerror(error));
}

void complain_at(const char *what, const char *step, const char *where, int error) {
    complain_parts(what, step, where, strerror(error));
}

void remark(const char *about, const char *form, ...) {
    struct text line;
    va_list arguments;
    if (!begin(&line)) {
        return;
    }
    if (about != NULL) {
        print_escaped(line.to, about, false);
        fputs(": ", line.to);
    }
    va_start(arguments, form);
    vfprintf(line.to, form, arguments);
    va_end(arguments);
    say(&line, "\n");
}

void question(const char *about, const char *what) {
    struct text line;
    if (begin(&line)) {
        print_escaped(line.to, about, false);
        fprintf(line.to, ": %s", what);
        say(&line, "");
    }
}

void say_refusal(uint64_t answer, const char *sentence_of_8) {
    const unsigned number = mahyrei_answer_number(answer);
    const char *const sentence = number == MAHYREI_BAD_LENGTH && sentence_of_8 != NULL
                                     ? sentence_of_8
                                     : mahyrei_sentence(number);
    remark(NULL, "refused, number %u, place %" PRIu64 ": %s", number, mahyrei_answer_place(answer),
           sentence == NULL ? "No call gives this number." : sentence);
}
