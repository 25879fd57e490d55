#include "pictures/svg.h"

#include <inttypes.h>
#include <stdbool.h>
#include <string.h>

#include "formats/utf8.h"

const char BOLD[] = " font-weight=\"bold\"";
const char PALE[] = " fill=\"" GREY "\"";
const char PALE_RIGHT[] = " fill=\"" GREY "\" text-anchor=\"end\"";

void svg_begin(FILE *to, const char *name, uint64_t width, uint64_t height) {
    fprintf(to,
            "<svg xmlns=\"http://www.w3.org/2000/svg\" viewBox=\"0 0 %" PRIu64 " %" PRIu64
            "\" width=\"%" PRIu64 "\" height=\"%" PRIu64
            "\" font-family=\"Helvetica, Arial, sans-serif\" fill=\"" INK "\">\n<title>",
            width, height, width, height);
    print_xml(to, name);
    fprintf(to, "</title>\n<rect width=\"%" PRIu64 "\" height=\"%" PRIu64 "\" fill=\"#ffffff\"/>\n",
            width, height);
}

void svg_end(FILE *to) {
    fputs("</svg>\n", to);
}

/* XML has no place for control characters, U+FFFE and U+FFFF, nor for what is not UTF-8. */
static bool is_xml(const char *text, size_t length) {
    return length > 0 && !(length == 1 && (*text < ' ' || *text == 0x7F)) &&
           strncmp(text, "\xEF\xBF\xBE", 3) != 0 && strncmp(text, "\xEF\xBF\xBF", 3) != 0;
}

void print_xml(FILE *to, const char *text) {
    for (size_t length; *text != '\0'; text += length) {
        length = utf8_length(text);
        if (!is_xml(text, length)) {
            fputc('?', to);
            length = length == 0 ? 1 : length;
        } else if (*text == '&' || *text == '<' || *text == '>') {
            fprintf(to, "&#%d;", *text);
        } else {
            fwrite(text, 1, length, to);
        }
    }
}

enum { SHORT_MOST = 56, SHORT_HALF = 27 }; /* bytes */

/* Characters of UTF-8 are not cut: their further bytes begin with the bits 10. */
void print_short(FILE *to, const char *text) {
    const size_t len = strlen(text);
    char first[SHORT_HALF + 4];
    if (len <= SHORT_MOST) {
        print_xml(to, text);
        return;
    }
    size_t end = SHORT_HALF, from = len - SHORT_HALF;
    while (end > 0 && (text[end] & 0xC0) == 0x80) {
        end--;
    }
    while (from < len && (text[from] & 0xC0) == 0x80) {
        from++;
    }
    memcpy(first, text, end);
    first[end] = '\0';
    print_xml(to, first);
    fputs("\xE2\x80\xA6", to); /* an ellipsis */
    print_xml(to, text + from);
}

uint64_t round_step(uint64_t length, uint64_t most) {
    uint64_t step = 1;
    for (unsigned i = 0; length / step > most; i++) {
        step = i % 3 == 1 ? step / 2 * 5 : step * 2;
    }
    return step;
}

void print_tick(FILE *to, uint64_t x, uint64_t y, uint64_t number) {
    fprintf(to,
            "<path stroke=\"" GREY "\" d=\"M%" PRIu64 " %" PRIu64 "v5\"/>\n<text x=\"%" PRIu64
            "\" y=\"%" PRIu64 "\" font-size=\"10\" text-anchor=\"middle\" fill=\"" GREY
            "\">%" PRIu64 "</text>\n",
            x, y, x, y + 16, number);
}

void open_text(FILE *to, uint64_t x, uint64_t y, unsigned size, const char *more) {
    fprintf(to, "<text x=\"%" PRIu64 "\" y=\"%" PRIu64 "\" font-size=\"%u\"%s>", x, y, size, more);
}

void print_text(FILE *to, uint64_t x, uint64_t y, unsigned size, const char *more,
                const char *text) {
    open_text(to, x, y, size, more);
    print_xml(to, text);
    fputs("</text>\n", to);
}

enum { LINE_MOST = 150 }; /* letters */

uint64_t print_sentence(FILE *to, uint64_t x, uint64_t y, const char *text) {
    for (; *text != '\0'; y += 15) {
        char line[LINE_MOST + 1];
        size_t len = strlen(text);
        len = len < LINE_MOST ? len : LINE_MOST;
        while (len > 1 && text[len] != '\0' && text[len] != ' ') {
            len--;
        }
        memcpy(line, text, len);
        line[len] = '\0';
        print_text(to, x, y, 12, "", line);
        text += len + strspn(text + len, " ");
    }
    return y;
}

void open_square(FILE *to, uint64_t x, uint64_t y, const char *colour) {
    fprintf(to, "<rect x=\"%" PRIu64 "\" y=\"%" PRIu64 "\" width=\"11\" height=\"11\" fill=\"%s\"",
            x, y, colour);
}

void print_key(FILE *to, uint64_t x, uint64_t y, const char *colour, const char *text,
               uint64_t count) {
    open_square(to, x, y - 10, colour);
    fputs(" stroke=\"" GREY "\" stroke-width=\"0.5\"/>\n", to); /* pale colours, on white */
    open_text(to, x + KEY_TEXT, y, 12, "");
    fprintf(to, "%s: %" PRIu64 "</text>\n", text, count);
}
