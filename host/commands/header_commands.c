/* sheet, header and explain: what follows from a header, a header from its fields, and what a
 * number means. */
#include <inttypes.h>
#include <stdlib.h>
#include <string.h>

#include "commands/line.h"
#include "commands/printed_output.h"
#include "files/inputs.h"
#include "files/outputs.h"
#include "formats/numbers.h"
#include "library/library.h"
#include "report/messages.h"
#include "runs/refusal_details.h"
#include "runs/sheet.h"

/* ---- sheet */

/* The number is the proved library's. Plain C works out the sizes, so the two have to agree. */
static bool ask(const struct bytes *header, struct sheet *sheet, uint64_t *answer) {
    if (!library_header(header, answer)) {
        return false;
    }
    if (sheet_of(header, sheet) != mahyrei_answer_number(*answer)) {
        complain_text("header", "the library and the plain functions do not agree on it");
        return false;
    }
    return true;
}

/* What is printed of a header. */
struct printed_sheet {
    const struct line *line;
    const struct bytes *header;
    const struct sheet *sheet;
    unsigned number;
};

static bool print_as_told(FILE *to, const void *what) {
    const struct printed_sheet *const p = what;
    if (p->line->options[JSON] != NULL) {
        print_sheet_json(to, p->header, p->sheet, p->number);
    } else if (p->line->options[LONG] != NULL) {
        print_sheet_long(to, p->header, p->sheet, p->number);
    } else {
        print_sheet(to, p->sheet, p->number);
    }
    return true;
}

static enum status say_sheet(const struct line *line, const struct bytes *header,
                             struct entry *entry) {
    struct sheet sheet;
    uint64_t answer;
    entry_header(entry, header->at, header->len);
    if (!ask(header, &sheet, &answer)) {
        return FAILED;
    }
    entry_answer(entry, answer);
    if (answer == MAHYREI_ACCEPTED) {
        entry->marker = sheet.sizes.marker_bytes;
        entry->frames.size = sheet.sizes.frame_bytes;
        entry->slots.size = sheet.sizes.slot_bytes;
    } else {
        say_refusal(answer, NULL);
        say_header(mahyrei_answer_number(answer), header, line->operands[0]);
    }
    const struct printed_sheet printed = {line, header, &sheet, mahyrei_answer_number(answer)};
    if (!put_printed(NULL, print_as_told, &printed)) {
        return FAILED;
    }
    return answer == MAHYREI_ACCEPTED ? DONE : REFUSED;
}

enum status sheet_command(const struct line *line, struct entry *entry) {
    struct bytes header;
    const enum status status = take_in_text(line->operands[0], HEADER_LIMIT, &header)
                                   ? say_sheet(line, &header, entry)
                                   : FAILED;
    free(header.at);
    return status;
}

/* ---- header */

/* One word, NAME=VALUE. What is wrong with it, or NULL. */
static const char *take_field(const char *word, struct mahyrei_fields *fields,
                              struct mahyrei_fields *given) {
    char name[8] = "";
    const char *const equals = strchr(word, '=');
    if (equals == NULL || (size_t)(equals - word) >= sizeof name) {
        return "no such field; they are rate, m, N, B, F, W, A and copies, each as NAME=VALUE";
    }
    memcpy(name, word, (size_t)(equals - word));
    uint64_t *const field = mahyrei_field(fields, name), *const before = mahyrei_field(given, name);
    if (field == NULL) {
        return "no such field; they are rate, m, N, B, F, W, A and copies";
    }
    if ((*before)++ > 0) {
        return "this field is given twice";
    }
    if (strcmp(name, "rate") == 0) {
        return read_rate(equals + 1, field) ? NULL : "the rate is 1/3, 1/2 or 2/3";
    }
    return read_number(equals + 1, field) ? NULL : "the value is not a number";
}

/* All of them, except that symbols are sent once where nothing else is said. */
static bool take_fields(const struct line *line, struct mahyrei_fields *fields) {
    struct mahyrei_fields given = {0};
    for (int i = 0; i < line->count; i++) {
        const char *const wrong = take_field(line->operands[i], fields, &given);
        if (wrong != NULL) {
            complain_text(line->operands[i], wrong);
            return false;
        }
    }
    if (given.copies == 0) {
        fields->copies = given.copies = 1;
    }
    for (size_t i = 0; mahyrei_field_name(i) != NULL; i++) {
        if (*mahyrei_field(&given, mahyrei_field_name(i)) == 0) {
            complain_text(mahyrei_field_name(i), "this field is missing");
            return false;
        }
    }
    return true;
}

static bool print_header(const uint8_t *header) {
    char text[2 * MAHYREI_HEADER_BYTES + 2];
    for (size_t i = 0; i < MAHYREI_HEADER_BYTES; i++) {
        snprintf(text + 2 * i, 3, "%02X", header[i]);
    }
    text[sizeof text - 2] = '\n';
    return put_text(text, sizeof text - 1) && end_text();
}

enum status header_command(const struct line *line, struct entry *entry) {
    struct mahyrei_fields fields = {0};
    uint8_t header[MAHYREI_HEADER_BYTES];
    const struct bytes bytes = {header, sizeof header};
    const char *const name = line->options[OUTPUT];
    struct sheet sheet;
    uint64_t answer;
    (void)entry;
    struct output output = output_as_told(line, name);
    if (!take_fields(line, &fields) || (name != NULL && !output_ready(&output))) {
        return FAILED;
    }
    const unsigned number = mahyrei_header_make(&fields, header, NULL);
    if (number != MAHYREI_ACCEPTED) {
        say_refusal(number, NULL);
        say_field(&fields, "header");
        return REFUSED;
    }
    if (!ask(&bytes, &sheet, &answer)) {
        return FAILED;
    }
    return (name == NULL ? print_header(header) : output_put(&output, header, sizeof header))
               ? DONE
               : FAILED;
}

/* ---- explain */

enum status explain_command(const struct line *line, struct entry *entry) {
    uint64_t answer;
    char text[512];
    (void)entry;
    const char *const sentence = read_number(line->operands[0], &answer)
                                     ? mahyrei_sentence(mahyrei_answer_number(answer))
                                     : NULL;
    if (sentence == NULL) {
        complain_text(line->operands[0], "no call gives this number");
        return FAILED;
    }
    const int len =
        mahyrei_answer_place(answer) == 0
            ? snprintf(text, sizeof text, "%s\n", sentence)
            : snprintf(text, sizeof text, "number %u, place %" PRIu64 ": %s\n",
                       mahyrei_answer_number(answer), mahyrei_answer_place(answer), sentence);
    return put_text(text, (size_t)len) && end_text() ? DONE : FAILED;
}
