#include "runs/sheet.h"

#include <inttypes.h>

#include "files/inputs.h"
#include "formats/json.h"
#include "formats/numbers.h"

unsigned sheet_of(const struct bytes *header, struct sheet *sheet) {
    mahyrei_header_fields(header->at, header->len, &sheet->fields);
    return mahyrei_sizes(header->at, header->len, &sheet->sizes);
}

uint64_t symbol_slots(const struct sheet *sheet) {
    return sheet->fields.copies * sheet->sizes.group;
}

size_t slots_limit(const struct sheet *sheet) {
    return sheet->sizes.slot_bytes < SLOTS_LIMIT ? SLOTS_LIMIT : sheet->sizes.slot_bytes + 1;
}

void print_sheet(FILE *to, const struct sheet *sheet, unsigned number) {
    const struct mahyrei_fields *const fields = &sheet->fields;
    const struct mahyrei_sizes *const sizes = &sheet->sizes;
    if (number != MAHYREI_ACCEPTED) {
        fprintf(to, "no %u\n", number);
        return;
    }
    fprintf(to,
            "%s %" PRIu64 " %" PRIu64 " %" PRIu64 " %" PRIu64 " %" PRIu64 " %" PRIu64 " %" PRIu64
            " %" PRIu64 " %" PRIu64 " %" PRIu64 "\n",
            rate_name(fields->rate), sizes->M, fields->N, fields->B, fields->F, fields->W,
            fields->A, sizes->C, sizes->symbols, sizes->slots, fields->copies);
}

/* ---- by name */

/* One field or size: its name, its value, and what it is. */
struct row {
    const char *name;
    uint64_t value;
    const char *meaning;
};

enum { FIELD_ROWS = 7, ROWS = 20 };

/* The fields but the rate, which is no number to read; then what follows from them. */
static void fill_rows(const struct sheet *sheet, struct row rows[ROWS]) {
    const struct mahyrei_fields *const fields = &sheet->fields;
    const struct mahyrei_sizes *const sizes = &sheet->sizes;
    const struct row all[ROWS] = {
        {"m", fields->m, "bits of a symbol"},
        {"N", fields->N, "rows of the channel interleaver"},
        {"B", fields->B, "step by which its rows grow"},
        {"F", fields->F, "bytes of a frame"},
        {"W", fields->W, "symbols of the marker"},
        {"A", fields->A, "frames"},
        {"copies", fields->copies, "how often each symbol is sent"},
        {"M", sizes->M, "pulse order"},
        {"k", sizes->k, "information bits of a block"},
        {"S", sizes->S, "symbols of a word"},
        {"C", sizes->C, "blocks, and words"},
        {"R", sizes->R, "rows of S symbols, each after a marker"},
        {"pooled", sizes->pooled, "symbols of the run, markers counted"},
        {"symbols", sizes->symbols, "the same with all copies"},
        {"group", sizes->group, "slots of a symbol, guard slots counted"},
        {"slots", sizes->slots, "of the run"},
        {"marker_bytes", sizes->marker_bytes, "of MARKER"},
        {"frame_bytes", sizes->frame_bytes, "of FRAMES"},
        {"slot_bytes", sizes->slot_bytes, "of SLOTS"},
        {"delay_bytes", sizes->delay_bytes, "of the area of a delay line"},
    };
    for (int i = 0; i < ROWS; i++) {
        rows[i] = all[i];
    }
}

/* How many rows there are for a header: none, its fields, or all. */
static int row_count(const struct bytes *header, unsigned number) {
    return number == MAHYREI_ACCEPTED ? ROWS : header->len == MAHYREI_HEADER_BYTES ? FIELD_ROWS : 0;
}

static void print_digits(FILE *to, const struct bytes *header) {
    for (size_t i = 0; i < header->len; i++) {
        fprintf(to, "%02X", header->at[i]);
    }
}

static const char *rate_text(const struct sheet *sheet) {
    const char *const name = rate_name(sheet->fields.rate);
    return name == NULL ? "none" : name;
}

void print_sheet_long(FILE *to, const struct bytes *header, const struct sheet *sheet,
                      unsigned number) {
    struct row rows[ROWS];
    const int count = row_count(header, number);
    fill_rows(sheet, rows);
    fprintf(to, "%-14s", "header");
    print_digits(to, header);
    fputc('\n', to);
    if (count > 0) {
        fprintf(to, "%-14s%-12s %s\n", "rate", rate_text(sheet), "code rate");
    }
    for (int i = 0; i < count; i++) {
        fprintf(to, "%-14s%-12" PRIu64 " %s\n", rows[i].name, rows[i].value, rows[i].meaning);
    }
    if (number != MAHYREI_ACCEPTED) {
        fprintf(to, "%-14s%-12u %s\n", "no", number, mahyrei_sentence(number));
    }
}

void print_sheet_json(FILE *to, const struct bytes *header, const struct sheet *sheet,
                      unsigned number) {
    struct row rows[ROWS];
    const int count = row_count(header, number);
    fill_rows(sheet, rows);
    fputs("{\"header\":\"", to);
    print_digits(to, header);
    fprintf(to, "\",\"accepted\":%s,\"number\":%u", number == MAHYREI_ACCEPTED ? "true" : "false",
            number);
    if (number != MAHYREI_ACCEPTED) {
        fputs(",\"sentence\":", to);
        json_print(to, mahyrei_sentence(number));
    }
    if (count > 0) {
        fprintf(to, ",\"rate\":\"%s\"", rate_text(sheet));
    }
    for (int i = 0; i < count; i++) {
        fprintf(to, ",\"%s\":%" PRIu64, rows[i].name, rows[i].value);
    }
    fputs("}\n", to);
}
