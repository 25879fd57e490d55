#include "runs/sigmf.h"

#include <errno.h>
#include <inttypes.h>
#include <stdlib.h>
#include <string.h>
#include <strings.h>

#include "files/inputs.h"
#include "formats/json.h"
#include "mahyrei_plain.h"
#include "report/messages.h"
#include "system/descriptors.h"

static const char DATA_SUFFIX[] = ".sigmf-data", META_SUFFIX[] = ".sigmf-meta";
static const char DATATYPE[] = "ru8", PACKING[] = "msb-first";

/* ---- names */

static bool is_data(const char *name) {
    const size_t length = strlen(name), suffix = sizeof DATA_SUFFIX - 1;
    return length > suffix && strcmp(name + length - suffix, DATA_SUFFIX) == 0;
}

char *sigmf_name(const char *slots) {
    const size_t kept = strlen(slots) - (is_data(slots) ? sizeof DATA_SUFFIX - 1 : 0);
    const size_t room = kept + sizeof META_SUFFIX;
    char *const name = malloc(room);
    if (name == NULL) {
        complain("memory", ENOMEM);
        return NULL;
    }
    snprintf(name, room, "%.*s%s", (int)kept, slots, META_SUFFIX);
    return name;
}

static void print_digest(char text[SIGMF_DIGEST], const struct bytes *data) {
    uint8_t digest[SHA512_BYTES];
    sha512(data->at, data->len, digest);
    for (size_t i = 0; i < SHA512_BYTES; i++) {
        snprintf(text + 2 * i, 3, "%02x", digest[i]);
    }
}

/* ---- reading */

enum { META_LIMIT = (64 << 20) + 1 };

enum { IS_DATATYPE, IS_DIGEST, IS_HEADER, IS_MARKER, IS_PACKING, IS_SLOT_RATE, WANTED };

static bool is_digits(const char *text) {
    return text[strspn(text, "0123456789abcdefABCDEF")] == '\0';
}

/* Digits in pairs, of as many bytes as there is room for in a slice of this limit. */
static bool take_digits(const char *text, size_t limit, struct bytes *to) {
    const size_t digits = text == NULL ? 1 : strlen(text);
    if (digits % 2 != 0 || digits / 2 >= limit || !is_digits(text) ||
        !make_buffer(digits / 2, to)) {
        return false;
    }
    for (size_t i = 0; i < to->len; i++) {
        const char pair[] = {text[2 * i], text[2 * i + 1], '\0'};
        to->at[i] = (uint8_t)strtoul(pair, NULL, 16);
    }
    return true;
}

/* What is wrong with the members, or NULL. */
static const char *take_members(const struct json_wanted wanted[WANTED], struct sigmf *sigmf) {
    const char *const datatype = wanted[IS_DATATYPE].is.text;
    const char *const packing = wanted[IS_PACKING].is.text;
    const char *const digest = wanted[IS_DIGEST].is.text;
    if (datatype == NULL || strcmp(datatype, DATATYPE) != 0) {
        return "core:datatype is not ru8, a byte of eight slots";
    }
    if (packing == NULL || strcmp(packing, PACKING) != 0) {
        return "mahyrei:packing is not msb-first; slots are packed eight to a byte, as pack does "
               "it";
    }
    if (!take_digits(wanted[IS_HEADER].is.text, HEADER_LIMIT, &sigmf->header)) {
        return "mahyrei:header is not a header in hexadecimal digits";
    }
    if (!take_digits(wanted[IS_MARKER].is.text, MARKER_LIMIT, &sigmf->marker)) {
        return "mahyrei:marker is not a marker in hexadecimal digits";
    }
    if (wanted[IS_SLOT_RATE].found && !wanted[IS_SLOT_RATE].is.whole) {
        return "mahyrei:slot_rate is not a whole number";
    }
    sigmf->slot_rate = wanted[IS_SLOT_RATE].is.number;
    if (wanted[IS_DIGEST].found) {
        if (digest == NULL || strlen(digest) != SIGMF_DIGEST - 1 || !is_digits(digest)) {
            return "core:sha512 does not have 128 hexadecimal digits";
        }
        memcpy(sigmf->digest, digest, SIGMF_DIGEST);
    }
    return NULL;
}

/* What is wrong with the document, or NULL. */
static const char *take_document(struct bytes *document, struct sigmf *sigmf) {
    struct json_wanted wanted[WANTED] = {
        [IS_DATATYPE] = {.name = "core:datatype"},  [IS_DIGEST] = {.name = "core:sha512"},
        [IS_HEADER] = {.name = "mahyrei:header"},   [IS_MARKER] = {.name = "mahyrei:marker"},
        [IS_PACKING] = {.name = "mahyrei:packing"}, [IS_SLOT_RATE] = {.name = "mahyrei:slot_rate"}};
    if (document->len == META_LIMIT) {
        return "larger than 64 MiB, and so not metadata of ours";
    }
    char *const text = realloc(document->at, document->len + 1);
    if (text == NULL) {
        return "there is no memory for it";
    }
    document->at = (uint8_t *)text;
    text[document->len] = '\0';
    if (strlen(text) != document->len || !json_take_part(text, "global", wanted, WANTED)) {
        return "this is not a JSON object with an object `global` in it, or has a name twice";
    }
    return take_members(wanted, sigmf);
}

bool sigmf_take_in(const char *name, struct sigmf *sigmf) {
    struct bytes document;
    *sigmf = (struct sigmf){0};
    bool good = take_in(name, META_LIMIT, &document);
    if (good) {
        const char *const wrong = take_document(&document, sigmf);
        if (wrong != NULL) {
            complain_text(name, wrong);
        }
        good = wrong == NULL;
    }
    free(document.at);
    return good;
}

void sigmf_free(struct sigmf *sigmf) {
    free(sigmf->header.at);
    free(sigmf->marker.at);
    *sigmf = (struct sigmf){0};
}

bool sigmf_is_of(const struct sigmf *sigmf, const char *name, const struct bytes *data) {
    char digest[SIGMF_DIGEST];
    if (sigmf->digest[0] == '\0') {
        return true;
    }
    print_digest(digest, data);
    if (strcasecmp(digest, sigmf->digest) != 0) {
        complain_text(name, "its core:sha512 is of other slots than these");
        return false;
    }
    return true;
}

/* ---- writing */

static void print_hex(FILE *to, const char *name, const struct bytes *bytes) {
    fprintf(to, "    \"%s\": \"", name);
    for (size_t i = 0; i < bytes->len; i++) {
        fprintf(to, "%02X", bytes->at[i]);
    }
    fputs("\",\n", to);
}

/* A file by another name than SigMF has for data is named in its metadata. */
static void print_file(FILE *to, const char *name) {
    const char *const slash = strrchr(name, '/');
    if (!is_dash(name) && !is_data(name)) {
        fputs("    \"core:dataset\": ", to);
        json_print(to, slash == NULL ? name : slash + 1);
        fputs(",\n", to);
    }
}

/* Eight slots are a sample, so the rate of samples has an eighth for its smallest part. */
static void print_rates(FILE *to, uint64_t slot_rate) {
    if (slot_rate != 0) {
        fprintf(to, "    \"core:sample_rate\": %" PRIu64 ".%03u,\n", slot_rate / 8,
                (unsigned)(slot_rate % 8) * 125);
        fprintf(to, "    \"mahyrei:slot_rate\": %" PRIu64 ",\n", slot_rate);
    }
}

void sigmf_print_begin(FILE *to, const struct sigmf_dataset *dataset) {
    fprintf(to, "{\n  \"global\": {\n    \"core:datatype\": \"%s\",\n", DATATYPE);
    fputs("    \"core:version\": \"1.0.0\",\n"
          "    \"core:recorder\": \"mahyrei " MAHYREI_VERSION "\",\n"
          "    \"core:description\": \"Pulse slots of high photon efficiency telemetry. A sample "
          "is a byte of eight slots, the first in its most significant bit.\",\n",
          to);
    print_file(to, dataset->name);
    if (dataset->data != NULL) {
        char digest[SIGMF_DIGEST];
        print_digest(digest, dataset->data);
        fprintf(to, "    \"core:sha512\": \"%s\",\n", digest);
    }
    print_rates(to, dataset->slot_rate);
    print_hex(to, "mahyrei:header", dataset->header);
    print_hex(to, "mahyrei:marker", dataset->marker);
    fprintf(to, "    \"mahyrei:packing\": \"%s\",\n", PACKING);
    fputs("    \"core:extensions\": [\n"
          "      {\"name\": \"mahyrei\", \"version\": \"1.0.0\", \"optional\": true}\n"
          "    ]\n  },\n"
          "  \"captures\": [\n    {\"core:sample_start\": 0}\n  ],\n"
          "  \"annotations\": [",
          to);
}

void sigmf_print_annotation(FILE *to, const struct sigmf_annotation *annotation, bool first) {
    const uint64_t start = annotation->slot / 8;
    const uint64_t end = (annotation->slot + annotation->slots + 7) / 8;
    fprintf(to,
            "%s\n    {\"core:sample_start\": %" PRIu64 ", \"core:sample_count\": %" PRIu64
            ",\n     \"core:label\": ",
            first ? "" : ",", start, end - start);
    json_print(to, annotation->label);
    fputs(", \"core:generator\": \"mahyrei " MAHYREI_VERSION "\",\n     \"core:comment\": ", to);
    json_print(to, annotation->comment);
    fprintf(to,
            ",\n     \"mahyrei:slot\": %" PRIu64 ", \"mahyrei:slots\": %" PRIu64
            ", \"mahyrei:number\": %u, \"mahyrei:place\": %" PRIu64 "}",
            annotation->slot, annotation->slots, mahyrei_answer_number(annotation->answer),
            mahyrei_answer_place(annotation->answer));
}

void sigmf_print_end(FILE *to) {
    fputs("\n  ]\n}\n", to);
}
