#include "report/entry.h"

#include <inttypes.h>
#include <string.h>
#include <sys/stat.h>
#include <time.h>

#include "formats/json.h"
#include "formats/numbers.h"
#include "formats/sha256.h"
#include "mahyrei_plain.h"
#include "report/messages.h"
#include "report/status.h"
#include "system/descriptors.h"

/* ---- filling it in */

void entry_begin(struct entry *entry, const char *what) {
    *entry = (struct entry){.what = what,
                            .header = "-",
                            .marker_digits = "-",
                            .marker = NO_SIZE,
                            .frames = {.size = NO_SIZE, .digest = "-"},
                            .slots = {.size = NO_SIZE, .digest = "-"},
                            .capture = {.size = NO_SIZE, .digest = "-"},
                            .slot = "-",
                            .eight = {.digits = "-"},
                            .ten = {.digits = "-"},
                            .rate = "-",
                            .blocks = {.size = NO_SIZE, .digest = "-"},
                            .words = {.size = NO_SIZE, .digest = "-"},
                            .list = {.size = NO_SIZE, .digest = "-"},
                            .bit = "-",
                            .rack = {.caller = "-", .owner = "-", .place = "-", .to = "-"}};
}

void entry_capture(struct entry *entry, const char *capture) {
    entry->kind = CAPTURE_ENTRY;
    entry->capture.name = capture;
}

void entry_slot(struct entry *entry, uint64_t slot) {
    snprintf(entry->slot, sizeof entry->slot, "%" PRIu64, slot);
}

void entry_forms(struct entry *entry) {
    entry->kind = FORM_ENTRY;
}

void entry_fades(struct entry *entry, const char *list) {
    entry->kind = FADES_ENTRY;
    entry->list.name = list;
}

void entry_pass(struct entry *entry, const char *blocks, const char *words) {
    entry->kind = PASS_ENTRY;
    entry->blocks.name = blocks;
    entry->words.name = words;
}

void entry_uplink(struct entry *entry, const char *frames, const char *slots) {
    entry->kind = UPLINK_ENTRY;
    entry->frames.name = frames;
    entry->slots.name = slots;
}

void entry_spread(struct entry *entry) {
    entry->kind = SPREAD_ENTRY;
}

void entry_bit(struct entry *entry, uint64_t bit) {
    snprintf(entry->bit, sizeof entry->bit, "%" PRIu64, bit);
}

void entry_rack(struct entry *entry, const char *area) {
    entry->kind = RACK_ENTRY;
    entry->rack.area = area;
}

static void number_text(char text[ENTRY_NUMBER], uint64_t number) {
    snprintf(text, ENTRY_NUMBER, "%" PRIu64, number);
}

void entry_place(struct entry *entry, uint64_t caller, uint64_t owner, uint64_t place) {
    number_text(entry->rack.caller, caller);
    number_text(entry->rack.owner, owner);
    number_text(entry->rack.place, place);
}

void entry_caller(struct entry *entry, uint64_t caller) {
    number_text(entry->rack.caller, caller);
}

void entry_borrower(struct entry *entry, uint64_t to) {
    number_text(entry->rack.to, to);
}

void entry_no_borrower(struct entry *entry) {
    snprintf(entry->rack.to, sizeof entry->rack.to, "none");
}

void entry_rate(struct entry *entry, uint64_t rate) {
    if (rate_name(rate) != NULL) {
        snprintf(entry->rate, sizeof entry->rate, "%s", rate_name(rate));
    } else {
        snprintf(entry->rate, sizeof entry->rate, "%" PRIu64, rate);
    }
}

/* Headers and markers have capital letters, as in the specification; digests have small ones, as
 * programs for them print. */
static void digits_of(const char digits[16], const uint8_t *bytes, size_t len, char *text,
                      size_t room) {
    size_t at = 0;
    for (; at < len && 2 * at + 2 < room; at++) {
        text[2 * at] = digits[bytes[at] >> 4];
        text[2 * at + 1] = digits[bytes[at] & 15];
    }
    text[2 * at] = '\0';
}

static const char CAPITALS[] = "0123456789ABCDEF", SMALL[] = "0123456789abcdef";

void entry_header(struct entry *entry, const uint8_t *header, size_t len) {
    digits_of(CAPITALS, header, len, entry->header, sizeof entry->header);
}

void entry_form(struct entry_form *form, const uint8_t *header, size_t len) {
    digits_of(CAPITALS, header, len, form->digits, sizeof form->digits);
}

void entry_marker(struct entry *entry, const uint8_t *marker, size_t len) {
    entry->marker = len;
    digits_of(CAPITALS, marker, len, entry->marker_digits, sizeof entry->marker_digits);
}

void entry_part(struct entry_part *part, const uint8_t *at, size_t len, bool whole) {
    part->size = len;
    if (whole) {
        uint8_t digest[SHA256_BYTES];
        sha256(at, len, digest);
        digits_of(SMALL, digest, sizeof digest, part->digest, sizeof part->digest);
    }
}

void entry_answer(struct entry *entry, uint64_t answer) {
    entry->answered = true;
    entry->answer = answer;
}

void entry_refuse(struct entry *entry, uint64_t answer, const char *sentence_of_8) {
    entry_answer(entry, answer);
    entry->sentence = mahyrei_answer_number(answer) == MAHYREI_BAD_LENGTH ? sentence_of_8 : NULL;
    say_refusal(answer, sentence_of_8);
}

const char *entry_sentence(const struct entry *entry) {
    return entry->sentence != NULL ? entry->sentence
                                   : mahyrei_sentence(mahyrei_answer_number(entry->answer));
}

/* ---- printing it */

enum { TIME_TEXT = 32 };

/* Universal time, so that lines of several machines fit together. */
static void time_text(char text[TIME_TEXT]) {
    const time_t now = time(NULL);
    struct tm parts;
    if (gmtime_r(&now, &parts) == NULL ||
        strftime(text, TIME_TEXT, "%Y-%m-%dT%H:%M:%SZ", &parts) == 0) {
        snprintf(text, TIME_TEXT, "-");
    }
}

static void print_number(FILE *to, const char *name, bool known, uint64_t number) {
    if (known) {
        fprintf(to, " %s=%" PRIu64, name, number);
    } else {
        fprintf(to, " %s=-", name);
    }
}

static void print_size(FILE *to, const char *name, size_t size) {
    print_number(to, name, size != NO_SIZE, size);
}

static void print_part(FILE *to, const char *what, const struct entry_part *part) {
    print_size(to, what, part->size);
    fprintf(to, " %s-sha256=%s %s-file=", what, part->digest, what);
    print_escaped(to, part->name == NULL ? "-" : part->name, true);
}

static void print_run(FILE *to, const struct entry *entry) {
    fprintf(to, " header=%s", entry->header);
    print_size(to, "marker", entry->marker);
    fprintf(to, " marker-symbols=%s", entry->marker_digits);
    print_part(to, "frames", &entry->frames);
    print_part(to, "slots", &entry->slots);
}

static void print_capture(FILE *to, const struct entry *entry) {
    print_run(to, entry);
    print_part(to, "capture", &entry->capture);
    fprintf(to, " slot=%s", entry->slot);
}

static void print_form(FILE *to, const char *what, const struct entry_form *form) {
    fprintf(to, " %s=%s %s-file=", what, form->digits, what);
    print_escaped(to, form->name == NULL ? "-" : form->name, true);
}

static void print_forms(FILE *to, const struct entry *entry) {
    print_form(to, "eight", &entry->eight);
    print_form(to, "ten", &entry->ten);
}

static void print_fades(FILE *to, const struct entry *entry) {
    fprintf(to, " header=%s", entry->header);
    print_part(to, "list", &entry->list);
}

static void print_pass(FILE *to, const struct entry *entry) {
    fprintf(to, " rate=%s", entry->rate);
    print_part(to, "blocks", &entry->blocks);
    print_part(to, "words", &entry->words);
}

static void print_spread(FILE *to, const struct entry *entry) {
    fprintf(to, " rate=%s bit=%s", entry->rate, entry->bit);
}

static void print_uplink(FILE *to, const struct entry *entry) {
    print_part(to, "frames", &entry->frames);
    print_part(to, "slots", &entry->slots);
}

/* The answer has a place too, of another kind. */
static void print_rack(FILE *to, const struct entry *entry) {
    const struct entry_rack *const rack = &entry->rack;
    fprintf(to, " area-file=");
    print_escaped(to, rack->area, true);
    fprintf(to, " caller=%s owner=%s rack-place=%s to=%s header=%s", rack->caller, rack->owner,
            rack->place, rack->to, entry->header);
}

void entry_print(FILE *to, const struct entry *entry, int status) {
    static void (*const PRINT[])(FILE *, const struct entry *) = {
        [RUN_ENTRY] = print_run,       [CAPTURE_ENTRY] = print_capture,
        [FORM_ENTRY] = print_forms,    [FADES_ENTRY] = print_fades,
        [PASS_ENTRY] = print_pass,     [SPREAD_ENTRY] = print_spread,
        [UPLINK_ENTRY] = print_uplink, [RACK_ENTRY] = print_rack};
    char now[TIME_TEXT];
    time_text(now);
    fprintf(to, "%s %s", now, entry->what);
    PRINT[entry->kind](to, entry);
    print_number(to, "answer", entry->answered, mahyrei_answer_number(entry->answer));
    print_number(to, "place", entry->answered, mahyrei_answer_place(entry->answer));
    fprintf(to, " status=%d\n", status);
}

/* ---- for somebody at a terminal */

void entry_say(const struct entry *entry) {
    struct stat status;
    if (entry->in_words[0] == '\0') {
        return;
    }
    if (entry->made == NULL) {
        remark(NULL, "%s", entry->in_words);
    } else {
        const bool on_disk = stat(entry->made, &status) == 0 && S_ISREG(status.st_mode);
        remark(entry->in_words, "%s%s", is_dash(entry->made) ? "standard output" : entry->made,
               on_disk ? " on disk" : "");
    }
}

/* ---- for programs */

static void print_text_member(FILE *to, const char *name, const char *text) {
    fprintf(to, ",\"%s\":", name);
    if (text == NULL || strcmp(text, "-") == 0) {
        fputs("null", to);
    } else {
        json_print(to, text);
    }
}

static void print_part_members(FILE *to, const char *what, const struct entry_part *part) {
    char name[32];
    print_text_member(to, what, part->name);
    if (part->size != NO_SIZE) {
        fprintf(to, ",\"%s_bytes\":%zu", what, part->size);
    } else {
        fprintf(to, ",\"%s_bytes\":null", what);
    }
    snprintf(name, sizeof name, "%s_sha256", what);
    print_text_member(to, name, part->digest);
}

void entry_print_answer_json(FILE *to, const struct entry *entry, int status) {
    const unsigned number = mahyrei_answer_number(entry->answer);
    if (!entry->answered) {
        fputs(",\"number\":null,\"place\":null", to);
        return;
    }
    fprintf(to, ",\"number\":%u,\"place\":%" PRIu64, number, mahyrei_answer_place(entry->answer));
    if (status != FAILED) {
        print_text_member(to, "sentence", entry_sentence(entry));
    }
}

void entry_print_json(FILE *to, const struct entry *entry, int status) {
    fprintf(to, "{\"run\":\"%s\",\"status\":%d", entry->what, status);
    print_text_member(to, "header_hex", entry->header);
    print_text_member(to, "marker_hex", entry->marker_digits);
    print_part_members(to, "frames", &entry->frames);
    print_part_members(to, "slots", &entry->slots);
    if (entry->kind == CAPTURE_ENTRY) {
        print_part_members(to, "capture", &entry->capture);
        fprintf(to, ",\"slot\":%s", strcmp(entry->slot, "-") == 0 ? "null" : entry->slot);
    }
    entry_print_answer_json(to, entry, status);
    fputs("}\n", to);
}
