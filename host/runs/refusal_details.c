#include "runs/refusal_details.h"

#include <inttypes.h>
#include <stdio.h>
#include <string.h>

#include "files/inputs.h"
#include "report/messages.h"
#include "runs/layout.h"
#include "runs/sheet.h"
#include "system/descriptors.h"

static const char *shown(const char *operand) {
    return is_dash(operand) ? "standard input" : operand;
}

static const char *plural(size_t count) {
    return count == 1 ? "" : "s";
}

/* ---- files of another form */

/* Hexadecimal text in a file, where bytes are needed. */
static void say_if_text(const struct bytes *bytes, const char *operand) {
    static const char FORM[] = "0123456789abcdefABCDEF :xX\t\r\n", MARK[] = "\xEF\xBB\xBF";
    const size_t mark = sizeof MARK - 1; /* of UTF-8, with which some editors begin */
    size_t like = bytes->len > mark && memcmp(bytes->at, MARK, mark) == 0 ? mark : 0;
    while (like < bytes->len && bytes->at[like] != '\0' &&
           strchr(FORM, (char)bytes->at[like]) != NULL) {
        like++;
    }
    if (like > 3 && like == bytes->len && !is_text(operand)) {
        remark(shown(operand),
               "this holds hexadecimal text, but bytes are needed; give the text "
               "itself, as with \"$(cat FILE)\", or turn it into bytes, as xxd -r -p does");
    }
}

bool look_unpacked(const struct bytes *slots) {
    size_t pulses = 0, at = 0;
    while (at < slots->len && slots->at[at] <= 1) {
        pulses += slots->at[at++];
    }
    return pulses > 0 && at == slots->len;
}

static void say_if_unpacked(const struct bytes *bytes, const char *operand) {
    if (look_unpacked(bytes)) {
        remark(shown(operand),
               "each byte of it is 0 or 1: these look like slots that are not packed, "
               "a byte to a slot; `mahyrei pack` packs them");
    }
}

/* ---- headers: numbers 1 to 7, and 20 */

static void say_header_length(const struct bytes *header, size_t wanted, const char *about) {
    remark(about, "the header has %zu byte%s%s, and needs %zu", header->len, plural(header->len),
           header->len == HEADER_LIMIT ? " or more" : "", wanted);
}

static void say_header_bytes(const struct bytes *header, const char *about) {
    if (header->len != MAHYREI_HEADER_BYTES) {
        say_header_length(header, MAHYREI_HEADER_BYTES, about);
    } else {
        const uint8_t *const last = header->at + 6;
        remark(about, "the last 26 bits of the header are %X%02X%02X%02X", last[0] & 3U, last[1],
               last[2], last[3]);
    }
}

/* For whoever has headers of earlier versions. */
static void say_widen(const struct bytes *header, const char *about) {
    if (header->len == MAHYREI_OLD_HEADER_BYTES) {
        remark(about, "a header of eight bytes, as up to version 0.3, becomes one of ten by "
                      "`mahyrei widen OLD NEW`");
    }
}

void say_field(struct mahyrei_fields *fields, const char *about) {
    const char *wrong = NULL;
    const unsigned number = mahyrei_fields_check(fields, &wrong);
    if (number == MAHYREI_BAD_FIT) {
        remark(about, "N is %" PRIu64 ", B is %" PRIu64 ", and S is %" PRIu64, fields->N, fields->B,
               MAHYREI_WORD_BITS / fields->m);
    } else if (wrong != NULL) {
        remark(about, "%s is %" PRIu64, wrong, *mahyrei_field(fields, wrong));
    }
}

void say_header(unsigned number, const struct bytes *header, const char *operand) {
    struct mahyrei_fields fields;
    if (number == MAHYREI_BAD_HEADER) {
        say_header_bytes(header, shown(operand));
        say_widen(header, shown(operand));
        say_if_text(header, operand);
    } else {
        mahyrei_header_fields(header->at, header->len, &fields);
        say_field(&fields, shown(operand));
    }
}

/* Number 7 of a run, where W is in range; there are no sizes where the factor is wrong too. */
static void say_marker(const struct mahyrei_fields *fields, const struct bytes *marker,
                       const char *about) {
    const uint64_t M = UINT64_C(1) << fields->m;
    for (size_t i = 0; i < marker->len && i < fields->W; i++) {
        if (marker->at[i] >= M) {
            remark(about, "symbol %zu of the marker is %u, and M is %" PRIu64, i, marker->at[i], M);
            return;
        }
    }
}

/* ---- sizes: number 8 */

static void say_size(const struct bytes *bytes, const char *operand, const char *what,
                     size_t implied, size_t limit) {
    if (bytes->len != implied) {
        remark(shown(operand), "the %s have %zu byte%s%s, and the header implies %zu", what,
               bytes->len, plural(bytes->len), bytes->len == limit ? " or more" : "", implied);
    }
}

static void say_sizes(const struct sheet *sheet, const struct lent *run,
                      const struct operands *operands) {
    const struct mahyrei_sizes *const sizes = &sheet->sizes;
    say_size(&run->marker, operands->marker, "marker's symbols", sizes->marker_bytes, MARKER_LIMIT);
    if (run->marker.len != sizes->marker_bytes) {
        say_if_text(&run->marker, operands->marker);
    }
    if (operands->frames != NULL) {
        say_size(&run->frames, operands->frames, "frames", sizes->frame_bytes, FRAMES_LIMIT);
    }
    if (operands->slots != NULL) {
        say_size(&run->slots, operands->slots, "slots", sizes->slot_bytes, slots_limit(sheet));
        say_if_unpacked(&run->slots, operands->slots);
    }
}

/* Number 8 of a run in a capture. */
static void say_room(const struct sheet *sheet, const struct lent *run,
                     const struct operands *operands) {
    const uint64_t there = 8 * (uint64_t)run->capture.len;
    remark(shown(operands->capture),
           "the run has %" PRIu64 " slots, and from slot %" PRIu64 " on the capture has %" PRIu64,
           sheet->sizes.slots, operands->slot, operands->slot < there ? there - operands->slot : 0);
}

/* Number 19. */
static void say_no_marker(const struct sheet *sheet, const struct lent *run,
                          const struct operands *operands) {
    const uint64_t there = 8 * (uint64_t)run->capture.len;
    const uint64_t marker = sheet->fields.W * sheet->sizes.group;
    if (operands->from == 0) {
        remark(shown(operands->capture),
               "the capture has %" PRIu64 " slots, and the marker %" PRIu64, there, marker);
    } else {
        remark(shown(operands->capture),
               "from slot %" PRIu64 " on the capture has %" PRIu64
               " slots, and the marker %" PRIu64,
               operands->from, operands->from < there ? there - operands->from : 0, marker);
    }
    if (run->capture.at != NULL) {
        say_if_unpacked(&run->capture, operands->capture);
    }
    if (sheet->fields.copies > 1) {
        remark(shown(operands->header),
               "symbols are sent %" PRIu64 " times, and the search assumes that they are sent once",
               sheet->fields.copies);
    }
}

/* ---- places: numbers 9 to 18 */

/* What slots are said to be in: the capture that they were cut from, or their own file. */
static const char *shown_slots(const struct operands *operands) {
    return shown(operands->capture == NULL ? operands->slots : operands->capture);
}

static void say_spare(const struct sheet *sheet, const struct lent *run, const char *about) {
    const size_t last = sheet->sizes.slot_bytes - 1;
    if (last >= run->slots.len) {
        return;
    }
    remark(about, "the slots end with slot %" PRIu64 "; the last byte, %zu, is %02X",
           sheet->sizes.slots - 1, last, run->slots.at[last]);
}

static void say_symbol(const struct sheet *sheet, uint64_t symbol,
                       const struct operands *operands) {
    const uint64_t all = symbol_slots(sheet);
    const uint64_t first = operands->slot + symbol * all, last = first + all - 1;
    remark(shown_slots(operands),
           "symbol %" PRIu64 " is slots %" PRIu64 " to %" PRIu64 ", in bytes %" PRIu64
           " to %" PRIu64,
           symbol, first, last, first / 8, last / 8);
}

/* A word's symbols lie apart, so the first and the last of them are said. */
static void say_word(const struct sheet *sheet, uint64_t word, const struct operands *operands) {
    const uint64_t S = sheet->sizes.S, all = symbol_slots(sheet);
    uint64_t first = UINT64_MAX, last = 0;
    for (uint64_t at = 0; at < S; at++) {
        const uint64_t symbol = symbol_of(sheet, word, at);
        first = symbol < first ? symbol : first;
        last = symbol > last ? symbol : last;
    }
    const uint64_t from = operands->slot + first * all;
    const uint64_t to = operands->slot + last * all + all - 1;
    remark(shown_slots(operands),
           "word %" PRIu64 " has its symbols from %" PRIu64 " to %" PRIu64 ": slots %" PRIu64
           " to %" PRIu64 ", bytes %" PRIu64 " to %" PRIu64,
           word, first, last, from, to, from / 8, to / 8);
}

/* A frame marker or the fill, by the word that its first bit is in. */
static void say_stream(const struct sheet *sheet, uint64_t frame, const char *what,
                       const struct operands *operands) {
    const uint64_t bit = frame * marked_bits(sheet);
    const uint64_t word = bit / sheet->sizes.k;
    remark(shown_slots(operands), "%s begins at bit %" PRIu64 " of the block of word %" PRIu64,
           what, bit % sheet->sizes.k, word);
    say_word(sheet, word, operands);
}

static void say_place(unsigned number, uint64_t place, const struct sheet *sheet,
                      const struct operands *operands) {
    switch (number) {
    case MAHYREI_BAD_PULSE:
    case MAHYREI_WRONG_MARKER:
    case MAHYREI_BAD_IDLE:
        say_symbol(sheet, place, operands);
        break;
    case MAHYREI_BAD_CODE:
    case MAHYREI_BAD_TERMINATION:
    case MAHYREI_BAD_CHECK:
        say_word(sheet, place, operands);
        break;
    case MAHYREI_BAD_FRAME_MARKER:
        say_stream(sheet, place, "the frame's marker", operands);
        break;
    case MAHYREI_BAD_FILL:
        say_stream(sheet, sheet->fields.A, "the fill", operands);
        break;
    default:
        break;
    }
}

void say_where(uint64_t answer, const struct lent *run, const struct operands *operands) {
    const unsigned number = mahyrei_answer_number(answer);
    struct sheet sheet;
    const unsigned refused = sheet_of(&run->header, &sheet);
    if (number == MAHYREI_BAD_MARKER && refused != MAHYREI_BAD_MARKER) {
        say_marker(&sheet.fields, &run->marker, shown(operands->marker));
        say_if_text(&run->marker, operands->marker);
    } else if (refused != MAHYREI_ACCEPTED) {
        say_header(refused, &run->header, operands->header);
    } else if (number == MAHYREI_BAD_LENGTH) {
        say_sizes(&sheet, run, operands);
    } else if (number == MAHYREI_BAD_SPARE) {
        say_spare(&sheet, run, shown_slots(operands));
    } else if (number == MAHYREI_NO_MARKER) {
        say_no_marker(&sheet, run, operands);
    } else {
        say_place(number, mahyrei_answer_place(answer), &sheet, operands);
    }
}

void say_where_cut(uint64_t answer, const struct lent *run, const struct operands *operands) {
    struct sheet sheet;
    const unsigned refused = sheet_of(&run->header, &sheet);
    if (refused != MAHYREI_ACCEPTED) {
        say_header(refused, &run->header, operands->header);
    } else if (mahyrei_answer_number(answer) == MAHYREI_BAD_LENGTH) {
        say_room(&sheet, run, operands);
    }
}

/* ---- forms of headers */

static void say_old_header_bytes(const struct bytes *eight, const char *about) {
    if (eight->len != MAHYREI_OLD_HEADER_BYTES) {
        say_header_length(eight, MAHYREI_OLD_HEADER_BYTES, about);
    } else {
        remark(about, "the last 16 bits of the header are %02X%02X", eight->at[6], eight->at[7]);
    }
}

/* The fields of an old header are those of the same six bytes with factor 1. */
static void say_old_fields(const struct bytes *eight, const char *about) {
    uint8_t ten[MAHYREI_HEADER_BYTES] = {0};
    struct mahyrei_fields fields;
    memcpy(ten, eight->at, 6);
    mahyrei_header_fields(ten, sizeof ten, &fields);
    fields.copies = 1;
    say_field(&fields, about);
}

void say_where_in_form(unsigned number, const struct forms *forms, bool widening,
                       const char *operand) {
    if (widening && number == MAHYREI_BAD_HEADER) {
        say_old_header_bytes(&forms->eight, shown(operand));
        say_if_text(&forms->eight, operand);
    } else if (widening) {
        say_old_fields(&forms->eight, shown(operand));
    } else if (number == MAHYREI_BAD_HEADER) {
        say_header_bytes(&forms->ten, shown(operand));
        say_if_text(&forms->ten, operand);
    } else if (number == MAHYREI_NO_OLD_HEADER) {
        struct mahyrei_fields fields;
        mahyrei_header_fields(forms->ten.at, forms->ten.len, &fields);
        remark(shown(operand), "copies is %" PRIu64, fields.copies);
    } else {
        say_header(number, &forms->ten, operand);
    }
}

/* ---- passes */

static void say_count(const struct pass *pass, bool writing, const char *about) {
    const size_t len = writing ? pass->blocks.len : pass->words.len;
    const size_t each = writing ? mahyrei_word_block_bytes(pass->rate) : MAHYREI_WORD_BYTES;
    const size_t limit = writing ? BLOCKS_LIMIT : WORDS_LIMIT;
    remark(about, "there are %zu byte%s%s; a pass has %zu for each %s, and 1 to %d of them", len,
           plural(len), len == limit ? " or more" : "", each, writing ? "block" : "word",
           MAHYREI_PASS_MAX);
}

void say_where_in_pass(uint64_t answer, const struct pass *pass, bool writing,
                       const char *operand) {
    const uint64_t first = mahyrei_answer_place(answer) * MAHYREI_WORD_BYTES;
    switch (mahyrei_answer_number(answer)) {
    case MAHYREI_BAD_RATE:
        remark(NULL, "the rate is %" PRIu64, pass->rate);
        break;
    case MAHYREI_BAD_LENGTH:
        say_count(pass, writing, shown(operand));
        break;
    default:
        remark(shown(operand), "word %" PRIu64 " is bytes %" PRIu64 " to %" PRIu64,
               mahyrei_answer_place(answer), first, first + MAHYREI_WORD_BYTES - 1);
    }
}

/* ---- uplinks */

static void say_uplink_count(const struct uplink *uplink, bool writing, const char *about) {
    const size_t len = writing ? uplink->frames.len : uplink->slots.len;
    const int each = writing ? MAHYREI_UPLINK_FRAME_BYTES : MAHYREI_UPLINK_CODEBLOCK_BYTES;
    const size_t limit = writing ? UPLINK_FRAMES_LIMIT : UPLINK_SLOTS_LIMIT;
    remark(about, "there are %zu byte%s%s; an uplink has %d for each %s, and 1 to %d of them", len,
           plural(len), len == limit ? " or more" : "", each, writing ? "frame" : "codeblock",
           MAHYREI_UPLINK_MAX);
}

/* Two groups of four slots are a byte. */
static void say_group(uint64_t group, const char *about) {
    const uint64_t bits = 2 * MAHYREI_UPLINK_CODEBLOCK_BYTES;
    remark(about,
           "group %" PRIu64 " is bit %" PRIu64 " of codeblock %" PRIu64 ", slots %" PRIu64
           " to %" PRIu64 ", in byte %" PRIu64,
           group, group % bits, group / bits, 4 * group, 4 * group + 3, group / 2);
}

void say_where_in_uplink(uint64_t answer, const struct uplink *uplink, bool writing,
                         const char *operand) {
    const uint64_t place = mahyrei_answer_place(answer),
                   first = place * MAHYREI_UPLINK_CODEBLOCK_BYTES;
    switch (mahyrei_answer_number(answer)) {
    case MAHYREI_BAD_LENGTH:
        say_uplink_count(uplink, writing, shown(operand));
        break;
    case MAHYREI_BAD_GROUP:
        say_group(place, shown(operand));
        break;
    default:
        remark(shown(operand), "codeblock %" PRIu64 " is bytes %" PRIu64 " to %" PRIu64, place,
               first, first + MAHYREI_UPLINK_CODEBLOCK_BYTES - 1);
    }
}

/* ---- racks */

void say_where_in_rack(uint64_t answer, const struct rack *rack, char *const operands[]) {
    const unsigned number = mahyrei_answer_number(answer);
    const size_t len = rack->area.len;
    if (number == MAHYREI_BAD_LENGTH) {
        remark(shown(operands[0]), "there are %zu byte%s%s, and a rack has %d", len, plural(len),
               len == RACK_LIMIT ? " or more" : "", MAHYREI_RACK_BYTES);
    } else if (number <= MAHYREI_BAD_MARKER || number == MAHYREI_BAD_COPIES) {
        say_header(number, &rack->header, operands[4]);
    }
}
