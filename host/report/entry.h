/* What a line of the log has of one call. */
#ifndef REPORT_ENTRY_H
#define REPORT_ENTRY_H

#include <stdbool.h>
#include <stddef.h>
#include <stdint.h>
#include <stdio.h>

/* A size that is not known, since nothing was read or written. */
#define NO_SIZE SIZE_MAX

enum { ENTRY_HEX = 72, ENTRY_DIGEST = 65, ENTRY_NUMBER = 24, ENTRY_WORDS = 160 };

/* What a line of the log is about, and so what is in it. */
enum entry_kind {
    RUN_ENTRY,
    CAPTURE_ENTRY,
    FORM_ENTRY,
    FADES_ENTRY,
    PASS_ENTRY,
    SPREAD_ENTRY,
    UPLINK_ENTRY,
    RACK_ENTRY
};

/* Frames or slots of a run or an uplink, a capture, blocks or words of a pass, as the log has
 * them. */
struct entry_part {
    const char *name; /* NULL where there is none */
    size_t size;
    char digest[ENTRY_DIGEST]; /* SHA-256 in hexadecimal digits */
};

/* A header in one of its forms, as the log has it. */
struct entry_form {
    const char *name;
    char digits[ENTRY_HEX];
};

/* A call on a rack, as the log has it. There is no digest of the area: nothing that is said depends
 * on places that are not the caller's to know of. */
struct entry_rack {
    const char *area;
    char caller[ENTRY_NUMBER], owner[ENTRY_NUMBER], place[ENTRY_NUMBER], to[ENTRY_NUMBER];
};

/* One call, as the log has it. */
struct entry {
    const char *what;
    enum entry_kind kind;
    char header[ENTRY_HEX], marker_digits[ENTRY_HEX]; /* a run's, and so the next two lines */
    size_t marker;
    struct entry_part frames, slots; /* an uplink's too */
    struct entry_part capture;       /* in which the run is, and where it begins */
    char slot[ENTRY_NUMBER];
    struct entry_form eight, ten;
    char rate[ENTRY_NUMBER];
    struct entry_part blocks, words; /* a pass's */
    struct entry_part list;          /* of fades */
    char bit[ENTRY_NUMBER];          /* a spread's */
    struct entry_rack rack;          /* a rack's, with the header above */
    bool answered;
    uint64_t answer;
    const char *sentence;       /* what was said of it, or NULL for the number's own */
    char in_words[ENTRY_WORDS]; /* what was done, for somebody at a terminal, or nothing */
    const char *made;           /* the output's name, or NULL */
};

void entry_begin(struct entry *entry, const char *what);
void entry_header(struct entry *entry, const uint8_t *header, size_t len);
void entry_marker(struct entry *entry, const uint8_t *marker, size_t len);
void entry_rate(struct entry *entry, uint64_t rate);
void entry_answer(struct entry *entry, uint64_t answer);

/* An answer that refuses goes into the entry and is said, with the sentence of 8 that the call at
 * hand has. */
void entry_refuse(struct entry *entry, uint64_t answer, const char *sentence_of_8);

/* The sentence of the answer, for those who have only the entry. */
const char *entry_sentence(const struct entry *entry);

/* It is about a run in a capture, which begins at a slot. */
void entry_capture(struct entry *entry, const char *capture);
void entry_slot(struct entry *entry, uint64_t slot);

/* It is about a header that goes from one form to the other. */
void entry_forms(struct entry *entry);
void entry_form(struct entry_form *form, const uint8_t *header, size_t len);

/* It is about fades over a run. */
void entry_fades(struct entry *entry, const char *list);

/* It is about a pass, an uplink, or a bit's spread. */
void entry_pass(struct entry *entry, const char *blocks, const char *words);
void entry_uplink(struct entry *entry, const char *frames, const char *slots);
void entry_spread(struct entry *entry);
void entry_bit(struct entry *entry, uint64_t bit);

/* It is about a rack: its file, who calls for which place, and whom it is lent to. */
void entry_rack(struct entry *entry, const char *area);
void entry_place(struct entry *entry, uint64_t caller, uint64_t owner, uint64_t place);
void entry_caller(struct entry *entry, uint64_t caller);
void entry_borrower(struct entry *entry, uint64_t to);
void entry_no_borrower(struct entry *entry);

/* Bytes that are not the whole file get no digest. */
void entry_part(struct entry_part *part, const uint8_t *at, size_t len, bool whole);

/* Says in words what was done, where there is something to say: `3 frames, 1,500 bytes, sound:
 * monday.frames on disk`. */
void entry_say(const struct entry *entry);

/* Prints its answer as members of an object of JSON, after others: number, place and, unless it
 * failed, the sentence. */
void entry_print_answer_json(FILE *to, const struct entry *entry, int status);

/* Prints the entry of a run as an object of JSON. */
void entry_print_json(FILE *to, const struct entry *entry, int status);

/* Prints the line, with the time and this status. */
void entry_print(FILE *to, const struct entry *entry, int status);

#endif
