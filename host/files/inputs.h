/*
 * Inputs are read whole. What goes wrong is said on standard error, where it happens; the caller
 * has only to end with status 2.
 */
#ifndef FILES_INPUTS_H
#define FILES_INPUTS_H

#include <stdbool.h>
#include <stddef.h>

#include "files/bytes.h"
#include "mahyrei.h"
#include "system/file_id.h"

/* How much of each operand is read: one byte more than any header or rate implies, of slots with
 * one copy (slots_limit in sheet.h). What is longer gets the same answer, and need not be held. */
enum {
    HEADER_LIMIT = MAHYREI_HEADER_BYTES + 1,
    MARKER_LIMIT = MAHYREI_MARKER_MAX + 1,
    FRAMES_LIMIT = MAHYREI_FRAMES_BYTES_MAX + 1,
    SLOTS_LIMIT = 182128720 + 1,
    BLOCKS_LIMIT = MAHYREI_PASS_MAX * MAHYREI_BLOCK_BYTES_MAX + 1,
    WORDS_LIMIT = MAHYREI_PASS_MAX * MAHYREI_WORD_BYTES + 1,
    UPLINK_FRAMES_LIMIT = MAHYREI_UPLINK_MAX * MAHYREI_UPLINK_FRAME_BYTES + 1,
    UPLINK_SLOTS_LIMIT = MAHYREI_UPLINK_MAX * MAHYREI_UPLINK_CODEBLOCK_BYTES + 1,
    RACK_LIMIT = MAHYREI_RACK_BYTES + 1
};

/* Reads a file, up to the limit: of a longer one the bytes after the limit are left alone, so that
 * an endless input ends too. A name that stands for an open file, such as /dev/stdin, is read from
 * where it is, like `-`. */
bool take_in(const char *name, size_t limit, struct bytes *to);

/* The same, and which file it was, by whatever name. */
bool take_in_known(const char *name, size_t limit, struct bytes *to, struct file_id *id);

/* Reads a capture to its end, which may be far, and says which file it was. What the machine's
 * memory cannot hold is a failure: a file that is larger, or more than half of that from anywhere
 * else, since it may have no end. */
bool take_in_all(const char *name, struct bytes *to, struct file_id *id);

/* Whether an operand is hexadecimal text: `hex:` and digits, or nothing but digits, with or without
 * 0x, and blanks and colons between bytes. */
bool is_text(const char *operand);

/* The same for a file or hexadecimal text. Text without `hex:` that is also the name of a file is
 * refused: nobody could say which was meant. */
bool take_in_text(const char *operand, size_t limit, struct bytes *to);

/* Which file an operand is now; text is none, and `-` is standard input. */
struct file_id input_id(const char *operand);

#endif
