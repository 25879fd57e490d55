/*
 * Mahyrei: words and runs of CCSDS high photon efficiency optical telemetry.
 *
 * A word is the 15,120 bits made from one information block: randomizer, check, termination,
 * convolutional code, code interleaver, accumulator. mahyrei_word_write makes the word of a block;
 * mahyrei_word_read accepts a word only if some block makes it, and gives that block back.
 * mahyrei_pass_write and mahyrei_pass_read do the same for up to 211 of them in a call.
 * mahyrei_bit_spread says which coded bits change with one bit of a block.
 *
 * A run is a set of transfer frames turned into slots: frame markers, blocks, their words, PPM
 * symbols, channel interleaver, codeblock markers, slots with guard slots. Each symbol is sent
 * once, or on a faint link up to 32 times in a row. mahyrei_run_write makes the slots of the
 * frames; mahyrei_run_read pools the copies of each symbol, accepts slots only if the pooled
 * symbols are those of some frames, and gives those frames back. Where each symbol is sent once,
 * that is only if some frames make the slots, bit for bit. In a capture that begins on any slot,
 * mahyrei_run_find finds the first marker whose symbols are sent once, mahyrei_run_find_from the
 * first from a slot on, and mahyrei_run_cut packs the run that begins at a slot anew, so that
 * mahyrei_run_read can read it. The header says all of this; mahyrei_header_widen makes one from
 * the shorter header of earlier versions, and mahyrei_header_narrow goes back.
 * mahyrei_fades_count says of a header how many symbols of each word a list of fades would hit.
 * mahyrei_delay_write and mahyrei_delay_read are the channel interleaver and its way back a symbol
 * at a time, over an area, for whoever has no memory for its whole sequence.
 *
 * The rack keeps headers of four missions, four places each, in a lent area of 176 bytes.
 * mahyrei_rack_load, mahyrei_rack_read and mahyrei_rack_drop are for a mission's own places;
 * mahyrei_rack_lend lets one other mission read one of them. What a mission is told depends on its
 * own calls, and otherwise only on the owner's calls to places that were at some time lent to it.
 *
 * The uplink is apart from these: command frames of 64 bits, each a codeblock of 512 slots.
 * mahyrei_uplink_write makes the slots of the frames; mahyrei_uplink_read accepts slots only if
 * some frames make them, and gives those frames back. Pooling aside, no call corrects anything.
 *
 * Link with libmahyrei.a (-lmahyrei), which needs nothing but memcpy, memset and strcmp. All calls
 *   - are total: every number, every length and every content of the slices gets an answer;
 *   - work on the lent slices and less than 1 MiB of stack alone: no allocation, no state kept
 *     from call to call, so any number of threads may call at once;
 *   - write nothing when they refuse.
 *
 * What the caller owes, and what no call can test:
 *   - a slice is a pointer and a length in bytes, and the pointer is valid for that many bytes;
 *     a slice of length 0 may be NULL; nothing need be aligned. Only the two slices of numbers
 *     that mahyrei_fades_count is lent have lengths in numbers, and are aligned as uint32_t is;
 *   - the slice that a call writes does not overlap the others;
 *   - no other thread writes to a slice, or reads the one that is written, during the call.
 *
 * Bits are packed most significant bit first. Every name here begins with mahyrei_ or MAHYREI_.
 */
#ifndef MAHYREI_H
#define MAHYREI_H

#include <stddef.h>
#include <stdint.h>

#ifdef __cplusplus
extern "C" {
#endif

/* The version of this header. mahyrei_version, in mahyrei_plain.h, is that of the library which a
 * program runs with. */
#define MAHYREI_VERSION_MAJOR 0
#define MAHYREI_VERSION_MINOR 5
#define MAHYREI_VERSION_PATCH 0
#define MAHYREI_VERSION "0.5.0"

/* The code rates, as the calls take them. */
#define MAHYREI_RATE_1_3 0
#define MAHYREI_RATE_1_2 1
#define MAHYREI_RATE_2_3 2

/* Bits and bytes of a word, the same at each rate. */
#define MAHYREI_WORD_BITS 15120
#define MAHYREI_WORD_BYTES 1890

/* Bytes of a packed block: 5006, 7526 or 10046 information bits, then two spare bits, which
 * mahyrei_word_write disregards and mahyrei_word_read writes as zero. */
#define MAHYREI_BLOCK_BYTES_1_3 626
#define MAHYREI_BLOCK_BYTES_1_2 941
#define MAHYREI_BLOCK_BYTES_2_3 1256
#define MAHYREI_BLOCK_BYTES_MAX 1256

/* The most blocks, and words, of a pass, the same at each rate. */
#define MAHYREI_PASS_MAX 211

/* Bytes of a command frame and of the slots of its codeblock, and the most of them in a call. */
#define MAHYREI_UPLINK_FRAME_BYTES 8
#define MAHYREI_UPLINK_CODEBLOCK_BYTES 64
#define MAHYREI_UPLINK_MAX 64

/*
 * The run header, ten bytes:
 *
 *   bits  field
 *      2  code rate: 0 for 1/3, 1 for 1/2, 2 for 2/3
 *      4  m, the bits of a PPM symbol, 2 to 8; the pulse order M is 2 to the power m, and a word
 *         makes S = 15120 / m symbols
 *      8  N, the rows of the channel interleaver, 1 to 128
 *      9  B, the step by which its rows grow, 1 to 256; N * (N - 1) * B is a multiple of S
 *     12  F, the bytes of a frame, 1 to 2048
 *      6  W, the symbols of the codeblock marker, 1 to 32
 *      7  A, the frames of the run, 1 to 64
 *      6  the factor: how many copies of each symbol, markers and guard slots included, are sent in
 *         a row, 1, 2, 3, 4, 8, 16 or 32
 *     26  zero
 *
 * Up to version 0.3 it had eight bytes, the same up to A and then 16 zero bits. No call but
 * mahyrei_header_widen takes such a header.
 *
 * The marker is lent beside the header: W symbols, one byte each, each below M.
 *
 * What follows from a header, with k the information bits of a block and M/4 guard slots after
 * each symbol:
 *   blocks and words   C = A * (8 * F + 32) / k, rounded up
 *   symbols, markers counted
 *                      (C + N * (N - 1) * B / S) * (S + W)
 *   slots              symbols * factor * (M + M / 4), at most 1,457,029,760 for one copy and
 *                      46,624,952,320 for 32
 *   slot bytes         slots / 8, rounded up; spare bits at the end are zero
 *   frame bytes        A * F, at most 131,072
 *   bytes of the area of a delay line
 *                      B * N * (N - 1) / 2, at most 2,040,255
 */
#define MAHYREI_HEADER_BYTES 10
#define MAHYREI_OLD_HEADER_BYTES 8
#define MAHYREI_MARKER_MAX 32
#define MAHYREI_COPIES_MAX 32
#define MAHYREI_FRAMES_BYTES_MAX 131072
#define MAHYREI_DELAY_BYTES_MAX 2040255
#define MAHYREI_SLOTS_BYTES_MAX UINT64_C(5828119040)

/* The most bytes of a capture that is searched: each of its bits is a slot, and the place of a slot
 * has room in an answer. */
#define MAHYREI_CAPTURE_BYTES_MAX (UINT64_C(1) << 53)

/*
 * The rack, 176 bytes: an entry of eleven for each place, that of place p of mission o from byte
 * 11 * (4 * o + p) on.
 *
 *   bytes  what they hold
 *       1  0: the place is empty; 2 + m, for m from 0 to 3: it is loaded, and reading is lent to
 *          mission m; any other value: it is loaded, and lent to nobody
 *      10  the header
 *
 * So any bytes are a rack, and zeros are the empty one. From zeros on, a first byte is 0, 1 or 2 to
 * 5; a load leaves any other as it is.
 */
#define MAHYREI_RACK_BYTES 176
#define MAHYREI_RACK_MISSIONS 4
#define MAHYREI_RACK_PLACES 4

/*
 * The number in an answer: 0, or the number of the first question whose answer is no. The
 * questions are put in the order of their numbers, except that 23 to 25 come first, 20 after 7,
 * 19, 21, 22, 26 and 27 after 8, and 28 and 29 after 9; a call skips those it has no input for. 9
 * to 19, 28 and 29 are about the contents of what is read.
 */
enum mahyrei_number {
    /* Accepted: the slice for the result holds all of it. A delay call changes at most one byte of
     * its area, and a rack call the entry of one place. mahyrei_run_find and mahyrei_run_find_from
     * write nothing: their place is the slot that was found. */
    MAHYREI_ACCEPTED = 0,

    /* The header is not ten bytes, or its last 26 bits are not zero. mahyrei_header_widen: it is
     * not eight bytes, or its last 16 bits are not zero. */
    MAHYREI_BAD_HEADER = 1,
    /* The code rate is not 0, 1 or 2. */
    MAHYREI_BAD_RATE = 2,
    /* In a header: m is not 2 to 8. */
    MAHYREI_BAD_ORDER = 3,
    /* In a header: N is not 1 to 128, or B is not 1 to 256. */
    MAHYREI_BAD_ROWS = 4,
    /* In a header: N * (N - 1) * B is not a multiple of S, so the places of the channel interleaver
     * do not fill whole codeblocks. */
    MAHYREI_BAD_FIT = 5,
    /* In a header: F is not 1 to 2048, or A is not 1 to 64. */
    MAHYREI_BAD_FRAMES = 6,
    /* In a header: W is not 1 to 32. Or one of the lent marker symbols, up to the W-th, is M or
     * more. */
    MAHYREI_BAD_MARKER = 7,
    /* A slice has another length than the rate or the header implies, the factor included, or than
     * a header to be written has. mahyrei_fades_count: there are not C counts. Passes: the slices
     * do not hold n whole blocks and n words, with n from 1 to MAHYREI_PASS_MAX. Captures: there
     * are more than MAHYREI_CAPTURE_BYTES_MAX bytes, or in mahyrei_run_cut the run does not end
     * within them. Uplink: the slices do not hold n whole frames and n codeblocks, with n from 1 to
     * MAHYREI_UPLINK_MAX. Rack: the area does not have MAHYREI_RACK_BYTES bytes, or in
     * mahyrei_rack_read the header MAHYREI_HEADER_BYTES. */
    MAHYREI_BAD_LENGTH = 8,

    /* mahyrei_run_read: a spare bit of the last slot byte is set; there are such bits only where m
     * is 2, 3 or 4. */
    MAHYREI_BAD_SPARE = 9,
    /* mahyrei_run_read: pulses are counted for each slot of a symbol, guard slots too, over all its
     * copies, and no slot among the first M has more of them than every other slot. For one copy:
     * its slots do not hold exactly one pulse among the first M, and none in the guard slots. The
     * place is the symbol, markers counted and copies not, as it is for 11 and 12. */
    MAHYREI_BAD_PULSE = 10,
    /* mahyrei_run_read: a marker symbol is not the one lent. */
    MAHYREI_WRONG_MARKER = 11,
    /* mahyrei_run_read: a symbol is not 0 where the channel interleaver puts none of a word. */
    MAHYREI_BAD_IDLE = 12,

    /* Reading: no input to the convolutional code makes this word. In mahyrei_word_read the place
     * is the first wrong coded bit, counted from 0 in the order of the encoder's output (not in the
     * order of the word): the first that differs when the input bits, read from the encoder's
     * second output alone, are encoded again. In mahyrei_pass_read and mahyrei_run_read the place
     * is the word, as it is for 14 and 15, which are asked of one word before 13 is asked of the
     * next. Words of version 0.1, in the order of the draft book, all get this number: the place is
     * 3, 4 or 6 by rate, or word 0. */
    MAHYREI_BAD_CODE = 13,
    /* Reading: the two termination bits are not both zero. */
    MAHYREI_BAD_TERMINATION = 14,
    /* Reading: the check is not the check of the block. */
    MAHYREI_BAD_CHECK = 15,

    /* mahyrei_run_read: the frame marker 1ACFFC1D is missing before a frame. The place is the
     * frame. */
    MAHYREI_BAD_FRAME_MARKER = 16,
    /* There is no 17, and there will be none: the header fixes the number of blocks, so that fewer
     * than k bits are ever fill. */
    /* mahyrei_run_read: a fill bit after the last frame is set. */
    MAHYREI_BAD_FILL = 18,

    /* mahyrei_run_find: no whole marker begins at any slot of the capture. mahyrei_run_find_from:
     * none begins from the given slot on. */
    MAHYREI_NO_MARKER = 19,

    /* In a header of ten bytes: the factor is not 1, 2, 3, 4, 8, 16 or 32. */
    MAHYREI_BAD_COPIES = 20,
    /* mahyrei_header_narrow: the factor is not 1, and no header of eight bytes says the same. */
    MAHYREI_NO_OLD_HEADER = 21,
    /* mahyrei_fades_count: the list breaks its rules: half a pair is left over, or a fade has no
     * symbol, begins before the one before it has ended, or does not end inside the run. */
    MAHYREI_BAD_FADES = 22,

    /* Rack calls: there is no such mission as the caller, the owner or the borrower, which are 0 to
     * 3; or a loan is to the caller itself. */
    MAHYREI_BAD_MISSION = 23,
    /* Rack calls: there is no such place; they are 0 to 3. */
    MAHYREI_BAD_PLACE = 24,
    /* Rack calls: the place is another mission's, and it is not to be read or reading is not lent
     * to the caller; or it is empty, and it is not to be loaded. Which of these it is, nobody is
     * told. */
    MAHYREI_CLOSED_PLACE = 25,

    /* mahyrei_delay_write and mahyrei_delay_read: the symbol is not below M. Nothing was taken, and
     * the symbol given is 0. */
    MAHYREI_BAD_SYMBOL = 26,

    /* mahyrei_bit_spread: a block has no bit of this number: it has 5006, 7526 or 10046, counted
     * from 0, and the two spare bits do not count. */
    MAHYREI_BAD_BIT = 27,

    /* mahyrei_uplink_read: a group of four slots is not a bit: neither 1000 nor 0100. The place is
     * the group, counted over all codeblocks. */
    MAHYREI_BAD_GROUP = 28,
    /* mahyrei_uplink_read: a codeblock is not a codeword: one of its 64 parity checks fails. The
     * place is the codeblock. By then every group of the buffer has been found to be a bit. */
    MAHYREI_BAD_PARITY = 29
};

/* The number in an answer, one of enum mahyrei_number. */
static inline unsigned mahyrei_answer_number(uint64_t answer) {
    return (unsigned)(answer & 255U);
}

/* The place in an answer, counted from 0; 0 where the number has no place. Of the accepted answers
 * only those of mahyrei_run_find and mahyrei_run_find_from have one; those of mahyrei_delay_write
 * and mahyrei_delay_read have a symbol there. */
static inline uint64_t mahyrei_answer_place(uint64_t answer) {
    return answer >> 8;
}

/* The symbol that a step of a delay line gives, from its answer; 0 where the step was refused. */
static inline unsigned mahyrei_delay_symbol(uint64_t answer) {
    return (unsigned)(answer >> 8 & 255U);
}

/* Bytes of a packed block at this rate, or 0 where there is no such rate. */
static inline size_t mahyrei_word_block_bytes(uint64_t rate) {
    return rate == MAHYREI_RATE_1_3   ? MAHYREI_BLOCK_BYTES_1_3
           : rate == MAHYREI_RATE_1_2 ? MAHYREI_BLOCK_BYTES_1_2
           : rate == MAHYREI_RATE_2_3 ? MAHYREI_BLOCK_BYTES_2_3
                                      : 0U;
}

/*
 * mahyrei_word_write: makes the word of a block.
 *
 * Reads   block, mahyrei_word_block_bytes(rate) bytes; its two spare bits may hold anything, and
 *         the word is the same.
 * Writes  word, MAHYREI_WORD_BYTES bytes, all of them, whatever they held; none on refusal.
 * Returns 0 on acceptance; otherwise number 2 or 8, place 0 (so the answer is the number).
 */
uint64_t mahyrei_word_write(uint64_t rate, const uint8_t *block, size_t block_len, uint8_t *word,
                            size_t word_len);

/*
 * mahyrei_word_read: gives back the block that makes a word.
 *
 * Reads   word, MAHYREI_WORD_BYTES bytes.
 * Writes  block, mahyrei_word_block_bytes(rate) bytes, all of them, its two spare bits as zero,
 *         whatever they held; none on refusal.
 * Returns 0 on acceptance: mahyrei_word_write at the same rate makes this word of this block, and
 *         of no other, spare bits aside. Otherwise place * 256 + number, with number 2, 8, 13,
 *         14 or 15; only 13 has a place. Split it with mahyrei_answer_number and
 *         mahyrei_answer_place.
 */
uint64_t mahyrei_word_read(uint64_t rate, const uint8_t *word, size_t word_len, uint8_t *block,
                           size_t block_len);

/*
 * mahyrei_pass_write: makes the words of up to MAHYREI_PASS_MAX blocks of one rate.
 *
 * Reads   blocks, n packed blocks of mahyrei_word_block_bytes(rate) bytes each, back to back, with
 *         n from 1 to MAHYREI_PASS_MAX. The length says what n is.
 * Writes  words, n * MAHYREI_WORD_BYTES bytes, all of them, whatever they held: the words that
 *         mahyrei_word_write makes of the blocks one by one, back to back; none on refusal.
 * Returns 0 on acceptance; otherwise number 2 or 8, place 0 (so the answer is the number).
 */
uint64_t mahyrei_pass_write(uint64_t rate, const uint8_t *blocks, size_t blocks_len, uint8_t *words,
                            size_t words_len);

/*
 * mahyrei_pass_read: gives back the blocks that make the words of a pass.
 *
 * Reads   words, n words of MAHYREI_WORD_BYTES bytes each, back to back, with n from 1 to
 *         MAHYREI_PASS_MAX. The length says what n is.
 * Writes  blocks, n * mahyrei_word_block_bytes(rate) bytes, all of them, whatever they held, and
 *         only when the last word has been judged: the blocks that mahyrei_word_read gives one by
 *         one, back to back; none on refusal.
 * Returns 0 on acceptance. Otherwise place * 256 + number, with number 2, 8, 13, 14 or 15; for 13
 *         to 15 that is the number that mahyrei_word_read gives for the first word it refuses, and
 *         the place is that word, counted from 0. Split it with mahyrei_answer_number and
 *         mahyrei_answer_place.
 */
uint64_t mahyrei_pass_read(uint64_t rate, const uint8_t *words, size_t words_len, uint8_t *blocks,
                           size_t blocks_len);

/*
 * mahyrei_bit_spread: marks the coded bits that change with one bit of a block, whatever the block
 * holds.
 *
 * Reads   nothing: bit is the number of the block's bit, counted from 0, first bit highest.
 * Writes  places, MAHYREI_WORD_BYTES bytes, all of them, whatever they held: bit j of these 15,120
 *         is 1 if coded bit j (in the order of the encoder's output) changes with that bit, and
 *         otherwise 0. At most 110 are 1 at rate 1/3, 73 at 1/2 and 56 at 2/3. None on refusal.
 * Returns 0 on acceptance; otherwise number 2, 8 or 27, place 0 (so the answer is the number).
 */
uint64_t mahyrei_bit_spread(uint64_t rate, uint64_t bit, uint8_t *places, size_t places_len);

/*
 * mahyrei_run_write: makes the slots of a run.
 *
 * Reads   header, MAHYREI_HEADER_BYTES bytes; marker, W bytes; frames, A * F bytes, the frames
 *         back to back without their markers.
 * Writes  slots, the slot bytes that the header implies, all of them, whatever they held; none on
 *         refusal.
 * Returns 0 on acceptance; otherwise a number from 1 to 8, or 20, place 0 (so the answer is the
 *         number).
 */
uint64_t mahyrei_run_write(const uint8_t *header, size_t header_len, const uint8_t *marker,
                           size_t marker_len, const uint8_t *frames, size_t frames_len,
                           uint8_t *slots, size_t slots_len);

/*
 * mahyrei_run_read: gives back the frames that make a run.
 *
 * Reads   header, MAHYREI_HEADER_BYTES bytes; marker, W bytes; slots, the slot bytes that the
 *         header implies.
 * Writes  frames, A * F bytes, all of them, whatever they held, and only when the whole run has
 *         been judged; none on refusal.
 * Returns 0 on acceptance: the pooled symbols are those that mahyrei_run_write sends for these
 *         frames, with the same header and marker, and for no others; where the factor is 1,
 *         mahyrei_run_write makes these slots of these frames. Otherwise place * 256 + number, with
 *         a number from 1 to 16, or 18 or 20; 10 to 16 have a place. Split it with
 *         mahyrei_answer_number and mahyrei_answer_place.
 */
uint64_t mahyrei_run_read(const uint8_t *header, size_t header_len, const uint8_t *marker,
                          size_t marker_len, const uint8_t *slots, size_t slots_len,
                          uint8_t *frames, size_t frames_len);

/*
 * mahyrei_run_find: finds the earliest slot of a capture at which a whole marker begins.
 *
 * Reads   header, MAHYREI_HEADER_BYTES bytes; marker, W bytes; capture, any number of bytes up to
 *         MAHYREI_CAPTURE_BYTES_MAX. Each bit of the capture is a slot, counted from 0. The marker
 *         begins at a slot if the W * (M + M / 4) slots from there on are those of its symbols,
 *         each once, with one pulse and with its guard slots empty. The factor is judged with the
 *         header, and not looked at in the search.
 * Writes  nothing.
 * Returns slot * 256 where there is such a slot: number 0, and the slot as the place. Otherwise a
 *         number from 1 to 8, or 19 or 20, place 0 (so the answer is the number). An answer is
 *         accepted if mahyrei_answer_number is 0; the answer itself is 0 only for slot 0.
 *
 * The lines of a run all begin with the marker, so a capture that begins within a run has the
 * marker of a later line first. Where a run of factor 1 begins and no earlier slot fits, the slot
 * is the run's.
 */
uint64_t mahyrei_run_find(const uint8_t *header, size_t header_len, const uint8_t *marker,
                          size_t marker_len, const uint8_t *capture, size_t capture_len);

/*
 * mahyrei_run_find_from: finds the earliest slot of a capture, not below a given one, at which a
 * whole marker begins. From slot 0 it is mahyrei_run_find.
 *
 * Reads   the same as mahyrei_run_find; from, any number.
 * Writes  nothing.
 * Returns slot * 256 where there is such a slot, which is counted from the start of the capture:
 *         what mahyrei_run_find returns, as if no marker began below slot from. Otherwise a number
 *         from 1 to 8, or 19 or 20, place 0; 19 also where from lies beyond the capture.
 *
 * Called again from the slot after the one found last, it goes through all the markers of a
 * recording; from the slot after a run's last, to the next run.
 */
uint64_t mahyrei_run_find_from(const uint8_t *header, size_t header_len, const uint8_t *marker,
                               size_t marker_len, const uint8_t *capture, size_t capture_len,
                               uint64_t from);

/*
 * mahyrei_run_cut: packs the slots of a run, which begins at any slot of a capture, anew from bit
 * 0.
 *
 * Reads   header, MAHYREI_HEADER_BYTES bytes; capture, any number of bytes up to
 *         MAHYREI_CAPTURE_BYTES_MAX, in which the slots of the run lie: as many as the header
 *         implies, from this slot on.
 * Writes  slots, the slot bytes that the header implies, all of them, whatever they held, with
 *         spare bits of zero; none on refusal.
 * Returns 0 on acceptance; otherwise a number from 1 to 8, or 20, place 0 (so the answer is the
 *         number). What the slots hold is not judged; mahyrei_run_read does that. Of 7 it asks W's
 *         range alone, and any number may be given as the slot.
 */
uint64_t mahyrei_run_cut(const uint8_t *header, size_t header_len, const uint8_t *capture,
                         size_t capture_len, uint64_t slot, uint8_t *slots, size_t slots_len);

/*
 * mahyrei_header_widen: makes a header of ten bytes from one of eight, with factor 1.
 *
 * Reads   eight, MAHYREI_OLD_HEADER_BYTES bytes.
 * Writes  ten, MAHYREI_HEADER_BYTES bytes, all of them, whatever they held; none on refusal.
 * Returns 0 on acceptance; otherwise a number from 1 to 8, place 0 (so the answer is the number).
 *         Of 7 it asks W's range alone.
 *
 * mahyrei_header_narrow gives the eight bytes back from what it writes.
 */
uint64_t mahyrei_header_widen(const uint8_t *eight, size_t eight_len, uint8_t *ten, size_t ten_len);

/*
 * mahyrei_header_narrow: makes a header of eight bytes from one of ten, whose factor is 1.
 *
 * Reads   ten, MAHYREI_HEADER_BYTES bytes.
 * Writes  eight, MAHYREI_OLD_HEADER_BYTES bytes, all of them, whatever they held; none on refusal.
 * Returns 0 on acceptance; otherwise a number from 1 to 8, or 20 or 21, place 0 (so the answer is
 *         the number). Of 7 it asks W's range alone, and 21 comes last.
 *
 * mahyrei_header_widen gives the ten bytes back from what it writes.
 */
uint64_t mahyrei_header_narrow(const uint8_t *ten, size_t ten_len, uint8_t *eight,
                               size_t eight_len);

/*
 * mahyrei_fades_count: counts for each word of a run how many of its symbols are hit by fades.
 *
 * Reads   header, MAHYREI_HEADER_BYTES bytes; fades, pairs of numbers, each the first symbol of a
 *         fade and how many symbols it has. Symbols of the run count from 0, with markers and
 *         without copies: the factor is judged with the header and then disregarded. The fades
 *         ascend and do not overlap, but one may begin where another ends; each has at least one
 *         symbol, and all end inside the run. There may be none.
 * Writes  counts, C numbers, all of them, whatever they held; none on refusal. Marker symbols, and
 *         those that the channel interleaver puts where no symbol of a word goes, count for no
 *         word; all other symbols that are hit add up to the counts.
 * Returns 0 on acceptance; otherwise a number from 1 to 8, or 20 or 22, place 0 (so the answer is
 *         the number). Of 7 it asks W's range alone.
 *
 * fades_len and counts_len count numbers: fades_len is twice the number of fades.
 */
uint64_t mahyrei_fades_count(const uint8_t *header, size_t header_len, const uint32_t *fades,
                             size_t fades_len, uint32_t *counts, size_t counts_len);

/*
 * mahyrei_delay_write: one step of the channel interleaver: takes a symbol of the words and gives
 * the next of the interleaved sequence, markers left out.
 *
 * Reads   header, MAHYREI_HEADER_BYTES bytes, of which N, B and m matter; the factor does not. step
 *         is the number of the step, counted from 0; symbol is below M.
 * Writes  area, B * N * (N - 1) / 2 bytes, one of them at most: where the symbol given was, the
 *         symbol taken is then. All are zero before step 0, which is the caller's part, and hold
 *         what earlier steps have left before every other. None on refusal.
 * Returns symbol given * 256 on acceptance, which mahyrei_delay_symbol extracts; otherwise a
 *         number from 1 to 8, or 20 or 26, place 0 (so the answer is the number, and
 *         mahyrei_delay_symbol gives 0).
 *
 * The symbols given by steps 0, 1, 2 and so on are the sequence that mahyrei_run_write sends for
 * the symbols taken. The C * S symbols of a run, followed by N * (N - 1) * B zeros, give all of
 * its places; but the line may run on for as long as step numbers last. Nothing is kept between
 * steps but the area. A step of any other number, or on an area that holds anything else, is
 * accepted too: row i = step % N has i * B bytes, the rows lie one after another from row 0, and
 * the byte of the step is number step / N % (i * B) of its row. Row 0 has none and gives back what
 * it takes. Where N is 1 the area is empty, and may be NULL.
 */
uint64_t mahyrei_delay_write(const uint8_t *header, size_t header_len, uint64_t step,
                             uint64_t symbol, uint8_t *area, size_t area_len);

/*
 * mahyrei_delay_read: the same for the way back: takes a symbol of the interleaved sequence,
 * markers left out, and gives one of the words.
 *
 * All is as in mahyrei_delay_write, except that row i has (N - 1 - i) * B bytes. The area is
 * another, of as many bytes, zero before step 0. What mahyrei_delay_write gives in steps 0, 1, 2
 * and so on goes in, and what it took comes out, in order, after N * (N - 1) * B zeros.
 */
uint64_t mahyrei_delay_read(const uint8_t *header, size_t header_len, uint64_t step,
                            uint64_t symbol, uint8_t *area, size_t area_len);

/*
 * mahyrei_rack_load: puts a header into a place of the rack.
 *
 * Reads   header, MAHYREI_HEADER_BYTES bytes. caller is the mission that calls, owner the one whose
 *         place it is, 0 to 3; place is 0 to 3.
 * Writes  area, MAHYREI_RACK_BYTES bytes, of which the entry of the place changes: the header is
 *         replaced; a loan stays as it was. None on refusal.
 * Returns 0 on acceptance; otherwise a number from 1 to 8, or 20 or 23 to 25, place 0 (so the
 *         answer is the number). Of 7 it asks W's range alone.
 *
 * All four calls: 23, 24 and 25 are put in this order before any question on a header, and 8 comes
 * last. Nothing is known of who calls but the number given: the host says whose call it is. Bytes
 * that an area does not have count as 0, an empty place. One thread at a time may call on an area.
 */
uint64_t mahyrei_rack_load(uint8_t *area, size_t area_len, uint64_t caller, uint64_t owner,
                           uint64_t place, const uint8_t *header, size_t header_len);

/*
 * mahyrei_rack_read: gives the header in a place, to its owner or to the mission that it is lent
 * to.
 *
 * Reads   area, MAHYREI_RACK_BYTES bytes.
 * Writes  header, MAHYREI_HEADER_BYTES bytes, all of them, whatever they held; none on refusal.
 * Returns 0 on acceptance; otherwise 8 or a number from 23 to 25, place 0 (so the answer is the
 *         number). An empty place and one that is not lent to the caller both get 25.
 */
uint64_t mahyrei_rack_read(const uint8_t *area, size_t area_len, uint64_t caller, uint64_t owner,
                           uint64_t place, uint8_t *header, size_t header_len);

/*
 * mahyrei_rack_drop: empties a place and ends its loan.
 *
 * Writes  area, MAHYREI_RACK_BYTES bytes, of which the entry of the place becomes zero; none on
 *         refusal.
 * Returns 0 on acceptance; otherwise 8 or a number from 23 to 25, place 0 (so the answer is the
 *         number).
 */
uint64_t mahyrei_rack_drop(uint8_t *area, size_t area_len, uint64_t caller, uint64_t owner,
                           uint64_t place);

/*
 * mahyrei_rack_lend: lends reading of a loaded place to another mission; that ends an earlier
 * loan.
 *
 * Writes  area, MAHYREI_RACK_BYTES bytes, of which the first byte of the place's entry changes;
 *         none on refusal.
 * Returns 0 on acceptance; otherwise 8 or a number from 23 to 25, place 0 (so the answer is the
 *         number). to is the borrower, any mission but the caller.
 */
uint64_t mahyrei_rack_lend(uint8_t *area, size_t area_len, uint64_t caller, uint64_t owner,
                           uint64_t place, uint64_t to);

/*
 * mahyrei_uplink_write: makes the slots of command frames.
 *
 * Reads   frames, n frames of MAHYREI_UPLINK_FRAME_BYTES bytes each, back to back, with n from 1 to
 *         MAHYREI_UPLINK_MAX. The length says what n is.
 * Writes  slots, n * MAHYREI_UPLINK_CODEBLOCK_BYTES bytes, all of them, whatever they held: a
 *         codeblock for each frame, back to back; none on refusal. A codeblock is the frame's 64
 *         bits and the 64 parity bits of the (128, 64) LDPC code, with the randomizer's sequence
 *         added from its start, four slots a bit: 1000 for 0, 0100 for 1.
 * Returns 0 on acceptance; otherwise 8, place 0 (so the answer is the number).
 */
uint64_t mahyrei_uplink_write(const uint8_t *frames, size_t frames_len, uint8_t *slots,
                              size_t slots_len);

/*
 * mahyrei_uplink_read: gives back the command frames that make slots.
 *
 * Reads   slots, n codeblocks of MAHYREI_UPLINK_CODEBLOCK_BYTES bytes each, back to back, with n
 *         from 1 to MAHYREI_UPLINK_MAX. The length says what n is.
 * Writes  frames, n * MAHYREI_UPLINK_FRAME_BYTES bytes, all of them, whatever they held, and only
 *         when the last codeblock has been judged; none on refusal.
 * Returns 0 on acceptance: mahyrei_uplink_write makes these slots of these frames and of no others.
 *         Otherwise place * 256 + number, with number 8, 28 or 29; 28 and 29 have a place. Split it
 *         with mahyrei_answer_number and mahyrei_answer_place.
 */
uint64_t mahyrei_uplink_read(const uint8_t *slots, size_t slots_len, uint8_t *frames,
                             size_t frames_len);

#ifdef __cplusplus
}
#endif

#endif
