#include "mahyrei_plain.h"

/* One sentence a number. The crew sheet (docs/manual/numbers.md) and the man page are made from
 * these by tests/numbers. A number that no call gives has none. */
static const char *const SENTENCES[] = {
    [MAHYREI_ACCEPTED] = "All is well: the result has been written, every byte of it; in a search "
                         "the place is the slot, in a delay line it is the symbol given.",
    [MAHYREI_BAD_HEADER] = "The header is not ten bytes long, or one of its last 26 bits is set; "
                           "for an old header, to be widened, it is eight bytes and 16 bits.",
    [MAHYREI_BAD_RATE] = "There is no such code rate; it is 0, 1 or 2.",
    [MAHYREI_BAD_ORDER] = "There is no such pulse order; m is 2 to 8.",
    [MAHYREI_BAD_ROWS] = "The channel interleaver is out of range; N is 1 to 128 and B is 1 to "
                         "256.",
    [MAHYREI_BAD_FIT] = "N and B do not fit the pulse order: N * (N - 1) * B is not a multiple of "
                        "S, the symbols of a word.",
    [MAHYREI_BAD_FRAMES] = "The frames are out of range; F is 1 to 2048 bytes and A is 1 to 64 "
                           "frames.",
    [MAHYREI_BAD_MARKER] = "The marker is out of range: W is not 1 to 32, or a lent marker symbol "
                           "is not below the pulse order.",
    [MAHYREI_BAD_LENGTH] =
        "A lent slice is longer or shorter than the rate or the header says; a pass has 1 to 211 "
        "blocks, whole, and as many words; a capture has at most 2^53 bytes, and a cut needs the "
        "whole run in it; an uplink has 1 to 64 frames, whole, and as many codeblocks; widening "
        "writes ten bytes, narrowing eight, a count of fades a number for each word; a rack has "
        "176 bytes.",
    [MAHYREI_BAD_SPARE] = "A spare bit after the last slot is set.",
    [MAHYREI_BAD_PULSE] =
        "A symbol cannot be determined: over all its copies, no data slot has more pulses than "
        "every other slot (sent once, it needs exactly one pulse, in a data slot); the place is "
        "that symbol, counting markers and not copies.",
    [MAHYREI_WRONG_MARKER] = "A marker symbol is not the one that was lent; the place is that "
                             "symbol, counting markers.",
    [MAHYREI_BAD_IDLE] = "A symbol that must be 0, since the channel interleaver puts nothing "
                         "there, is not; the place is that symbol, counting markers.",
    [MAHYREI_BAD_CODE] =
        "A word was damaged, or written by version 0.1: no input of the code makes it; the place "
        "is the word, or for a word read alone the first wrong coded bit.",
    [MAHYREI_BAD_TERMINATION] = "The two bits that end a word's input are not zero; the place is "
                                "the word, or 0 for a word read alone.",
    [MAHYREI_BAD_CHECK] =
        "A word's check is not that of its block; the place is the word, or 0 for "
        "a word read alone.",
    [MAHYREI_BAD_FRAME_MARKER] =
        "The frame marker is missing where a frame should begin; the place "
        "is that frame.",
    [MAHYREI_BAD_FILL] = "A fill bit after the last frame is set; the run may hold more than the "
                         "header says.",
    [MAHYREI_NO_MARKER] = "No slot of the capture begins a whole marker.",
    [MAHYREI_BAD_COPIES] = "There is no such factor; each symbol is sent 1, 2, 3, 4, 8, 16 or 32 "
                           "times.",
    [MAHYREI_NO_OLD_HEADER] = "The factor is not 1: no header of eight bytes says the same.",
    [MAHYREI_BAD_FADES] = "The list of fades breaks its rules: pairs of first symbol and length, "
                          "ascending, not overlapping, at least one symbol each, inside the run.",
    [MAHYREI_BAD_MISSION] = "There is no such mission, or it would lend to itself; missions are 0 "
                            "to 3.",
    [MAHYREI_BAD_PLACE] = "There is no such place in the rack; each mission has places 0 to 3.",
    [MAHYREI_CLOSED_PLACE] = "The place is not open to this mission: it is empty, or another's and "
                             "not lent to it for reading.",
    [MAHYREI_BAD_SYMBOL] = "The symbol is not below the pulse order; nothing was taken.",
    [MAHYREI_BAD_BIT] = "There is no such block bit; a block has 5006, 7526 or 10046.",
    [MAHYREI_BAD_GROUP] =
        "Four slots are not a bit: they do not hold exactly one pulse, or it is in "
        "a guard slot; the place is the group.",
    [MAHYREI_BAD_PARITY] = "A codeblock fails the parity check; the place is the codeblock.",
};

const char *mahyrei_sentence(unsigned number) {
    return number < sizeof SENTENCES / sizeof SENTENCES[0] ? SENTENCES[number] : NULL;
}
