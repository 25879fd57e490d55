/* spread: the coded bits that change with one bit of a block. */
#include <inttypes.h>
#include <stdio.h>

#include "commands/commands.h"
#include "commands/number_operands.h"
#include "commands/printed_output.h"
#include "library/library.h"
#include "mahyrei.h"
#include "report/messages.h"

static bool is_marked(const uint8_t *places, size_t j) {
    return (places[j / 8] >> (7 - j % 8) & 1) != 0;
}

/* One line: how many places there are, and then each, in ascending order. */
static bool print_places(FILE *to, const void *what) {
    const uint8_t *const places = what;
    size_t count = 0;
    for (size_t j = 0; j < MAHYREI_WORD_BITS; j++) {
        count += is_marked(places, j);
    }
    fprintf(to, "%zu", count);
    for (size_t j = 0; j < MAHYREI_WORD_BITS; j++) {
        if (is_marked(places, j)) {
            fprintf(to, " %zu", j);
        }
    }
    fputc('\n', to);
    return true;
}

enum status spread_command(const struct line *line, struct entry *entry) {
    uint8_t places[MAHYREI_WORD_BYTES];
    uint64_t rate, bit, answer;
    entry_spread(entry);
    if (!take_rate(line->operands[0], &rate)) {
        return FAILED;
    }
    entry_rate(entry, rate);
    if (!take_number(line->operands[1], &bit)) {
        return FAILED;
    }
    entry_bit(entry, bit);
    if (!library_spread(rate, bit, places, &answer)) {
        return FAILED;
    }
    entry_answer(entry, answer);
    if (answer != MAHYREI_ACCEPTED) {
        say_refusal(answer, NULL);
        return REFUSED;
    }
    return put_printed(NULL, print_places, places) ? DONE : FAILED;
}
