/* pass-write and pass-read: up to 211 blocks of one rate to their words, and back. */
#include <stdlib.h>

#include "commands/line.h"
#include "commands/number_operands.h"
#include "files/inputs.h"
#include "files/outputs.h"
#include "library/library.h"
#include "report/messages.h"
#include "report/progress.h"
#include "runs/refusal_details.h"

/* Both names go to the log before anything is read. */
static void name_operands(bool writing, const struct line *line, struct entry *entry) {
    char *const *const files = line->operands + 1;
    entry_pass(entry, writing ? files[0] : files[1], writing ? files[1] : files[0]);
}

static bool take_in_pass(bool writing, const struct line *line, struct pass *pass,
                         struct entry *entry) {
    struct bytes *const from = writing ? &pass->blocks : &pass->words;
    const size_t limit = writing ? BLOCKS_LIMIT : WORDS_LIMIT;
    progress_phase(TAKING_IN);
    if (!take_in(line->operands[1], limit, from)) {
        return false;
    }
    entry_part(writing ? &entry->blocks : &entry->words, from->at, from->len, from->len < limit);
    return true;
}

/* Room for as many words or blocks as were read, whatever the library will say of their number. */
static bool make_room_for(bool writing, struct pass *pass) {
    const size_t each = mahyrei_word_block_bytes(pass->rate);
    return writing ? make_buffer(each == 0 ? 0 : pass->blocks.len / each * MAHYREI_WORD_BYTES,
                                 &pass->words)
                   : make_buffer(pass->words.len / MAHYREI_WORD_BYTES * each, &pass->blocks);
}

/* Lends the pass to the library, and says what comes back. */
static enum status call(bool writing, const struct line *line, struct pass *pass,
                        struct entry *entry) {
    uint64_t answer = 0;
    if (!make_room_for(writing, pass)) {
        return FAILED;
    }
    progress_phase(CODING);
    if (!(writing ? library_pass_write : library_pass_read)(pass, &answer)) {
        return FAILED;
    }
    if (answer != MAHYREI_ACCEPTED) {
        entry_refuse(entry, answer, "A pass has 1 to 211 blocks, whole, and as many words.");
        say_where_in_pass(answer, pass, writing, line->operands[1]);
        return REFUSED;
    }
    entry_answer(entry, answer);
    return DONE;
}

static enum status make_pass(bool writing, const struct line *line, struct pass *pass,
                             struct entry *entry) {
    name_operands(writing, line, entry);
    if (!take_rate(line->operands[0], &pass->rate)) {
        return FAILED;
    }
    entry_rate(entry, pass->rate);
    struct output output = output_as_told(line, line->operands[2]);
    if (!output_ready(&output) || !take_in_pass(writing, line, pass, entry)) {
        return FAILED;
    }
    const enum status status = call(writing, line, pass, entry);
    if (status != DONE) {
        return status;
    }
    const struct bytes *const to = writing ? &pass->words : &pass->blocks;
    progress_phase(PUTTING_OUT);
    if (!output_put(&output, to->at, to->len)) {
        return FAILED;
    }
    entry_part(writing ? &entry->words : &entry->blocks, to->at, to->len, true);
    return DONE;
}

static enum status go(bool writing, const struct line *line, struct entry *entry) {
    struct pass pass = {0};
    const enum status status = make_pass(writing, line, &pass, entry);
    free(pass.blocks.at);
    free(pass.words.at);
    return status;
}

enum status pass_write_command(const struct line *line, struct entry *entry) {
    return go(true, line, entry);
}

enum status pass_read_command(const struct line *line, struct entry *entry) {
    return go(false, line, entry);
}
