/* uplink-write and uplink-read: up to 64 command frames to their slots, and back. */
#include <stdlib.h>

#include "commands/line.h"
#include "files/inputs.h"
#include "files/outputs.h"
#include "library/library.h"
#include "report/messages.h"
#include "report/progress.h"
#include "runs/refusal_details.h"

/* Both names go to the log before anything is read. */
static void name_operands(bool writing, const struct line *line, struct entry *entry) {
    char *const *const files = line->operands;
    entry_uplink(entry, writing ? files[0] : files[1], writing ? files[1] : files[0]);
}

static bool take_in_uplink(bool writing, const struct line *line, struct uplink *uplink,
                           struct entry *entry) {
    struct bytes *const from = writing ? &uplink->frames : &uplink->slots;
    const size_t limit = writing ? UPLINK_FRAMES_LIMIT : UPLINK_SLOTS_LIMIT;
    progress_phase(TAKING_IN);
    if (!take_in(line->operands[0], limit, from)) {
        return false;
    }
    entry_part(writing ? &entry->frames : &entry->slots, from->at, from->len, from->len < limit);
    return true;
}

/* Room for as many codeblocks or frames as were read, whatever the library will say of their
 * number. */
static bool make_room_for(bool writing, struct uplink *uplink) {
    const size_t frame = MAHYREI_UPLINK_FRAME_BYTES, codeblock = MAHYREI_UPLINK_CODEBLOCK_BYTES;
    return writing ? make_buffer(uplink->frames.len / frame * codeblock, &uplink->slots)
                   : make_buffer(uplink->slots.len / codeblock * frame, &uplink->frames);
}

/* Lends frames and slots to the library, and says what comes back. */
static enum status call(bool writing, const struct line *line, struct uplink *uplink,
                        struct entry *entry) {
    uint64_t answer = 0;
    if (!make_room_for(writing, uplink)) {
        return FAILED;
    }
    progress_phase(CODING);
    if (!(writing ? library_uplink_write : library_uplink_read)(uplink, &answer)) {
        return FAILED;
    }
    if (answer != MAHYREI_ACCEPTED) {
        entry_refuse(entry, answer, "An uplink has 1 to 64 frames, whole, and as many codeblocks.");
        say_where_in_uplink(answer, uplink, writing, line->operands[0]);
        return REFUSED;
    }
    entry_answer(entry, answer);
    return DONE;
}

static enum status make_uplink(bool writing, const struct line *line, struct uplink *uplink,
                               struct entry *entry) {
    struct output output = output_as_told(line, line->operands[1]);
    name_operands(writing, line, entry);
    if (!output_ready(&output) || !take_in_uplink(writing, line, uplink, entry)) {
        return FAILED;
    }
    const enum status status = call(writing, line, uplink, entry);
    if (status != DONE) {
        return status;
    }
    const struct bytes *const to = writing ? &uplink->slots : &uplink->frames;
    progress_phase(PUTTING_OUT);
    if (!output_put(&output, to->at, to->len)) {
        return FAILED;
    }
    entry_part(writing ? &entry->slots : &entry->frames, to->at, to->len, true);
    return DONE;
}

static enum status go(bool writing, const struct line *line, struct entry *entry) {
    struct uplink uplink = {0};
    const enum status status = make_uplink(writing, line, &uplink, entry);
    free(uplink.frames.at);
    free(uplink.slots.at);
    return status;
}

enum status uplink_write_command(const struct line *line, struct entry *entry) {
    return go(true, line, entry);
}

enum status uplink_read_command(const struct line *line, struct entry *entry) {
    return go(false, line, entry);
}
