/* pack and unpack: slots with a byte each, as numpy and GNU Radio keep them, and eight to a byte.
 */
#include <inttypes.h>
#include <stdlib.h>
#include <string.h>

#include "commands/line.h"
#include "files/inputs.h"
#include "files/outputs.h"
#include "report/messages.h"
#include "report/progress.h"
#include "system/descriptors.h"

/* A byte that is neither 0 nor 1 is no slot: nobody could say what was meant by it. */
static bool pack(const char *name, const struct bytes *from, struct bytes *to) {
    if (!make_buffer(from->len / 8 + (from->len % 8 != 0), to)) {
        return false;
    }
    if (to->len > 0) {
        memset(to->at, 0, to->len);
    }
    for (size_t i = 0; i < from->len; i++) {
        if (from->at[i] > 1) {
            remark(is_dash(name) ? "standard input" : name,
                   "byte %zu is %u; where a slot has a byte, that is 0 or 1", i, from->at[i]);
            return false;
        }
        to->at[i / 8] = (uint8_t)(to->at[i / 8] | from->at[i] << (7 - i % 8));
    }
    return true;
}

static bool unpack(const char *name, const struct bytes *from, struct bytes *to) {
    (void)name;
    if (!make_buffer(8 * from->len, to)) {
        return false;
    }
    for (size_t i = 0; i < to->len; i++) {
        to->at[i] = from->at[i / 8] >> (7 - i % 8) & 1;
    }
    return true;
}

typedef bool conversion(const char *name, const struct bytes *from, struct bytes *to);

static enum status convert(const struct line *line, conversion *make) {
    struct output output = output_as_told(line, line->operands[1]);
    struct bytes from = {0}, to = {0};
    struct file_id id;
    output.spared.what = "this is the input too, which is not replaced";
    output_spare(&output, input_id(line->operands[0]));
    bool good = output_ready(&output);
    progress_phase(TAKING_IN);
    good =
        good && take_in_all(line->operands[0], &from, &id) && make(line->operands[0], &from, &to);
    progress_phase(PUTTING_OUT);
    good = good && output_put(&output, to.at, to.len);
    free(from.at);
    free(to.at);
    return good ? DONE : FAILED;
}

enum status pack_command(const struct line *line, struct entry *entry) {
    (void)entry;
    return convert(line, pack);
}

enum status unpack_command(const struct line *line, struct entry *entry) {
    (void)entry;
    return convert(line, unpack);
}
