#include "commands/metadata_output.h"

#include <errno.h>
#include <stdlib.h>

#include "commands/line.h"
#include "commands/number_operands.h"
#include "formats/text.h"
#include "report/messages.h"
#include "runs/sigmf.h"

static bool take_slot_rate(const struct line *line, uint64_t *rate) {
    const char *const given = line->options[SLOT_RATE];
    *rate = 0;
    if (given == NULL) {
        return true;
    }
    if (line->options[SIGMF] == NULL) {
        complain_text("--slot-rate", "it is for the metadata, which --sigmf makes");
        return false;
    }
    if (!take_number(given, rate)) {
        return false;
    }
    if (*rate == 0) {
        complain_text(given, "a rate is a whole number of slots a second, from 1 on");
    }
    return *rate != 0;
}

bool metadata_ready(const struct line *line, const struct output *slots,
                    struct metadata *metadata) {
    *metadata = (struct metadata){0};
    if (!take_slot_rate(line, &metadata->slot_rate)) {
        return false;
    }
    if (line->options[SIGMF] == NULL) {
        return true;
    }
    if (!output_is_file(slots)) {
        complain_text(slots->name, "only a file has metadata beside it");
        return false;
    }
    metadata->name = sigmf_name(slots->name);
    if (metadata->name == NULL) {
        return false;
    }
    metadata->output = output_as_told(line, metadata->name);
    metadata->output.spared.what = "this is the log or the slots too, and no metadata goes there";
    output_spare(&metadata->output, log_id(line->log));
    return output_ready(&metadata->output);
}

bool metadata_put(const struct line *line, struct metadata *metadata, const char *slots,
                  const struct lent *run) {
    const struct sigmf_dataset dataset = {.name = slots,
                                          .data = &run->slots,
                                          .header = &run->header,
                                          .marker = &run->marker,
                                          .slot_rate = metadata->slot_rate};
    struct text text;
    if (metadata->name == NULL) {
        return true;
    }
    bool good = text_begin(&text);
    if (good) {
        sigmf_print_begin(text.to, &dataset);
        sigmf_print_end(text.to);
        good = text_end(&text);
    }
    if (!good) {
        complain("memory", errno);
    }
    output_spare(&metadata->output, file_id_named(slots));
    good = good && output_put(&metadata->output, text.at, text.len) &&
           (line->options[READ_BACK] == NULL ||
            output_read_back(&metadata->output, text.at, text.len));
    text_free(&text);
    return good;
}

void metadata_free(struct metadata *metadata) {
    free(metadata->name);
    *metadata = (struct metadata){0};
}
