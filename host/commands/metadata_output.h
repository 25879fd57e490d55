/* write --sigmf: metadata that goes beside the slots, and is written after them. */
#ifndef COMMANDS_METADATA_OUTPUT_H
#define COMMANDS_METADATA_OUTPUT_H

#include "commands/commands.h"
#include "files/outputs.h"
#include "library/library.h"

struct metadata {
    char *name; /* NULL where none is asked for */
    struct output output;
    uint64_t slot_rate; /* 0 where it is not given */
};

/* Before anything is done: whether it can be meant beside this output. What is wrong has been said;
 * free it in any case. */
bool metadata_ready(const struct line *line, const struct output *slots, struct metadata *metadata);

/* Of the slots of a run that are in their file; where --verify is given, it is read back. */
bool metadata_put(const struct line *line, struct metadata *metadata, const char *slots,
                  const struct lent *run);

void metadata_free(struct metadata *metadata);

#endif
