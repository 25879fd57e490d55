/*
 * A run in a capture, which begins at any of its slots: found, and cut out. For find, cut, and read
 * and verify with --capture.
 */
#ifndef COMMANDS_CAPTURED_RUN_H
#define COMMANDS_CAPTURED_RUN_H

#include "commands/commands.h"
#include "files/outputs.h"
#include "library/library.h"
#include "report/entry.h"
#include "report/status.h"
#include "runs/refusal_details.h"
#include "system/file_id.h"

/* An output does not go over this capture, which holds more than the run: what is around it would
 * be lost. It is asked before anything is read, and again of what was read. */
void spare_capture(struct output *output, struct file_id capture);

/* Where a search begins: the slot of --from, or else the first. */
bool take_from(const struct line *line, uint64_t *from);

/* Slots begin with the run, and so there is nothing to search without --capture, which is said. */
bool from_is_meant(const struct line *line);

/* Reads the header, and the marker where there is one; or the metadata that has both. */
bool take_in_header(const struct operands *operands, struct lent *run, struct entry *entry);

/* Whether the metadata, where header and marker are from one, is of these bytes. What is wrong has
 * been said. */
bool is_described(const struct operands *operands, const struct bytes *data);

/* Header and marker as before, and the capture. */
bool take_in_captured(const struct operands *operands, struct lent *run, struct entry *entry);

/* Whether symbols are sent once, which the search takes them to be: what it found of others would
 * be no beginning. That they are not is said. A header that is refused is the library's to judge.
 */
bool sent_once(const struct operands *operands, const struct lent *run);

/* The earliest slot at which the whole marker begins, from that of the operands on, goes to the
 * operands and the entry. An answer that refuses is said, and is the entry's. */
enum status find_start(struct operands *operands, struct lent *run, struct entry *entry);

/* Says where that is: `CAPTURE: WHAT slot 13, in byte 1`. */
void say_start(const struct operands *operands, const char *what);

/* The slots of the run that begins there. A refusal likewise. */
enum status cut_run(const struct operands *operands, struct lent *run, struct entry *entry);

/* The same for looking at, and so of a run whose end is missing as far as it goes. */
enum status cut_to_look(const struct operands *operands, struct lent *run, struct entry *entry);

/* Of slots that were refused: whether the whole marker begins elsewhere in them, as in a capture,
 * and not where a line of a run begins; and where. */
bool marker_found_elsewhere(const struct lent *run, uint64_t *slot);

/* Says that, where it is so. */
void say_elsewhere(const struct operands *operands, const struct lent *run);

#endif
