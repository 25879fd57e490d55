/* rack-load, rack-read, rack-drop, rack-lend and rack-list: headers of four missions in the rack.
 */
#include <errno.h>
#include <inttypes.h>
#include <stdio.h>
#include <stdlib.h>
#include <string.h>
#include <sys/stat.h>

#include "commands/line.h"
#include "commands/number_operands.h"
#include "commands/printed_output.h"
#include "files/inputs.h"
#include "files/outputs.h"
#include "files/rack_file.h"
#include "files/replacing.h"
#include "library/library.h"
#include "report/messages.h"
#include "report/progress.h"
#include "runs/refusal_details.h"
#include "system/descriptors.h"
#include "system/file_id.h"

typedef bool library_call(const struct rack *rack, uint64_t *answer);

enum { AREA, CALLER, OWNER, PLACE, LAST /* HEADER, TO, or none */ };
enum { MISSIONS = 4, PLACES = 4 };

/* Who calls, whose place it is and which. */
static bool take_numbers(const struct line *line, struct rack *rack, struct entry *entry) {
    char *const *const words = line->operands;
    entry_rack(entry, words[AREA]);
    const bool good = take_number(words[CALLER], &rack->caller) &&
                      take_number(words[OWNER], &rack->owner) &&
                      take_number(words[PLACE], &rack->place);
    if (good) {
        entry_place(entry, rack->caller, rack->owner, rack->place);
    }
    return good;
}

/* Lends the rack to the library, and says what comes back. */
static enum status ask(const struct line *line, const struct rack *rack, library_call *call,
                       struct entry *entry) {
    uint64_t answer;
    progress_phase(CODING);
    if (!call(rack, &answer)) {
        return FAILED;
    }
    entry_answer(entry, answer);
    if (answer != MAHYREI_ACCEPTED) {
        say_refusal(answer, "A rack has 176 bytes.");
        say_where_in_rack(answer, rack, line->operands);
        return REFUSED;
    }
    return DONE;
}

/* How long the lock is waited for, as --wait says. */
static bool take_patience(const struct line *line, struct patience *patience) {
    *patience = (struct patience){.bounded = line->options[WAIT] != NULL,
                                  .quiet = line->options[QUIET] != NULL};
    return !patience->bounded || take_number(line->options[WAIT], &patience->seconds);
}

/* One try of a call that changes the rack. */
static enum status change_once(const struct line *line, struct rack *rack, library_call *call,
                               struct rack_file *file, bool *late, struct entry *entry) {
    rack->area = (struct bytes){file->bytes, file->len};
    const enum status status = ask(line, rack, call, entry);
    rack->area = (struct bytes){0};
    if (status != DONE) {
        return status;
    }
    progress_phase(PUTTING_OUT);
    return rack_file_put(file, late) ? DONE : FAILED;
}

/* A call that changes the rack, on its file. Where another program has put another file there
 * meanwhile, it is put again, to that. */
static enum status change(const struct line *line, struct rack *rack, library_call *call,
                          struct entry *entry) {
    struct patience patience;
    enum status status = FAILED;
    bool late = take_patience(line, &patience);
    while (late) {
        struct rack_file file;
        late = false;
        progress_phase(WAITING);
        status = rack_file_open(&file, line->operands[AREA], &patience)
                     ? change_once(line, rack, call, &file, &late, entry)
                     : FAILED;
        rack_file_close(&file);
    }
    return status;
}

/* The header comes before the lock: it may be long in coming. It is not taken from the rack itself,
 * whose first bytes are another mission's and would be in the log. */
static bool take_header(const struct line *line, struct rack *rack) {
    const char *const name = line->operands[LAST];
    const struct file_id area = file_id_named(line->operands[AREA]);
    if (is_text(name)) {
        return take_in_text(name, HEADER_LIMIT, &rack->header);
    }
    struct file_id from;
    if (!take_in_known(name, HEADER_LIMIT, &rack->header, &from)) {
        return false;
    }
    if (same_id(&area, &from)) {
        complain_text(name, "this is the rack");
        return false;
    }
    return true;
}

enum status rack_load_command(const struct line *line, struct entry *entry) {
    struct rack rack = {0};
    enum status status = FAILED;
    progress_phase(TAKING_IN);
    if (take_numbers(line, &rack, entry) && take_header(line, &rack)) {
        entry_header(entry, rack.header.at, rack.header.len);
        status = change(line, &rack, library_rack_load, entry);
    }
    free(rack.header.at);
    return status;
}

enum status rack_drop_command(const struct line *line, struct entry *entry) {
    struct rack rack = {0};
    return take_numbers(line, &rack, entry) ? change(line, &rack, library_rack_drop, entry)
                                            : FAILED;
}

/* A loan ends when its place is dropped, so the owner's header is read, dropped and loaded again.
 * The file is replaced once, when all three have been accepted. */
static bool end_loan(const struct rack *rack, uint64_t *answer) {
    uint8_t header[MAHYREI_HEADER_BYTES];
    struct rack with = *rack;
    with.header = (struct bytes){header, sizeof header};
    return library_rack_read(&with, answer) &&
           (*answer != MAHYREI_ACCEPTED || library_rack_drop(&with, answer)) &&
           (*answer != MAHYREI_ACCEPTED || library_rack_load(&with, answer));
}

enum status rack_lend_command(const struct line *line, struct entry *entry) {
    struct rack rack = {0};
    if (!take_numbers(line, &rack, entry)) {
        return FAILED;
    }
    if (strcmp(line->operands[LAST], "none") == 0) {
        entry_no_borrower(entry);
        return change(line, &rack, end_loan, entry);
    }
    if (!take_number(line->operands[LAST], &rack.to)) {
        return FAILED;
    }
    entry_borrower(entry, rack.to);
    return change(line, &rack, library_rack_lend, entry);
}

/* A rack that is not there is the empty one: whether another mission has made it is not told. Its
 * folder has to be there, as for those who change it. */
static bool take_area(const char *name, struct rack *rack, struct file_id *id) {
    struct stat status;
    struct place place;
    if (is_dash(name) || stat(name, &status) == 0 || errno != ENOENT) {
        return take_in_known(name, RACK_LIMIT, &rack->area, id);
    }
    *id = (struct file_id){0};
    const bool has_folder = place_open(name, true, &place);
    place_close(&place);
    if (!has_folder || !make_buffer(MAHYREI_RACK_BYTES, &rack->area)) {
        return false;
    }
    memset(rack->area.at, 0, rack->area.len);
    return true;
}

/* Nothing changes, and the file is replaced whole by those who change it: no lock is needed. */
static enum status read_rack(const struct line *line, struct rack *rack, struct entry *entry) {
    uint8_t header[MAHYREI_HEADER_BYTES];
    struct output output = output_as_told(line, line->operands[LAST]);
    struct file_id area;
    output.spared.what = "this is the rack";
    output_spare(&output, input_id(line->operands[AREA]));
    if (!output_ready(&output)) {
        return FAILED;
    }
    progress_phase(TAKING_IN);
    if (!take_area(line->operands[AREA], rack, &area)) {
        return FAILED;
    }
    output_spare(&output, area);
    rack->header = (struct bytes){header, sizeof header};
    const enum status status = ask(line, rack, library_rack_read, entry);
    rack->header = (struct bytes){0};
    if (status != DONE) {
        return status;
    }
    progress_phase(PUTTING_OUT);
    if (!output_put(&output, header, sizeof header)) {
        return FAILED;
    }
    entry_header(entry, header, sizeof header);
    return DONE;
}

enum status rack_read_command(const struct line *line, struct entry *entry) {
    struct rack rack = {0};
    const enum status status =
        take_numbers(line, &rack, entry) ? read_rack(line, &rack, entry) : FAILED;
    free(rack.area.at);
    return status;
}

/* ---- rack-list */

/* What a mission may read: the library is asked of each place, and says no to all others. */
struct listed {
    struct rack *rack;
};

static void print_place(FILE *to, const struct rack *rack) {
    fprintf(to, "%" PRIu64 " %" PRIu64 " ", rack->owner, rack->place);
    for (size_t i = 0; i < rack->header.len; i++) {
        fprintf(to, "%02X", rack->header.at[i]);
    }
    fputc('\n', to);
}

/* A place that is not open to the caller is no refusal of the list. */
static bool print_places(FILE *to, const void *what) {
    const struct listed *const listed = what;
    struct rack *const rack = listed->rack;
    for (rack->owner = 0; rack->owner < MISSIONS; rack->owner++) {
        for (rack->place = 0; rack->place < PLACES; rack->place++) {
            uint64_t answer;
            if (!library_rack_read(rack, &answer)) {
                return false;
            }
            if (answer == MAHYREI_ACCEPTED) {
                print_place(to, rack);
            }
        }
    }
    return true;
}

/* Whether there is such a mission, and a rack: the first place is asked for, be it open or not. */
static enum status may_list(const struct line *line, struct rack *rack, struct entry *entry) {
    uint64_t answer;
    if (!library_rack_read(rack, &answer)) {
        return FAILED;
    }
    if (answer == MAHYREI_ACCEPTED || answer == MAHYREI_CLOSED_PLACE) {
        entry_answer(entry, MAHYREI_ACCEPTED);
        return DONE;
    }
    entry_answer(entry, answer);
    say_refusal(answer, "A rack has 176 bytes.");
    say_where_in_rack(answer, rack, line->operands);
    return REFUSED;
}

static enum status list_rack(const struct line *line, struct rack *rack, struct entry *entry) {
    uint8_t header[MAHYREI_HEADER_BYTES];
    struct file_id area;
    const struct listed listed = {rack};
    if (!take_area(line->operands[AREA], rack, &area)) {
        return FAILED;
    }
    rack->header = (struct bytes){header, sizeof header};
    enum status status = may_list(line, rack, entry);
    if (status == DONE && !put_printed(NULL, print_places, &listed)) {
        status = FAILED;
    }
    rack->header = (struct bytes){0};
    return status;
}

enum status rack_list_command(const struct line *line, struct entry *entry) {
    struct rack rack = {0};
    enum status status = FAILED;
    entry_rack(entry, line->operands[AREA]);
    if (take_number(line->operands[CALLER], &rack.caller)) {
        entry_caller(entry, rack.caller);
        status = list_rack(line, &rack, entry);
    }
    free(rack.area.at);
    return status;
}
