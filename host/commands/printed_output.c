#include "commands/printed_output.h"

#include <errno.h>

#include "commands/line.h"
#include "files/inputs.h"
#include "formats/text.h"
#include "report/messages.h"
#include "report/progress.h"
#include "system/descriptors.h"

static bool print_into(struct text *text, printer *print, const void *what) {
    if (!text_begin(text)) {
        complain("memory", errno);
        return false;
    }
    bool good = print(text->to, what);
    if (!text_end(text)) {
        complain("memory", errno);
        good = false;
    }
    progress_stop();
    return good;
}

bool put_printed(const struct output *output, printer *print, const void *what) {
    struct text text;
    const bool good = print_into(&text, print, what) &&
                      (output == NULL ? put_text(text.at, text.len) && end_text()
                                      : output_put(output, text.at, text.len));
    text_free(&text);
    return good;
}

bool put_piece(printer *print, const void *what) {
    struct text text;
    const bool good = print_into(&text, print, what) && put_text(text.at, text.len);
    text_free(&text);
    return good;
}

/* A picture in place of the slots or the capture would be a loss that nobody meant. */
struct output picture_as_told(const struct line *line, enum option_id option) {
    struct output picture = output_as_told(line, line->options[option]);
    picture.spared.what = "this is what is looked at, and no picture goes there";
    for (int i = 0; i < line->count; i++) {
        output_spare(&picture, input_id(line->operands[i]));
    }
    return picture;
}

struct output annotations_as_told(const struct line *line) {
    struct output annotations = picture_as_told(line, ANNOTATIONS);
    annotations.spared.what = "this is what is looked at, and no annotations go there";
    return annotations;
}

bool picture_ready(struct output *picture) {
    if (picture->name == NULL) {
        return true;
    }
    if (is_dash(picture->name)) {
        complain_text("-", "the picture goes to a file; standard output has the report");
        return false;
    }
    return output_ready(picture);
}
