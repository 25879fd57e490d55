#include "formats/text.h"

#include <errno.h>
#include <stdlib.h>

bool text_begin(struct text *text) {
    *text = (struct text){0};
    text->to = open_memstream(&text->at, &text->len);
    return text->to != NULL;
}

bool text_end(struct text *text) {
    const bool whole = fflush(text->to) == 0 && ferror(text->to) == 0;
    const bool closed = fclose(text->to) == 0;
    text->to = NULL;
    if (!whole || !closed) {
        errno = ENOMEM;
    }
    return whole && closed;
}

void text_free(struct text *text) {
    free(text->at);
    *text = (struct text){0};
}
