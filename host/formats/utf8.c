#include "formats/utf8.h"

/* One line for each form of a character: its length, the range of its first byte, and that of its
 * second, which shuts out long forms, surrogates and what is above 10FFFF. */
static const struct form {
    size_t length;
    unsigned char first, last, low, high;
} FORMS[] = {
    {1, 0x01, 0x7F, 0, 0},       {2, 0xC2, 0xDF, 0x80, 0xBF}, {3, 0xE0, 0xE0, 0xA0, 0xBF},
    {3, 0xE1, 0xEC, 0x80, 0xBF}, {3, 0xED, 0xED, 0x80, 0x9F}, {3, 0xEE, 0xEF, 0x80, 0xBF},
    {4, 0xF0, 0xF0, 0x90, 0xBF}, {4, 0xF1, 0xF3, 0x80, 0xBF}, {4, 0xF4, 0xF4, 0x80, 0x8F},
};

static size_t fits(const struct form *form, const unsigned char *at) {
    if (at[0] < form->first || at[0] > form->last) {
        return 0;
    }
    if (form->length > 1 && (at[1] < form->low || at[1] > form->high)) {
        return 0;
    }
    for (size_t i = 2; i < form->length; i++) {
        if (at[i] < 0x80 || at[i] > 0xBF) {
            return 0;
        }
    }
    return form->length;
}

size_t utf8_length(const char *text) {
    for (size_t i = 0; i < sizeof FORMS / sizeof FORMS[0]; i++) {
        const size_t length = fits(&FORMS[i], (const unsigned char *)text);
        if (length > 0) {
            return length;
        }
    }
    return 0;
}
