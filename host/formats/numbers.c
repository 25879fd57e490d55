#include "formats/numbers.h"

#include <inttypes.h>
#include <stddef.h>
#include <stdio.h>
#include <string.h>

bool read_number(const char *text, uint64_t *number) {
    const char *at = text;
    *number = 0;
    for (; *at >= '0' && *at <= '9'; at++) {
        const unsigned digit = (unsigned)(*at - '0');
        if (*number > (UINT64_MAX - digit) / 10) {
            break;
        }
        *number = *number * 10 + digit;
    }
    return at != text && *at == '\0';
}

const char *grouped(uint64_t number, char text[GROUPED]) {
    char digits[GROUPED];
    const size_t count = (size_t)snprintf(digits, sizeof digits, "%" PRIu64, number);
    size_t at = 0;
    for (size_t i = 0; i < count; i++) {
        if (i > 0 && (count - i) % 3 == 0) {
            text[at++] = ',';
        }
        text[at++] = digits[i];
    }
    text[at] = '\0';
    return text;
}

const char *rate_name(uint64_t rate) {
    static const char *const NAMES[] = {"1/3", "1/2", "2/3"};
    return rate < 3 ? NAMES[rate] : NULL;
}

bool read_rate(const char *text, uint64_t *rate) {
    for (*rate = 0; rate_name(*rate) != NULL; ++*rate) {
        if (strcmp(text, rate_name(*rate)) == 0) {
            return true;
        }
    }
    return false;
}
