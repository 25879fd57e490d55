#include "commands/number_operands.h"

#include "formats/numbers.h"
#include "report/messages.h"

bool take_number(const char *text, uint64_t *number) {
    if (!read_number(text, number)) {
        complain_text(text, "not a number, or too large");
        return false;
    }
    return true;
}

bool take_rate(const char *text, uint64_t *rate) {
    if (!read_rate(text, rate) && !read_number(text, rate)) {
        complain_text(text, "the rate is 1/3, 1/2 or 2/3, or its number, 0, 1 or 2");
        return false;
    }
    return true;
}
