#include "files/inputs.h"

#include <errno.h>
#include <fcntl.h>
#include <stdlib.h>
#include <string.h>
#include <sys/stat.h>
#include <unistd.h>

#include "report/messages.h"
#include "system/descriptors.h"

/* ---- files */

/* How many bytes to begin with: one more than a file has, so that its end is met without growing.
 */
static size_t first_room(int file, size_t limit) {
    struct stat status;
    const size_t guess =
        fstat(file, &status) == 0 && S_ISREG(status.st_mode) && (uintmax_t)status.st_size < limit
            ? (size_t)status.st_size + 1
            : 65536;
    return guess < limit ? guess : limit;
}

/* False and errno where reading or memory fails. */
static bool read_whole(int file, size_t limit, struct bytes *to) {
    size_t room = 0;
    for (;;) {
        if (to->len == room) {
            room = room == 0 ? first_room(file, limit) : room < limit / 2 ? room * 2 : limit;
            uint8_t *const grown = realloc(to->at, room);
            if (grown == NULL) {
                return false;
            }
            to->at = grown;
        }
        const ssize_t got = read_some(file, to->at + to->len, room - to->len);
        if (got < 0) {
            return false;
        }
        to->len += (size_t)got;
        if (got == 0 || to->len == limit) {
            return true;
        }
    }
}

/* An input that is open. */
struct input {
    int file;  /* -1 and errno where it cannot be opened */
    bool ours; /* opened here, and so to be closed */
};

static struct input open_input(const char *name) {
    const int handed = is_dash(name) ? STDIN_FILENO : descriptor_of(name);
    return (struct input){handed < 0            ? open(name, O_RDONLY | O_CLOEXEC | O_NOCTTY)
                          : handed_over(handed) ? handed
                                                : -1,
                          handed < 0};
}

/* The bytes are here; how closing ends says nothing of them. An open file stays open, so that no
 * file of ours gets its number. */
static void close_input(const struct input *input) {
    if (input->ours && input->file >= 0) {
        (void)close(input->file);
    }
}

static const char *input_name(const char *name) {
    return is_dash(name) ? "standard input" : name;
}

bool take_in_known(const char *name, size_t limit, struct bytes *to, struct file_id *id) {
    const struct input input = open_input(name);
    *to = (struct bytes){NULL, 0};
    *id = input.file >= 0 ? file_id_of(input.file) : (struct file_id){0};
    const bool good = input.file >= 0 && read_whole(input.file, limit, to);
    if (!good) {
        complain(input_name(name), errno);
    }
    close_input(&input);
    return good;
}

bool take_in(const char *name, size_t limit, struct bytes *to) {
    struct file_id id;
    return take_in_known(name, limit, to, &id);
}

/* ---- captures */

/* The bytes of this machine's memory; where it does not say, as many as there can be. */
static size_t memory_bytes(void) {
    const size_t most = SIZE_MAX / 2;
#ifdef _SC_PHYS_PAGES
    const long pages = sysconf(_SC_PHYS_PAGES), page = sysconf(_SC_PAGESIZE);
    if (pages > 0 && page > 0 && (size_t)pages < most / (size_t)page) {
        return (size_t)pages * (size_t)page;
    }
#endif
    return most;
}

/* One byte more than is taken. No memory holds as many as would be too many for the library. */
static size_t capture_limit(bool is_file) {
    const size_t memory = memory_bytes();
    return (is_file ? memory : memory / 2) + 1;
}

static bool read_capture(int file, const char *name, struct bytes *to) {
    struct stat status;
    if (file < 0 || fstat(file, &status) != 0) {
        complain(name, errno);
        return false;
    }
    const bool is_file = S_ISREG(status.st_mode);
    const size_t limit = capture_limit(is_file);
    const bool large = is_file && (uintmax_t)status.st_size >= limit;
    if (!large && !read_whole(file, limit, to)) {
        complain(name, errno);
        return false;
    }
    if (large || to->len == limit) {
        complain_text(name, is_file ? "larger than this machine's memory"
                                    : "larger than half of this machine's memory");
        return false;
    }
    return true;
}

bool take_in_all(const char *name, struct bytes *to, struct file_id *id) {
    const struct input input = open_input(name);
    *to = (struct bytes){NULL, 0};
    *id = input.file >= 0 ? file_id_of(input.file) : (struct file_id){0};
    const bool good = read_capture(input.file, input_name(name), to);
    close_input(&input);
    return good;
}

/* ---- hexadecimal text */

static const char DIGITS[] = "0123456789abcdefABCDEF", GAPS[] = " :";

static int digit_value(char digit) {
    const char *const found = digit == '\0' ? NULL : strchr(DIGITS, digit);
    const int value = found == NULL ? -1 : (int)(found - DIGITS);
    return value > 15 ? value - 6 : value;
}

/* What may come before a byte: a blank, a colon, 0x. How many characters of it are here. */
static size_t gap(const char *text) {
    return text[0] != '\0' && strchr(GAPS, text[0]) != NULL       ? 1
           : text[0] == '0' && (text[1] == 'x' || text[1] == 'X') ? 2
                                                                  : 0;
}

/* Two digits to a byte. */
static bool read_digits(const char *text, size_t limit, struct bytes *to) {
    if (!make_buffer(strlen(text) / 2, to)) {
        return false;
    }
    to->len = 0;
    for (size_t i = 0, skipped; text[i] != '\0' && to->len < limit; i += skipped) {
        skipped = gap(text + i);
        if (skipped > 0) {
            continue;
        }
        const int high = digit_value(text[i]), low = high < 0 ? -1 : digit_value(text[i + 1]);
        if (low < 0) {
            complain_text(text, "hexadecimal text has two digits for each byte");
            return false;
        }
        to->at[to->len++] = (uint8_t)(high * 16 + low);
        skipped = 2;
    }
    return true;
}

/* Nothing but digits and gaps, and at least one digit. */
static bool is_bare_text(const char *operand) {
    bool any = false;
    for (size_t i = 0, skipped; operand[i] != '\0'; i += skipped) {
        skipped = gap(operand + i);
        if (skipped == 0 && digit_value(operand[i]) < 0) {
            return false;
        }
        any = any || skipped == 0;
        skipped = skipped == 0 ? 1 : skipped;
    }
    return any;
}

bool is_text(const char *operand) {
    return strncmp(operand, "hex:", 4) == 0 || is_bare_text(operand);
}

bool take_in_text(const char *operand, size_t limit, struct bytes *to) {
    struct stat status;
    *to = (struct bytes){NULL, 0};
    if (strncmp(operand, "hex:", 4) == 0) {
        return read_digits(operand + 4, limit, to);
    }
    if (!is_bare_text(operand)) {
        return take_in(operand, limit, to);
    }
    if (lstat(operand, &status) == 0) {
        complain_text(operand,
                      "this is hexadecimal text and also a file here; hex: before it means "
                      "the text, ./ the file");
        return false;
    }
    return read_digits(operand, limit, to);
}

struct file_id input_id(const char *operand) {
    if (is_dash(operand)) {
        return file_id_of(STDIN_FILENO);
    }
    return strncmp(operand, "hex:", 4) != 0 ? file_id_named(operand) : (struct file_id){0};
}
