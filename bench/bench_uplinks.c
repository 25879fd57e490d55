/*
 * The uplink calls beside the plain C version: microseconds a codeblock, on the same frames, in one
 * run. The two take turns, and the best turn of each counts, so a busy machine harms both alike and
 * little.
 */
#define _POSIX_C_SOURCE 199309L /* clock_gettime */
#include <string.h>

#include "mahyrei.h"
#include "reference.h"
#include "timing.h"

enum {
    MOST = MAHYREI_UPLINK_MAX,
    FRAME = MAHYREI_UPLINK_FRAME_BYTES,
    CODEBLOCK = MAHYREI_UPLINK_CODEBLOCK_BYTES,
    TURNS = 200,
    TURN = 640, /* codeblocks of a turn */
    WARM_UP = 5
};

typedef uint64_t call_type(const uint8_t *from, size_t from_len, uint8_t *to, size_t to_len);

static uint8_t frames[MOST * FRAME], back[MOST * FRAME];
static uint8_t slots[MOST * CODEBLOCK], written[MOST * CODEBLOCK];

/* Both write the same slots, read the same frames and refuse in the same way. */
static void compare(void) {
    require(mahyrei_uplink_write(frames, sizeof frames, slots, sizeof slots) == 0 &&
                reference_uplink_write(frames, sizeof frames, written, sizeof written) == 0 &&
                memcmp(slots, written, sizeof slots) == 0,
            "library and plain C write other slots");
    require(mahyrei_uplink_read(slots, sizeof slots, back, sizeof back) == 0 &&
                memcmp(frames, back, sizeof frames) == 0,
            "the library reads other frames");
    memset(back, 0, sizeof back);
    require(reference_uplink_read(slots, sizeof slots, back, sizeof back) == 0 &&
                memcmp(frames, back, sizeof frames) == 0,
            "plain C reads other frames");
    written[sizeof written - 1] ^= 0x0C;
    require(mahyrei_uplink_read(written, sizeof written, back, sizeof back) ==
                reference_uplink_read(written, sizeof written, back, sizeof back),
            "library and plain C refuse in other ways");
}

/* Microseconds a codeblock over one turn, in calls of n codeblocks. */
static double once(call_type *call, int write, size_t n) {
    uint64_t answers = 0;
    const double start = now();
    for (size_t i = 0; i < TURN / n; i++) {
        answers |= write ? call(frames, n * FRAME, written, n * CODEBLOCK)
                         : call(slots, n * CODEBLOCK, back, n * FRAME);
    }
    const double took = now() - start;
    require(answers == 0, "a call refused while it was timed");
    return took / TURN;
}

static void row(const char *name, call_type *library, call_type *plain, int write, size_t n) {
    double best[2] = {1e9, 1e9};
    for (int turn = -WARM_UP; turn < TURNS; turn++) {
        const double took[2] = {once(library, write, n), once(plain, write, n)};
        for (int i = 0; turn >= 0 && i < 2; i++) {
            best[i] = took[i] < best[i] ? took[i] : best[i];
        }
    }
    printf("%-20s %10zu %9.3f %9.3f %15.3f\n", name, n, best[0], best[1], best[0] / best[1]);
}

int main(void) {
    printf("microseconds a codeblock, the best turn of each\n");
    printf("%-20s %10s %9s %9s %15s\n", "call", "codeblocks", "library", "plain C",
           "library/plain");
    fill(frames, sizeof frames);
    compare();
    for (size_t n = 1; n <= MOST; n *= MOST) {
        row("mahyrei_uplink_write", mahyrei_uplink_write, reference_uplink_write, 1, n);
        row("mahyrei_uplink_read", mahyrei_uplink_read, reference_uplink_read, 0, n);
    }
    return 0;
}
