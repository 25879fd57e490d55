/*
 * The two run calls on more than 2^32 slots, in 537 MB: what a 32-bit number of slots would get
 * wrong. Each symbol is sent 32 times, so the slots are those of one copy, group by group.
 */
#include <inttypes.h>
#include <stdbool.h>
#include <stdio.h>
#include <stdlib.h>
#include <string.h>

#include "check.h"
#include "mahyrei.h"
#include "runs.h"

static const struct run ONCE = {0, 8, 91, 51, 1, 1, 1, 1}, OFTEN = {0, 8, 91, 51, 1, 1, 1, 32};
enum { GROUP = 40 }; /* bytes of a symbol's slots */

static const uint8_t marker[] = {77}, frame[] = {0xA5};

static uint64_t write_slots(const struct run *run, uint8_t *slots) {
    uint8_t header[MAHYREI_HEADER_BYTES];
    pack_header(run, header);
    return mahyrei_run_write(header, sizeof header, marker, sizeof marker, frame, sizeof frame,
                             slots, slot_bytes(run));
}

static uint64_t read_slots(const uint8_t *slots, uint8_t *to) {
    uint8_t header[MAHYREI_HEADER_BYTES];
    pack_header(&OFTEN, header);
    *to = 0;
    return mahyrei_run_read(header, sizeof header, marker, sizeof marker, slots, slot_bytes(&OFTEN),
                            to, 1);
}

/* Each group of one copy is there 32 times. */
static bool all_copied(const uint8_t *once, const uint8_t *often) {
    size_t same = 0;
    for (size_t i = 0; i < symbol_count(&OFTEN) * OFTEN.copies; i++) {
        same += memcmp(often + i * GROUP, once + i / OFTEN.copies * GROUP, GROUP) == 0;
    }
    return same == symbol_count(&OFTEN) * OFTEN.copies;
}

static void test(const uint8_t *once, uint8_t *often) {
    const size_t last = symbol_count(&OFTEN) - 1, start = copy_start(&OFTEN, last, 0) / 8;
    uint8_t got;
    CHECK(write_slots(&OFTEN, often) == MAHYREI_ACCEPTED && all_copied(once, often));
    memset(often + start, 0, 31 * GROUP); /* the last copy of the last symbol is left */
    CHECK(read_slots(often, &got) == MAHYREI_ACCEPTED && got == frame[0]);
    memset(often + start + 31 * GROUP, 0, GROUP); /* no pulse is left */
    CHECK(read_slots(often, &got) == last * 256 + MAHYREI_BAD_PULSE && got == 0);
    often[start] = 0x40; /* it is 1 now, and its place is one that should be 0 */
    CHECK(read_slots(often, &got) == last * 256 + MAHYREI_BAD_IDLE && got == 0);
}

int main(void) {
    uint8_t *const once = malloc(slot_bytes(&ONCE)), *const often = malloc(slot_bytes(&OFTEN));
    if (once == NULL || often == NULL) {
        perror("long_calls.c: 554 MB");
        free(once);
        free(often);
        return EXIT_FAILURE;
    }
    CHECK(symbol_count(&OFTEN) == 419802 && slot_count(&OFTEN) == UINT64_C(4298772480));
    CHECK(slot_bytes(&OFTEN) == 537346560 && group_slots(&OFTEN) == 8 * GROUP);
    CHECK(write_slots(&ONCE, once) == MAHYREI_ACCEPTED);
    test(once, often);
    printf("long_calls: %zu slots, %lu checks, %lu failed\n", slot_count(&OFTEN), checks, failures);
    free(once);
    free(often);
    return failures == 0 ? EXIT_SUCCESS : EXIT_FAILURE;
}
