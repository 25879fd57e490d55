/*
 * Test of mahyrei_run_find, mahyrei_run_find_from and mahyrei_run_cut from C: known captures, runs
 * at any slot of a capture, and refusals of every number with the lent bytes unchanged. Each search
 * of a whole capture is put as one from slot 0 too, and then from other slots.
 *
 * The library is not built with sanitizers. So each slice is lent from pages of its own: it ends
 * where a page begins that may not be touched, the bytes before it are compared after the call, and
 * the slices that a call reads are write-protected.
 */
#define _DEFAULT_SOURCE /* MAP_ANONYMOUS, MAP_NORESERVE */
#include <inttypes.h>
#include <stdbool.h>
#include <stdio.h>
#include <stdlib.h>
#include <string.h>
#include <sys/mman.h>

#include "check.h"
#include "mahyrei.h"
#include "runs.h"

enum call { FIND, FIND_FROM, CUT, CALLS };

static unsigned long met[CALLS][256]; /* answers by call and number */

/* ---- lent slices */

enum { PAGE = 4096, AREA = 32 * PAGE, MARGIN = 64 };

struct lent {
    uint8_t *area; /* the slice is at its end; the next page may not be touched */
    uint8_t *slice;
    size_t len;
    uint8_t before[AREA]; /* what margin and slice held when they were lent */
};

static struct lent lent_header, lent_marker, lent_capture, lent_slots;

static void map_area(struct lent *lent) {
    lent->area =
        mmap(NULL, AREA + PAGE, PROT_READ | PROT_WRITE, MAP_PRIVATE | MAP_ANONYMOUS, -1, 0);
    if (lent->area == MAP_FAILED || mprotect(lent->area + AREA, PAGE, PROT_NONE) != 0) {
        perror("mmap");
        exit(1);
    }
}

static void protect(const struct lent *lent, int protection) {
    if (mprotect(lent->area, AREA, protection) != 0) {
        perror("mprotect");
        exit(1);
    }
}

static void lend(struct lent *lent, const uint8_t *bytes, size_t len) {
    if (len + MARGIN > AREA) {
        fprintf(stderr, "find_calls.c: %zu bytes are too many to lend\n", len);
        exit(1);
    }
    lent->slice = lent->area + AREA - len;
    lent->len = len;
    fill_random(lent->slice - MARGIN, len + MARGIN);
    if (bytes != NULL && len > 0) {
        memcpy(lent->slice, bytes, len);
    }
}

static uint8_t *margin_of(const struct lent *lent) {
    return lent->area + AREA - lent->len - MARGIN;
}

static void remember(struct lent *lent) {
    memcpy(lent->before, margin_of(lent), lent->len + MARGIN);
}

/* The first so many bytes of margin and slice are as they were lent. */
static bool unchanged(const struct lent *lent, size_t count) {
    return memcmp(margin_of(lent), lent->before, count) == 0;
}

static uint64_t slot_bits(size_t bytes) {
    return 8 * (uint64_t)bytes;
}

/* A search from any slot, of slices that are lent and protected. */
static uint64_t from_slot(uint64_t from) {
    const uint64_t answer =
        mahyrei_run_find_from(lent_header.slice, lent_header.len, lent_marker.slice,
                              lent_marker.len, lent_capture.slice, lent_capture.len, from);
    met[FIND_FROM][mahyrei_answer_number(answer)]++;
    return answer;
}

/* A search from slot 0 says the same as one of the whole capture, and so does one from any slot up
 * to the one found. One from the next slot finds a later one or none, and one from beyond the
 * capture none. A call that is refused for another reason is refused from any slot. */
static void check_from(uint64_t answer) {
    const uint64_t end = slot_bits(lent_capture.len), found = mahyrei_answer_place(answer);
    const uint64_t beyond[] = {end, end + 1 + random_below(1000), UINT64_C(1) << 61,
                               UINT64_MAX - random_below(2000), UINT64_MAX};
    CHECK(from_slot(0) == answer);
    for (size_t i = 0; i < sizeof beyond / sizeof beyond[0]; i++) {
        CHECK(from_slot(beyond[i]) ==
              (mahyrei_answer_number(answer) == 0 ? MAHYREI_NO_MARKER : answer));
    }
    if (mahyrei_answer_number(answer) != 0) {
        CHECK(from_slot(random_below(end + 1)) == answer);
        return;
    }
    CHECK(from_slot(found) == answer);
    CHECK(from_slot(random_below(found + 1)) == answer);
    const uint64_t next = from_slot(found + 1);
    CHECK(next == MAHYREI_NO_MARKER ||
          (mahyrei_answer_number(next) == 0 && mahyrei_answer_place(next) > found));
}

static uint64_t find(const uint8_t *header, size_t header_len, const uint8_t *marker,
                     size_t marker_len, const uint8_t *capture, size_t capture_len) {
    struct lent *const all[] = {&lent_header, &lent_marker, &lent_capture};
    lend(&lent_header, header, header_len);
    lend(&lent_marker, marker, marker_len);
    lend(&lent_capture, capture, capture_len);
    for (size_t i = 0; i < 3; i++) {
        remember(all[i]);
        protect(all[i], PROT_READ);
    }
    const uint64_t answer = mahyrei_run_find(lent_header.slice, header_len, lent_marker.slice,
                                             marker_len, lent_capture.slice, capture_len);
    met[FIND][mahyrei_answer_number(answer)]++;
    check_from(answer);
    for (size_t i = 0; i < 3; i++) {
        CHECK(unchanged(all[i], MARGIN + all[i]->len));
        protect(all[i], PROT_READ | PROT_WRITE);
    }
    return answer;
}

/* The slots that it writes are those of lent_slots. */
static uint64_t cut(const uint8_t *header, size_t header_len, const uint8_t *capture,
                    size_t capture_len, uint64_t slot, size_t slots_len) {
    lend(&lent_header, header, header_len);
    lend(&lent_capture, capture, capture_len);
    lend(&lent_slots, NULL, slots_len);
    remember(&lent_header);
    remember(&lent_capture);
    remember(&lent_slots);
    protect(&lent_header, PROT_READ);
    protect(&lent_capture, PROT_READ);
    const uint64_t answer = mahyrei_run_cut(lent_header.slice, header_len, lent_capture.slice,
                                            capture_len, slot, lent_slots.slice, slots_len);
    met[CUT][mahyrei_answer_number(answer)]++;
    CHECK(unchanged(&lent_header, MARGIN + header_len));
    CHECK(unchanged(&lent_capture, MARGIN + capture_len));
    CHECK(unchanged(&lent_slots, answer == MAHYREI_ACCEPTED ? MARGIN : MARGIN + slots_len));
    protect(&lent_header, PROT_READ | PROT_WRITE);
    protect(&lent_capture, PROT_READ | PROT_WRITE);
    return answer;
}

/* ---- markers */

static uint64_t at_slot(uint64_t slot) {
    return slot * 256;
}

/* A search with a run's own header. */
static uint64_t search(const struct run *run, const uint8_t *marker, const uint8_t *capture,
                       size_t capture_len) {
    uint8_t header[MAHYREI_HEADER_BYTES];
    pack_header(run, header);
    return find(header, sizeof header, marker, run->W, capture, capture_len);
}

/* Symbol 2 of 4 is the slots 00100. */
static void test_short(void) {
    static const struct {
        uint8_t capture[3];
        size_t len;
        uint64_t answer;
    } CASES[] = {
        {{0x10}, 1, 256}, /* slot 1 */
        {{0x20}, 1, 0},
        {{0x04}, 1, 3 * 256},
        {{0x02}, 1, 19}, /* its last guard slot would be the next byte's first */
        {{0x02, 0x00}, 2, 4 * 256},
        {{0x02, 0x80}, 2, 19},
        {{0x28}, 1, 19}, /* a pulse in the guard slot */
        {{0x30}, 1, 19}, /* two pulses */
        {{0x00}, 1, 19},
        {{0xFF, 0xFF, 0xFF}, 3, 19},
        {{0}, 0, 19},
        {{0xF2, 0x7F}, 2, 4 * 256}, /* among pulses */
        {{0xF1, 0x3F}, 2, 5 * 256},
        {{0xF2, 0xFF}, 2, 19}, /* the guard slot has one of them */
        {{0xFA, 0x7F}, 2, 19},
    };
    const struct run run = {0, 2, 1, 1, 40, 1, 2, 1};
    const uint8_t marker[] = {2};
    for (size_t i = 0; i < sizeof CASES / sizeof CASES[0]; i++) {
        CHECK(search(&run, marker, CASES[i].capture, CASES[i].len) == CASES[i].answer);
    }
}

/* The same from a slot on. */
static uint64_t search_from(const struct run *run, const uint8_t *marker, const uint8_t *capture,
                            size_t capture_len, uint64_t from) {
    const uint64_t answer = search(run, marker, capture, capture_len);
    CHECK(mahyrei_answer_number(answer) == 0 || answer == MAHYREI_NO_MARKER);
    protect(&lent_capture, PROT_READ);
    const uint64_t later = from_slot(from);
    protect(&lent_capture, PROT_READ | PROT_WRITE);
    CHECK(mahyrei_answer_number(later) != 0 || mahyrei_answer_place(later) >= from);
    return later;
}

static uint8_t capture[AREA], slots[AREA];

static void set_slots(size_t from, size_t count, bool pulse) {
    for (size_t x = from; x < from + count; x++) {
        if (get_bit(capture, x) != pulse) {
            flip(capture, x);
        }
    }
}

/* Step 10's slots of a marker, over what is there. */
static void put_marker(const struct run *run, const uint8_t *marker, size_t at) {
    for (size_t i = 0; i < run->W; i++) {
        set_slots(at + i * group_slots(run), group_slots(run), false);
        flip(capture, at + i * group_slots(run) + marker[i]);
    }
}

/* Every m and several W, the first and the last symbols, and every place in a byte: the marker is
 * found among empty slots and among pulses, at the last slot that has room, and not one further. A
 * slot of it that is turned over is missed. */
static void test_markers(const struct run *run, const uint8_t *marker, size_t at) {
    const size_t taken = run->W * group_slots(run), len = (at + taken + 7) / 8;
    for (int around = 0; around < 2; around++) {
        memset(capture, around == 0 ? 0 : 0xFF, sizeof capture);
        put_marker(run, marker, at);
        CHECK(search(run, marker, capture, len) == at_slot(at));
        CHECK(search(run, marker, capture, len + 100) == at_slot(at));
        CHECK(search(run, marker, capture, (at + taken - 1) / 8) == MAHYREI_NO_MARKER);
        const size_t turned = at + random_below(taken);
        const bool was = get_bit(capture, turned) != 0;
        flip(capture, turned);
        const uint64_t answer = search(run, marker, capture, len);
        /* a pulse more may be the first of another marker, and so may a pulse before the one lost
         */
        CHECK(answer == MAHYREI_NO_MARKER ||
              ((!was || around != 0) && mahyrei_answer_number(answer) == 0));
        CHECK(answer != at_slot(at));
        flip(capture, turned);
        put_marker(run, marker, at + taken + 3); /* the first of two */
        CHECK(search(run, marker, capture, len + taken / 8 + 2) == at_slot(at));
        const size_t both = len + taken / 8 + 2;
        CHECK(search_from(run, marker, capture, both, at + taken) == at_slot(at + taken + 3));
        CHECK(search_from(run, marker, capture, both, at + taken + 3) == at_slot(at + taken + 3));
        CHECK(search_from(run, marker, capture, both, at + taken + 4) == MAHYREI_NO_MARKER);
    }
}

static void test_all_orders(void) {
    static const uint64_t LENGTHS[] = {1, 2, 31, 32};
    uint8_t marker[MAHYREI_MARKER_MAX];
    for (uint64_t m = 2; m <= 8; m++) {
        for (size_t i = 0; i < sizeof LENGTHS / sizeof LENGTHS[0]; i++) {
            const struct run run = {1, m, 1, 1, 100, LENGTHS[i], 1, 1};
            for (size_t at = 0; at < 20; at += 1 + random_below(3)) {
                for (size_t s = 0; s < run.W; s++) {
                    const size_t M = pulse_order(&run);
                    marker[s] = (uint8_t)(at % 3 == 0 ? 0 : at % 3 == 1 ? M - 1 : random_below(M));
                }
                test_markers(&run, marker, at);
            }
        }
    }
}

/* The longest marker, which is the whole capture: 1,280 bytes. */
static void test_whole_capture(void) {
    const struct run run = {0, 8, 1, 1, 40, 32, 1, 1};
    uint8_t marker[32];
    for (size_t i = 0; i < 32; i++) {
        marker[i] = (uint8_t)(255 - 8 * i);
    }
    memset(capture, 0, sizeof capture);
    put_marker(&run, marker, 0);
    CHECK(search(&run, marker, capture, 1280) == 0);
    CHECK(search(&run, marker, capture, 1279) == MAHYREI_NO_MARKER);
    CHECK(search(&run, marker, capture, 0) == MAHYREI_NO_MARKER);
    flip(capture, 8 * 1280 - 1); /* the last guard slot of all */
    CHECK(search(&run, marker, capture, 1280) == MAHYREI_NO_MARKER);
}

/* Markers at known slots, some over the slots of others: from each slot the next of them is found,
 * and after the last none, in captures that end anywhere. */
static void test_from(void) {
    static const size_t AT[] = {0, 5, 13, 14 + 5, 64, 71, 1000, 1007, 4000, 8187};
    enum { MARKERS = sizeof AT / sizeof AT[0], LEN = 1024 };
    const struct run run = {0, 2, 1, 1, 40, 1, 1, 1};
    const uint8_t marker[] = {3}; /* 00010 */
    uint8_t header[MAHYREI_HEADER_BYTES];
    pack_header(&run, header);
    memset(capture, 0, sizeof capture);
    for (size_t i = 0; i < MARKERS; i++) {
        put_marker(&run, marker, AT[i]);
    }
    for (size_t len = LEN; len > 0; len -= len > 20 && len < LEN - 5 ? 1 + random_below(20) : 1) {
        size_t next = MARKERS;
        for (uint64_t from = slot_bits(len); from-- > 0;) {
            while (next > 0 && AT[next - 1] >= from) {
                next--;
            }
            const bool there = next < MARKERS && AT[next] + 5 <= slot_bits(len);
            CHECK(mahyrei_run_find_from(header, sizeof header, marker, 1, capture, len, from) ==
                  (there ? at_slot(AT[next]) : MAHYREI_NO_MARKER));
        }
    }
}

/* Many that look like the marker for long: symbols 0 again and again, and at last a 1. */
static void test_worst(void) {
    const struct run run = {0, 4, 1, 1, 40, 32, 1, 1};
    const uint8_t zeros[32] = {0};
    uint8_t marker[32] = {0};
    marker[31] = 1;
    memset(capture, 0, sizeof capture);
    for (size_t i = 0; i < 40; i++) {
        put_marker(&run, zeros, 3 + i * 32 * 20);
    }
    const size_t len = (3 + 40 * 32 * 20 + 7) / 8;
    CHECK(search(&run, marker, capture, len) == MAHYREI_NO_MARKER);
    CHECK(search(&run, zeros, capture, len) == at_slot(3));
    put_marker(&run, marker, 3 + 39 * 32 * 20 + 7 * 20 - 32 * 20);
    CHECK(search(&run, marker, capture, len) == at_slot(3 + 39 * 32 * 20 + 7 * 20 - 32 * 20));
}

/* A place above 2 to the power 32, in a capture of which all but the end is empty pages. */
static void test_far(void) {
    static const size_t LEN = (UINT64_C(1) << 29) + PAGE;
    const struct run run = {0, 2, 1, 1, 40, 2, 1, 1};
    const uint64_t slot = (UINT64_C(1) << 32) + 12345;
    const uint8_t marker[] = {0, 3};
    uint8_t header[MAHYREI_HEADER_BYTES];
    uint8_t *const far =
        mmap(NULL, LEN, PROT_READ | PROT_WRITE, MAP_PRIVATE | MAP_ANONYMOUS | MAP_NORESERVE, -1, 0);
    if (far == MAP_FAILED) {
        perror("mmap");
        exit(1);
    }
    pack_header(&run, header);
    flip(far, slot);
    flip(far, slot + 5 + 3);
    CHECK(mahyrei_run_find(header, sizeof header, marker, 2, far, LEN) == at_slot(slot));
    for (uint64_t from = slot - 2; from <= slot + 2; from++) {
        CHECK(mahyrei_run_find_from(header, sizeof header, marker, 2, far, LEN, from) ==
              (from <= slot ? at_slot(slot) : MAHYREI_NO_MARKER));
    }
    const size_t bytes = slot_bytes(&run);
    lend(&lent_slots, NULL, bytes);
    const uint64_t last = 8 * (uint64_t)LEN - slot_count(&run);
    CHECK(mahyrei_run_cut(header, sizeof header, far, LEN, last, lent_slots.slice, bytes) == 0);
    CHECK(get_bit(lent_slots.slice, slot - last) == 1 &&
          get_bit(lent_slots.slice, slot + 8 - last) == 1);
    CHECK(mahyrei_run_cut(header, sizeof header, far, LEN, last + 1, lent_slots.slice, bytes) == 8);
    munmap(far, LEN);
}

/* ---- runs */

static uint8_t frames[2048];

/* Rate 1/2, m 4, one frame of 223 bytes, one marker symbol: 75,620 slots, 9,453 bytes, four spare
 * bits. */
static const struct run ONE_WORD = {1, 4, 1, 1, 223, 1, 1, 1};
/* m 2: no spare bits; m 8. */
static const struct run RUNS[] = {{1, 4, 1, 1, 223, 1, 1, 1},
                                  {0, 2, 1, 9, 200, 2, 1, 1},
                                  {2, 8, 1, 1, 900, 3, 1, 1},
                                  {1, 3, 1, 1, 100, 5, 2, 1},
                                  {0, 6, 1, 1, 300, 32, 1, 1}};

static void write_run(const struct run *run, const uint8_t *marker) {
    uint8_t header[MAHYREI_HEADER_BYTES];
    pack_header(run, header);
    fill_random(frames, frame_bytes(run));
    CHECK(mahyrei_run_write(header, sizeof header, marker, run->W, frames, frame_bytes(run), slots,
                            slot_bytes(run)) == MAHYREI_ACCEPTED);
}

/* What is around the run: pulses, nothing, anything. */
enum around { EMPTY, PULSES, ANYTHING, AROUNDS };

static void surround(enum around around) {
    memset(capture, around == PULSES ? 0xFF : 0, sizeof capture);
    if (around == ANYTHING) {
        fill_random(capture, sizeof capture);
    }
}

static void put_run(const struct run *run, size_t at) {
    for (size_t x = 0; x < slot_count(run); x++) {
        if (get_bit(capture, at + x) != get_bit(slots, x)) {
            flip(capture, at + x);
        }
    }
}

static void test_run_at(const struct run *run, const uint8_t *marker, size_t at,
                        enum around around) {
    uint8_t header[MAHYREI_HEADER_BYTES];
    static uint8_t back[2048];
    const size_t count = slot_count(run), bytes = slot_bytes(run);
    const size_t len = (at + count + 7) / 8 + 40;
    pack_header(run, header);
    surround(around);
    put_run(run, at);
    const uint64_t answer = search(run, marker, capture, len);
    CHECK(mahyrei_answer_number(answer) == 0 && mahyrei_answer_place(answer) <= at);
    CHECK(around == ANYTHING || answer == at_slot(at));
    CHECK(cut(header, sizeof header, capture, len, at, bytes) == MAHYREI_ACCEPTED);
    CHECK(memcmp(lent_slots.slice, slots, bytes) == 0);
    CHECK(mahyrei_run_read(header, sizeof header, marker, run->W, lent_slots.slice, bytes, back,
                           frame_bytes(run)) == MAHYREI_ACCEPTED);
    CHECK(memcmp(back, frames, frame_bytes(run)) == 0);
    /* the capture ends where the run does, or earlier */
    const size_t whole = (at + count + 7) / 8, short_by_few = (at + count - 1) / 8;
    CHECK(cut(header, sizeof header, capture, whole, at, bytes) == MAHYREI_ACCEPTED);
    CHECK(memcmp(lent_slots.slice, slots, bytes) == 0);
    CHECK(cut(header, sizeof header, capture, short_by_few, at, bytes) == MAHYREI_BAD_LENGTH);
    CHECK(around == ANYTHING || search(run, marker, capture, short_by_few) == at_slot(at));
    CHECK(cut(header, sizeof header, capture, len, at, bytes - 1) == MAHYREI_BAD_LENGTH);
    CHECK(cut(header, sizeof header, capture, len, at, bytes + 1) == MAHYREI_BAD_LENGTH);
    CHECK(cut(header, sizeof header, capture, len, at, 0) == MAHYREI_BAD_LENGTH);
}

static void test_runs(void) {
    static const size_t SLOTS[] = {0, 1, 2, 3, 4, 5, 6, 7, 8, 13, 64, 1001};
    uint8_t marker[MAHYREI_MARKER_MAX];
    for (size_t i = 0; i < sizeof RUNS / sizeof RUNS[0]; i++) {
        for (size_t s = 0; s < RUNS[i].W; s++) {
            marker[s] = (uint8_t)random_below(pulse_order(&RUNS[i]));
        }
        write_run(&RUNS[i], marker);
        for (size_t j = 0; j < sizeof SLOTS / sizeof SLOTS[0]; j++) {
            for (int around = 0; around < AROUNDS; around++) {
                test_run_at(&RUNS[i], marker, SLOTS[j], (enum around)around);
            }
        }
    }
}

/* A marker by itself before the run is the one that is found. */
static void test_decoy(void) {
    const uint8_t marker[] = {5};
    write_run(&ONE_WORD, marker);
    surround(EMPTY);
    put_run(&ONE_WORD, 100);
    put_marker(&ONE_WORD, marker, 41);
    CHECK(search(&ONE_WORD, marker, capture, 10000) == at_slot(41));
    CHECK(search_from(&ONE_WORD, marker, capture, 10000, 42) == at_slot(100));
    set_slots(41, 20, false);
    CHECK(search(&ONE_WORD, marker, capture, 10000) == at_slot(100));
}

/* Every slot that there can be: the last that has room, the next, and those whose sum with the
 * slots of a run is no number of 64 bits. */
static void test_cut_slots(void) {
    uint8_t header[MAHYREI_HEADER_BYTES];
    const size_t count = slot_count(&ONE_WORD), bytes = slot_bytes(&ONE_WORD);
    const uint64_t last = 8 * 10000 - count;
    const uint64_t wrong[] = {last + 1,          last + 8,           80000,
                              UINT64_MAX,        UINT64_MAX - count, UINT64_MAX - count + 1,
                              UINT64_C(1) << 32, UINT64_C(1) << 61,  (UINT64_C(1) << 61) + 13,
                              UINT64_C(1) << 63};
    pack_header(&ONE_WORD, header);
    surround(ANYTHING);
    for (uint64_t slot = 0; slot <= last; slot += 1 + random_below(100)) {
        CHECK(cut(header, sizeof header, capture, 10000, slot, bytes) == MAHYREI_ACCEPTED);
        bool right = (lent_slots.slice[bytes - 1] & 15) == 0; /* spare bits */
        for (size_t x = 0; x < count; x++) {
            right = right && get_bit(lent_slots.slice, x) == get_bit(capture, slot + x);
        }
        CHECK(right);
    }
    CHECK(cut(header, sizeof header, capture, 10000, last, bytes) == MAHYREI_ACCEPTED);
    for (size_t i = 0; i < sizeof wrong / sizeof wrong[0]; i++) {
        CHECK(cut(header, sizeof header, capture, 10000, wrong[i], bytes) == MAHYREI_BAD_LENGTH);
    }
    CHECK(cut(header, sizeof header, capture, bytes, 0, bytes) == MAHYREI_ACCEPTED);
    CHECK(cut(header, sizeof header, capture, bytes - 1, 0, bytes) == MAHYREI_BAD_LENGTH);
    CHECK(cut(header, sizeof header, capture, 0, 0, bytes) == MAHYREI_BAD_LENGTH);
}

/* ---- refusals */

/* A capture of 2 to the power 53 bytes is searched, a longer one gets 8. There is no such capture:
 * these calls have no reason to look beyond the marker or the run, which are at its front. */
static void test_longest(void) {
    static const uint64_t MOST = UINT64_C(1) << 53;
    uint8_t header[MAHYREI_HEADER_BYTES];
    const uint8_t marker[] = {5};
    const size_t bytes = slot_bytes(&ONE_WORD);
    write_run(&ONE_WORD, marker);
    surround(EMPTY);
    put_run(&ONE_WORD, 13);
    pack_header(&ONE_WORD, header);
    CHECK(MAHYREI_CAPTURE_BYTES_MAX == MOST);
    CHECK(mahyrei_run_find(header, sizeof header, marker, 1, capture, MOST) == at_slot(13));
    CHECK(mahyrei_run_find_from(header, sizeof header, marker, 1, capture, MOST, 13) ==
          at_slot(13));
    CHECK(mahyrei_run_find_from(header, sizeof header, marker, 1, capture, MOST, MOST << 3) == 19);
    CHECK(mahyrei_run_find_from(header, sizeof header, marker, 1, capture, MOST, UINT64_MAX) == 19);
    CHECK(mahyrei_run_find_from(header, sizeof header, marker, 1, capture, MOST,
                                (MOST << 3) - 19) == 19); /* one slot short of a marker's 20 */
    CHECK(mahyrei_run_find_from(header, sizeof header, marker, 1, capture, MOST + 1, 13) == 8);
    CHECK(mahyrei_run_find_from(header, sizeof header, marker, 1, capture, SIZE_MAX, UINT64_MAX) ==
          8);
    CHECK(mahyrei_run_find(header, sizeof header, marker, 1, capture, MOST + 1) == 8);
    CHECK(mahyrei_run_find(header, sizeof header, marker, 1, capture, SIZE_MAX) == 8);
    CHECK(mahyrei_run_find(header, sizeof header, marker, 1, capture, SIZE_MAX / 8 + 10000) == 8);
    lend(&lent_slots, NULL, bytes);
    CHECK(mahyrei_run_cut(header, sizeof header, capture, MOST, 13, lent_slots.slice, bytes) == 0);
    CHECK(memcmp(lent_slots.slice, slots, bytes) == 0);
    CHECK(mahyrei_run_cut(header, sizeof header, capture, MOST + 1, 13, lent_slots.slice, bytes) ==
          8);
    CHECK(mahyrei_run_cut(header, sizeof header, capture, SIZE_MAX, 13, lent_slots.slice, bytes) ==
          8);
    CHECK(mahyrei_run_cut(header, sizeof header, capture, MOST, (MOST << 3) - 1, lent_slots.slice,
                          bytes) == 8);
}

static void test_refused_headers(void) {
    static const struct {
        struct run run;
        unsigned number;
    } WRONG[] = {
        {{3, 15, 0, 0, 0, 0, 0, 1}, 2},      {{0, 1, 0, 0, 0, 0, 0, 1}, 3},
        {{0, 9, 0, 0, 0, 0, 0, 1}, 3},       {{0, 2, 0, 1, 0, 0, 0, 1}, 4},
        {{0, 2, 1, 257, 0, 0, 0, 1}, 4},     {{0, 8, 10, 20, 0, 0, 0, 1}, 5},
        {{0, 8, 10, 21, 0, 0, 1, 1}, 6},     {{0, 8, 10, 21, 2048, 0, 65, 1}, 6},
        {{0, 8, 10, 21, 2048, 0, 64, 1}, 7}, {{0, 8, 10, 21, 2048, 33, 64, 1}, 7},
    };
    uint8_t header[MAHYREI_HEADER_BYTES + 1] = {0};
    const uint8_t marker[33] = {0};
    memset(capture, 0, sizeof capture);
    for (size_t i = 0; i < sizeof WRONG / sizeof WRONG[0]; i++) {
        const struct run *const run = &WRONG[i].run;
        const size_t W = run->W < 33 ? run->W : 33;
        pack_header(run, header);
        CHECK(find(header, MAHYREI_HEADER_BYTES, marker, W, capture, 100) == WRONG[i].number);
        CHECK(find(header, MAHYREI_HEADER_BYTES, NULL, 0, NULL, 0) == WRONG[i].number);
        CHECK(cut(header, MAHYREI_HEADER_BYTES, capture, 100, 0, 1000) == WRONG[i].number);
        CHECK(cut(header, MAHYREI_HEADER_BYTES, NULL, 0, UINT64_MAX, 0) == WRONG[i].number);
        CHECK(mahyrei_run_find(header, MAHYREI_HEADER_BYTES, NULL, 0, NULL, 0) == WRONG[i].number);
        CHECK(mahyrei_run_cut(header, MAHYREI_HEADER_BYTES, NULL, 0, 0, NULL, 0) ==
              WRONG[i].number);
    }
    pack_header(&ONE_WORD, header);
    for (size_t len = 0; len <= MAHYREI_HEADER_BYTES + 1; len++) {
        const bool right = len == MAHYREI_HEADER_BYTES;
        CHECK(find(header, len, marker, 1, capture, 100) ==
              (right ? MAHYREI_NO_MARKER : MAHYREI_BAD_HEADER));
        CHECK(cut(header, len, capture, 100, 0, slot_bytes(&ONE_WORD)) ==
              (right ? MAHYREI_BAD_LENGTH : MAHYREI_BAD_HEADER));
    }
    for (size_t bit = 54; bit < 8 * MAHYREI_HEADER_BYTES; bit++) {
        pack_header(&ONE_WORD, header);
        flip(header, bit);
        CHECK(find(header, MAHYREI_HEADER_BYTES, marker, 1, capture, 100) == MAHYREI_BAD_HEADER);
        CHECK(cut(header, MAHYREI_HEADER_BYTES, capture, 10000, 0, slot_bytes(&ONE_WORD)) ==
              MAHYREI_BAD_HEADER);
    }
    CHECK(mahyrei_run_find(NULL, 0, NULL, 0, NULL, 0) == MAHYREI_BAD_HEADER);
    CHECK(mahyrei_run_find_from(NULL, 0, NULL, 0, NULL, 0, 0) == MAHYREI_BAD_HEADER);
    CHECK(mahyrei_run_cut(NULL, 0, NULL, 0, 0, NULL, 0) == MAHYREI_BAD_HEADER);
}

/* 7 for the symbols up to the W-th, then 8 for their number, then 19. A cut is lent none. */
static void test_refused_markers(void) {
    const struct run run = {0, 3, 1, 1, 10, 4, 1, 1};
    static const struct {
        uint8_t marker[6];
        size_t len;
        unsigned number;
    } MARKERS[] = {{{7, 7, 7, 7}, 4, 19},
                   {{7, 7, 7, 8}, 4, 7},
                   {{255, 0, 0, 0}, 4, 7},
                   {{8}, 1, 7},
                   {{7}, 1, 8},
                   {{0}, 0, 8},
                   {{0, 0, 0, 0, 8}, 5, 8},
                   {{0, 0, 8, 0, 8}, 5, 7}};
    uint8_t header[MAHYREI_HEADER_BYTES];
    pack_header(&run, header);
    memset(capture, 0, sizeof capture);
    for (size_t i = 0; i < sizeof MARKERS / sizeof MARKERS[0]; i++) {
        CHECK(find(header, sizeof header, MARKERS[i].marker, MARKERS[i].len, capture, 500) ==
              MARKERS[i].number);
        CHECK(find(header, sizeof header, MARKERS[i].marker, MARKERS[i].len, NULL, 0) ==
              MARKERS[i].number);
    }
}

/* 20 comes after 7, the marker's symbols included, and before 8; mahyrei_run_cut is lent none. Of
 * a factor that there is, mahyrei_run_find takes no account, and mahyrei_run_cut takes as many
 * slots more. */
static void test_factors(void) {
    uint8_t header[MAHYREI_HEADER_BYTES];
    const uint8_t marker[] = {5}, high[] = {16};
    struct run run = ONE_WORD;
    write_run(&run, marker);
    for (run.copies = 0; run.copies < 64; run.copies++) {
        const bool is_good = run.copies == 1 || run.copies == 2 || run.copies == 3 ||
                             run.copies == 4 || run.copies == 8 || run.copies == 16 ||
                             run.copies == 32;
        const size_t bytes = slot_bytes(&run), len = bytes + 10;
        pack_header(&run, header);
        memset(capture, 0, sizeof capture);
        put_marker(&run, marker, 41);
        CHECK(search(&run, marker, capture, 100) == (is_good ? at_slot(41) : MAHYREI_BAD_COPIES));
        CHECK(search(&run, high, capture, 100) == MAHYREI_BAD_MARKER);
        CHECK(find(header, sizeof header, NULL, 0, NULL, 0) ==
              (is_good ? MAHYREI_BAD_LENGTH : MAHYREI_BAD_COPIES));
        CHECK(cut(header, sizeof header, NULL, 0, 0, 0) ==
              (is_good ? MAHYREI_BAD_LENGTH : MAHYREI_BAD_COPIES));
        if (!is_good || len + MARGIN > AREA) {
            continue;
        }
        fill_random(capture, len);
        CHECK(cut(header, sizeof header, capture, len, 3, bytes) == MAHYREI_ACCEPTED);
        bool right = true;
        for (size_t x = 0; x < 8 * bytes; x++) {
            const size_t wanted = x < slot_count(&run) ? get_bit(capture, 3 + x) : 0;
            right = right && get_bit(lent_slots.slice, x) == wanted;
        }
        CHECK(right);
        CHECK(run.copies == 1 || cut(header, sizeof header, capture, len, 3,
                                     slot_bytes(&ONE_WORD)) == MAHYREI_BAD_LENGTH);
        CHECK(cut(header, sizeof header, capture, slot_count(&run) / 8, 3, bytes) ==
              MAHYREI_BAD_LENGTH);
    }
}

/* Runs whose symbols are sent several times, cut out of a capture and read. */
static void test_repeated_runs(void) {
    static const struct run REPEATED[] = {{1, 4, 1, 1, 223, 1, 1, 2},
                                          {0, 2, 1, 9, 200, 2, 1, 8},
                                          {1, 3, 1, 1, 100, 5, 2, 3},
                                          {0, 2, 1, 1, 300, 32, 1, 16}};
    uint8_t marker[MAHYREI_MARKER_MAX], header[MAHYREI_HEADER_BYTES];
    static uint8_t back[2048];
    for (size_t i = 0; i < sizeof REPEATED / sizeof REPEATED[0]; i++) {
        const struct run *const run = &REPEATED[i];
        const size_t bytes = slot_bytes(run);
        for (size_t s = 0; s < run->W; s++) {
            marker[s] = (uint8_t)random_below(pulse_order(run));
        }
        write_run(run, marker);
        pack_header(run, header);
        for (size_t at = 0; at < 20; at += 1 + random_below(5)) {
            surround(ANYTHING);
            put_run(run, at);
            CHECK(cut(header, sizeof header, capture, bytes + 3, at, bytes) == MAHYREI_ACCEPTED);
            CHECK(memcmp(lent_slots.slice, slots, bytes) == 0);
            CHECK(mahyrei_run_read(header, sizeof header, marker, run->W, lent_slots.slice, bytes,
                                   back, frame_bytes(run)) == MAHYREI_ACCEPTED);
            CHECK(memcmp(back, frames, frame_bytes(run)) == 0);
        }
    }
}

static void test_every_number_met(void) {
    unsigned long total = 0, expected = 0;
    for (size_t number = 0; number < 256; number++) {
        const bool of_cut = number <= 8 || number == 20, of_find = of_cut || number == 19;
        for (int call = 0; call < CALLS; call++) {
            const bool can_be = call == CUT ? of_cut : of_find;
            total += met[call][number];
            expected += can_be ? met[call][number] : 0;
            CHECK(!can_be || met[call][number] > 0);
        }
    }
    CHECK(total == expected);
    printf("find_calls: %lu calls, %lu checks, %lu failed\n", total, checks, failures);
}

int main(void) {
    map_area(&lent_header);
    map_area(&lent_marker);
    map_area(&lent_capture);
    map_area(&lent_slots);
    test_short();
    test_all_orders();
    test_whole_capture();
    test_from();
    test_worst();
    test_runs();
    test_decoy();
    test_cut_slots();
    test_far();
    test_longest();
    test_refused_headers();
    test_refused_markers();
    test_factors();
    test_repeated_runs();
    test_every_number_met();
    return failures == 0 ? EXIT_SUCCESS : EXIT_FAILURE;
}
