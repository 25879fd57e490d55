/* The rack: headers of four missions in four places each. */
#include <string.h>

#include "parts.h"
#include "reference.h"

enum { MISSIONS = 4, PLACES = 4, ENTRY = 1 + MAHYREI_HEADER_BYTES };

/* The first byte of an entry: empty, loaded and lent to nobody, lent to mission 0, 1, 2 or 3. Any
 * other value says what LOADED says. */
enum { EMPTY = 0, LOADED = 1, LENT = 2 };

static size_t entry_at(uint64_t owner, uint64_t place) {
    return (size_t)(owner * PLACES + place) * ENTRY;
}

/* Where the area does not reach, a place is empty. */
static unsigned status_of(const uint8_t *area, size_t area_len, uint64_t owner, uint64_t place) {
    const size_t at = entry_at(owner, place);
    return at < area_len ? area[at] : EMPTY;
}

/* Questions 23 and 24, as all calls put them. */
static unsigned ask_numbers(uint64_t caller, uint64_t owner, uint64_t place) {
    return caller >= MISSIONS || owner >= MISSIONS ? MAHYREI_BAD_MISSION
           : place >= PLACES                       ? MAHYREI_BAD_PLACE
                                                   : MAHYREI_ACCEPTED;
}

/* Questions 25 and 8 of what an owner does to a loaded place. */
static unsigned ask_owner(const uint8_t *area, size_t area_len, uint64_t caller, uint64_t owner,
                          uint64_t place) {
    return caller != owner || status_of(area, area_len, owner, place) == EMPTY
               ? MAHYREI_CLOSED_PLACE
           : area_len != MAHYREI_RACK_BYTES ? MAHYREI_BAD_LENGTH
                                            : MAHYREI_ACCEPTED;
}

uint64_t reference_rack_load(uint8_t *area, size_t area_len, uint64_t caller, uint64_t owner,
                             uint64_t place, const uint8_t *header, size_t header_len) {
    struct run run;
    unsigned number = ask_numbers(caller, owner, place);
    if (number == MAHYREI_ACCEPTED) {
        number = caller != owner ? MAHYREI_CLOSED_PLACE
                                 : reference_ask_header(&run, header, header_len, NULL, 0);
    }
    if (number != MAHYREI_ACCEPTED || area_len != MAHYREI_RACK_BYTES) {
        return number != MAHYREI_ACCEPTED ? number : MAHYREI_BAD_LENGTH;
    }
    uint8_t *const entry = area + entry_at(owner, place);
    entry[0] = entry[0] == EMPTY ? LOADED : entry[0];
    memcpy(entry + 1, header, MAHYREI_HEADER_BYTES);
    return MAHYREI_ACCEPTED;
}

uint64_t reference_rack_read(const uint8_t *area, size_t area_len, uint64_t caller, uint64_t owner,
                             uint64_t place, uint8_t *header, size_t header_len) {
    const unsigned number = ask_numbers(caller, owner, place);
    if (number != MAHYREI_ACCEPTED) {
        return number;
    }
    const unsigned status = status_of(area, area_len, owner, place);
    if (status == EMPTY || (caller != owner && status != LENT + caller)) {
        return MAHYREI_CLOSED_PLACE;
    }
    if (area_len != MAHYREI_RACK_BYTES || header_len != MAHYREI_HEADER_BYTES) {
        return MAHYREI_BAD_LENGTH;
    }
    memcpy(header, area + entry_at(owner, place) + 1, MAHYREI_HEADER_BYTES);
    return MAHYREI_ACCEPTED;
}

uint64_t reference_rack_drop(uint8_t *area, size_t area_len, uint64_t caller, uint64_t owner,
                             uint64_t place) {
    unsigned number = ask_numbers(caller, owner, place);
    number = number != MAHYREI_ACCEPTED ? number : ask_owner(area, area_len, caller, owner, place);
    if (number == MAHYREI_ACCEPTED) {
        memset(area + entry_at(owner, place), 0, ENTRY);
    }
    return number;
}

uint64_t reference_rack_lend(uint8_t *area, size_t area_len, uint64_t caller, uint64_t owner,
                             uint64_t place, uint64_t to) {
    unsigned number =
        to >= MISSIONS || to == caller ? MAHYREI_BAD_MISSION : ask_numbers(caller, owner, place);
    number = number != MAHYREI_ACCEPTED ? number : ask_owner(area, area_len, caller, owner, place);
    if (number == MAHYREI_ACCEPTED) {
        area[entry_at(owner, place)] = (uint8_t)(LENT + to);
    }
    return number;
}
