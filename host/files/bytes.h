/* Bytes of the heap. */
#ifndef FILES_BYTES_H
#define FILES_BYTES_H

#include <stdbool.h>
#include <stddef.h>
#include <stdint.h>

/* NULL where there are none. */
struct bytes {
    uint8_t *at;
    size_t len;
};

/* Room for so many bytes; what is wrong has been said. */
bool make_buffer(size_t len, struct bytes *buffer);

#endif
