/* SHA-256, FIPS 180-4. The digests in the log and in results; nothing about a run is decided by
 * them. */
#ifndef FORMATS_SHA256_H
#define FORMATS_SHA256_H

#include <stddef.h>
#include <stdint.h>

enum { SHA256_BYTES = 32 };

/* By nettle, or where the Makefile finds none, in plain C. */
void sha256(const uint8_t *from, size_t len, uint8_t digest[SHA256_BYTES]);

/* In plain C; in the command only where there is no nettle, and in the tests always. */
void sha256_plain(const uint8_t *from, size_t len, uint8_t digest[SHA256_BYTES]);

#endif
