/* SHA-512, FIPS 180-4. The digest that SigMF wants of a dataset; nothing about a run is decided by
 * it but whether the metadata speaks of these slots. */
#ifndef FORMATS_SHA512_H
#define FORMATS_SHA512_H

#include <stddef.h>
#include <stdint.h>

enum { SHA512_BYTES = 64 };

/* By nettle, or where the Makefile finds none, in plain C. */
void sha512(const uint8_t *from, size_t len, uint8_t digest[SHA512_BYTES]);

/* In plain C; in the command only where there is no nettle, and in the tests always. */
void sha512_plain(const uint8_t *from, size_t len, uint8_t digest[SHA512_BYTES]);

#endif
