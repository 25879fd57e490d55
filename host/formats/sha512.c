#include "formats/sha512.h"

#ifdef WITH_NETTLE
#include <nettle/sha2.h>

void sha512(const uint8_t *from, size_t len, uint8_t digest[SHA512_BYTES]) {
    struct sha512_ctx state;
    sha512_init(&state);
    sha512_update(&state, len, from);
    sha512_digest(&state, SHA512_BYTES, digest);
}
#else
void sha512(const uint8_t *from, size_t len, uint8_t digest[SHA512_BYTES]) {
    sha512_plain(from, len, digest);
}
#endif
