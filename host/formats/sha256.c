#include "formats/sha256.h"

#ifdef WITH_NETTLE
#include <nettle/sha2.h>

void sha256(const uint8_t *from, size_t len, uint8_t digest[SHA256_BYTES]) {
    struct sha256_ctx state;
    sha256_init(&state);
    sha256_update(&state, len, from);
    sha256_digest(&state, SHA256_BYTES, digest);
}
#else
void sha256(const uint8_t *from, size_t len, uint8_t digest[SHA256_BYTES]) {
    sha256_plain(from, len, digest);
}
#endif
