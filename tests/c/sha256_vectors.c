/* SHA-256 on the published vectors: FIPS 180-4's examples and the empty message, and lengths about
 * the edges of a block; the way that the command takes, and plain C, and both on many lengths. */
#include <stdio.h>
#include <stdlib.h>
#include <string.h>

#include "formats/sha256.h"

/* How the command does it, by the Makefile. */
#ifndef SHA256_BY
#define SHA256_BY "plain"
#endif

static int failures;

static void expect_of(void (*function)(const uint8_t *, size_t, uint8_t *), const char *what,
                      const uint8_t *from, size_t len, const char *wanted) {
    uint8_t digest[SHA256_BYTES];
    char text[2 * SHA256_BYTES + 1];
    function(from, len, digest);
    for (size_t i = 0; i < SHA256_BYTES; i++) {
        snprintf(text + 2 * i, 3, "%02x", digest[i]);
    }
    if (strcmp(text, wanted) != 0) {
        printf("sha256: %s\n  wanted: %s\n  got:    %s\n", what, wanted, text);
        failures++;
    }
}

/* As the command has it, and in plain C. */
static void expect(const char *what, const uint8_t *from, size_t len, const char *wanted) {
    expect_of(sha256, what, from, len, wanted);
    expect_of(sha256_plain, what, from, len, wanted);
}

static void expect_text(const char *text, const char *wanted) {
    expect(text, (const uint8_t *)text, strlen(text), wanted);
}

/* So many times the letter a. */
static void expect_letters(size_t count, const char *wanted) {
    uint8_t *const letters = malloc(count);
    char what[32];
    if (letters == NULL) {
        exit(2);
    }
    memset(letters, 'a', count);
    snprintf(what, sizeof what, "%zu letters", count);
    expect(what, letters, count, wanted);
    free(letters);
}

/* Two ways, written by others, on the same bytes. */
static void expect_same(size_t most) {
    uint8_t *const bytes = malloc(most);
    uint8_t one[SHA256_BYTES], other[SHA256_BYTES];
    if (bytes == NULL) {
        exit(2);
    }
    for (size_t len = 0; len < most; len++) {
        bytes[len] = (uint8_t)(len * len >> 3 ^ len);
        sha256(bytes, len, one);
        sha256_plain(bytes, len, other);
        if (memcmp(one, other, sizeof one) != 0) {
            printf("sha256: two ways differ on %zu bytes\n", len);
            failures++;
        }
    }
    free(bytes);
}

int main(void) {
    expect("nothing", NULL, 0, "e3b0c44298fc1c149afbf4c8996fb92427ae41e4649b934ca495991b7852b855");
    expect_text("abc", "ba7816bf8f01cfea414140de5dae2223b00361a396177a9cb410ff61f20015ad");
    expect_text("abcdbcdecdefdefgefghfghighijhijkijkljklmklmnlmnomnopnopq",
                "248d6a61d20638b8e5c026930c3e6039a33ce45964ff2167f6ecedd419db06c1");
    expect_text("abcdefghbcdefghicdefghijdefghijkefghijklfghijklmghijklmnhijklmnoijklmnopjklmnopqkl"
                "mnopqrlmnopqrsmnopqrstnopqrstu",
                "cf5b16a778af8380036ce59e7b0492370b249b11e8f07a51afac45037afee9d1");
    expect_letters(1000000, "cdc76e5c9914fb9281a1c7e284d73e67f1809a48a497200e046d39ccc7112cd0");
    expect_letters(55, "9f4390f8d30c2dd92ec9f095b65e2b9ae9b0a925a5258e241c9f1e910f734318");
    expect_letters(56, "b35439a4ac6f0948b6d6f9e3c6af0f5f590ce20f1bde7090ef7970686ec6738a");
    expect_letters(63, "7d3e74a05d7db15bce4ad9ec0658ea98e3f06eeecf16b4c6fff2da457ddc2f34");
    expect_letters(64, "ffe054fe7ae0cb6dc65c3af9b61d5209f439851db43d0ba5997337df154668eb");
    expect_letters(119, "31eba51c313a5c08226adf18d4a359cfdfd8d2e816b13f4af952f7ea6584dcfb");
    expect_letters(120, "2f3d335432c70b580af0e8e1b3674a7c020d683aa5f73aaaedfdc55af904c21c");
    expect_same(1000);
    if (failures == 0) {
        puts("sha256: the published vectors passed, by " SHA256_BY " and in plain C");
    }
    return failures == 0 ? 0 : 1;
}
