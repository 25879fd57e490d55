/* SHA-512 on the published vectors: FIPS 180-4's examples and the empty message, and lengths about
 * the edges of a block; the way that the command takes, and plain C, and both on many lengths. */
#include <stdio.h>
#include <stdlib.h>
#include <string.h>

#include "formats/sha512.h"

/* How the command does it, by the Makefile. */
#ifndef SHA512_BY
#define SHA512_BY "plain"
#endif

static int failures;

static void expect_of(void (*function)(const uint8_t *, size_t, uint8_t *), const char *what,
                      const uint8_t *from, size_t len, const char *wanted) {
    uint8_t digest[SHA512_BYTES];
    char text[2 * SHA512_BYTES + 1];
    function(from, len, digest);
    for (size_t i = 0; i < SHA512_BYTES; i++) {
        snprintf(text + 2 * i, 3, "%02x", digest[i]);
    }
    if (strcmp(text, wanted) != 0) {
        printf("sha512: %s\n  wanted: %s\n  got:    %s\n", what, wanted, text);
        failures++;
    }
}

/* As the command has it, and in plain C. */
static void expect(const char *what, const uint8_t *from, size_t len, const char *wanted) {
    expect_of(sha512, what, from, len, wanted);
    expect_of(sha512_plain, what, from, len, wanted);
}

static void expect_text(const char *text, const char *wanted) {
    expect(text, (const uint8_t *)text, strlen(text), wanted);
}

/* So many times the letter a. */
static void expect_letters(size_t count, const char *wanted) {
    uint8_t *const letters = malloc(count);
    char what[32];
    if (letters == NULL) {
        exit(2);
    }
    memset(letters, 'a', count);
    snprintf(what, sizeof what, "%zu letters", count);
    expect(what, letters, count, wanted);
    free(letters);
}

/* Two ways, written by others, on the same bytes. */
static void expect_same(size_t most) {
    uint8_t *const bytes = malloc(most);
    uint8_t one[SHA512_BYTES], other[SHA512_BYTES];
    if (bytes == NULL) {
        exit(2);
    }
    for (size_t len = 0; len < most; len++) {
        bytes[len] = (uint8_t)(len * len >> 3 ^ len);
        sha512(bytes, len, one);
        sha512_plain(bytes, len, other);
        if (memcmp(one, other, sizeof one) != 0) {
            printf("sha512: two ways differ on %zu bytes\n", len);
            failures++;
        }
    }
    free(bytes);
}

int main(void) {
    expect("nothing", NULL, 0,
           "cf83e1357eefb8bdf1542850d66d8007d620e4050b5715dc83f4a921d36ce9ce"
           "47d0d13c5d85f2b0ff8318d2877eec2f63b931bd47417a81a538327af927da3e");
    expect_text("abc", "ddaf35a193617abacc417349ae20413112e6fa4e89a97ea20a9eeee64b55d39a"
                       "2192992a274fc1a836ba3c23a3feebbd454d4423643ce80e2a9ac94fa54ca49f");
    expect_text("abcdbcdecdefdefgefghfghighijhijkijkljklmklmnlmnomnopnopq",
                "204a8fc6dda82f0a0ced7beb8e08a41657c16ef468b228a8279be331a703c335"
                "96fd15c13b1b07f9aa1d3bea57789ca031ad85c7a71dd70354ec631238ca3445");
    expect_text("abcdefghbcdefghicdefghijdefghijkefghijklfghijklmghijklmnhijklmnoijklmnopjklmnopqkl"
                "mnopqrlmnopqrsmnopqrstnopqrstu",
                "8e959b75dae313da8cf4f72814fc143f8f7779c6eb9f7fa17299aeadb6889018"
                "501d289e4900f7e4331b99dec4b5433ac7d329eeb6dd26545e96e55b874be909");
    expect_letters(1000000, "e718483d0ce769644e2e42c7bc15b4638e1f98b13b2044285632a803afa973eb"
                            "de0ff244877ea60a4cb0432ce577c31beb009c5c2c49aa2e4eadb217ad8cc09b");
    expect_letters(111, "fa9121c7b32b9e01733d034cfc78cbf67f926c7ed83e82200ef8681819692176"
                        "0b4beff48404df811b953828274461673c68d04e297b0eb7b2b4d60fc6b566a2");
    expect_letters(112, "c01d080efd492776a1c43bd23dd99d0a2e626d481e16782e75d54c2503b5dc32"
                        "bd05f0f1ba33e568b88fd2d970929b719ecbb152f58f130a407c8830604b70ca");
    expect_letters(127, "828613968b501dc00a97e08c73b118aa8876c26b8aac93df128502ab360f91ba"
                        "b50a51e088769a5c1eff4782ace147dce3642554199876374291f5d921629502");
    expect_letters(128, "b73d1929aa615934e61a871596b3f3b33359f42b8175602e89f7e06e5f658a24"
                        "3667807ed300314b95cacdd579f3e33abdfbe351909519a846d465c59582f321");
    expect_letters(239, "52c853cb8d907f3d4d6b889beb027985d7c273486d75f8baf26f80d24e90c74c"
                        "6c3de3e22131582380a7d14d43f2941a31385439cd6ddc469f628015e50bf286");
    expect_letters(240, "4c296d90c61052a62ffb1dd196f1b7b09373b1f93e71836baebf89690546b759"
                        "5684dbe9467a8e484fa0d1094272b4344a7c24f5fee8daedeb0bf549c985ab5f");
    expect_same(1000);
    if (failures == 0) {
        puts("sha512: the published vectors passed, by " SHA512_BY " and in plain C");
    }
    return failures == 0 ? 0 : 1;
}
