/* The examples' SHA-512 on published vectors: FIPS 180-4's examples, and NIST's of a million 'a'. */
#include <stdio.h>
#include <string.h>

#include "../examples/sha512.h"

static int failed;

static void expect(const char *what, const uint8_t *bytes, size_t length, const char *hex)
{
    uint8_t hash[SHA512_BYTES];
    char told[2 * SHA512_BYTES + 1];
    sha512(bytes, length, hash);
    for (int i = 0; i < SHA512_BYTES; i++)
        snprintf(told + 2 * i, 3, "%02x", hash[i]);
    if (strcmp(told, hex) != 0) {
        fprintf(stderr, "sha512 of %s: %s\n      expected: %s\n", what, told, hex);
        failed = 1;
    }
}

int main(void)
{
    static uint8_t million[1000000];
    static const char two_blocks[] = "abcdefghbcdefghicdefghijdefghijkefghijklfghijklmghijklmn"
                                     "hijklmnoijklmnopjklmnopqklmnopqrlmnopqrsmnopqrstnopqrstu";
    expect("nothing", NULL, 0,
           "cf83e1357eefb8bdf1542850d66d8007d620e4050b5715dc83f4a921d36ce9ce47d0d13c5d85f2b0ff8318d2877eec2f63b931bd47417a81a538327af927da3e");
    expect("abc", (const uint8_t *)"abc", 3,
           "ddaf35a193617abacc417349ae20413112e6fa4e89a97ea20a9eeee64b55d39a2192992a274fc1a836ba3c23a3feebbd454d4423643ce80e2a9ac94fa54ca49f");
    expect("112 bytes", (const uint8_t *)two_blocks, sizeof two_blocks - 1,
           "8e959b75dae313da8cf4f72814fc143f8f7779c6eb9f7fa17299aeadb6889018501d289e4900f7e4331b99dec4b5433ac7d329eeb6dd26545e96e55b874be909");
    memset(million, 'a', sizeof million);
    expect("a million a", million, sizeof million,
           "e718483d0ce769644e2e42c7bc15b4638e1f98b13b2044285632a803afa973ebde0ff244877ea60a4cb0432ce577c31beb009c5c2c49aa2e4eadb217ad8cc09b");
    return failed;
}
