/* SHA-512 (FIPS 180-4), for the examples: the library takes hashes and makes none. A program that has a
 * cryptographic library should take its own. tests/sha512.c holds this to the published vectors. */
#ifndef EXAMPLES_SHA512_H
#define EXAMPLES_SHA512_H

#include <stddef.h>
#include <stdint.h>
#include <string.h>

enum { SHA512_BYTES = 64, SHA512_BLOCK = 128 };

static inline uint64_t sha512_rotated(uint64_t x, unsigned by)
{
    return x >> by | x << (64 - by);
}

/* One block of 128 bytes into the state of eight words. */
static inline void sha512_block(uint64_t state[8], const uint8_t *block)
{
    static const uint64_t k[80] = {
        0x428a2f98d728ae22, 0x7137449123ef65cd, 0xb5c0fbcfec4d3b2f, 0xe9b5dba58189dbbc, 0x3956c25bf348b538,
        0x59f111f1b605d019, 0x923f82a4af194f9b, 0xab1c5ed5da6d8118, 0xd807aa98a3030242, 0x12835b0145706fbe,
        0x243185be4ee4b28c, 0x550c7dc3d5ffb4e2, 0x72be5d74f27b896f, 0x80deb1fe3b1696b1, 0x9bdc06a725c71235,
        0xc19bf174cf692694, 0xe49b69c19ef14ad2, 0xefbe4786384f25e3, 0x0fc19dc68b8cd5b5, 0x240ca1cc77ac9c65,
        0x2de92c6f592b0275, 0x4a7484aa6ea6e483, 0x5cb0a9dcbd41fbd4, 0x76f988da831153b5, 0x983e5152ee66dfab,
        0xa831c66d2db43210, 0xb00327c898fb213f, 0xbf597fc7beef0ee4, 0xc6e00bf33da88fc2, 0xd5a79147930aa725,
        0x06ca6351e003826f, 0x142929670a0e6e70, 0x27b70a8546d22ffc, 0x2e1b21385c26c926, 0x4d2c6dfc5ac42aed,
        0x53380d139d95b3df, 0x650a73548baf63de, 0x766a0abb3c77b2a8, 0x81c2c92e47edaee6, 0x92722c851482353b,
        0xa2bfe8a14cf10364, 0xa81a664bbc423001, 0xc24b8b70d0f89791, 0xc76c51a30654be30, 0xd192e819d6ef5218,
        0xd69906245565a910, 0xf40e35855771202a, 0x106aa07032bbd1b8, 0x19a4c116b8d2d0c8, 0x1e376c085141ab53,
        0x2748774cdf8eeb99, 0x34b0bcb5e19b48a8, 0x391c0cb3c5c95a63, 0x4ed8aa4ae3418acb, 0x5b9cca4f7763e373,
        0x682e6ff3d6b2b8a3, 0x748f82ee5defb2fc, 0x78a5636f43172f60, 0x84c87814a1f0ab72, 0x8cc702081a6439ec,
        0x90befffa23631e28, 0xa4506cebde82bde9, 0xbef9a3f7b2c67915, 0xc67178f2e372532b, 0xca273eceea26619c,
        0xd186b8c721c0c207, 0xeada7dd6cde0eb1e, 0xf57d4f7fee6ed178, 0x06f067aa72176fba, 0x0a637dc5a2c898a6,
        0x113f9804bef90dae, 0x1b710b35131c471b, 0x28db77f523047d84, 0x32caab7b40c72493, 0x3c9ebe0a15c9bebc,
        0x431d67c49c100d4c, 0x4cc5d4becb3e42b6, 0x597f299cfc657e2a, 0x5fcb6fab3ad6faec, 0x6c44198c4a475817,
    };
    uint64_t w[80], v[8];
    for (int t = 0; t < 16; t++) {
        w[t] = 0;
        for (int i = 0; i < 8; i++)
            w[t] = w[t] << 8 | block[8 * t + i];
    }
    for (int t = 16; t < 80; t++) {
        uint64_t a = w[t - 15], b = w[t - 2];
        w[t] = w[t - 16] + (sha512_rotated(a, 1) ^ sha512_rotated(a, 8) ^ a >> 7) + w[t - 7] +
               (sha512_rotated(b, 19) ^ sha512_rotated(b, 61) ^ b >> 6);
    }
    memcpy(v, state, sizeof v);
    for (int t = 0; t < 80; t++) {
        uint64_t one = v[7] + (sha512_rotated(v[4], 14) ^ sha512_rotated(v[4], 18) ^ sha512_rotated(v[4], 41)) +
                       ((v[4] & v[5]) ^ (~v[4] & v[6])) + k[t] + w[t];
        uint64_t two = (sha512_rotated(v[0], 28) ^ sha512_rotated(v[0], 34) ^ sha512_rotated(v[0], 39)) +
                       ((v[0] & v[1]) ^ (v[0] & v[2]) ^ (v[1] & v[2]));
        memmove(v + 1, v, 7 * sizeof v[0]);
        v[4] += one;
        v[0] = one + two;
    }
    for (int i = 0; i < 8; i++)
        state[i] += v[i];
}

/* The hash of some bytes, 64 bytes. */
static inline void sha512(const uint8_t *bytes, size_t length, uint8_t hash[SHA512_BYTES])
{
    uint64_t state[8] = {
        0x6a09e667f3bcc908, 0xbb67ae8584caa73b, 0x3c6ef372fe94f82b, 0xa54ff53a5f1d36f1,
        0x510e527fade682d1, 0x9b05688c2b3e6c1f, 0x1f83d9abfb41bd6b, 0x5be0cd19137e2179,
    };
    uint8_t last[2 * SHA512_BLOCK] = {0};
    size_t whole = length / SHA512_BLOCK * SHA512_BLOCK, rest = length - whole;
    size_t ends = rest < SHA512_BLOCK - 16 ? SHA512_BLOCK : 2 * SHA512_BLOCK;
    uint64_t bits = (uint64_t)length << 3; /* lengths here are far below 2^61 bytes */
    for (size_t i = 0; i < whole; i += SHA512_BLOCK)
        sha512_block(state, bytes + i);
    if (rest)
        memcpy(last, bytes + whole, rest);
    last[rest] = 0x80;
    for (int i = 0; i < 8; i++)
        last[ends - 1 - (size_t)i] = (uint8_t)(bits >> 8 * i);
    for (size_t i = 0; i < ends; i += SHA512_BLOCK)
        sha512_block(state, last + i);
    for (int i = 0; i < SHA512_BYTES; i++)
        hash[i] = (uint8_t)(state[i / 8] >> (56 - 8 * (i % 8)));
}

#endif
