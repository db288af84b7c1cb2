/* CRC-32 of eight bytes in plain C by eight tables, for all programs here that need one. */
#ifndef TANDAWIRE_CRC_H
#define TANDAWIRE_CRC_H

#include <stdint.h>

typedef uint32_t crc_tables[8][256];

static inline void make_first_table(crc_tables t)
{
    for (uint32_t i = 0; i < 256; i++) {
        uint32_t crc = i;
        for (int bit = 0; bit < 8; bit++)
            crc = crc & 1 ? crc >> 1 ^ 0xEDB88320u : crc >> 1;
        t[0][i] = crc;
    }
}

static void make_tables(crc_tables t)
{
    make_first_table(t);
    for (int k = 1; k < 8; k++)
        for (int i = 0; i < 256; i++)
            t[k][i] = t[k - 1][i] >> 8 ^ t[0][t[k - 1][i] & 0xFF];
}

/* CRC-32 of x as eight bytes, most significant first. */
static inline uint32_t crc_of(crc_tables t, uint64_t x)
{
    /* The first four bytes meet the 32 ones that the register begins with. */
    x ^= 0xFFFFFFFF00000000u;
    return ~(t[7][x >> 56] ^ t[6][x >> 48 & 0xFF] ^ t[5][x >> 40 & 0xFF] ^ t[4][x >> 32 & 0xFF] ^
             t[3][x >> 24 & 0xFF] ^ t[2][x >> 16 & 0xFF] ^ t[1][x >> 8 & 0xFF] ^ t[0][x & 0xFF]);
}

/* The same of draw and i below 256: three bytes are zero, and so are their entries. */
static inline uint32_t next_draw(crc_tables t, uint32_t draw, uint32_t i)
{
    return 0x6522DF69u ^ t[7][draw >> 24] ^ t[6][draw >> 16 & 0xFF] ^ t[5][draw >> 8 & 0xFF] ^
           t[4][draw & 0xFF] ^ t[0][i];
}

#endif
