/* The messages of a filter in plain C, as a good C programmer would write them: the library is measured beside this, and held to it by
 * `messages check`. The same checks, the same work. */
#ifndef TANDAWIRE_MESSAGE_H
#define TANDAWIRE_MESSAGE_H

#include <stdint.h>
#include <string.h>

#include "../include/tandawire.h"

enum { SLICE = TANDAWIRE_SLICE_PLACES, HEAD = 16 };

static inline uint8_t *put(uint8_t *to, uint64_t x, int bytes)
{
    for (int i = 0; i < bytes; i++)
        to[i] = (uint8_t)(x >> (8 * (bytes - 1 - i)));
    return to + bytes;
}

static inline uint64_t get(const uint8_t *from, int bytes)
{
    uint64_t x = 0;
    for (int i = 0; i < bytes; i++)
        x = x << 8 | from[i];
    return x;
}

static size_t slice_length(size_t n, uint32_t width)
{
    return HEAD + 12 * n + (n * width + 7) / 8;
}

static uint8_t *put_slice(uint8_t *to, const uint64_t *ids, const uint32_t *hashes, const int64_t *counts, uint32_t size, uint32_t offset,
                          uint32_t salt, uint32_t width)
{
    size_t n = size - offset < SLICE ? size - offset : SLICE;
    uint64_t bits = 0;
    uint32_t have = 0;
    to = put(to, slice_length(n, width), 2);
    to = put(to, offset + n == size ? TANDAWIRE_IBF_LAST : TANDAWIRE_IBF, 2);
    to = put(to, size, 4);
    to = put(to, offset, 4);
    to = put(to, salt, 2);
    to = put(to, width, 2);
    for (size_t i = 0; i < n; i++)
        to = put(to, ids[offset + i], 8);
    for (size_t i = 0; i < n; i++)
        to = put(to, hashes[offset + i], 4);
    for (size_t i = 0; i < n; i++) {
        bits = bits << width | (uint64_t)counts[offset + i];
        for (have += width; have >= 8; have -= 8)
            *to++ = (uint8_t)(bits >> (have - 8));
    }
    if (have > 0)
        *to++ = (uint8_t)(bits << (8 - have));
    return to;
}

static __attribute__((noinline)) tandawire_written c_filter_write(const uint64_t *ids, size_t ids_length, const uint32_t *hashes,
                                                                  size_t hashes_length, const int64_t *counts, size_t counts_length,
                                                                  uint32_t size, uint32_t salt, uint8_t *out, size_t out_length, size_t at)
{
    tandawire_written refused = {0, 0}, done = {0, 0};
    uint64_t all = 0;
    uint32_t width = 1;
    for (size_t i = 0; i < size && i < counts_length; i++)
        all |= (uint64_t)counts[i];
    refused.refusal = all >> 32 != 0 ? 1 : size < 37 || size > 4096 || salt > 63 ? 3 : ids_length < size || hashes_length < size || counts_length < size ? 2 : 0;
    if (refused.refusal != 0)
        return refused;
    while (width < 32 && all >> width != 0)
        width++;
    size_t need = slice_length(size < SLICE ? size : SLICE, width) + (size > SLICE ? slice_length(size - SLICE, width) : 0);
    refused.refusal = 2;
    if (out_length < need || at > out_length - need)
        return refused;
    uint8_t *to = put_slice(out + at, ids, hashes, counts, size, 0, salt, width);
    if (size > SLICE)
        put_slice(to, ids, hashes, counts, size, SLICE, salt, width);
    done.next = at + need;
    return done;
}

/* A slice of a filter; anything else is malformed here. */
static inline tandawire_message slice_in(const uint8_t *message, size_t length)
{
    const tandawire_message none = {.refusal = TANDAWIRE_REFUSED_MALFORMED};
    if (length < HEAD || get(message, 2) != length)
        return none;
    uint64_t type = get(message + 2, 2), size = get(message + 4, 4), offset = get(message + 8, 4), salt = get(message + 12, 2), width = get(message + 14, 2);
    if (size < 37 || size > 4096 || (offset != 0 && offset != SLICE) || offset >= size || salt > 63 || width < 1 || width > 32)
        return none;
    size_t n = size - offset < SLICE ? size - offset : SLICE;
    if (type != (offset + n == size ? TANDAWIRE_IBF_LAST : TANDAWIRE_IBF) || length != slice_length(n, (uint32_t)width))
        return none;
    if (message[length - 1] % (1u << (8 * ((n * width + 7) / 8) - n * width)) != 0)
        return none;
    return (tandawire_message){0, (uint32_t)type, (uint32_t)size, (uint32_t)offset, (uint32_t)salt, (uint32_t)width, n, 0, length};
}

static __attribute__((noinline)) tandawire_message c_message_read(const uint8_t *message, size_t length)
{
    return slice_in(message, length);
}

static __attribute__((noinline)) uint32_t c_filter_lay(const uint8_t *message, size_t length, uint64_t *ids, size_t ids_length, uint32_t *hashes,
                                                       size_t hashes_length, int64_t *counts, size_t counts_length)
{
    tandawire_message m = slice_in(message, length);
    size_t n = m.count, offset = m.offset, end = offset + n, width = m.width;
    if (m.refusal != 0)
        return m.refusal;
    if (ids_length < end || hashes_length < end || counts_length < end)
        return 2;
    const uint8_t *from = message + HEAD;
    for (size_t i = 0; i < n; i++, from += 8)
        ids[offset + i] = get(from, 8);
    for (size_t i = 0; i < n; i++, from += 4)
        hashes[offset + i] = (uint32_t)get(from, 4);
    uint64_t bits = 0, have = 0;
    for (size_t i = 0; i < n; i++) {
        for (; have < width; have += 8)
            bits = bits << 8 | *from++;
        have -= width;
        counts[offset + i] = (int64_t)(bits >> have & ((UINT64_C(1) << width) - 1));
    }
    return 0;
}

#endif
