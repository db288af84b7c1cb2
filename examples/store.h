/* A peer's elements, for the examples: their contents, and the table of their hashes that the library
 * asks for. A program of its own has a data base here.
 *
 * While a session runs the table must stay as it is, so elements that come are kept apart (store_gain)
 * and put in order when it has ended (store_settle). */
#ifndef EXAMPLES_STORE_H
#define EXAMPLES_STORE_H

#include <stdio.h>
#include <stdlib.h>
#include <string.h>

#include "tandawire.h"

#include "sha512.h"

struct element {
    uint8_t hash[TANDAWIRE_HASH_BYTES];
    uint8_t *content;
    size_t length;
};

struct store {
    struct element elements[TANDAWIRE_MOST_ELEMENTS]; /* ascending by hash, and behind them those gained */
    size_t number, gained;
    uint8_t table[TANDAWIRE_MOST_ELEMENTS * TANDAWIRE_HASH_BYTES];
};

static inline size_t store_table_length(const struct store *s)
{
    return s->number * TANDAWIRE_HASH_BYTES;
}

static inline int store_order(const void *a, const void *b)
{
    return memcmp(((const struct element *)a)->hash, ((const struct element *)b)->hash, TANDAWIRE_HASH_BYTES);
}

/* The element of a hash, settled or just gained; null if there is none. */
static inline const struct element *store_find(const struct store *s, const uint8_t *hash)
{
    struct element wanted;
    memcpy(wanted.hash, hash, TANDAWIRE_HASH_BYTES);
    const struct element *e = (const struct element *)bsearch(&wanted, s->elements, s->number, sizeof wanted, store_order);
    for (size_t i = s->number; !e && i < s->number + s->gained; i++)
        if (memcmp(s->elements[i].hash, hash, TANDAWIRE_HASH_BYTES) == 0)
            e = &s->elements[i];
    return e;
}

/* Keeps a copy of a content that is not there yet. */
static inline void store_gain(struct store *s, const uint8_t *content, size_t length)
{
    struct element *e = &s->elements[s->number + s->gained];
    if (s->number + s->gained == TANDAWIRE_MOST_ELEMENTS || !(e->content = (uint8_t *)malloc(length))) {
        fprintf(stderr, "store: no room for another element\n");
        exit(1);
    }
    sha512(content, length, e->hash);
    memcpy(e->content, content, length);
    e->length = length;
    s->gained++;
}

/* Puts what was gained in order and makes the table anew. */
static inline void store_settle(struct store *s)
{
    s->number += s->gained;
    s->gained = 0;
    qsort(s->elements, s->number, sizeof s->elements[0], store_order);
    for (size_t i = 0; i < s->number; i++)
        memcpy(s->table + i * TANDAWIRE_HASH_BYTES, s->elements[i].hash, TANDAWIRE_HASH_BYTES);
}

static inline void store_free(struct store *s)
{
    for (size_t i = 0; i < s->number + s->gained; i++)
        free(s->elements[i].content);
    s->number = s->gained = 0;
}

#endif
