/* Bytes of records kept in memory, up to a budget; what finds no room is read again from its file when it is needed. */
#ifndef CACHE_H
#define CACHE_H

#include <stddef.h>
#include <stdint.h>

struct cache {
    uint8_t *bytes; /* NULL: none are kept */
    size_t len;
};

void new_cache(struct cache *c);

void free_cache(struct cache *c);

/* The same bytes, kept, or NULL. */
const uint8_t *cached(struct cache *c, const uint8_t *bytes, size_t len);

#endif
