/*
 * What both functions that are compared are lent and given: the library at fences, the plain one in blocks, which
 * AddressSanitizer watches.
 */
#ifndef LENDING_H
#define LENDING_H

#include <stdbool.h>
#include <stddef.h>
#include <stdint.h>

#include "fence.h"

/* Begins a comparison: what is picked depends on its input alone, so that an input always does the same. */
void start_picking(const uint8_t *data, size_t size);

/* A number below n. */
uint64_t pick(uint64_t n);

/* Less than is needed, just enough, a little more, or nothing. */
size_t some_room(size_t needed);

void *block(size_t size);

uint8_t *copy_of(const uint8_t *bytes, size_t len);

/* Bytes that are lent, in the same pattern to both. */
struct lent {
    const struct fence *fence;
    bool at_end;
    size_t len;
    uint8_t *library, *plain;
};

struct lent lend(const struct fence *f, size_t len);

/* Whether the bytes from `from` on are as they were lent, and the guard bytes too. */
bool lent_kept(const struct lent *l, size_t from);

/* Whether both left the same. */
bool lent_alike(const struct lent *l);

/* What both are given to read. */
struct given {
    const struct fence *fence;
    bool at_end;
    const uint8_t *original;
    size_t len;
    uint8_t *library, *plain;
};

struct given give(const struct fence *f, const uint8_t *original, size_t len);

/* Takes it back: whether the library left it as it was. */
bool take_back(struct given *g);

#endif
