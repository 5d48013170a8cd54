#include "hash.h"

#include <stdlib.h>
#include <string.h>

#include "memory.h"
#include "mixed.h"

enum { WORD = 8, LANES = 4, HINTS = 1 << 17 };

/* A check makes it small, so that different records meet. */
#ifndef HASH_BITS
#define HASH_BITS 64
#endif

static const uint64_t SPREAD = UINT64_C(0x9e3779b97f4a7c15);

/* A lane after one more word. */
static uint64_t turned(uint64_t lane, const uint8_t *bytes)
{
    uint64_t word;

    memcpy(&word, bytes, WORD);
    lane = (lane ^ word) * SPREAD;
    return lane << 29 | lane >> 35;
}

/* Lanes that do not wait for each other: variables, since an array of them would be in memory. */
static uint64_t hash_of_lanes(const uint8_t *bytes, size_t len)
{
    uint64_t a = 1, b = 2, c = 3, d = 4;
    const uint8_t *end = bytes + len;

    for (; bytes < end; bytes += LANES * WORD) {
        a = turned(a, bytes);
        b = turned(b, bytes + WORD);
        c = turned(c, bytes + 2 * WORD);
        d = turned(d, bytes + 3 * WORD);
    }
    return mixed(mixed(mixed(mixed(a) ^ b) ^ c) ^ d);
}

/* The bytes after the lanes go a word at a time, the last ones filled up with zeros. */
uint64_t hash_of(const uint8_t *bytes, size_t len)
{
    size_t in_lanes = len / (LANES * WORD) * (LANES * WORD);
    uint64_t hash = mixed(len + SPREAD);

    if (in_lanes > 0)
        hash ^= hash_of_lanes(bytes, in_lanes);
    for (bytes += in_lanes, len -= in_lanes; len > 0;) {
        size_t n = len < WORD ? len : WORD;
        uint64_t part = 0;

        memcpy(&part, bytes, n);
        hash = mixed(hash ^ part) + SPREAD;
        bytes += n;
        len -= n;
    }
    return mixed(hash) >> (64 - HASH_BITS);
}

/* ---- hints */

void new_hints(struct hints *h)
{
    h->slots = zeros(HINTS, sizeof *h->slots);
}

void free_hints(struct hints *h)
{
    free(h->slots);
}

/* One more than the hash stands in its slot, so that 0 is none. */
bool asked_before(struct hints *h, uint64_t hash)
{
    uint64_t *slot = &h->slots[hash % HINTS], mark = hash + 1;

    if (__atomic_load_n(slot, __ATOMIC_RELAXED) == mark)
        return true;
    __atomic_store_n(slot, mark, __ATOMIC_RELAXED);
    return false;
}
