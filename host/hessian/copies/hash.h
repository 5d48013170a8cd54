/* Hashes, which sort candidates and decide nothing; and a set of hashes met, which may forget. */
#ifndef HASH_H
#define HASH_H

#include <stdbool.h>
#include <stddef.h>
#include <stdint.h>

uint64_t hash_of(const uint8_t *bytes, size_t len);

/*
 * The hashes of files that workers have read. A later one takes the place of an earlier one where they share a slot, so
 * it is of a fixed size; several threads may ask at once.
 */
struct hints {
    uint64_t *slots;
};

void new_hints(struct hints *h);

void free_hints(struct hints *h);

/* Whether this hash is known to have been asked for; now it is. */
bool asked_before(struct hints *h, uint64_t hash);

#endif
