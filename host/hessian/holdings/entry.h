/* The layout of entries: a length in four bytes, the highest first, and a message. A header stands before them. */
#ifndef ENTRY_H
#define ENTRY_H

#include <stddef.h>
#include <stdint.h>

enum { VERSION_PLACE = 3, HEADER_SIZE = 5, LENGTH_SIZE = 4 };

/* The length at the beginning of an entry. */
static inline size_t entry_length(const uint8_t *p)
{
    return (size_t)p[0] << 24 | (size_t)p[1] << 16 | (size_t)p[2] << 8 | p[3];
}

static inline void set_entry_length(uint8_t *p, size_t len)
{
    p[0] = (uint8_t)(len >> 24);
    p[1] = (uint8_t)(len >> 16);
    p[2] = (uint8_t)(len >> 8);
    p[3] = (uint8_t)len;
}

#endif
