/* The bits of a number, spread over all of a word: for tables that are found by it. */
#ifndef MIXED_H
#define MIXED_H

#include <stdint.h>

static inline uint64_t mixed(uint64_t n)
{
    n = (n ^ n >> 30) * UINT64_C(0xbf58476d1ce4e5b9);
    n = (n ^ n >> 27) * UINT64_C(0x94d049bb133111eb);
    return n ^ n >> 31;
}

#endif
