/* What the plain functions share: ceilings, kinds of rows, numbers in bytes, chunks, characters, doubles. */
#ifndef FORMS_H
#define FORMS_H

#include <endian.h>
#include <stdbool.h>
#include <stddef.h>
#include <stdint.h>
#include <string.h>

enum {
    MAX_MESSAGE = 262144,
    MAX_OPEN = 32,
    MAX_CLASSES = 256,
    MAX_FIELDS = 256,
    MAX_TYPES = 256,
    ROW_SIZE = 40
};

enum refusal {
    ACCEPTED,
    BAD_LENGTH,
    CUT_SHORT,
    MISPLACED,
    BAD_UTF8,
    NEGATIVE_COUNT,
    NOT_GIVEN,
    CEILING,
    TRAILING,
    TOO_LITTLE_ROOM,
    NO_RECORD
};

enum kind {
    ROW_NULL,
    ROW_FALSE,
    ROW_TRUE,
    ROW_INT,
    ROW_LONG,
    ROW_DOUBLE,
    ROW_DATE,
    ROW_TEXT,
    ROW_BYTES,
    ROW_LIST,
    ROW_TYPED_LIST,
    ROW_MAP,
    ROW_TYPED_MAP,
    ROW_OBJECT,
    ROW_REFERENCE,
    ROW_CLASS,
    ROW_CLASS_NAME,
    ROW_FIELD_NAME,
    ROW_TYPE_NAME,
    ROW_TYPE_NUMBER
};

static inline uint64_t answer(enum refusal number, uint64_t count, uint64_t place)
{
    return (uint64_t)number << 48 | count << 24 | place;
}

/* ---- numbers in bytes, the highest first */

static inline uint32_t get_u32(const uint8_t *p)
{
    uint32_t n;

    memcpy(&n, p, sizeof n);
    return be32toh(n);
}

static inline uint64_t get_u64(const uint8_t *p)
{
    uint64_t n;

    memcpy(&n, p, sizeof n);
    return be64toh(n);
}

static inline void put_u32(uint8_t *p, uint32_t n)
{
    n = htobe32(n);
    memcpy(p, &n, sizeof n);
}

static inline void put_u64(uint8_t *p, uint64_t n)
{
    n = htobe64(n);
    memcpy(p, &n, sizeof n);
}

/* ---- doubles */

static inline uint64_t double_bits(double value)
{
    uint64_t bits;

    memcpy(&bits, &value, sizeof bits);
    return bits;
}

/* The bits of the double equal to a float. A conversion would make a signalling NaN quiet, so NaNs go by their bits. */
static inline uint64_t widen(uint32_t bits)
{
    float value;

    if ((bits & 0x7f800000) == 0x7f800000)
        return (uint64_t)(bits >> 31) << 63 | (uint64_t)0x7ff << 52 | (uint64_t)(bits & 0x7fffff) << 29;
    memcpy(&value, &bits, sizeof value);
    return double_bits(value);
}

/* ---- texts and bytes */

/* The codes of the heads of chunks. */
struct heads {
    unsigned tiny;  /* first of those with the length in the code */
    unsigned few;   /* how many of them there are */
    unsigned brief; /* first of four that a byte of length follows */
    unsigned part;  /* two bytes of length follow; not the last chunk */
    unsigned wide;  /* two bytes of length follow; the last chunk */
};

static const struct heads text_heads = {0x00, 32, 0x30, 0x52, 0x53};
static const struct heads bytes_heads = {0x20, 16, 0x34, 0x41, 0x42};

/*
 * 2026-04: a character beyond the 16-bit range may also stand as a pair of halves in one chunk, each of three bytes:
 * ed a0..af 80..bf, then ed b0..bf 80..bf. The bounds of these bytes.
 */
enum { PAIR_SIZE = 6 };

static const uint8_t pair_low[PAIR_SIZE] = {0xed, 0xa0, 0x80, 0xed, 0xb0, 0x80};
static const uint8_t pair_high[PAIR_SIZE] = {0xed, 0xaf, 0xbf, 0xed, 0xbf, 0xbf};

/* Whether the two bytes at p begin a high half: a half is known by its second byte. */
static inline bool is_high_half(const uint8_t *p)
{
    return p[0] == pair_low[0] && p[1] >= pair_low[1] && p[1] <= pair_high[1];
}

/*
 * The length of the pair whose high half begins at p, as `character` gives it. A high half is alone where one unit is
 * left, which is known by now, and where its low half does not follow.
 */
static int pair(const uint8_t *p, size_t left, size_t units)
{
    size_t i;

    if (units < 2)
        return -1;
    for (i = 2; i < PAIR_SIZE; i++) {
        if (i == left)
            return 0;
        if (p[i] < pair_low[i] || p[i] > pair_high[i])
            return -1;
    }
    return PAIR_SIZE;
}

/*
 * The length of the character at p, of two to four bytes or a pair of halves, where `left` bytes and `units` UTF-16
 * units are left: 0 if the message ends in it, -1 if it is ill-formed, a half alone, or does not fit the units.
 */
static inline int character(const uint8_t *p, size_t left, size_t units)
{
    unsigned lead = p[0], low = 0x80, high = 0xbf;
    int length, i;

    if (left >= 2 && is_high_half(p))
        return pair(p, left, units);
    if (lead >= 0xc2 && lead <= 0xdf) {
        length = 2;
    } else if (lead >= 0xe0 && lead <= 0xef) {
        length = 3;
        if (lead == 0xe0)
            low = 0xa0;
        if (lead == 0xed)
            high = 0x9f;
    } else if (lead >= 0xf0 && lead <= 0xf4 && units >= 2) {
        length = 4;
        if (lead == 0xf0)
            low = 0x90;
        if (lead == 0xf4)
            high = 0x8f;
    } else {
        return -1;
    }
    for (i = 1; i < length; i++) {
        if ((size_t)i == left)
            return 0;
        if (p[i] < low || p[i] > high)
            return -1;
        low = 0x80;
        high = 0xbf;
    }
    return length;
}

#endif
