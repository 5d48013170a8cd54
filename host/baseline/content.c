/*
 * The content of a text or byte string, by the two tables of docs/FORMAT.md, section 5: heads of chunks and characters.
 * The chunks are walked twice with the same functions. The first pass judges them and counts the bytes; the second,
 * taken only where they fit the output, stores them. A function that passes something returns false (a head: NULL)
 * where it does not stand there whole.
 */
#include "baseline.h"

#include <stdbool.h>
#include <string.h>

enum { ACCEPTED = 0, TOO_LITTLE_ROOM = 9, NO_RECORD = 10 };

enum { ROW_TEXT = 7, ROW_BYTES = 8, ROW_CLASS_NAME = 16, ROW_FIELD_NAME = 17, ROW_TYPE_NAME = 18 };

/* A row of the table of heads: the range of the code, the bytes of length after it, whether the chunk is the last. */
struct head {
    uint8_t low, high;
    size_t follow;
    bool last;
};

enum { HEADS = 4 };

static const struct head text_heads[HEADS] = {
    {0x52, 0x52, 2, false}, {0x00, 0x1f, 0, true}, {0x30, 0x33, 1, true}, {0x53, 0x53, 2, true}};
static const struct head bytes_heads[HEADS] = {
    {0x41, 0x41, 2, false}, {0x20, 0x2f, 0, true}, {0x34, 0x37, 1, true}, {0x42, 0x42, 2, true}};

enum { PAIR_SIZE = 6 };

/* A row of the table of characters: how many bytes, how many units, the range of each byte. */
struct sequence {
    uint8_t size, units, low[PAIR_SIZE], high[PAIR_SIZE];
};

static const struct sequence sequences[] = {
    {1, 1, {0x00}, {0x7f}},
    {2, 1, {0xc2, 0x80}, {0xdf, 0xbf}},
    {3, 1, {0xe0, 0xa0, 0x80}, {0xe0, 0xbf, 0xbf}},
    {3, 1, {0xe1, 0x80, 0x80}, {0xec, 0xbf, 0xbf}},
    {3, 1, {0xee, 0x80, 0x80}, {0xef, 0xbf, 0xbf}},
    {3, 1, {0xed, 0x80, 0x80}, {0xed, 0x9f, 0xbf}},
    {PAIR_SIZE, 2, {0xed, 0xa0, 0x80, 0xed, 0xb0, 0x80}, {0xed, 0xaf, 0xbf, 0xed, 0xbf, 0xbf}},
    {4, 2, {0xf0, 0x90, 0x80, 0x80}, {0xf0, 0xbf, 0xbf, 0xbf}},
    {4, 2, {0xf1, 0x80, 0x80, 0x80}, {0xf3, 0xbf, 0xbf, 0xbf}},
    {4, 2, {0xf4, 0x80, 0x80, 0x80}, {0xf4, 0x8f, 0xbf, 0xbf}},
};

struct cursor {
    const uint8_t *at, *end; /* of the source */
    uint8_t *output;         /* NULL in the first pass */
    size_t size;             /* bytes of content so far */
};

static size_t left(const struct cursor *c)
{
    return (size_t)(c->end - c->at);
}

static void store(struct cursor *c, const uint8_t *bytes, size_t size)
{
    if (c->output != NULL)
        memcpy(c->output + c->size, bytes, size);
    c->size += size;
}

/* ---- characters */

static bool stands_here(const struct cursor *c, const struct sequence *s)
{
    size_t i;

    if (left(c) < s->size)
        return false;
    for (i = 0; i < s->size; i++)
        if (c->at[i] < s->low[i] || c->at[i] > s->high[i])
            return false;
    return true;
}

/* The surrogate in the three bytes ed x y. */
static uint32_t surrogate(uint8_t x, uint8_t y)
{
    return 0xd000 + (x - 0x80u) * 64 + (y - 0x80u);
}

/* The surrogate pair at the cursor as its character, in four bytes. */
static void store_pair(struct cursor *c)
{
    uint32_t high = surrogate(c->at[1], c->at[2]), low = surrogate(c->at[4], c->at[5]);
    uint32_t u = 0x10000 + (high - 0xd800) * 0x400 + (low - 0xdc00);
    uint8_t four[] = {(uint8_t)(0xf0 + (u >> 18)), (uint8_t)(0x80 + (u >> 12) % 64), (uint8_t)(0x80 + (u >> 6) % 64),
                      (uint8_t)(0x80 + u % 64)};

    store(c, four, sizeof four);
}

/* A character of at most so many units, which it takes away. */
static bool pass_character(struct cursor *c, size_t *units)
{
    const struct sequence *s = sequences, *end = sequences + sizeof sequences / sizeof sequences[0];

    while (s < end && (s->units > *units || !stands_here(c, s)))
        s++;
    if (s == end)
        return false;
    if (s->size == PAIR_SIZE)
        store_pair(c);
    else
        store(c, c->at, s->size);
    c->at += s->size;
    *units -= s->units;
    return true;
}

/* ---- chunks */

static bool pass_characters(struct cursor *c, size_t units)
{
    while (units > 0)
        if (!pass_character(c, &units))
            return false;
    return true;
}

static bool pass_bytes(struct cursor *c, size_t length)
{
    if (left(c) < length)
        return false;
    store(c, c->at, length);
    c->at += length;
    return true;
}

/* The head of a chunk, which is one of these: its row of the table, or NULL; and the chunk's length. */
static const struct head *pass_head(struct cursor *c, const struct head *heads, size_t *length)
{
    const struct head *h = heads;
    size_t i;

    if (left(c) == 0)
        return NULL;
    while (h < heads + HEADS && (*c->at < h->low || *c->at > h->high))
        h++;
    if (h == heads + HEADS || left(c) < 1 + h->follow)
        return NULL;
    *length = *c->at++ - (size_t)h->low;
    for (i = 0; i < h->follow; i++)
        *length = *length * 256 + *c->at++;
    return h;
}

/* All chunks of a string, up to its last one. */
static bool pass_string(struct cursor *c, const struct head *heads)
{
    const struct head *h;
    size_t length;

    do {
        h = pass_head(c, heads, &length);
        if (h == NULL || !(heads == text_heads ? pass_characters(c, length) : pass_bytes(c, length)))
            return false;
    } while (!h->last);
    return true;
}

/* ---- calls */

/* The heads of what rows of this kind name; NULL if they name no string. */
static const struct head *heads_of(uint64_t kind)
{
    switch (kind) {
    case ROW_TEXT:
    case ROW_CLASS_NAME:
    case ROW_FIELD_NAME:
    case ROW_TYPE_NAME:
        return text_heads;
    case ROW_BYTES:
        return bytes_heads;
    default:
        return NULL;
    }
}

static struct baseline_answer told(uint64_t number, uint64_t count)
{
    struct baseline_answer a = {number, count, 0};

    return a;
}

struct baseline_answer baseline_content(const uint8_t *source, size_t source_len, uint64_t kind, uint64_t place,
                                        uint8_t *output, size_t output_len)
{
    const struct head *heads = heads_of(kind);
    struct cursor judged, copied;

    if (heads == NULL || place >= source_len)
        return told(NO_RECORD, 0);
    judged.at = source + place;
    judged.end = source + source_len;
    judged.output = NULL;
    judged.size = 0;
    copied = judged;
    if (!pass_string(&judged, heads))
        return told(NO_RECORD, 0);
    if (judged.size > output_len)
        return told(TOO_LITTLE_ROOM, judged.size);
    copied.output = output;
    pass_string(&copied, heads);
    return told(ACCEPTED, copied.size);
}
