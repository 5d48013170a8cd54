#include "packed.h"

#include <string.h>

#include "../afters.h"
#include "../rows.h"

/* Two bytes, signed. */
static uint64_t get_short(const uint8_t *p)
{
    return (uint64_t)(int64_t)(int16_t)(uint16_t)(p[0] << 8 | p[1]);
}

static void put_short(uint8_t *p, uint64_t n)
{
    p[0] = (uint8_t)(n >> 8);
    p[1] = (uint8_t)n;
}

bool unpack(const uint8_t *data, size_t size, struct packed *p)
{
    if (size < PACKED_HEAD || data[0] != PACKED_CODE)
        return false;
    p->source = data + PACKED_HEAD;
    p->source_len = (size_t)(data[1] << 8 | data[2]);
    if (p->source_len > size - PACKED_HEAD)
        p->source_len = size - PACKED_HEAD;
    p->packed_rows = p->source + p->source_len;
    p->rows = (size - PACKED_HEAD - p->source_len) / PACKED_ROW;
    p->claimed = p->rows + (uint64_t)(int64_t)(int8_t)data[3];
    return true;
}

/* The upper bits of the first byte say how far the numbers are shifted, so that wide ones occur. */
static void unpack_row(const uint8_t *p, uint8_t *table, size_t row)
{
    unsigned shift = (p[0] >> 5 & 1u) * 16 + (p[0] >> 6 & 1u) * 32, second = (p[0] >> 7 & 1u) * 32;

    set_number(table, row, KIND, p[0] & 0x1f);
    set_number(table, row, PLACE, get_short(p + 1));
    set_number(table, row, FIRST, get_short(p + 3) << shift);
    set_number(table, row, SECOND, get_short(p + 5) << second);
}

/* The fifth number of a row that has the right one. */
static uint64_t unpack_after(const uint8_t *p, const uint8_t *table, size_t rows, size_t row)
{
    int more = (int8_t)p[7];

    if (more < INT8_MIN + AFTER_TRIALS)
        return after_trial(table, rows, row, (unsigned)(more - INT8_MIN));
    return get_number(table, row, AFTER) + (uint64_t)(int64_t)more;
}

void unpack_rows(const struct packed *p, uint8_t *table)
{
    size_t i;

    for (i = 0; i < p->rows; i++)
        unpack_row(p->packed_rows + i * PACKED_ROW, table, i);
    set_afters(table, p->rows);
    for (i = 0; i < p->rows; i++)
        set_number(table, i, AFTER, unpack_after(p->packed_rows + i * PACKED_ROW, table, p->rows, i));
}

size_t pack(const uint8_t *source, size_t source_len, const uint8_t *table, size_t rows, uint8_t *data, size_t room)
{
    size_t len = PACKED_HEAD, i;

    if (source_len > 0xffff || len + source_len > room)
        return 0;
    data[0] = PACKED_CODE;
    put_short(data + 1, source_len);
    data[3] = 0;
    memcpy(data + len, source, source_len);
    len += source_len;
    for (i = 0; i < rows && len + PACKED_ROW <= room; i++, len += PACKED_ROW) {
        uint64_t first = get_number(table, i, FIRST);
        bool high = (first & 0xffffffffffff) == 0 && first != 0;

        data[len] = (uint8_t)(get_number(table, i, KIND) | (high ? 0x60 : 0));
        put_short(data + len + 1, get_number(table, i, PLACE));
        put_short(data + len + 3, high ? first >> 48 : first);
        put_short(data + len + 5, get_number(table, i, SECOND));
        data[len + 7] = 0; /* the fifth number is right */
    }
    return len;
}
