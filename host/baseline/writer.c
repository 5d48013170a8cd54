/*
 * The writer walks the rows twice with the same functions. The first pass judges them and counts the bytes; the second,
 * taken only where they fit the output, stores them. A function that writes something returns false where the rows are
 * no record.
 */
#define _DEFAULT_SOURCE /* endian.h */

#include "baseline.h"
#include "forms.h"

#include <float.h>

enum {
    LONGEST_CHUNK = 65535,
    FEW = 8,  /* fewer elements: a list of one byte and its elements */
    MANY = 48 /* this many and more: a list up to 5a */
};

struct writer {
    const uint8_t *source;
    size_t source_len;
    const uint8_t *table;
    uint64_t rows;
    uint64_t at;     /* rows written so far */
    uint8_t *output; /* NULL in the first pass */
    size_t size;     /* bytes so far */
    uint64_t references;
    unsigned types;
    unsigned classes;
    uint16_t fields[MAX_CLASSES]; /* of the classes defined so far */
};

struct row {
    uint64_t kind, place, first, second, after;
};

static bool next_row(struct writer *w, struct row *row)
{
    const uint8_t *p;

    if (w->at == w->rows)
        return false;
    p = w->table + w->at++ * ROW_SIZE;
    row->kind = get_u64(p);
    row->place = get_u64(p + 8);
    row->first = get_u64(p + 16);
    row->second = get_u64(p + 24);
    row->after = get_u64(p + 32);
    return true;
}

/* Whether what a row opens, of which all rows are taken by now, ends where the row says. */
static bool ends(const struct writer *w, const struct row *row)
{
    return row->after == w->at;
}

/* ---- bytes */

static void put(struct writer *w, unsigned byte)
{
    if (w->output != NULL)
        w->output[w->size] = (uint8_t)byte;
    w->size++;
}

/* The low `size` bytes of a number. */
static void put_number(struct writer *w, uint64_t number, unsigned size)
{
    if (w->output != NULL) {
        uint8_t *p = w->output + w->size;
        unsigned i;

        for (i = size; i-- > 0; number >>= 8)
            p[i] = (uint8_t)number;
    }
    w->size += size;
}

static void put_copy(struct writer *w, const uint8_t *p, size_t size)
{
    if (w->output != NULL)
        memcpy(w->output + w->size, p, size);
    w->size += size;
}

/* ---- numbers */

/* A code and the low `size` bytes of a number. */
static void put_wide(struct writer *w, unsigned code, uint64_t number, unsigned size)
{
    put(w, code);
    put_number(w, number, size);
}

static void put_int(struct writer *w, int64_t n)
{
    if (n >= -16 && n <= 47)
        put(w, (unsigned)(0x90 + n));
    else if (n >= -2048 && n <= 2047)
        put_number(w, (uint64_t)(0xc800 + n), 2);
    else if (n >= -262144 && n <= 262143)
        put_number(w, (uint64_t)(0xd40000 + n), 3);
    else
        put_wide(w, 0x49, (uint64_t)n, 4);
}

static void put_long(struct writer *w, int64_t n)
{
    if (n >= -8 && n <= 15)
        put(w, (unsigned)(0xe0 + n));
    else if (n >= -2048 && n <= 2047)
        put_number(w, (uint64_t)(0xf800 + n), 2);
    else if (n >= -262144 && n <= 262143)
        put_number(w, (uint64_t)(0x3c0000 + n), 3);
    else if (n >= INT32_MIN && n <= INT32_MAX)
        put_wide(w, 0x59, (uint64_t)n, 4);
    else
        put_wide(w, 0x4c, (uint64_t)n, 8);
}

static void put_date(struct writer *w, int64_t n)
{
    int64_t minutes = n / 60000;

    if (minutes * 60000 == n && minutes >= INT32_MIN && minutes <= INT32_MAX)
        put_wide(w, 0x4b, (uint64_t)minutes, 4);
    else
        put_wide(w, 0x4a, (uint64_t)n, 8);
}

/* The float that stands for the same number, or NaN, as these bits of a double. */
static bool narrow(uint64_t bits, double value, uint32_t *single)
{
    float f;

    if (value >= -FLT_MAX && value <= FLT_MAX) {
        f = (float)value;
        memcpy(single, &f, sizeof f);
    } else {
        *single = (uint32_t)(bits >> 63) << 31 | 0x7f800000 | (uint32_t)(bits >> 29 & 0x7fffff);
    }
    return widen(*single) == bits;
}

static void put_double(struct writer *w, uint64_t bits)
{
    double value;
    uint32_t single;

    memcpy(&value, &bits, sizeof value);
    if (value >= -32768 && value <= 32767 && double_bits((int)value) == bits) {
        int n = (int)value;

        if (n == 0 || n == 1)
            put(w, (unsigned)(0x5b + n));
        else if (n >= -128 && n <= 127)
            put_wide(w, 0x5d, (uint64_t)n, 1);
        else
            put_wide(w, 0x5e, (uint64_t)n, 2);
    } else if (narrow(bits, value, &single)) {
        put_wide(w, 0x5f, single, 4);
    } else {
        put_wide(w, 0x44, bits, 8);
    }
}

/* ---- texts and bytes */

/* How far a text or byte string of the source is read. */
struct cursor {
    const uint8_t *p;
    const uint8_t *end; /* of the source */
    size_t left;        /* units of the chunk */
    bool last;          /* whether it is the last one */
};

static bool read_head(struct cursor *c, const struct heads *h)
{
    size_t room = (size_t)(c->end - c->p);
    unsigned code;

    if (room == 0)
        return false;
    code = c->p[0];
    c->last = true;
    if (code >= h->tiny && code < h->tiny + h->few) {
        c->left = code - h->tiny;
        c->p += 1;
    } else if (code >= h->brief && code < h->brief + 4 && room >= 2) {
        c->left = (code - h->brief) * 256 + c->p[1];
        c->p += 2;
    } else if ((code == h->part || code == h->wide) && room >= 3) {
        c->left = c->p[1] * 256u + c->p[2];
        c->last = code == h->wide;
        c->p += 3;
    } else {
        return false;
    }
    return true;
}

/* Passes the characters of a chunk. Their bytes are counted as in UTF-8, where a pair of halves has four. */
static bool pass_characters(struct cursor *c, uint64_t *bytes)
{
    const uint8_t *p = c->p;
    size_t units = c->left, pairs = 0;

    while (units > 0) {
        int length;

        if (p == c->end)
            return false;
        if (*p < 0x80) {
            p++;
            units--;
            continue;
        }
        length = character(p, (size_t)(c->end - p), units);
        if (length <= 0)
            return false;
        p += length;
        units -= length >= 4 ? 2 : 1;
        pairs += length == PAIR_SIZE;
    }
    *bytes += (uint64_t)(p - c->p) - 2 * pairs;
    c->p = p;
    return true;
}

static bool pass_bytes(struct cursor *c, uint64_t *bytes)
{
    if ((size_t)(c->end - c->p) < c->left)
        return false;
    c->p += c->left;
    *bytes += c->left;
    return true;
}

/* Whether a complete string of so many units and bytes opens at this place of the source. */
static bool judge_string(struct writer *w, const struct heads *h, uint64_t place, uint64_t units, uint64_t bytes)
{
    struct cursor c = {NULL, w->source + w->source_len, 0, false};
    uint64_t all_units = 0, all_bytes = 0;

    if (place >= w->source_len)
        return false;
    c.p = w->source + place;
    do {
        if (!read_head(&c, h))
            return false;
        if (!(h == &text_heads ? pass_characters(&c, &all_bytes) : pass_bytes(&c, &all_bytes)))
            return false;
        all_units += c.left;
    } while (!c.last);
    return all_units == units && all_bytes == bytes;
}

/* The bytes of the well-formed characters at p that fit so many units, up to a pair of halves; and their units. */
static size_t fitting(const uint8_t *p, size_t units, size_t *fit)
{
    const uint8_t *start = p;
    size_t left = units;

    while (left > 0) {
        if (*p < 0x80) {
            p++;
            left--;
        } else if (is_high_half(p)) {
            break;
        } else if (*p < 0xf0) {
            p += *p < 0xe0 ? 2 : 3;
            left--;
        } else if (left > 1) {
            p += 4;
            left -= 2;
        } else {
            break;
        }
    }
    *fit = units - left;
    return (size_t)(p - start);
}

/* The character of the pair of halves at p, in four bytes. Each half has ten bits of it, in its last two bytes. */
static void put_pair(struct writer *w, const uint8_t *p)
{
    uint32_t high = (p[1] & 0x0fu) << 6 | (p[2] & 0x3fu), low = (p[4] & 0x0fu) << 6 | (p[5] & 0x3fu);
    uint32_t code = 0x10000 + (high << 10 | low);

    put(w, 0xf0 | code >> 18);
    put(w, 0x80 | (code >> 12 & 0x3f));
    put(w, 0x80 | (code >> 6 & 0x3f));
    put(w, 0x80 | (code & 0x3f));
}

/* Copies content up to so many units, and not half of a pair; how many they are. */
static size_t copy_units(struct writer *w, const struct heads *h, struct cursor *c, size_t most)
{
    size_t done = 0, over = 0;

    while (done < most && over != 1) {
        size_t want, units, bytes;

        while (c->left == 0)
            read_head(c, h);
        want = most - done < c->left ? most - done : c->left;
        units = bytes = want;
        if (h == &text_heads)
            bytes = fitting(c->p, want, &units);
        put_copy(w, c->p, bytes);
        c->p += bytes;
        /* where units are left over, a character of two comes next: of halves, if there is room for it */
        over = want - units;
        if (over >= 2) {
            put_pair(w, c->p);
            c->p += PAIR_SIZE;
            units += 2;
        }
        c->left -= units;
        done += units;
    }
    return done;
}

/* The head of a last chunk. */
static void put_head(struct writer *w, const struct heads *h, size_t units)
{
    if (units < h->few)
        put(w, (unsigned)(h->tiny + units));
    else if (units < 1024)
        put_number(w, h->brief * 256 + units, 2);
    else
        put_wide(w, h->wide, units, 2);
}

/* The string at this place, of so many units and bytes, as the row says. */
static bool put_string(struct writer *w, const struct heads *h, uint64_t place, uint64_t units, uint64_t bytes)
{
    struct cursor c = {NULL, w->source + w->source_len, 0, false};
    size_t left = (size_t)units;

    if (w->output == NULL) {
        if (!judge_string(w, h, place, units, bytes))
            return false;
        if (left <= LONGEST_CHUNK) {
            put_head(w, h, left);
            w->size += (size_t)bytes;
            return true;
        }
    }
    c.p = w->source + place;
    while (left > LONGEST_CHUNK) {
        size_t head = w->size, n;

        w->size += 3;
        n = copy_units(w, h, &c, LONGEST_CHUNK);
        if (w->output != NULL) {
            w->output[head] = (uint8_t)h->part;
            w->output[head + 1] = (uint8_t)(n >> 8);
            w->output[head + 2] = (uint8_t)n;
        }
        left -= n;
    }
    put_head(w, h, left);
    copy_units(w, h, &c, left);
    return true;
}

static bool put_text(struct writer *w, const struct row *row)
{
    return put_string(w, &text_heads, row->place, row->first, row->second);
}

/* The next row, which is to be of this kind, as a text. */
static bool write_name(struct writer *w, enum kind kind)
{
    struct row row;

    return next_row(w, &row) && row.kind == kind && ends(w, &row) && put_text(w, &row);
}

/* ---- types, classes, values */

/* The type of a list or map whose row has this type number. */
static bool write_type(struct writer *w, uint64_t number)
{
    struct row row;

    if (!next_row(w, &row) || !ends(w, &row))
        return false;
    if (row.kind == ROW_TYPE_NAME)
        return w->types < MAX_TYPES && number == w->types++ && put_text(w, &row);
    if (row.kind != ROW_TYPE_NUMBER || row.first != number || row.second != 0 || number >= w->types)
        return false;
    put_int(w, (int64_t)number);
    return true;
}

/* A class definition whose row has been taken. */
static bool write_class(struct writer *w, const struct row *row)
{
    uint64_t i;

    if (w->classes == MAX_CLASSES || row->first > MAX_FIELDS || row->second != 0)
        return false;
    put(w, 0x43);
    if (!write_name(w, ROW_CLASS_NAME))
        return false;
    put_int(w, (int64_t)row->first);
    for (i = 0; i < row->first; i++)
        if (!write_name(w, ROW_FIELD_NAME))
            return false;
    w->fields[w->classes++] = (uint16_t)row->first;
    return ends(w, row);
}

static bool write_value(struct writer *w, unsigned allowance);

static bool write_values(struct writer *w, uint64_t count, unsigned allowance)
{
    for (; count > 0; count--)
        if (!write_value(w, allowance))
            return false;
    return true;
}

static bool write_list(struct writer *w, const struct row *row, unsigned allowance)
{
    bool typed = row->kind == ROW_TYPED_LIST;
    uint64_t count = row->first;

    if (count < FEW)
        put(w, (unsigned)((typed ? 0x70 : 0x78) + count));
    else if (count < MANY)
        put(w, typed ? 0x56 : 0x58);
    else
        put(w, typed ? 0x55 : 0x57);
    if (typed ? !write_type(w, row->second) : row->second != 0)
        return false;
    if (count >= FEW && count < MANY)
        put_int(w, (int64_t)count);
    if (!write_values(w, count, allowance))
        return false;
    if (count >= MANY)
        put(w, 0x5a);
    return true;
}

static bool write_map(struct writer *w, const struct row *row, unsigned allowance)
{
    bool typed = row->kind == ROW_TYPED_MAP;

    put(w, typed ? 0x4d : 0x48);
    if (typed ? !write_type(w, row->second) : row->second != 0)
        return false;
    if (row->first > w->rows || !write_values(w, 2 * row->first, allowance))
        return false;
    put(w, 0x5a);
    return true;
}

static bool write_object(struct writer *w, const struct row *row, unsigned allowance)
{
    if (row->first >= w->classes || row->second != w->fields[row->first])
        return false;
    if (row->first < 16) {
        put(w, (unsigned)(0x60 + row->first));
    } else {
        put(w, 0x4f);
        put_int(w, (int64_t)row->first);
    }
    return write_values(w, row->second, allowance);
}

/* A value whose row has been taken; `allowance` more containers may open. */
static bool write_item(struct writer *w, const struct row *row, unsigned allowance)
{
    switch (row->kind) {
    case ROW_NULL:
        put(w, 0x4e);
        return row->first == 0 && row->second == 0;
    case ROW_FALSE:
        put(w, 0x46);
        return row->first == 0 && row->second == 0;
    case ROW_TRUE:
        put(w, 0x54);
        return row->first == 0 && row->second == 0;
    case ROW_INT:
        if ((int64_t)row->first != (int32_t)row->first || row->second != 0)
            return false;
        put_int(w, (int64_t)row->first);
        return true;
    case ROW_LONG:
        put_long(w, (int64_t)row->first);
        return row->second == 0;
    case ROW_DOUBLE:
        put_double(w, row->first);
        return row->second == 0;
    case ROW_DATE:
        put_date(w, (int64_t)row->first);
        return row->second == 0;
    case ROW_TEXT:
        return put_text(w, row);
    case ROW_BYTES:
        return row->second == 0 && put_string(w, &bytes_heads, row->place, row->first, row->first);
    case ROW_REFERENCE:
        if (row->first >= w->references || row->second != 0)
            return false;
        put(w, 0x51);
        put_int(w, (int64_t)row->first);
        return true;
    case ROW_LIST:
    case ROW_TYPED_LIST:
    case ROW_MAP:
    case ROW_TYPED_MAP:
    case ROW_OBJECT:
        if (allowance == 0)
            return false;
        w->references++;
        if (row->kind == ROW_OBJECT)
            return write_object(w, row, allowance - 1);
        if (row->kind == ROW_LIST || row->kind == ROW_TYPED_LIST)
            return write_list(w, row, allowance - 1);
        return write_map(w, row, allowance - 1);
    default:
        return false;
    }
}

/* A value, with the class definitions before it; `allowance` more containers may open. */
static bool write_value(struct writer *w, unsigned allowance)
{
    struct row row;

    for (;;) {
        if (!next_row(w, &row))
            return false;
        if (row.kind != ROW_CLASS)
            break;
        if (!write_class(w, &row))
            return false;
    }
    return write_item(w, &row, allowance) && ends(w, &row);
}

/* ---- messages */

/* One pass over the rows: one record, and no row after it. */
static bool write_record(struct writer *w, uint8_t *output)
{
    w->at = 0;
    w->output = output;
    w->size = 0;
    w->references = 0;
    w->types = 0;
    w->classes = 0;
    return write_value(w, MAX_OPEN) && w->at == w->rows;
}

uint64_t baseline_write(const uint8_t *source, size_t source_len, const uint8_t *table, size_t table_len, uint64_t rows,
                        uint8_t *output, size_t output_len)
{
    struct writer w;

    if (source_len > MAX_MESSAGE)
        return answer(BAD_LENGTH, 0, 0);
    w.source = source;
    w.source_len = source_len;
    w.table = table;
    w.rows = rows;
    if (rows > table_len / ROW_SIZE || !write_record(&w, NULL))
        return answer(NO_RECORD, 0, 0);
    if (w.size > MAX_MESSAGE)
        return answer(BAD_LENGTH, 0, 0);
    if (w.size > output_len)
        return answer(TOO_LITTLE_ROOM, w.size, 0);
    write_record(&w, output);
    return answer(ACCEPTED, w.size, 0);
}
