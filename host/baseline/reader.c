/*
 * The reader walks a message twice with the same functions. The first pass judges it and counts its rows; the second,
 * taken only where they fit the table, stores them. A function that reads something returns false after a refusal.
 */
#define _DEFAULT_SOURCE /* endian.h */

#include "baseline.h"
#include "forms.h"

/* What a first byte opens. */
enum form {
    NONE,
    NULL_VALUE,
    FALSE_VALUE,
    TRUE_VALUE,
    INT,
    LONG,
    DATE,
    DOUBLE,
    TEXT,
    BYTES,
    FEW,
    FEW_TYPED,
    COUNTED,
    COUNTED_TYPED,
    OPEN,
    OPEN_TYPED,
    MAP,
    TYPED_MAP,
    SHORT_OBJECT,
    OBJECT,
    REFERENCE,
    CLASS
};

#define X4(form) form, form, form, form
#define X8(form) X4(form), X4(form)
#define X16(form) X8(form), X8(form)

static const uint8_t chart[256] = {
    /* 00 */ X16(TEXT), X16(TEXT),
    /* 20 */ X16(BYTES),
    /* 30 */ X4(TEXT), X4(BYTES), X8(LONG),
    /* 40 */ NONE, BYTES, BYTES, CLASS, DOUBLE, NONE, FALSE_VALUE, NONE,
    /* 48 */ MAP, INT, DATE, DATE, LONG, TYPED_MAP, NULL_VALUE, OBJECT,
    /* 50 */ NONE, REFERENCE, TEXT, TEXT, TRUE_VALUE, OPEN_TYPED, COUNTED_TYPED, OPEN,
    /* 58 */ COUNTED, LONG, NONE, DOUBLE, DOUBLE, DOUBLE, DOUBLE, DOUBLE,
    /* 60 */ X16(SHORT_OBJECT),
    /* 70 */ X8(FEW_TYPED), X8(FEW),
    /* 80 */ X16(INT), X16(INT), X16(INT), X16(INT),
    /* c0 */ X16(INT),
    /* d0 */ X8(INT), X8(LONG),
    /* e0 */ X16(LONG),
    /* f0 */ X16(LONG)
};

struct reader {
    const uint8_t *message;
    size_t len;
    size_t at;
    bool thousandths; /* the rule of 5f */
    uint8_t *table;   /* NULL in the first pass */
    size_t rows;
    unsigned references;
    unsigned types;
    unsigned classes;
    uint16_t fields[MAX_CLASSES]; /* of the classes defined so far */
    enum refusal number;
    size_t place;
};

static bool refuse(struct reader *r, enum refusal number, size_t place)
{
    r->number = number;
    r->place = place;
    return false;
}

/* Whether n bytes are left. */
static bool need(struct reader *r, size_t n)
{
    if (r->len - r->at < n)
        return refuse(r, CUT_SHORT, r->len);
    return true;
}

/* ---- rows */

/* Stores a row once all that it opens is read: the rows so far end there. */
static void store_row(struct reader *r, size_t row, enum kind kind, size_t place, uint64_t first, uint64_t second)
{
    uint8_t *p;

    if (r->table == NULL)
        return;
    p = r->table + row * ROW_SIZE;
    put_u64(p, kind);
    put_u64(p + 8, place);
    put_u64(p + 16, first);
    put_u64(p + 24, second);
    put_u64(p + 32, r->rows);
}

static void add_row(struct reader *r, enum kind kind, size_t place, uint64_t first, uint64_t second)
{
    store_row(r, r->rows++, kind, place, first, second);
}

/* ---- numbers; each is read from its code on */

static int64_t get_i32(const uint8_t *p)
{
    return (int32_t)get_u32(p);
}

/* An int; any other code is misplaced. */
static inline bool read_int(struct reader *r, int64_t *value)
{
    const uint8_t *p = r->message + r->at;
    unsigned code;

    if (!need(r, 1))
        return false;
    code = p[0];
    if (code >= 0x80 && code <= 0xbf) {
        *value = (int64_t)code - 0x90;
        r->at += 1;
    } else if (code >= 0xc0 && code <= 0xcf) {
        if (!need(r, 2))
            return false;
        *value = ((int64_t)code - 0xc8) * 256 + p[1];
        r->at += 2;
    } else if (code >= 0xd0 && code <= 0xd7) {
        if (!need(r, 3))
            return false;
        *value = ((int64_t)code - 0xd4) * 65536 + p[1] * 256 + p[2];
        r->at += 3;
    } else if (code == 0x49) {
        if (!need(r, 5))
            return false;
        *value = get_i32(p + 1);
        r->at += 5;
    } else {
        return refuse(r, MISPLACED, r->at);
    }
    return true;
}

/* A count; a negative one is refused at its first byte. */
static bool read_count(struct reader *r, uint64_t *count)
{
    size_t place = r->at;
    int64_t value;

    if (!read_int(r, &value))
        return false;
    if (value < 0)
        return refuse(r, NEGATIVE_COUNT, place);
    *count = (uint64_t)value;
    return true;
}

static bool read_long(struct reader *r, int64_t *value)
{
    const uint8_t *p = r->message + r->at;
    unsigned code = p[0];

    if (code >= 0xd8 && code <= 0xef) {
        *value = (int64_t)code - 0xe0;
        r->at += 1;
    } else if (code >= 0xf0) {
        if (!need(r, 2))
            return false;
        *value = ((int64_t)code - 0xf8) * 256 + p[1];
        r->at += 2;
    } else if (code >= 0x38 && code <= 0x3f) {
        if (!need(r, 3))
            return false;
        *value = ((int64_t)code - 0x3c) * 65536 + p[1] * 256 + p[2];
        r->at += 3;
    } else if (code == 0x59) {
        if (!need(r, 5))
            return false;
        *value = get_i32(p + 1);
        r->at += 5;
    } else {
        if (!need(r, 9))
            return false;
        *value = (int64_t)get_u64(p + 1);
        r->at += 9;
    }
    return true;
}

/* A date, in milliseconds. */
static bool read_date(struct reader *r, int64_t *value)
{
    const uint8_t *p = r->message + r->at;

    if (p[0] == 0x4a) {
        if (!need(r, 9))
            return false;
        *value = (int64_t)get_u64(p + 1);
        r->at += 9;
    } else {
        if (!need(r, 5))
            return false;
        *value = get_i32(p + 1) * 60000;
        r->at += 5;
    }
    return true;
}

/* 2026-11: the double nearest to 0.001 is THOUSANDTH * 2^-62. A product with a count has up to 84 bits. */
#define THOUSANDTH UINT64_C(0x10624dd2f1a9fc)

__extension__ typedef unsigned __int128 product;

/* The bits of the double m * 0.001, in whole numbers: 53 bits are kept, and half of their last goes to the even one. */
static uint64_t count_thousandths(int64_t m)
{
    const uint64_t hidden = UINT64_C(1) << 52;
    product whole = (product)(m < 0 ? -m : m) * THOUSANDTH, twice_lost;
    uint64_t kept;
    unsigned shift = 0;

    if (m == 0)
        return 0;
    while (whole >> shift >= 2 * hidden)
        shift++;
    kept = (uint64_t)(whole >> shift);
    twice_lost = 2 * (whole - ((product)kept << shift));
    if (twice_lost > (product)1 << shift || (twice_lost == (product)1 << shift && kept % 2 != 0))
        kept++;
    /* what is rounded up to a power of two carries into the exponent */
    return (m < 0 ? UINT64_C(1) << 63 : 0) + (uint64_t)(1023 + 52 - 62 + shift) * hidden + (kept - hidden);
}

static bool read_double(struct reader *r, uint64_t *bits)
{
    const uint8_t *p = r->message + r->at;

    switch (p[0]) {
    case 0x5b:
        *bits = double_bits(0.0);
        r->at += 1;
        return true;
    case 0x5c:
        *bits = double_bits(1.0);
        r->at += 1;
        return true;
    case 0x5d:
        if (!need(r, 2))
            return false;
        *bits = double_bits((int8_t)p[1]);
        r->at += 2;
        return true;
    case 0x5e:
        if (!need(r, 3))
            return false;
        *bits = double_bits((int16_t)(p[1] << 8 | p[2]));
        r->at += 3;
        return true;
    case 0x5f:
        if (!need(r, 5))
            return false;
        *bits = r->thousandths ? count_thousandths(get_i32(p + 1)) : widen(get_u32(p + 1));
        r->at += 5;
        return true;
    default:
        if (!need(r, 9))
            return false;
        *bits = get_u64(p + 1);
        r->at += 9;
        return true;
    }
}

/* ---- texts and bytes */

/* The head of a chunk: its size, and whether it is the last one. */
static bool read_head(struct reader *r, const struct heads *h, size_t *size, bool *last)
{
    const uint8_t *p = r->message + r->at;
    unsigned code;

    if (!need(r, 1))
        return false;
    code = p[0];
    *last = true;
    if (code >= h->tiny && code < h->tiny + h->few) {
        *size = code - h->tiny;
        r->at += 1;
    } else if (code >= h->brief && code < h->brief + 4) {
        if (!need(r, 2))
            return false;
        *size = (code - h->brief) * 256 + p[1];
        r->at += 2;
    } else if (code == h->part || code == h->wide) {
        if (!need(r, 3))
            return false;
        *size = p[1] * 256u + p[2];
        *last = code == h->wide;
        r->at += 3;
    } else {
        return refuse(r, MISPLACED, r->at);
    }
    return true;
}

/* The characters of a chunk. Their bytes are counted as in UTF-8, where a pair of halves has four. */
static bool read_characters(struct reader *r, size_t units, size_t *bytes)
{
    const uint8_t *message = r->message;
    size_t at = r->at, len = r->len, pairs = 0;

    while (units > 0) {
        int length;

        if (at == len)
            return refuse(r, CUT_SHORT, len);
        if (message[at] < 0x80) {
            at++;
            units--;
            continue;
        }
        length = character(message + at, len - at, units);
        if (length < 0)
            return refuse(r, BAD_UTF8, at);
        if (length == 0)
            return refuse(r, CUT_SHORT, len);
        at += (size_t)length;
        units -= length >= 4 ? 2 : 1;
        pairs += length == PAIR_SIZE;
    }
    *bytes += at - r->at - 2 * pairs;
    r->at = at;
    return true;
}

/* A text, as a row of this kind. */
static bool read_text(struct reader *r, enum kind kind)
{
    size_t place = r->at, units = 0, bytes = 0;
    bool last;

    do {
        size_t size;

        if (!read_head(r, &text_heads, &size, &last) || !read_characters(r, size, &bytes))
            return false;
        units += size;
    } while (!last);
    add_row(r, kind, place, units, bytes);
    return true;
}

static bool read_bytes(struct reader *r)
{
    size_t place = r->at, total = 0;
    bool last;

    do {
        size_t size;

        if (!read_head(r, &bytes_heads, &size, &last) || !need(r, size))
            return false;
        r->at += size;
        total += size;
    } while (!last);
    add_row(r, ROW_BYTES, place, total, 0);
    return true;
}

/* ---- types, classes, values */

/* A type, as a row, and its number. */
static bool read_type(struct reader *r, uint64_t *number)
{
    size_t place = r->at;
    int64_t value;

    if (!need(r, 1))
        return false;
    if (chart[r->message[place]] == TEXT) {
        if (r->types == MAX_TYPES)
            return refuse(r, CEILING, place);
        *number = r->types++;
        return read_text(r, ROW_TYPE_NAME);
    }
    if (!read_int(r, &value))
        return false;
    if (value < 0 || value >= r->types)
        return refuse(r, NOT_GIVEN, place);
    *number = (uint64_t)value;
    add_row(r, ROW_TYPE_NUMBER, place, *number, 0);
    return true;
}

/* A class definition. */
static bool read_class(struct reader *r)
{
    size_t place = r->at, row, count_place;
    uint64_t fields, i;

    if (r->classes == MAX_CLASSES)
        return refuse(r, CEILING, place);
    r->at++;
    row = r->rows++;
    if (!read_text(r, ROW_CLASS_NAME))
        return false;
    count_place = r->at;
    if (!read_count(r, &fields))
        return false;
    if (fields > MAX_FIELDS)
        return refuse(r, CEILING, count_place);
    for (i = 0; i < fields; i++)
        if (!read_text(r, ROW_FIELD_NAME))
            return false;
    r->fields[r->classes++] = (uint16_t)fields;
    store_row(r, row, ROW_CLASS, place, fields, 0);
    return true;
}

static bool read_value(struct reader *r, unsigned allowance);

static bool read_values(struct reader *r, uint64_t count, unsigned allowance)
{
    for (; count > 0; count--)
        if (!read_value(r, allowance))
            return false;
    return true;
}

/* Elements of `width` values each, up to 5a. */
static bool read_until_end(struct reader *r, unsigned width, unsigned allowance, uint64_t *count)
{
    for (*count = 0;; ++*count) {
        if (!need(r, 1))
            return false;
        if (r->message[r->at] == 0x5a) {
            r->at++;
            return true;
        }
        if (!read_values(r, width, allowance))
            return false;
    }
}

/* A list, map or object whose code has been read; `allowance` more may open. */
static bool read_container(struct reader *r, size_t place, enum form form, unsigned allowance)
{
    unsigned code = r->message[place];
    uint64_t count, type;
    int64_t number;
    size_t row;

    if (allowance == 0)
        return refuse(r, CEILING, place);
    allowance--;
    r->references++;
    row = r->rows++;
    switch (form) {
    case FEW:
        count = code - 0x78;
        if (!read_values(r, count, allowance))
            return false;
        store_row(r, row, ROW_LIST, place, count, 0);
        return true;
    case COUNTED:
        if (!read_count(r, &count) || !read_values(r, count, allowance))
            return false;
        store_row(r, row, ROW_LIST, place, count, 0);
        return true;
    case OPEN:
        if (!read_until_end(r, 1, allowance, &count))
            return false;
        store_row(r, row, ROW_LIST, place, count, 0);
        return true;
    case FEW_TYPED:
        count = code - 0x70;
        if (!read_type(r, &type) || !read_values(r, count, allowance))
            return false;
        store_row(r, row, ROW_TYPED_LIST, place, count, type);
        return true;
    case COUNTED_TYPED:
        if (!read_type(r, &type) || !read_count(r, &count) || !read_values(r, count, allowance))
            return false;
        store_row(r, row, ROW_TYPED_LIST, place, count, type);
        return true;
    case OPEN_TYPED:
        if (!read_type(r, &type) || !read_until_end(r, 1, allowance, &count))
            return false;
        store_row(r, row, ROW_TYPED_LIST, place, count, type);
        return true;
    case MAP:
        if (!read_until_end(r, 2, allowance, &count))
            return false;
        store_row(r, row, ROW_MAP, place, count, 0);
        return true;
    case TYPED_MAP:
        if (!read_type(r, &type) || !read_until_end(r, 2, allowance, &count))
            return false;
        store_row(r, row, ROW_TYPED_MAP, place, count, type);
        return true;
    default: /* an object */
        number = (int64_t)code - 0x60;
        if (form == OBJECT && !read_int(r, &number))
            return false;
        if (number < 0 || number >= r->classes)
            return refuse(r, NOT_GIVEN, place);
        count = r->fields[number];
        if (!read_values(r, count, allowance))
            return false;
        store_row(r, row, ROW_OBJECT, place, (uint64_t)number, count);
        return true;
    }
}

/* A value, with the class definitions before it; `allowance` more containers may open. */
static bool read_value(struct reader *r, unsigned allowance)
{
    for (;;) {
        size_t place = r->at;
        enum form form;
        int64_t value;
        uint64_t bits;

        if (!need(r, 1))
            return false;
        form = chart[r->message[place]];
        switch (form) {
        case CLASS:
            if (!read_class(r))
                return false;
            continue;
        case NULL_VALUE:
            r->at++;
            add_row(r, ROW_NULL, place, 0, 0);
            return true;
        case FALSE_VALUE:
            r->at++;
            add_row(r, ROW_FALSE, place, 0, 0);
            return true;
        case TRUE_VALUE:
            r->at++;
            add_row(r, ROW_TRUE, place, 0, 0);
            return true;
        case INT:
            if (!read_int(r, &value))
                return false;
            add_row(r, ROW_INT, place, (uint64_t)value, 0);
            return true;
        case LONG:
            if (!read_long(r, &value))
                return false;
            add_row(r, ROW_LONG, place, (uint64_t)value, 0);
            return true;
        case DATE:
            if (!read_date(r, &value))
                return false;
            add_row(r, ROW_DATE, place, (uint64_t)value, 0);
            return true;
        case DOUBLE:
            if (!read_double(r, &bits))
                return false;
            add_row(r, ROW_DOUBLE, place, bits, 0);
            return true;
        case TEXT:
            return read_text(r, ROW_TEXT);
        case BYTES:
            return read_bytes(r);
        case REFERENCE:
            r->at++;
            if (!read_int(r, &value))
                return false;
            if (value < 0 || value >= r->references)
                return refuse(r, NOT_GIVEN, place);
            add_row(r, ROW_REFERENCE, place, (uint64_t)value, 0);
            return true;
        case NONE:
            return refuse(r, MISPLACED, place);
        default:
            r->at++;
            return read_container(r, place, form, allowance);
        }
    }
}

/* ---- messages */

/* One pass over the message: one record, and nothing after it. */
static bool read_record(struct reader *r, uint8_t *table)
{
    r->at = 0;
    r->table = table;
    r->rows = 0;
    r->references = 0;
    r->types = 0;
    r->classes = 0;
    if (!read_value(r, MAX_OPEN))
        return false;
    if (r->at != r->len)
        return refuse(r, TRAILING, r->at);
    return true;
}

static uint64_t read_message(const uint8_t *message, size_t message_len, uint8_t *table, size_t table_len,
                             bool thousandths)
{
    struct reader r;

    if (message_len == 0 || message_len > MAX_MESSAGE)
        return answer(BAD_LENGTH, 0, 0);
    r.message = message;
    r.len = message_len;
    r.thousandths = thousandths;
    if (!read_record(&r, NULL))
        return answer(r.number, 0, r.place);
    if (table_len / ROW_SIZE < r.rows)
        return answer(TOO_LITTLE_ROOM, r.rows, 0);
    read_record(&r, table);
    return answer(ACCEPTED, r.rows, message_len);
}

uint64_t baseline_read(const uint8_t *message, size_t message_len, uint8_t *table, size_t table_len)
{
    return read_message(message, message_len, table, table_len, false);
}

uint64_t baseline_read_thousandths(const uint8_t *message, size_t message_len, uint8_t *table, size_t table_len)
{
    return read_message(message, message_len, table, table_len, true);
}
