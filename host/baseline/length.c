/*
 * The length of a record's shortest message, by the tables of docs/FORMAT.md, sections 2 to 5 and 11. The plain reader
 * judges a message; what it accepts is walked once more here, item by item, and the length of the shortest form of each
 * is added. Forms and their lengths are told anew, and nothing is shared with the plain writer.
 */
#include "baseline.h"

#include <stdbool.h>
#include <string.h>

enum { TOO_LITTLE_ROOM = 9, MAX_CLASSES = 256, LONGEST_CHUNK = 65535, FEW = 8, SHORT_CLASSES = 16 };

struct walk {
    const uint8_t *at;
    bool thousandths; /* the rule of 5f */
    uint64_t length;  /* of the shortest forms so far */
    unsigned classes;
    unsigned fields[MAX_CLASSES];
};

/* ---- ints and longs */

/* A compact form: the range of its codes, and the code whose own part is 0. As many bytes follow as forms before it. */
struct compact {
    uint8_t low, high, zero;
};

enum { COMPACT = 3 };

static const struct compact ints[COMPACT] = {{0x80, 0xbf, 0x90}, {0xc0, 0xcf, 0xc8}, {0xd0, 0xd7, 0xd4}};
static const struct compact longs[COMPACT] = {{0xd8, 0xef, 0xe0}, {0xf0, 0xff, 0xf8}, {0x38, 0x3f, 0x3c}};

/* So many bytes from p on, added to the number whose bytes they continue. */
static int64_t continued(int64_t n, const uint8_t *p, unsigned size)
{
    for (; size > 0; size--)
        n = n * 256 + *p++;
    return n;
}

/* So many bytes from p on as a signed number. */
static int64_t signed_at(const uint8_t *p, unsigned size)
{
    return continued((int8_t)p[0], p + 1, size - 1);
}

/* Takes an int or a long: its value. */
static int64_t take_number(struct walk *w, const struct compact forms[COMPACT])
{
    unsigned code = *w->at++, i, size;
    int64_t n;

    for (i = 0; i < COMPACT; i++)
        if (code >= forms[i].low && code <= forms[i].high)
            break;
    size = i < COMPACT ? i : code == 0x4c ? 8 : 4;
    n = i < COMPACT ? continued((int64_t)code - forms[i].zero, w->at, size) : signed_at(w->at, size);
    w->at += size;
    return n;
}

static unsigned number_length(int64_t n, const struct compact forms[COMPACT])
{
    int64_t unit = 1;
    unsigned i;

    for (i = 0; i < COMPACT; i++, unit *= 256)
        if (n >= (forms[i].low - forms[i].zero) * unit && n < (forms[i].high + 1 - forms[i].zero) * unit)
            return 1 + i;
    return n >= INT32_MIN && n <= INT32_MAX ? 5 : 9;
}

/* Takes an int: its value. */
static int64_t take_int(struct walk *w)
{
    return take_number(w, ints);
}

/* The same, and its length is added. */
static int64_t measure_int(struct walk *w)
{
    int64_t n = take_int(w);

    w->length += number_length(n, ints);
    return n;
}

/* ---- dates and doubles */

static unsigned date_length(int64_t milliseconds)
{
    int64_t minutes = milliseconds / 60000;

    return milliseconds % 60000 == 0 && minutes >= INT32_MIN && minutes <= INT32_MAX ? 5 : 9;
}

/* Whether a binary32 number stands for these bits, by the fields of the double. */
static bool is_single(uint64_t bits)
{
    uint64_t exponent = bits >> 52 & 0x7ff, fraction = bits & UINT64_C(0xfffffffffffff);

    if (exponent == 0)
        return fraction == 0;
    if (exponent == 2047 || (exponent >= 897 && exponent <= 1150))
        return fraction % (UINT64_C(1) << 29) == 0;
    return exponent >= 874 && exponent <= 896 && fraction % (UINT64_C(1) << (926 - exponent)) == 0;
}

static unsigned double_length(uint64_t bits)
{
    double value;
    int whole;

    memcpy(&value, &bits, sizeof value);
    whole = value >= -32768 && value <= 32767 ? (int)value : 0;
    /* -0.0 is no whole number here, nor is a NaN */
    if (whole != value || (whole == 0 && bits != 0))
        return is_single(bits) ? 5 : 9;
    if (whole == 0 || whole == 1)
        return 1;
    return whole >= -128 && whole <= 127 ? 2 : 3;
}

static uint64_t bits_of(double value)
{
    uint64_t bits;

    memcpy(&bits, &value, sizeof bits);
    return bits;
}

/* The bits of a 5f. Those of a NaN are not asked for: it takes five bytes, as an infinity does. */
static uint64_t bits_of_four(const uint8_t *p, bool thousandths)
{
    int64_t n = signed_at(p, 4);
    uint32_t word = (uint32_t)n;
    float value;

    if (thousandths)
        return bits_of((double)n * 0.001);
    memcpy(&value, &word, sizeof value);
    return bits_of(value == value ? value : 1e30f);
}

static void measure_double(struct walk *w)
{
    const uint8_t *p = w->at + 1;
    unsigned size = 0;
    uint64_t bits = 0;

    switch (*w->at) {
    case 0x5b:
        break;
    case 0x5c:
        bits = bits_of(1);
        break;
    case 0x5d:
    case 0x5e:
        size = *w->at - 0x5cu;
        bits = bits_of((double)signed_at(p, size));
        break;
    case 0x5f:
        size = 4;
        bits = bits_of_four(p, w->thousandths);
        break;
    default:
        size = 8;
        bits = (uint64_t)signed_at(p, size);
    }
    w->at += 1 + size;
    w->length += double_length(bits);
}

static void measure_date(struct walk *w)
{
    bool minutes = *w->at == 0x4b;
    int64_t n = signed_at(w->at + 1, minutes ? 4 : 8);

    w->at += minutes ? 5 : 9;
    w->length += date_length(minutes ? n * 60000 : n);
}

/* ---- texts and byte strings */

/* Of a text or of a byte string: the codes of chunks, and how many have their length in the code. */
struct heads {
    uint8_t tiny, few, brief, part;
};

static const struct heads text_heads = {0x00, 32, 0x30, 0x52}, bytes_heads = {0x20, 16, 0x34, 0x41};

/* Takes the head of a chunk: its length, and whether another one follows. */
static size_t take_head(struct walk *w, const struct heads *h, bool *more)
{
    unsigned code = *w->at++;
    size_t length;

    *more = code == h->part;
    if (*more || code == h->part + 1u) {
        length = w->at[0] * 256u + w->at[1];
        w->at += 2;
        return length;
    }
    if (code >= h->brief && code < h->brief + 4u)
        return (code - h->brief) * 256u + *w->at++;
    return code - h->tiny;
}

static unsigned last_head_length(const struct heads *h, size_t length)
{
    return length < h->few ? 1 : length < 1024 ? 2 : 3;
}

/* Takes the characters of a chunk. `filled` units are in the chunk that would be written, as long as may be. */
static void measure_characters(struct walk *w, size_t units, size_t *filled)
{
    while (units > 0) {
        bool half = w->at[0] == 0xed && w->at[1] >= 0xa0, beyond = half || w->at[0] >= 0xf0;
        size_t size = half ? 6 : w->at[0] < 0x80 ? 1 : w->at[0] < 0xe0 ? 2 : w->at[0] < 0xf0 ? 3 : 4;
        unsigned more = beyond ? 2 : 1;

        if (*filled + more > LONGEST_CHUNK) {
            w->length += 3;
            *filled = 0;
        }
        *filled += more;
        w->length += half ? 4 : size;
        w->at += size;
        units -= more;
    }
}

static void measure_text(struct walk *w)
{
    size_t filled = 0;
    bool more;

    do
        measure_characters(w, take_head(w, &text_heads, &more), &filled);
    while (more);
    w->length += last_head_length(&text_heads, filled);
}

static void measure_bytes(struct walk *w)
{
    size_t all = 0, length, parts;
    bool more;

    do {
        length = take_head(w, &bytes_heads, &more);
        w->at += length;
        all += length;
    } while (more);
    parts = all == 0 ? 0 : (all - 1) / LONGEST_CHUNK;
    w->length += 3 * parts + all + last_head_length(&bytes_heads, all - parts * LONGEST_CHUNK);
}

/* ---- types, classes, lists, maps, objects */

static bool is_text(unsigned code)
{
    return code < 0x20 || (code >= 0x30 && code < 0x34) || code == 0x52 || code == 0x53;
}

static void measure_type(struct walk *w)
{
    if (is_text(*w->at))
        measure_text(w);
    else
        measure_int(w);
}

static void measure_class(struct walk *w)
{
    int64_t fields, i;

    w->at++;
    w->length++;
    measure_text(w);
    fields = measure_int(w);
    for (i = 0; i < fields; i++)
        measure_text(w);
    w->fields[w->classes++] = (unsigned)fields;
}

static void measure_value(struct walk *w);

static void measure_values(struct walk *w, int64_t count)
{
    for (; count > 0; count--)
        measure_value(w);
}

/* Elements of one or two values, up to 5a: how many. */
static int64_t measure_until_end(struct walk *w, unsigned width)
{
    int64_t count;

    for (count = 0; *w->at != 0x5a; count++)
        measure_values(w, width);
    w->at++;
    return count;
}

/* A list up to 7 elements has one byte of its own, a longer one two: a count of one byte, or 5a. */
static void measure_list(struct walk *w, unsigned code)
{
    int64_t count = code & 7; /* of 70..77 and 78..7f */

    if (code == 0x55 || code == 0x56 || (code >= 0x70 && code <= 0x77))
        measure_type(w);
    if (code == 0x55 || code == 0x57) {
        count = measure_until_end(w, 1);
    } else {
        if (code == 0x56 || code == 0x58)
            count = take_int(w);
        measure_values(w, count);
    }
    w->length += count < FEW ? 1 : 2;
}

static void measure_object(struct walk *w, unsigned code)
{
    int64_t number = code == 0x4f ? take_int(w) : code - 0x60;

    w->length += number < SHORT_CLASSES ? 1 : 1 + number_length(number, ints);
    measure_values(w, w->fields[number]);
}

static void measure_map(struct walk *w, unsigned code)
{
    if (code == 0x4d)
        measure_type(w);
    measure_until_end(w, 2);
    w->length += 2;
}

/* ---- values */

/* A list, a map, an object or a reference. */
static void measure_holder(struct walk *w)
{
    unsigned code = *w->at++;

    if (code == 0x51) {
        w->length++;
        measure_int(w);
    } else if (code == 0x48 || code == 0x4d) {
        measure_map(w, code);
    } else if (code == 0x4f || (code >= 0x60 && code <= 0x6f)) {
        measure_object(w, code);
    } else {
        measure_list(w, code);
    }
}

static bool is_int(unsigned code)
{
    return (code >= 0x80 && code <= 0xd7) || code == 0x49;
}

static bool is_long(unsigned code)
{
    return code >= 0xd8 || (code >= 0x38 && code <= 0x3f) || code == 0x59 || code == 0x4c;
}

static void measure_value(struct walk *w)
{
    unsigned code;

    while (*w->at == 0x43)
        measure_class(w);
    code = *w->at;
    if (code == 0x4e || code == 0x46 || code == 0x54) {
        w->at++;
        w->length++;
    } else if (is_int(code)) {
        measure_int(w);
    } else if (is_long(code)) {
        w->length += number_length(take_number(w, longs), longs);
    } else if (code == 0x44 || (code >= 0x5b && code <= 0x5f)) {
        measure_double(w);
    } else if (code == 0x4a || code == 0x4b) {
        measure_date(w);
    } else if (is_text(code)) {
        measure_text(w);
    } else if ((code >= 0x20 && code <= 0x37) || code == 0x41 || code == 0x42) {
        measure_bytes(w);
    } else {
        measure_holder(w);
    }
}

/* ---- messages */

/* The reader's rules accept the same messages. Into no table it answers how many rows are needed. */
static uint64_t length_of(const uint8_t *message, size_t message_len, bool thousandths)
{
    struct walk w = {message, thousandths, 0, 0, {0}};

    if (baseline_read(message, message_len, NULL, 0) >> 48 != TOO_LITTLE_ROOM)
        return 0;
    measure_value(&w);
    return w.length;
}

uint64_t baseline_shortest_length(const uint8_t *message, size_t message_len)
{
    return length_of(message, message_len, false);
}

uint64_t baseline_shortest_length_thousandths(const uint8_t *message, size_t message_len)
{
    return length_of(message, message_len, true);
}
