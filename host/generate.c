#include "generate.h"

#include <string.h>

#include "support.h"

uint64_t seed;

unsigned chance(unsigned n)
{
    seed = seed * UINT64_C(6364136223846793005) + UINT64_C(1442695040888963407);
    return (unsigned)(seed >> 33) % n;
}

uint64_t random_bits(void)
{
    return (uint64_t)chance(1u << 31) << 33 | (uint64_t)chance(1u << 31) << 2 | chance(4);
}

/* What does not fit is left out: the message is then one more that is damaged. */
void put(struct maker *m, unsigned byte)
{
    if (m->len < MOST_MESSAGE)
        m->out[m->len++] = (uint8_t)byte;
}

void put_number(struct maker *m, uint64_t number, unsigned size)
{
    while (size-- > 0)
        put(m, (unsigned)(number >> 8 * size) & 0xff);
}

/* The compact forms of a kind of number: the codes for 0 in one, two and three bytes, and the range of the first. */
struct compact {
    int64_t zeros[3];
    int64_t low, high;
};

/* Puts a number in one of the compact forms that hold it, or returns false. */
static bool put_compact(struct maker *m, const struct compact *c, int64_t n)
{
    unsigned form = chance(4);

    if (form == 0 && n >= c->low && n <= c->high)
        put_number(m, (uint64_t)(c->zeros[0] + n), 1);
    else if (form <= 1 && n >= -2048 && n <= 2047)
        put_number(m, (uint64_t)(c->zeros[1] * 256 + n), 2);
    else if (form <= 2 && n >= -262144 && n <= 262143)
        put_number(m, (uint64_t)(c->zeros[2] * 65536 + n), 3);
    else
        return false;
    return true;
}

static void put_int(struct maker *m, int64_t n)
{
    static const struct compact forms = {{0x90, 0xc8, 0xd4}, -16, 47};

    if (!put_compact(m, &forms, n)) {
        put(m, 0x49);
        put_number(m, (uint64_t)n, 4);
    }
}

static void put_long(struct maker *m, int64_t n)
{
    static const struct compact forms = {{0xe0, 0xf8, 0x3c}, -8, 15};

    if (put_compact(m, &forms, n))
        return;
    if (n >= INT32_MIN && n <= INT32_MAX && chance(2)) {
        put(m, 0x59);
        put_number(m, (uint64_t)n, 4);
    } else {
        put(m, 0x4c);
        put_number(m, (uint64_t)n, 8);
    }
}

/* A number of up to `size` bits with its sign, more often a small one. */
static int64_t random_number(unsigned size)
{
    uint64_t bits = random_bits() >> (65 - size);
    int64_t n = (int64_t)(bits >> chance(size - 1));

    return chance(2) ? n : -n - 1;
}

/* The bits of a subnormal float, an infinity or a NaN. */
static uint32_t random_edge(void)
{
    uint32_t sign = (uint32_t)chance(2) << 31, exponent = (uint32_t)chance(2) * 0x7f800000u;
    uint32_t fraction = (uint32_t)chance(1u << 23);

    return sign | exponent | fraction >> chance(24);
}

static void put_double(struct maker *m)
{
    switch (chance(6)) {
    case 0:
        put(m, 0x5b + chance(2));
        break;
    case 1:
        put(m, 0x5d);
        put(m, chance(256));
        break;
    case 2:
        put(m, 0x5e);
        put_number(m, random_bits(), 2);
        break;
    case 3:
        put(m, 0x5f);
        put_number(m, random_bits(), 4);
        break;
    case 4:
        put(m, 0x5f);
        put_number(m, random_edge(), 4);
        break;
    default:
        put(m, 0x44);
        put_number(m, random_bits(), 8);
    }
}

/* The three bytes of a character, or of half a pair, of 16 bits. */
static void put_three(struct maker *m, uint32_t c)
{
    put(m, 0xe0 | c >> 12);
    put(m, 0x80 | (c >> 6 & 0x3f));
    put(m, 0x80 | (c & 0x3f));
}

void put_pair(struct maker *m, uint32_t c)
{
    put_three(m, 0xd800 + ((c - 0x10000) >> 10));
    put_three(m, 0xdc00 + (c & 0x3ff));
}

/* Puts a random character that is at most `units` units wide: in UTF-8, or as a pair of halves; its units. */
static unsigned put_character(struct maker *m, unsigned units)
{
    static const uint32_t edges[] = {0x0, 0x7f, 0x80, 0x7ff, 0x800, 0xfff, 0x1000, 0xcfff, 0xd000, 0xd7ff, 0xe000,
                                     0xfffd, 0xffff, 0x10000, 0x3ffff, 0x40000, 0xfffff, 0x100000, 0x10ffff};
    uint32_t c = 0x20 + chance(95);

    if (chance(3) == 0)
        c = edges[chance(sizeof edges / sizeof edges[0])];
    if (chance(30) == 0)
        c = 0x10000 + chance(0x100000);
    if (c >= 0x10000 && units < 2)
        c = 0x20ac;
    if (c < 0x80) {
        put(m, c);
    } else if (c < 0x800) {
        put(m, 0xc0 | c >> 6);
        put(m, 0x80 | (c & 0x3f));
    } else if (c < 0x10000) {
        put_three(m, c);
    } else if (chance(2) == 0) {
        put_pair(m, c);
    } else {
        put(m, 0xf0 | c >> 18);
        put(m, 0x80 | (c >> 12 & 0x3f));
        put(m, 0x80 | (c >> 6 & 0x3f));
        put(m, 0x80 | (c & 0x3f));
    }
    return c < 0x10000 ? 1 : 2;
}

/*
 * A text of two halves, which is refused as a rule: they are of one kind, in the wrong order or in two chunks, there is
 * one unit for both, or bytes of them are wrong or missing.
 */
static void put_halves(struct maker *m)
{
    uint32_t high = 0xd800 + chance(0x400), low = 0xdc00 + chance(0x400);
    bool parted = chance(4) == 0;

    put_number(m, parted ? 0x520001 : 1 + chance(3), parted ? 3 : 1);
    put_three(m, chance(6) ? high : low);
    if (parted)
        put(m, 0x01);
    put_three(m, chance(6) ? low : high);
    switch (chance(4)) {
    case 0:
        m->out[m->len - 1 - chance(6)] ^= (uint8_t)(1u << chance(8));
        break;
    case 1:
        m->len -= chance(6);
        break;
    default:
        break;
    }
}

/* A random text or byte string, in chunks. */
static void put_string(struct maker *m, bool text)
{
    bool last;

    if (text && chance(400) == 0) {
        put_halves(m);
        return;
    }
    do {
        unsigned n = chance(8), form = chance(3);

        if (chance(30) == 0)
            n = chance(400);
        if (chance(1000) == 0)
            n = chance(2) ? chance(65536) : 65533 + chance(3);
        /* now and then more than one chunk can hold */
        last = chance(n < 60000 ? 4 : 2) != 0;
        if (!last) {
            put(m, text ? 0x52 : 0x41);
            put_number(m, n, 2);
        } else if (form == 0 && n < (text ? 32 : 16)) {
            put(m, (text ? 0x00 : 0x20) + n);
        } else if (form <= 1 && n < 1024) {
            put(m, (text ? 0x30 : 0x34) + n / 256);
            put(m, n % 256);
        } else {
            put(m, text ? 0x53 : 0x42);
            put_number(m, n, 2);
        }
        while (n > 0) {
            if (text) {
                n -= put_character(m, n);
            } else {
                put(m, chance(256));
                n--;
            }
        }
    } while (!last);
}

static void put_type(struct maker *m)
{
    if (m->types > 0 && chance(2)) {
        put_int(m, chance(m->types));
    } else {
        put_string(m, true);
        m->types++;
    }
}

static void put_class(struct maker *m, unsigned fields)
{
    unsigned i;

    put(m, 0x43);
    put_string(m, true);
    put_int(m, fields);
    for (i = 0; i < fields; i++)
        put_string(m, true);
    if (m->classes < MOST_CLASSES)
        m->fields[m->classes++] = fields;
}

static void put_value(struct maker *m, unsigned allowance);

static void put_container(struct maker *m, unsigned allowance)
{
    unsigned form = chance(m->classes > 0 ? 10 : 8), n = chance(2) ? chance(4) : chance(12), width = 1, number;
    bool open = false;

    if (chance(50) == 0)
        n = 45 + chance(6);
    m->references++;
    switch (form) {
    case 0:
        n %= 8;
        put(m, 0x78 + n);
        break;
    case 1:
        put(m, 0x58);
        put_int(m, n);
        break;
    case 2:
        put(m, 0x57);
        open = true;
        break;
    case 3:
        n %= 8;
        put(m, 0x70 + n);
        put_type(m);
        break;
    case 4:
        put(m, 0x56);
        put_type(m);
        put_int(m, n);
        break;
    case 5:
        put(m, 0x55);
        put_type(m);
        open = true;
        break;
    case 6:
        put(m, 0x48);
        width = 2;
        open = true;
        break;
    case 7:
        put(m, 0x4d);
        put_type(m);
        width = 2;
        open = true;
        break;
    default:
        number = chance(m->classes);
        n = m->fields[number];
        if (number < 16 && chance(2)) {
            put(m, 0x60 + number);
        } else {
            put(m, 0x4f);
            put_int(m, number);
        }
    }
    for (n *= width; n > 0; n--)
        put_value(m, allowance - 1);
    if (open)
        put(m, 0x5a);
}

static void put_value(struct maker *m, unsigned allowance)
{
    unsigned kind = chance(16);

    if (m->values > 0)
        m->values--;
    while (chance(16) == 0)
        put_class(m, chance(5));
    if (kind < 5 && allowance > 0 && (m->values > 0 || chance(20) == 0)) {
        put_container(m, allowance);
    } else if (kind < 7) {
        put_string(m, true);
    } else if (kind == 7) {
        put_string(m, false);
    } else if (kind == 8 && m->references > 0) {
        put(m, 0x51);
        put_int(m, chance(m->references));
    } else if (kind == 9) {
        put_double(m);
    } else if (kind == 10) {
        put_long(m, random_number(64));
    } else if (kind == 11) {
        put(m, 0x4a);
        put_number(m, random_bits(), 8);
    } else if (kind == 12) {
        put(m, 0x4b);
        put_number(m, random_bits(), 4);
    } else if (kind == 13) {
        static const uint8_t codes[] = {0x4e, 0x46, 0x54};

        put(m, codes[chance(3)]);
    } else {
        put_int(m, random_number(32));
    }
}

/* About as many open containers, types, class definitions, fields or bytes as there may be. */
static void put_near_ceiling(struct maker *m)
{
    unsigned kind = chance(40), n = 250 + chance(10), i;

    if (kind < 20) { /* containers of one value each; those up to 5a are closed in turn */
        bool open[40] = {false};

        put_class(m, 1);
        n = 28 + chance(8);
        for (i = 0; i < n; i++) {
            switch (chance(8)) {
            case 0:
                put(m, 0x58);
                put_int(m, 1);
                break;
            case 1:
                put(m, 0x57);
                open[i] = true;
                break;
            case 2:
                put(m, 0x71);
                put_type(m);
                break;
            case 3:
                put(m, 0x48);
                put_int(m, random_number(8));
                open[i] = true;
                break;
            case 4:
                put(m, 0x4d);
                put_type(m);
                put_int(m, random_number(8));
                open[i] = true;
                break;
            case 5:
                put(m, 0x60);
                break;
            case 6:
                put(m, 0x4f);
                put_int(m, 0);
                break;
            default:
                put(m, 0x79);
            }
            m->references++;
        }
        put_value(m, n < MOST_OPEN ? MOST_OPEN - n : chance(3));
        while (i-- > 0)
            if (open[i])
                put(m, 0x5a);
    } else if (kind < 26) {
        put(m, 0x57);
        m->references++;
        for (i = 0; i < n; i++) {
            put(m, 0x70);
            put_string(m, true);
            m->types++;
            m->references++;
        }
        put_value(m, MOST_OPEN - 1);
        put(m, 0x5a);
    } else if (kind < 32) {
        for (i = 0; i < n; i++)
            put_class(m, chance(3));
        put_container(m, MOST_OPEN);
    } else if (kind < 39) {
        put_class(m, n);
        put(m, 0x60);
        m->references++;
        for (i = 0; i < n; i++)
            put_int(m, random_number(16));
    } else { /* the message's length */
        size_t end = MOST_BYTES - 4 + chance(8);

        put(m, 0x57);
        m->references++;
        while (m->len < end - 70000)
            put_value(m, 3);
        while (m->len < end - 1)
            put(m, chance(2) ? 0x90 : 0x78);
        put(m, 0x5a);
    }
}

void damage(struct maker *m)
{
    size_t at = m->len > 0 ? chance((unsigned)m->len) : 0;
    unsigned byte = chance(2) ? chance(256) : chance(0x40) + 0x40;

    /* now and then near the end */
    if (m->len > 8 && chance(4) == 0)
        at = m->len - 1 - chance(8);
    switch (chance(6)) {
    case 0:
        m->len = at;
        break;
    case 1:
        if (m->len < MOST_MESSAGE) {
            memmove(m->out + at + 1, m->out + at, m->len - at);
            m->out[at] = (uint8_t)byte;
            m->len++;
        }
        break;
    case 2:
        if (m->len > 0) {
            memmove(m->out + at, m->out + at + 1, m->len - at - 1);
            m->len--;
        }
        break;
    case 3:
        put(m, byte);
        break;
    default:
        if (m->len > 0)
            m->out[at] = (uint8_t)byte;
    }
}

void start_message(struct maker *m, unsigned values)
{
    m->len = 0;
    m->values = values;
    m->references = m->types = m->classes = 0;
}

void put_random(struct maker *m)
{
    unsigned kind = chance(100), times;

    if (kind < 4) {
        put_near_ceiling(m);
    } else if (kind < 6) { /* any bytes */
        for (times = chance(40); times > 0; times--)
            put(m, chance(256));
    } else if (kind < 20) {
        put_value(m, MOST_OPEN);
    } else {
        put_container(m, MOST_OPEN);
    }
}
