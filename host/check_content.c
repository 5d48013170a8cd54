/*
 * Checks hessian_content from C, null pointers in all calls, and the functions in hessian.h.
 *
 *     check_content CASES [COUNT [SEED]]
 *
 * CASES is stdin of record_vectors; crates/record_vectors/vectors.py says what its lines mean. Of each message, and of
 * COUNT random ones, valid and damaged, from SEED, all rows are tried and all places (of a long one, some) with several
 * kinds. Before them come examples with their contents, every first byte, every character of two units as a pair of
 * halves, characters of which one byte is another, and strings of any bytes. In each case hessian_content and
 * baseline_content get the same source and the same output between guard bytes, at any alignment: of no bytes, one too
 * few, just enough, three more.
 * Checked is that
 *   - both give the same answer and leave the same bytes;
 *   - the examples have the contents that are given;
 *   - each row of an accepted message that has content has as many bytes as it says, and no other row has any;
 *   - the guards, the source, the output past the content and, after a refusal, all of it are unchanged;
 *   - a pointer may be null where its length is 0;
 *   - hessian_row_at and hessian_number_at find the numbers that rows.c finds;
 *   - hessian_refusal_text has a text for each refusal.
 */
#include <inttypes.h>
#include <stdbool.h>
#include <stdio.h>
#include <stdlib.h>
#include <string.h>

#include "baseline.h"
#include "generate.h"
#include "hessian.h"
#include "rows.h"
#include "support.h"

enum {
    ALL_PLACES = 300, /* bytes of a source of which all places are tried */
    SOME_PLACES = 60, /* places of a longer one, and rows of it that have no content */
    PIECES = 100000,  /* strings of any bytes */
    MOST_SHOWN = 10
};

const char *const check_name = "check_content";

static unsigned long cases, differences;

/* ---- a case */

/* What a row names: where it lies, and the row's kind and place. */
struct named {
    const uint8_t *source;
    size_t len;
    uint64_t kind, place;
};

/* Byte i of an output before a call. */
static uint8_t output_byte(size_t i)
{
    return (uint8_t)(0x5c + i * 11);
}

static void show_difference(const char *what, const struct named *n, size_t output_len)
{
    size_t i = n->place < n->len ? (size_t)n->place : n->len, end = n->len - i < 200 ? n->len : i + 200;

    if (differences++ >= MOST_SHOWN)
        return;
    printf("%s\n    output of %zu bytes, kind %" PRIu64 ", place %" PRIu64 " of %zu:", what, output_len, n->kind,
           n->place, n->len);
    for (; i < end; i++)
        printf(" %02x", n->source[i]);
    puts(end < n->len ? " .." : "");
}

static struct baseline_answer plain_content(const struct named *n, uint8_t *output, size_t output_len)
{
    return baseline_content(n->source, n->len, n->kind, n->place, output, output_len);
}

/* Whether both answer the same. */
static bool compare_answers(const struct named *n, size_t output_len, hessian_answer a, struct baseline_answer b)
{
    char what[200];

    if (a.number == b.number && a.count == b.count && a.place == b.place)
        return true;
    snprintf(what, sizeof what,
             "library %" PRIu64 " %" PRIu64 " %" PRIu64 ", baseline %" PRIu64 " %" PRIu64 " %" PRIu64, a.number,
             a.count, a.place, b.number, b.count, b.place);
    show_difference(what, n, output_len);
    return false;
}

/* Copies with both, into an output of so many bytes. What the library copies goes to `content`, unless that is NULL. */
static hessian_answer try_output(const struct named *n, size_t output_len, uint8_t *content)
{
    struct lent one = new_lent(output_len, cases % 8, output_byte), two = new_lent(output_len, cases % 8, output_byte);
    hessian_answer answer = hessian_content(n->source, n->len, n->kind, n->place, lent_bytes(&one), output_len);
    struct baseline_answer other = plain_content(n, lent_bytes(&two), output_len);

    if (compare_answers(n, output_len, answer, other) && !alike(&one, &two))
        show_difference("library and baseline leave different bytes", n, output_len);
    if (!kept(&one, other.number == HESSIAN_ACCEPTED ? (size_t)other.count : 0))
        show_difference("the library changes bytes that must stay", n, output_len);
    if (content != NULL && other.number == HESSIAN_ACCEPTED)
        memcpy(content, lent_bytes(&one), (size_t)other.count);
    cases++;
    free(one.block);
    free(two.block);
    return answer;
}

/* Copies into no bytes, one too few, three more than enough, and just enough: the answer then, and the content. */
static hessian_answer try_content(const struct named *n, uint8_t *content)
{
    size_t needed = (size_t)plain_content(n, NULL, 0).count;

    try_output(n, 0, NULL);
    if (needed > 0)
        try_output(n, needed - 1, NULL);
    try_output(n, needed + 3, NULL);
    return try_output(n, needed, content);
}

/* ---- sources */

/* A block that ends with its bytes, so that a memory checker sees any read past them. */
struct source {
    uint8_t *block, *bytes;
    const uint8_t *original;
    size_t len;
};

static struct source new_source(const uint8_t *original, size_t len)
{
    size_t shift = cases % 3;
    struct source s = {allocate(len + shift), NULL, original, len};

    s.bytes = s.block + shift;
    memcpy(s.bytes, original, len);
    return s;
}

static struct named named_in(const struct source *s, uint64_t kind, uint64_t place)
{
    struct named n = {s->bytes, s->len, kind, place};

    return n;
}

static void end_source(struct source *s)
{
    struct named n = named_in(s, 0, 0);

    if (memcmp(s->bytes, s->original, s->len) != 0)
        show_difference("the source is changed", &n, 0);
    free(s->block);
}

static void try_place(const struct source *s, uint64_t kind, uint64_t place)
{
    struct named n = named_in(s, kind, place);

    try_content(&n, NULL);
}

/* A kind of rows that have no content, or no kind of rows. */
static uint64_t other_kind(void)
{
    static const uint64_t kinds[] = {0,  1,  2,  3,  4,  5,  6,   9,          10,        11,
                                     12, 13, 14, 15, 19, 20, 263, UINT32_MAX, UINT64_MAX};

    return kinds[chance(sizeof kinds / sizeof kinds[0])];
}

static void try_kinds(const struct source *s, uint64_t place)
{
    try_place(s, HESSIAN_TEXT, place);
    try_place(s, HESSIAN_BYTES, place);
    try_place(s, HESSIAN_CLASS_NAME + chance(3), place);
    try_place(s, other_kind(), place);
}

/* Places at the end and beyond it, and all others, or some. */
static void check_places(const struct source *s)
{
    static const uint64_t beyond[] = {0, 1, 2, UINT32_MAX, INT64_MAX, UINT64_MAX};
    size_t i;

    for (i = 0; i < sizeof beyond / sizeof beyond[0]; i++)
        try_kinds(s, s->len + beyond[i] >= s->len ? s->len + beyond[i] : UINT64_MAX);
    for (i = 0; i < s->len && s->len <= ALL_PLACES; i++)
        try_kinds(s, i);
    for (i = 0; i < SOME_PLACES && s->len > ALL_PLACES; i++)
        try_kinds(s, chance((unsigned)s->len));
}

/* ---- messages */

static bool has_content(uint64_t kind)
{
    return kind == HESSIAN_TEXT || kind == HESSIAN_BYTES || (kind >= HESSIAN_CLASS_NAME && kind <= HESSIAN_TYPE_NAME);
}

static bool same_row(hessian_row row, const uint8_t *table, size_t i)
{
    return row.kind == get_number(table, i, KIND) && row.place == get_number(table, i, PLACE) &&
           row.first == get_number(table, i, FIRST) && row.second == get_number(table, i, SECOND) &&
           row.after == get_number(table, i, AFTER);
}

static void check_row(const struct source *s, hessian_row row)
{
    struct named n = named_in(s, row.kind, row.place);
    uint64_t size = row.kind == HESSIAN_BYTES ? row.first : row.second;
    hessian_answer answer = try_content(&n, NULL);

    if (!has_content(row.kind) && answer.number != HESSIAN_NO_RECORD)
        show_difference("a row has content that names none", &n, 0);
    if (has_content(row.kind) && (answer.number != HESSIAN_ACCEPTED || answer.count != size))
        show_difference("a row says another size than its content has", &n, (size_t)size);
}

/* All rows of a message that is accepted; of those without content, the first ones. */
static void check_rows(const struct source *s)
{
    static uint8_t table[(size_t)MOST_BYTES * ROW_SIZE];
    uint64_t answer = hessian_read(s->bytes, s->len, table, sizeof table);
    struct named n = named_in(s, 0, 0);
    size_t i;

    if (number_of(answer) != HESSIAN_ACCEPTED)
        return;
    for (i = 0; i < count_of(answer); i++) {
        hessian_row row = hessian_row_at(table, i);

        if (!same_row(row, table, i))
            show_difference("hessian_row_at finds other numbers", &n, 0);
        if (has_content(row.kind) || i < SOME_PLACES)
            check_row(s, row);
    }
}

static void check_message(const uint8_t *message, size_t len)
{
    struct source s = new_source(message, len);

    check_rows(&s);
    check_places(&s);
    end_source(&s);
}

static void check_random(unsigned long count)
{
    struct maker m;

    m.out = allocate(MOST_MESSAGE);
    for (; count > 0; count--) {
        unsigned times = chance(2) ? chance(4) : 0;

        start_message(&m, 1 + chance(40));
        put_random(&m);
        for (; times > 0; times--)
            damage(&m);
        check_message(m.out, m.len);
    }
    free(m.out);
}

/* ---- examples */

/* A source, as `groups` has it, and the content of what opens at its start; NULL if it is refused. */
struct example {
    uint64_t kind;
    const char *source, *content;
};

static const struct example examples[] = {
    {HESSIAN_TEXT, " 00", ""},
    {HESSIAN_TEXT, " 0161", " 61"},
    {HESSIAN_TEXT, " 0161 62", " 61"},
    {HESSIAN_CLASS_NAME, " 03 436172", " 436172"},
    {HESSIAN_FIELD_NAME, " 03 436172", " 436172"},
    {HESSIAN_TYPE_NAME, " 03 436172", " 436172"},
    {HESSIAN_TEXT, " 520007 68656c6c6f2c20 05 776f726c64", " 68656c6c6f2c20776f726c64"},
    {HESSIAN_TEXT, " 1f 61*31", " 61*31"},
    {HESSIAN_TEXT, " 33ff 61*1023", " 61*1023"},
    {HESSIAN_TEXT, " 530020 61*32", " 61*32"},
    {HESSIAN_TEXT, " 520000*1000 520001 61 520000*1000 530000", " 61"},
    {HESSIAN_TEXT, " 02 00 7f", " 00 7f"},
    {HESSIAN_TEXT, " 01 c383", " c383"},
    {HESSIAN_TEXT, " 02 f09f9880", " f09f9880"},
    {HESSIAN_TEXT, " 02 eda0bdedb880", " f09f9880"},
    {HESSIAN_TEXT, " 02 eda080edb080", " f0908080"},
    {HESSIAN_TEXT, " 02 edafbfedbfbf", " f48fbfbf"},
    {HESSIAN_TEXT, " 520003 61 eda0bdedb880 03 eda0bdedb881 62", " 61 f09f9880 f09f9881 62"},
    {HESSIAN_TEXT, " 52ffff 61*65535 52ffff 62*65535 53ffff 63*65535", " 61*65535 62*65535 63*65535"},
    {HESSIAN_TEXT, " 52ffff c3a9*65535 53ffff e282ac*30000 61*35535", " c3a9*65535 e282ac*30000 61*35535"},
    {HESSIAN_TEXT, " 52fffe eda0bdedb880*32767 534e20 eda0bdedb881*10000", " f09f9880*32767 f09f9881*10000"},
    {HESSIAN_TEXT, " 52ffff 61*65533 eda0bdedb880 52ffff f09f9880*32767 62 01 63",
     " 61*65533 f09f9880 f09f9880*32767 62 63"},
    {HESSIAN_BYTES, " 20", ""},
    {HESSIAN_BYTES, " 23 010203 04", " 010203"},
    {HESSIAN_BYTES, " 2f ff*15", " ff*15"},
    {HESSIAN_BYTES, " 37ff 80*1023", " 80*1023"},
    {HESSIAN_BYTES, " 41000107 410000 2108", " 0708"},
    {HESSIAN_BYTES, " 420010 07*16", " 07*16"},
    {HESSIAN_BYTES, " 26 eda0bdedb880", " eda0bdedb880"},
    {HESSIAN_BYTES, " 41ffff 61*65535 41ffff 62*65535 42ffff 63*65535 64", " 61*65535 62*65535 63*65535"},
    /* a text is no byte string, and no value with other rows is either */
    {HESSIAN_TEXT, " 20", NULL},
    {HESSIAN_BYTES, " 00", NULL},
    {HESSIAN_TYPE_NUMBER, " 00", NULL},
    {HESSIAN_CLASS, " 00", NULL},
    {UINT64_MAX, " 00", NULL},
    {HESSIAN_TEXT, " 90", NULL},
    {HESSIAN_BYTES, " 90", NULL},
    /* cut */
    {HESSIAN_TEXT, " 01", NULL},
    {HESSIAN_TEXT, " 30", NULL},
    {HESSIAN_TEXT, " 5200", NULL},
    {HESSIAN_TEXT, " 520000", NULL},
    {HESSIAN_TEXT, " 520001 61", NULL},
    {HESSIAN_TEXT, " 01 c3", NULL},
    {HESSIAN_TEXT, " 02 eda0bdedb8", NULL},
    {HESSIAN_TEXT, " 52ffff 61*65535 53ffff 62*65534", NULL},
    {HESSIAN_BYTES, " 21", NULL},
    {HESSIAN_BYTES, " 34", NULL},
    {HESSIAN_BYTES, " 410000", NULL},
    {HESSIAN_BYTES, " 41ffff 61*65535 42ffff 62*65534", NULL},
    /* another chunk follows, or none; ill-formed; half a pair; one unit left */
    {HESSIAN_TEXT, " 520001 61 21 62", NULL},
    {HESSIAN_BYTES, " 410001 61 01 62", NULL},
    {HESSIAN_BYTES, " 410000 4e", NULL},
    {HESSIAN_TEXT, " 01 80", NULL},
    {HESSIAN_TEXT, " 01 c080", NULL},
    {HESSIAN_TEXT, " 01 e08080", NULL},
    {HESSIAN_TEXT, " 01 eda080", NULL},
    {HESSIAN_TEXT, " 01 edb080", NULL},
    {HESSIAN_TEXT, " 02 f08fbfbf", NULL},
    {HESSIAN_TEXT, " 02 f4908080", NULL},
    {HESSIAN_TEXT, " 02 eda08041", NULL},
    {HESSIAN_TEXT, " 02 eda080eda080", NULL},
    {HESSIAN_TEXT, " 02 edb080eda080", NULL},
    {HESSIAN_TEXT, " 01 f09f9880", NULL},
    {HESSIAN_TEXT, " 01 eda0bdedb880", NULL},
    {HESSIAN_TEXT, " 520001 eda080 01 edb080", NULL},
    {HESSIAN_TEXT, " 520001 f09f9880 01 61", NULL},
    {HESSIAN_TEXT, " 52ffff 61*65534 f09f9880 00", NULL},
    {HESSIAN_TEXT, " 52ffff 61*65534 eda0bdedb880 00", NULL},
};

static size_t parse(const char *text, uint8_t *bytes)
{
    size_t len;

    if (!groups(&text, bytes, &len) || *text != '\0')
        give_up("no bytes:", text);
    return len;
}

/* Whether the content at the start of a source is this one; NULL if it is to be refused. */
static void expect_content(const struct source *s, uint64_t kind, const uint8_t *expected, size_t size)
{
    static uint8_t content[MOST_MESSAGE];
    struct named n = named_in(s, kind, 0);
    hessian_answer answer = try_content(&n, content);

    if (expected == NULL && answer.number != HESSIAN_NO_RECORD)
        show_difference("what is no string is accepted", &n, size);
    if (expected != NULL &&
        (answer.number != HESSIAN_ACCEPTED || answer.count != size || memcmp(content, expected, size) != 0))
        show_difference("another content is expected", &n, size);
}

static void check_examples(void)
{
    static uint8_t source[MOST_MESSAGE], content[MOST_MESSAGE];
    size_t i;

    for (i = 0; i < sizeof examples / sizeof examples[0]; i++) {
        const struct example *e = &examples[i];
        struct source s = new_source(source, parse(e->source, source));
        size_t size = e->content != NULL ? parse(e->content, content) : 0;

        expect_content(&s, e->kind, e->content != NULL ? content : NULL, size);
        check_places(&s);
        end_source(&s);
    }
}

/* Every first byte, and enough behind it: bytes that are characters, and heads of texts or of byte strings. */
static void check_codes(void)
{
    static const uint8_t behind[] = {0x01, 0x21};
    static uint8_t bytes[80000];
    unsigned code, which;

    for (which = 0; which < sizeof behind; which++) {
        memset(bytes, behind[which], sizeof bytes);
        for (code = 0; code < 256; code++) {
            struct source s;

            bytes[0] = (uint8_t)code;
            s = new_source(bytes, sizeof bytes);
            try_kinds(&s, 0);
            end_source(&s);
        }
    }
}

/* ---- characters */

/* So many characters of two units from c on, as pairs of halves, and what they are in UTF-8. */
static void check_pairs(uint32_t c, uint32_t count)
{
    static uint8_t source[MOST_MESSAGE], content[MOST_MESSAGE];
    struct maker halves = {source, 0, 0, 0, 0, 0, {0}}, fours = {content, 0, 0, 0, 0, 0, {0}};
    struct source s;

    put(&halves, 0x53);
    put_number(&halves, 2 * count, 2);
    for (; count > 0; count--, c++) {
        put_pair(&halves, c);
        put_number(&fours, 0xf0808080 + (c / 262144 << 24) + (c / 4096 % 64 << 16) + (c / 64 % 64 << 8) + c % 64, 4);
    }
    s = new_source(source, halves.len);
    expect_content(&s, HESSIAN_TEXT, content, fours.len);
    end_source(&s);
}

static void check_all_pairs(void)
{
    enum { FIRST_PAIR = 0x10000, LAST_PAIR = 0x10ffff, AT_ONCE = 32767 };
    uint32_t c;

    for (c = FIRST_PAIR; c <= LAST_PAIR; c += AT_ONCE)
        check_pairs(c, LAST_PAIR - c < AT_ONCE ? LAST_PAIR - c + 1 : AT_ONCE);
}

/* A character as a text of so many units, in one chunk or with an empty one behind it; two bytes more follow. */
static void try_character(const uint8_t *character, size_t size, unsigned units, bool parted)
{
    uint8_t bytes[16];
    struct maker m = {bytes, 0, 0, 0, 0, 0, {0}};
    struct source s;
    size_t i;

    put_number(&m, parted ? 0x520000 + units : units, parted ? 3 : 1);
    for (i = 0; i < size; i++)
        put(&m, character[i]);
    put_number(&m, parted ? 0x0061 : 0x6161, 2);
    s = new_source(bytes, m.len);
    try_place(&s, HESSIAN_TEXT, 0);
    end_source(&s);
}

/* A character with any value of one of its bytes. */
static void alter_byte(const uint8_t *character, size_t size, size_t which)
{
    uint8_t altered[8];
    unsigned value, units;

    memcpy(altered, character, size);
    for (value = 0; value < 256; value++) {
        altered[which] = (uint8_t)value;
        for (units = 1; units <= 4; units++)
            try_character(altered, size, units, value % 2 != 0);
    }
}

static void check_characters(void)
{
    static const char *const characters[] = {
        " 00",       " 7f",       " c280",     " dfbf",     " e0a080",   " e0bfbf",   " e18080",       " ecbfbf",
        " ed8080",   " ed9fbf",   " ee8080",   " efbfbf",   " f0908080", " f0bfbfbf", " f1808080",     " f3bfbfbf",
        " f4808080", " f48fbfbf", " eda080edb080", " edafbfedbfbf", " eda0bdedb880",
    };
    uint8_t *character = allocate(MOST_MESSAGE);
    size_t i, which, size;

    for (i = 0; i < sizeof characters / sizeof characters[0]; i++) {
        size = parse(characters[i], character);
        for (which = 0; which < size; which++)
            alter_byte(character, size, which);
    }
    free(character);
}

/* Strings of bytes that stand in heads and at the edges of characters, and of pieces of pairs. */
static void check_pieces(void)
{
    static const uint8_t edges[] = {0x00, 0x01, 0x02, 0x03, 0x04, 0x1f, 0x20, 0x21, 0x22, 0x2f, 0x30, 0x33, 0x34, 0x37,
                                    0x41, 0x42, 0x52, 0x53, 0x61, 0x7f, 0x80, 0x8f, 0x90, 0x9f, 0xa0, 0xaf, 0xb0, 0xbf,
                                    0xc0, 0xc1, 0xc2, 0xdf, 0xe0, 0xe1, 0xed, 0xed, 0xed, 0xee, 0xf0, 0xf1, 0xf4, 0xf5};
    uint8_t bytes[80];
    unsigned i, count;

    for (i = 0; i < PIECES; i++) {
        struct maker m = {bytes, 0, 0, 0, 0, 0, {0}};
        struct source s;

        for (count = 1 + chance(12); count > 0; count--) {
            if (chance(6) == 0)
                put_pair(&m, 0x10000 + chance(0x100000));
            else
                put(&m, chance(8) ? edges[chance(sizeof edges)] : chance(256));
        }
        s = new_source(bytes, m.len);
        try_place(&s, HESSIAN_TEXT, chance((unsigned)m.len));
        try_place(&s, HESSIAN_BYTES, chance((unsigned)m.len));
        end_source(&s);
    }
}

/* ---- null pointers */

static void expect(const char *what, bool holds)
{
    struct named nothing = {NULL, 0, 0, 0};

    cases++;
    if (!holds)
        show_difference(what, &nothing, 0);
}

static bool packed(uint64_t answer, unsigned number, size_t count)
{
    return number_of(answer) == number && count_of(answer) == count && place_of(answer) == 0;
}

static bool told(hessian_answer answer, uint64_t number, uint64_t count)
{
    return answer.number == number && answer.count == count && answer.place == 0;
}

static void check_null_codec(void)
{
    static const uint8_t message[] = {0x90}, row[ROW_SIZE] = {0, 0, 0, 0, 0, 0, 0, HESSIAN_INT, [ROW_SIZE - 1] = 1};
    struct lent table = new_lent(ROW_SIZE, 0, output_byte), output = new_lent(4, 0, output_byte);

    expect("read nothing to nowhere", packed(hessian_read(NULL, 0, NULL, 0), HESSIAN_LENGTH, 0));
    expect("read nothing", packed(hessian_read(NULL, 0, lent_bytes(&table), ROW_SIZE), HESSIAN_LENGTH, 0));
    expect("the table is changed", kept(&table, 0));
    expect("read to nowhere", packed(hessian_read(message, 1, NULL, 0), HESSIAN_ROOM, 1));
    expect("write nothing to nowhere", packed(hessian_write(NULL, 0, NULL, 0, 0, NULL, 0), HESSIAN_NO_RECORD, 0));
    expect("write a row of none", packed(hessian_write(NULL, 0, NULL, 0, 1, NULL, 0), HESSIAN_NO_RECORD, 0));
    expect("write no rows",
           packed(hessian_write(message, 1, NULL, 0, 0, lent_bytes(&output), 4), HESSIAN_NO_RECORD, 0));
    expect("the output is changed", kept(&output, 0));
    expect("write to nowhere", packed(hessian_write(NULL, 0, row, ROW_SIZE, 1, NULL, 0), HESSIAN_ROOM, 1));
    expect("write without a source",
           packed(hessian_write(NULL, 0, row, ROW_SIZE, 1, lent_bytes(&output), 4), HESSIAN_ACCEPTED, 1));
    expect("other bytes are written", kept(&output, 1) && lent_bytes(&output)[0] == message[0]);
    free(table.block);
    free(output.block);
}

/* Content of nothing, with any kind and place. */
static void check_null_source(uint64_t kind, uint64_t place)
{
    struct lent output = new_lent(4, 0, output_byte);

    expect("content of nothing to nowhere", told(hessian_content(NULL, 0, kind, place, NULL, 0), HESSIAN_NO_RECORD, 0));
    expect("content of nothing",
           told(hessian_content(NULL, 0, kind, place, lent_bytes(&output), output.len), HESSIAN_NO_RECORD, 0));
    expect("the output is changed", kept(&output, 0));
    free(output.block);
}

static void check_null_content(void)
{
    static const uint8_t text[] = {0x01, 0x61}, bytes[] = {0x21, 0x61}, empty[] = {0x00, 0x20};
    uint64_t kind;

    for (kind = 0; kind <= HESSIAN_TYPE_NUMBER + 1; kind++) {
        check_null_source(kind, 0);
        check_null_source(kind, UINT64_MAX);
    }
    check_null_source(UINT64_MAX, UINT64_MAX);
    expect("a text to nowhere", told(hessian_content(text, 2, HESSIAN_TEXT, 0, NULL, 0), HESSIAN_ROOM, 1));
    expect("bytes to nowhere", told(hessian_content(bytes, 2, HESSIAN_BYTES, 0, NULL, 0), HESSIAN_ROOM, 1));
    expect("an empty text", told(hessian_content(empty, 2, HESSIAN_TEXT, 0, NULL, 0), HESSIAN_ACCEPTED, 0));
    expect("no bytes", told(hessian_content(empty, 2, HESSIAN_BYTES, 1, NULL, 0), HESSIAN_ACCEPTED, 0));
}

/* ---- the functions in hessian.h */

static void check_numbers(void)
{
    enum { ROWS = 50, TIMES = 200 };
    uint8_t block[ROWS * ROW_SIZE + 8];
    unsigned times, i;

    for (times = 0; times < TIMES; times++) {
        const uint8_t *table = block + times % 8;

        for (i = 0; i < sizeof block; i++)
            block[i] = (uint8_t)chance(256);
        for (i = 0; i < ROWS; i++) {
            expect("hessian_row_at", same_row(hessian_row_at(table, i), table, i));
            expect("hessian_number_at", hessian_number_at(table + i * ROW_SIZE) == get_number(table, i, KIND));
        }
    }
}

/* A text for each refusal, no two the same, and one for all other numbers. */
static void check_refusals(void)
{
    enum { NUMBERS = HESSIAN_NO_RECORD + 2 };
    const char *texts[NUMBERS];
    unsigned i, j;

    for (i = 0; i < NUMBERS; i++) {
        texts[i] = hessian_refusal_text(i);
        expect("a refusal has no text", texts[i] != NULL && texts[i][0] != '\0');
        for (j = 0; j < i; j++)
            expect("two refusals have one text", strcmp(texts[i], texts[j]) != 0);
    }
    expect("the text of 0", strcmp(texts[HESSIAN_ACCEPTED], "accepted") == 0);
    expect("the text of 11", strcmp(texts[NUMBERS - 1], "no known refusal") == 0);
    expect("the text of any number", strcmp(hessian_refusal_text(UINT64_MAX), "no known refusal") == 0);
    expect("a number is cut", strcmp(hessian_refusal_text(UINT64_C(1) << 32), "no known refusal") == 0);
}

int main(int argc, char **argv)
{
    if (argc < 2 || argc > 4) {
        fputs("usage: check_content CASES [COUNT [SEED]]\n", stderr);
        return 2;
    }
    seed = argc > 3 ? strtoull(argv[3], NULL, 10) : 1;
    check_null_codec();
    check_null_content();
    check_numbers();
    check_refusals();
    check_examples();
    check_codes();
    check_all_pairs();
    check_characters();
    check_pieces();
    each_message(argv[1], check_message);
    check_random(argc > 2 ? strtoul(argv[2], NULL, 10) : 4000);
    printf("check_content: %lu cases, %lu differences\n", cases, differences);
    return differences == 0 ? 0 : 1;
}
