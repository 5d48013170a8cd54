/*
 * Checks hessian_write from C, and hessian_read and hessian_write together.
 *
 *     check_write CASES EXPECTED [COUNT [SEED]]
 *
 * CASES and EXPECTED are stdin and stdout of write_vectors; crates/write_vectors/vectors.py says what their lines mean.
 * After them come wrong fifth numbers and all spellings of small records, and COUNT random messages, from SEED. In
 * each case hessian_write and baseline_write get the same source, table and claim, and the same output between guard
 * bytes, at any alignment.
 * Checked is that
 *   - answer and checksum are those of EXPECTED;
 *   - both writers give the same answer and leave the same bytes, for damaged tables and sources too;
 *   - a table in which one fifth number is wrong, and nothing else, is refused 10;
 *   - the guards, the source, the table, the output past what is written and, after a refusal, all of it are unchanged;
 *   - a message that is accepted is rewritten, no longer than it was, and reads back as the same record;
 *   - rewriting it again changes nothing, and any other spelling of the record is rewritten as the same bytes.
 *
 * Compiled with SELF, baseline_read and baseline_write stand in for the library.
 */
#include <inttypes.h>
#include <stdbool.h>
#include <stdio.h>
#include <stdlib.h>
#include <string.h>

#include "afters.h"
#include "baseline.h"
#include "generate.h"
#include "rows.h"
#include "support.h"

#ifdef SELF
#define hessian_read baseline_read
#define hessian_write baseline_write
#endif

enum {
    MOST_LENT = 270000, /* bytes of output in CASES */
    MOST_ROWS = 2000,   /* rows of a table in CASES */
    MOST_PICKS = 200,   /* in a spelling of a small record */
    MOST_SHOWN = 10
};

const char *const check_name = "check_write";

static unsigned long cases, differences;

/* What is written: the rows claimed of a table, whose texts and bytes lie in a source. */
struct input {
    uint8_t *source; /* MOST_MESSAGE bytes */
    size_t source_len;
    uint8_t *table; /* MOST_BYTES rows */
    size_t table_len;
    uint64_t rows;
};

static struct input new_input(void)
{
    struct input in = {allocate(MOST_MESSAGE), 0, allocate((size_t)MOST_BYTES * ROW_SIZE), 0, 0};

    return in;
}

static void free_input(struct input *in)
{
    free(in->source);
    free(in->table);
}

/* ---- rows */

static uint64_t get(const struct input *in, size_t row, enum column which)
{
    return get_number(in->table, row, which);
}

static void set(struct input *in, size_t row, enum column which, uint64_t n)
{
    set_number(in->table, row, which, n);
}

static bool is_text(uint64_t kind)
{
    return kind == 7 || (kind >= 16 && kind <= 18);
}

static bool is_string(uint64_t kind)
{
    return kind == 8 || is_text(kind);
}

/* ---- a case */

static uint8_t output_byte(size_t i)
{
    return (uint8_t)((i * 7 + 3) % 251);
}

static uint64_t checksum(const uint8_t *output, size_t len)
{
    uint64_t sum = 7;
    size_t i;

    for (i = 0; i < len; i++)
        sum = (sum * 1000003 + output[i]) % 0x7fffffff;
    return sum;
}

static void show_difference(const char *what, const struct input *in, size_t output_len)
{
    size_t i, rows = in->table_len / ROW_SIZE;

    if (differences++ >= MOST_SHOWN)
        return;
    printf("%s\n    output of %zu bytes, %" PRIu64 " rows of %zu bytes claimed, source of %zu bytes:", what, output_len,
           in->rows, in->table_len, in->source_len);
    for (i = 0; i < in->source_len && i < 300; i++)
        printf(" %02x", in->source[i]);
    printf(i < in->source_len ? " ..\n   " : "\n   ");
    for (i = 0; i < rows && i < 40; i++)
        printf(" %" PRIu64 ",%" PRIu64 ",%" PRIu64 ",%" PRIu64 ",%" PRIu64, get(in, i, KIND), get(in, i, PLACE),
               get(in, i, FIRST), get(in, i, SECOND), get(in, i, AFTER));
    printf(i < rows ? " ..\n" : "\n");
}

/* A copy that ends with its block, so that a memory checker sees any read past its end; `shift` bytes stand before it. */
static uint8_t *copy_of(const uint8_t *bytes, size_t len, size_t shift)
{
    uint8_t *block = allocate(len + shift);

    memset(block, 0, shift);
    memcpy(block + shift, bytes, len);
    return block;
}

/*
 * Writes with both writers. `expected` is the line of EXPECTED, or NULL. What the library writes is copied to `result`,
 * unless that is NULL.
 */
static uint64_t try_write(const struct input *in, size_t output_len, const char *expected, uint8_t *result)
{
    size_t shift = cases % 8, source_shift = cases % 3, table_shift = cases % 5;
    struct lent one = new_lent(output_len, shift, output_byte), two = new_lent(output_len, shift, output_byte);
    uint8_t *source_block = copy_of(in->source, in->source_len, source_shift), *source = source_block + source_shift;
    uint8_t *table_block = copy_of(in->table, in->table_len, table_shift), *table = table_block + table_shift;
    uint64_t answer, other;
    char what[300];

    answer = hessian_write(source, in->source_len, table, in->table_len, in->rows, lent_bytes(&one), output_len);
    if (memcmp(source, in->source, in->source_len) != 0 || memcmp(table, in->table, in->table_len) != 0)
        show_difference("the source or the table is changed", in, output_len);
    other = baseline_write(source, in->source_len, table, in->table_len, in->rows, lent_bytes(&two), output_len);
    if (answer != other) {
        snprintf(what, sizeof what, "library %u %zu %zu, baseline %u %zu %zu", number_of(answer), count_of(answer),
                 place_of(answer), number_of(other), count_of(other), place_of(other));
        show_difference(what, in, output_len);
    } else if (!alike(&one, &two)) {
        show_difference("library and baseline leave different bytes", in, output_len);
    }
    if (!kept(&one, number_of(answer) == 0 ? count_of(answer) : 0))
        show_difference("the library changes bytes that must stay", in, output_len);
    if (expected != NULL) {
        char line[120];

        snprintf(line, sizeof line, "%u %zu %zu %" PRIu64 " ok", number_of(answer), count_of(answer), place_of(answer),
                 checksum(lent_bytes(&one), output_len));
        if (strcmp(line, expected) != 0) {
            snprintf(what, sizeof what, "library %s, expected %.100s", line, expected);
            show_difference(what, in, output_len);
        }
    }
    if (result != NULL && number_of(answer) == 0)
        memcpy(result, lent_bytes(&one), count_of(answer));
    cases++;
    free(source_block);
    free(table_block);
    free(one.block);
    free(two.block);
    return answer;
}

/* ---- the cases of write_vectors */

/* The rows of a table, a space before each, up to the end of the line. A fifth number is counted from its own row. */
static bool parse_rows(const char *text, struct input *in)
{
    size_t rows = 0, i;

    while (*text != '\0') {
        uint64_t times = 1, n = 0;
        unsigned which;

        if (rows == MOST_ROWS)
            return false;
        for (which = 0; which < ROW_NUMBERS; which++) {
            if (*text++ != (which == KIND ? ' ' : ',') || !decimal(&text, UINT64_MAX, &n))
                return false;
            set(in, rows, which, n);
        }
        if (*text == '*') {
            text++;
            if (!decimal(&text, MOST_ROWS, &times))
                return false;
        }
        if (times == 0 || times > MOST_ROWS - rows)
            return false;
        for (i = 0; i < times; i++) {
            memmove(in->table + (rows + i) * ROW_SIZE, in->table + rows * ROW_SIZE, ROW_SIZE);
            set(in, rows + i, AFTER, n + rows + i);
        }
        rows += times;
    }
    in->table_len = rows * ROW_SIZE;
    return true;
}

static bool parse_case(const char *line, struct input *in, uint64_t *lent)
{
    if (!decimal(&line, MOST_LENT, lent) || *line++ != ' ' || !decimal(&line, UINT64_MAX, &in->rows) ||
        !groups(&line, in->source, &in->source_len) || *line++ != ' ' || *line++ != ';')
        return false;
    return parse_rows(line, in);
}

static void check_vectors(const char *cases_name, const char *expected_name)
{
    char *cases_text = read_file(cases_name), *expected_text = read_file(expected_name);
    char *cases_rest = cases_text, *expected_rest = expected_text, *line;
    struct input in = new_input();

    while ((line = next_line(&cases_rest)) != NULL) {
        const char *expected = next_line(&expected_rest);
        uint64_t lent, answer;
        size_t spare = cases % ROW_SIZE;

        if (!parse_case(line, &in, &lent) || expected == NULL)
            give_up("no case, or none expected:", line);
        /* bytes past the rows, fewer than make one more */
        memset(in.table + in.table_len, 0, spare);
        in.table_len += spare;
        answer = try_write(&in, (size_t)lent, expected, NULL);
        if (number_of(answer) != 0 && number_of(answer) != 9)
            continue;
        /* just the bytes needed, and a byte less */
        try_write(&in, count_of(answer), NULL, NULL);
        try_write(&in, count_of(answer) - 1, NULL, NULL);
    }
    if (next_line(&expected_rest) != NULL)
        give_up("more is expected than there are cases", "");
    free(cases_text);
    free(expected_text);
    free_input(&in);
}

/* ---- texts and bytes */

/* The bytes of the character that has this first byte. */
static unsigned width_of(uint8_t lead)
{
    return lead < 0x80 ? 1 : lead < 0xe0 ? 2 : lead < 0xf0 ? 3 : 4;
}

static unsigned units_of(uint8_t lead)
{
    return lead < 0xf0 ? 1 : 2;
}

/* The code point of the character at p, of four bytes. */
static uint32_t code_of(const uint8_t *p)
{
    return ((p[0] % 8u * 64 + p[1] % 64) * 64 + p[2] % 64) * 64 + p[3] % 64;
}

/* Puts the four bytes of the character whose halves are at p. */
static void join_halves(const uint8_t *p, uint8_t *four)
{
    uint32_t high = p[1] % 16u * 64 + p[2] % 64, low = p[4] % 16u * 64 + p[5] % 64, code = 0x10000 + high * 1024 + low;

    four[0] = (uint8_t)(0xf0 + code / (64 * 64 * 64));
    four[1] = (uint8_t)(0x80 + code / (64 * 64) % 64);
    four[2] = (uint8_t)(0x80 + code / 64 % 64);
    four[3] = (uint8_t)(0x80 + code % 64);
}

/* Copies the bytes of a chunk, in a text each pair of halves as its character; the size of the content. */
static size_t copy_content(const uint8_t *p, size_t bytes, bool text, uint8_t *content)
{
    size_t size = 0, i = 0;

    while (i < bytes) {
        if (text && p[i] == 0xed && p[i + 1] >= 0xa0) {
            join_halves(p + i, content + size);
            size += 4;
            i += 6;
        } else {
            content[size++] = p[i++];
        }
    }
    return size;
}

/* Joins the chunks of the text or bytes at p; the size of the content. */
static size_t join(const uint8_t *p, bool text, uint8_t *content)
{
    size_t size = 0, units, bytes;
    bool last;

    do {
        unsigned code = *p++;

        last = code != (text ? 0x52 : 0x41);
        if (code < 0x30) {
            units = code % 0x20;
        } else if (code < 0x38) {
            units = code % 4 * 256u + *p++;
        } else {
            units = p[0] * 256u + p[1];
            p += 2;
        }
        /* half of a pair is as wide as a character of one unit with this first byte */
        bytes = text ? 0 : units;
        while (text && units > 0) {
            units -= units_of(p[bytes]);
            bytes += width_of(p[bytes]);
        }
        size += copy_content(p, bytes, text, content + size);
        p += bytes;
    } while (!last);
    return size;
}

/* ---- records */

/* Reads the source into the table: whether it is accepted. */
static bool read_source(struct input *in)
{
    uint64_t answer = hessian_read(in->source, in->source_len, in->table, (size_t)MOST_BYTES * ROW_SIZE);

    if (number_of(answer) != 0)
        return false;
    in->rows = count_of(answer);
    in->table_len = in->rows * ROW_SIZE;
    return true;
}

static bool same_content(const struct input *in, const struct input *other, size_t row)
{
    static uint8_t one[MOST_MESSAGE], two[MOST_MESSAGE];
    bool text = is_text(get(in, row, KIND));
    size_t size = join(in->source + get(in, row, PLACE), text, one);

    return size == join(other->source + get(other, row, PLACE), text, two) && memcmp(one, two, size) == 0;
}

/* Whether two tables hold the same record: all rows but for their places, and contents. */
static bool same_record(const struct input *in, const struct input *other)
{
    size_t i;

    if (in->rows != other->rows)
        return false;
    for (i = 0; i < in->rows; i++) {
        uint64_t kind = get(in, i, KIND);

        if (kind != get(other, i, KIND) || get(in, i, FIRST) != get(other, i, FIRST) ||
            get(in, i, SECOND) != get(other, i, SECOND) || get(in, i, AFTER) != get(other, i, AFTER))
            return false;
        if (is_string(kind) && !same_content(in, other, i))
            return false;
    }
    return true;
}

/* Rewrites the source, which has been read into the table. Its shortest message is then the other source. */
static bool rewrite(const struct input *in, struct input *shortest)
{
    uint64_t answer = try_write(in, in->source_len, NULL, shortest->source);

    if (number_of(answer) != 0) {
        show_difference("a message that is accepted is not rewritten as long as it was", in, in->source_len);
        return false;
    }
    shortest->source_len = count_of(answer);
    return true;
}

/* Whether a source that has been read is written as these bytes. */
static bool written_as(const struct input *in, const struct input *shortest)
{
    static uint8_t bytes[MOST_MESSAGE];
    uint64_t answer = try_write(in, in->source_len, NULL, bytes);

    return number_of(answer) == 0 && count_of(answer) == shortest->source_len &&
           memcmp(bytes, shortest->source, shortest->source_len) == 0;
}

/* A source that has been read, and its shortest message, which is read too. */
static bool check_record(const struct input *in, struct input *shortest)
{
    if (!rewrite(in, shortest))
        return false;
    if (!read_source(shortest) || !same_record(in, shortest)) {
        show_difference("the shortest message does not read back as the record", in, in->source_len);
        return false;
    }
    if (!written_as(shortest, shortest))
        show_difference("rewriting a shortest message changes it", shortest, shortest->source_len);
    return true;
}

/* ---- fifth numbers */

/* Writes with another fifth number in a row: refused 10, unless it is the right one. */
static void try_after(struct input *in, size_t row, unsigned trial)
{
    uint64_t right = get(in, row, AFTER), n = after_trial(in->table, (size_t)in->rows, row, trial);

    set(in, row, AFTER, n);
    if (number_of(try_write(in, in->source_len, NULL, NULL)) != (n == right ? 0 : 10))
        show_difference("a fifth number is judged wrongly", in, in->source_len);
    set(in, row, AFTER, right);
}

/* All trials in each row of records that have rows of all kinds, and holders and classes in each other. */
static void check_afters(void)
{
    static const char *const records[] = {
        " 57 4e4654 91 e1 5c 4b00000001 0161 2101 78 79 90 48 5a 48 0161 79 90 5a 700174 7190 91 4d0174 90 91 5a"
        " 430143 92 0161 0162 60 90 79 91 430090 61 5190 5a",
        " 90",
        " 79 79 79 90",
        " 7b 7990 78 7a 78 7990",
        " 430090 43009100 61 430090 62",
        " 72 00 430090 60 71 90 430090 61",
    };
    bool seen[HESSIAN_TYPE_NUMBER + 1] = {false};
    struct input in = new_input();
    unsigned trial, kind;
    size_t i, row;

    for (i = 0; i < sizeof records / sizeof records[0]; i++) {
        const char *text = records[i];

        if (!groups(&text, in.source, &in.source_len) || !read_source(&in))
            give_up("no record:", records[i]);
        for (row = 0; row < in.rows; row++) {
            seen[get(&in, row, KIND)] = true;
            for (trial = 0; trial < AFTER_TRIALS; trial++)
                try_after(&in, row, trial);
        }
        /* a byte of the last row is missing */
        in.table_len--;
        if (number_of(try_write(&in, in.source_len, NULL, NULL)) != 10)
            show_difference("a row is found in fewer bytes than it has", &in, in.source_len);
    }
    for (kind = HESSIAN_NULL; kind <= HESSIAN_TYPE_NUMBER; kind++)
        if (!seen[kind])
            give_up("no row has one of the kinds", "");
    free_input(&in);
}

/* ---- spellings of a record */

/* One of n, from 0. */
static unsigned (*pick)(unsigned n);

/* The picks of the spelling in turn. */
static unsigned picked[MOST_PICKS], out_of[MOST_PICKS];
static size_t picks, next_pick;

static unsigned pick_in_turn(unsigned n)
{
    if (next_pick == MOST_PICKS)
        give_up("a small record has too many spellings", "");
    if (next_pick == picks) {
        picked[picks] = 0;
        out_of[picks++] = n;
    }
    return picked[next_pick++];
}

static void first_spelling(void)
{
    picks = next_pick = 0;
}

/* Whether there is another spelling. */
static bool next_spelling(void)
{
    while (picks > 0 && picked[picks - 1] + 1 == out_of[picks - 1])
        picks--;
    if (picks == 0)
        return false;
    picked[picks - 1]++;
    next_pick = 0;
    return true;
}

/* A record that is spelled: its rows, and how many of them are spelled. */
struct speller {
    const struct input *in;
    size_t at;
    struct maker *m;
};

/* The forms of a number, of which one is picked. */
struct forms {
    uint64_t number[6];
    unsigned size[6];
    unsigned count;
};

/* A form: the low `size` bytes of a number. */
static void add_form(struct forms *f, uint64_t number, unsigned size)
{
    f->number[f->count] = number;
    f->size[f->count++] = size;
}

/* A code and four bytes. */
static void add_narrow(struct forms *f, unsigned code, uint64_t number)
{
    add_form(f, (uint64_t)code << 32 | (number & 0xffffffff), 5);
}

/* One of the forms, or a code and the eight bytes of the number; a code 0 is none. */
static void spell_form(struct maker *m, const struct forms *f, unsigned code, uint64_t number)
{
    unsigned i = pick(f->count + (code != 0));

    if (i < f->count) {
        put_number(m, f->number[i], f->size[i]);
    } else {
        put(m, code);
        put_number(m, number, 8);
    }
}

static void spell_int(struct maker *m, int64_t n)
{
    struct forms f = {{0}, {0}, 0};

    if (n >= -16 && n <= 47)
        add_form(&f, (uint64_t)(0x90 + n), 1);
    if (n >= -2048 && n <= 2047)
        add_form(&f, (uint64_t)(0xc800 + n), 2);
    if (n >= -262144 && n <= 262143)
        add_form(&f, (uint64_t)(0xd40000 + n), 3);
    add_narrow(&f, 0x49, (uint64_t)n);
    spell_form(m, &f, 0, 0);
}

static void spell_long(struct maker *m, int64_t n)
{
    struct forms f = {{0}, {0}, 0};

    if (n >= -8 && n <= 15)
        add_form(&f, (uint64_t)(0xe0 + n), 1);
    if (n >= -2048 && n <= 2047)
        add_form(&f, (uint64_t)(0xf800 + n), 2);
    if (n >= -262144 && n <= 262143)
        add_form(&f, (uint64_t)(0x3c0000 + n), 3);
    if (n >= INT32_MIN && n <= INT32_MAX)
        add_narrow(&f, 0x59, (uint64_t)n);
    spell_form(m, &f, 0x4c, (uint64_t)n);
}

static void spell_date(struct maker *m, int64_t n)
{
    struct forms f = {{0}, {0}, 0};

    if (n % 60000 == 0 && n / 60000 >= INT32_MIN && n / 60000 <= INT32_MAX)
        add_narrow(&f, 0x4b, (uint64_t)(n / 60000));
    spell_form(m, &f, 0x4a, (uint64_t)n);
}

/* The bits of the double that a form reads as; 0 if it is none. */
static uint64_t read_double(uint64_t number, unsigned size)
{
    uint8_t message[8], table[ROW_SIZE] = {0};
    struct input in = {NULL, 0, table, ROW_SIZE, 1};
    unsigned i;

    for (i = 0; i < size; i++)
        message[i] = (uint8_t)(number >> 8 * (size - 1 - i));
    baseline_read(message, size, table, ROW_SIZE);
    return get(&in, 0, FIRST);
}

static void spell_double(struct maker *m, uint64_t bits)
{
    struct forms f = {{0}, {0}, 0};
    uint64_t exponent = bits >> 52 & 0x7ff, fraction = bits & 0xfffffffffffff, tried[6];
    unsigned sizes[] = {1, 1, 2, 3, 5, 5}, i;
    uint32_t sign = (uint32_t)(bits >> 63) << 31;
    double value;
    int n;

    /* what might stand for these bits is tried */
    memcpy(&value, &bits, sizeof value);
    n = value >= -32768 && value <= 32767 ? (int)value : 0;
    tried[0] = 0x5b;
    tried[1] = 0x5c;
    tried[2] = 0x5d00 | (n & 0xff);
    tried[3] = 0x5e0000 | (n & 0xffff);
    tried[4] = UINT64_C(0x5f) << 32 | sign;
    tried[5] = UINT64_C(0x5f) << 32 | sign;
    if (exponent >= 1023 - 126) /* also infinities and NaNs, cut short */
        tried[4] |= (exponent == 0x7ff ? 0xff : (exponent - 896) & 0xff) << 23 | fraction >> 29;
    else if (exponent >= 1023 - 149) /* below the normal range */
        tried[5] |= (fraction | UINT64_C(1) << 52) >> (52 + 1023 - 149 - exponent);
    for (i = 0; i < 6; i++) {
        bool again = i == 5 && tried[5] == tried[4];

        if (!again && read_double(tried[i], sizes[i]) == bits)
            add_form(&f, tried[i], sizes[i]);
    }
    spell_form(m, &f, 0x44, bits);
}

/* The head of a last chunk. */
static void spell_head(struct maker *m, bool text, size_t units)
{
    struct forms f = {{0}, {0}, 0};

    if (units < (text ? 32 : 16))
        add_form(&f, (text ? 0x00 : 0x20) + units, 1);
    if (units < 1024)
        add_form(&f, (text ? 0x3000 : 0x3400) + units, 2);
    add_form(&f, (uint64_t)(text ? 0x53 : 0x42) << 16 | units, 3);
    spell_form(m, &f, 0, 0);
}

/* The bytes of so many characters, or bytes, at p, and their units. */
static size_t span(const uint8_t *p, bool text, size_t characters, size_t *units)
{
    size_t bytes = 0;

    for (*units = 0; characters > 0; characters--) {
        *units += text ? units_of(p[bytes]) : 1;
        bytes += text ? width_of(p[bytes]) : 1;
    }
    return bytes;
}

/* Content of a chunk. A character of two units may stand as a pair of halves. */
static void spell_content(struct maker *m, const uint8_t *p, size_t bytes, bool text)
{
    size_t i = 0;

    while (i < bytes) {
        if (text && units_of(p[i]) == 2 && pick(2) == 1) {
            put_pair(m, code_of(p + i));
            i += 4;
        } else {
            put(m, p[i++]);
        }
    }
}

/* The text or bytes of the next row, in chunks; those that are not the last have a character. */
static void spell_string(struct speller *s, bool text)
{
    static uint8_t content[MOST_MESSAGE];
    size_t row = s->at++, size = join(s->in->source + get(s->in, row, PLACE), text, content), at = 0, left = 0, i;

    for (i = 0; i < size; i += text ? width_of(content[i]) : 1)
        left++;
    for (;;) {
        size_t units, bytes = span(content + at, text, left, &units), n = pick((unsigned)(left < 30000 ? left : 30000) + 1);
        bool last = n == 0 && units <= 65535;

        if (last) {
            spell_head(s->m, text, units);
        } else {
            n += n == 0;
            bytes = span(content + at, text, n, &units);
            put(s->m, text ? 0x52 : 0x41);
            put_number(s->m, units, 2);
        }
        spell_content(s->m, content + at, bytes, text);
        if (last)
            return;
        at += bytes;
        left -= n;
    }
}

static void spell_type(struct speller *s)
{
    if (get(s->in, s->at, KIND) == 18)
        spell_string(s, true);
    else
        spell_int(s->m, (int64_t)get(s->in, s->at++, FIRST));
}

static void spell_class(struct speller *s)
{
    uint64_t fields = get(s->in, s->at++, FIRST), i;

    put(s->m, 0x43);
    spell_string(s, true);
    spell_int(s->m, (int64_t)fields);
    for (i = 0; i < fields; i++)
        spell_string(s, true);
}

static void spell_value(struct speller *s);

static void spell_values(struct speller *s, uint64_t count)
{
    for (; count > 0; count--)
        spell_value(s);
}

static void spell_list(struct speller *s, bool typed, uint64_t count)
{
    enum { OPEN, COUNTED, FEW } form = (int)pick(count < 8 ? 3 : 2);
    static const unsigned codes[] = {0x57, 0x58, 0x78};

    /* the codes of typed lists */
    put(s->m, codes[form] - (typed ? form == FEW ? 8 : 2 : 0) + (form == FEW ? (unsigned)count : 0));
    if (typed)
        spell_type(s);
    if (form == COUNTED)
        spell_int(s->m, (int64_t)count);
    spell_values(s, count);
    if (form == OPEN)
        put(s->m, 0x5a);
}

static void spell_object(struct speller *s, uint64_t number, uint64_t fields)
{
    if (number < 16 && pick(2) == 0) {
        put(s->m, (unsigned)(0x60 + number));
    } else {
        put(s->m, 0x4f);
        spell_int(s->m, (int64_t)number);
    }
    spell_values(s, fields);
}

/* The value of the next row and those that belong to it, with the class definitions before it. */
static void spell_value(struct speller *s)
{
    static const unsigned plain[] = {0x4e, 0x46, 0x54};
    uint64_t kind, first;

    while (get(s->in, s->at, KIND) == 15)
        spell_class(s);
    kind = get(s->in, s->at, KIND);
    first = get(s->in, s->at, FIRST);
    if (is_string(kind)) {
        spell_string(s, kind == 7);
        return;
    }
    s->at++;
    switch (kind) {
    case 3:
        spell_int(s->m, (int64_t)first);
        break;
    case 4:
        spell_long(s->m, (int64_t)first);
        break;
    case 5:
        spell_double(s->m, first);
        break;
    case 6:
        spell_date(s->m, (int64_t)first);
        break;
    case 9:
    case 10:
        spell_list(s, kind == 10, first);
        break;
    case 11:
    case 12:
        put(s->m, kind == 12 ? 0x4d : 0x48);
        if (kind == 12)
            spell_type(s);
        spell_values(s, 2 * first);
        put(s->m, 0x5a);
        break;
    case 13:
        spell_object(s, first, get(s->in, s->at - 1, SECOND));
        break;
    case 14:
        put(s->m, 0x51);
        spell_int(s->m, (int64_t)first);
        break;
    default:
        put(s->m, plain[kind]);
    }
}

/* Another spelling of the record, which is to be written as the same bytes. */
static void check_spelling(const struct input *in, const struct input *shortest, struct input *other)
{
    struct maker m = {other->source, 0, 0, 0, 0, 0, {0}};
    struct speller s = {in, 0, &m};

    spell_value(&s);
    other->source_len = m.len;
    if (m.len > MOST_BYTES)
        return;
    if (!read_source(other) || !same_record(in, other))
        show_difference("another spelling reads as another record", other, 0);
    else if (!written_as(other, shortest))
        show_difference("another spelling is rewritten as other bytes", other, other->source_len);
}

/* All spellings of small records. */
static void check_spellings(void)
{
    static const char *const records[] = {
        " 90",
        " c830",
        " d40800",
        " 4900040000",
        " e0",
        " f92c",
        " 3d0000",
        " 5900040000",
        " 4c0000000100000000",
        " 4b00e3838f",
        " 4a000000d04b920ba1",
        " 5b",
        " 5c",
        " 5d80",
        " 5e0100",
        " 5f41440000",
        " 5f80000000",
        " 5f00000001",
        " 5f7f800001",
        " 443fb999999999999a",
        " 00",
        " 0161",
        " 05 61c3a9 e282ac f09f9880",
        " 06 616263646566",
        " 02 eda0bdedb880",
        " 05 eda080edb080 61 edafbfedbfbf",
        " 43 02 eda0bdedb880 91 02 eda0bdedb881 60 4e",
        " 70 02 eda0bdedb880",
        " 20",
        " 23 010203",
        " 26 000102030405",
        " 78",
        " 7a9091",
        " 7b4e4654",
        " 58 98 4e4e4e4e4e4e4e4e",
        " 7a 7991 78",
        " 72 0174 90 5b",
        " 7a 700161 7090",
        " 7b 700161 4d0162 5a 7191 4e",
        " 48 0161 90 5a",
        " 48 5a",
        " 4d 0174 90 e1 5a",
        " 430143 91 0163 60 0172",
        " 430090 60",
        " 43009100 6090",
        " 7b 78 5190 5191",
        " 79 5190",
        " 48 5190 79 5191 5a",
    };
    struct input in = new_input(), shortest = new_input(), other = new_input();
    size_t i;

    pick = pick_in_turn;
    for (i = 0; i < sizeof records / sizeof records[0]; i++) {
        const char *text = records[i];

        if (!groups(&text, in.source, &in.source_len) || !read_source(&in))
            give_up("no record:", records[i]);
        if (!check_record(&in, &shortest))
            continue;
        first_spelling();
        do
            check_spelling(&in, &shortest, &other);
        while (next_spelling());
    }
    free_input(&in);
    free_input(&shortest);
    free_input(&other);
}

/* ---- damage */

/* Another number, mostly near this one. */
static uint64_t other_number(uint64_t n)
{
    switch (chance(8)) {
    case 0:
        return n + (UINT64_C(1) << chance(64));
    case 1:
        return random_bits() >> chance(64);
    case 2:
        return chance(300);
    case 3:
        return n ^ UINT64_C(1) << chance(64);
    default:
        return chance(2) ? n + 1 + chance(3) : n - 1 - chance(3);
    }
}

/* A string row gets the place and the sizes of another one. */
static void rename_row(struct input *in, size_t row, size_t other)
{
    unsigned which;

    if (is_string(get(in, row, KIND)) && is_text(get(in, row, KIND)) == is_text(get(in, other, KIND)))
        for (which = PLACE; which <= SECOND; which++)
            set(in, row, which, get(in, other, which));
}

static void damage_rows(struct input *in)
{
    size_t rows = (size_t)in->rows, row = chance((unsigned)rows), other = chance((unsigned)rows);
    uint8_t *one = in->table + row * ROW_SIZE, *two = in->table + other * ROW_SIZE, kept_row[ROW_SIZE];
    unsigned which;

    memcpy(kept_row, two, ROW_SIZE);
    switch (chance(12)) {
    case 0:
        memmove(one, one + ROW_SIZE, (rows - row - 1) * ROW_SIZE);
        in->rows--;
        break;
    case 1:
        if (rows == MOST_BYTES)
            break;
        memmove(one + ROW_SIZE, one, (rows - row) * ROW_SIZE);
        memcpy(one, kept_row, ROW_SIZE);
        in->rows++;
        break;
    case 2:
        memmove(two, one, ROW_SIZE);
        memcpy(one, kept_row, ROW_SIZE);
        break;
    case 3:
        memcpy(one, kept_row, ROW_SIZE);
        break;
    case 4:
    case 5:
        rename_row(in, row, other);
        break;
    case 6:
        set(in, row, KIND, chance(4) ? chance(21) : other_number(get(in, row, KIND)));
        break;
    default:
        which = PLACE + chance(3);
        set(in, row, which, other_number(get(in, row, which)));
    }
    in->table_len = in->rows * ROW_SIZE;
}

static void damage_source(struct input *in)
{
    struct maker m = {in->source, in->source_len, 0, 0, 0, 0, {0}};

    damage(&m);
    in->source_len = m.len;
}

/* A fifth number is another one, mostly near its own or at an edge. */
static void damage_after(struct input *in)
{
    size_t rows = (size_t)in->rows, row = chance((unsigned)rows);
    uint64_t n = after_trial(in->table, rows, row, chance(AFTER_TRIALS));

    set(in, row, AFTER, chance(4) ? n : other_number(n));
}

/* The fifth numbers become those of the record that the rows would be, or all but one, or stay as they are. */
static void damage_afters(struct input *in)
{
    if (chance(4))
        set_afters(in->table, (size_t)in->rows);
    if (chance(4) == 0)
        damage_after(in);
}

/* Rows of any kinds. */
static void random_rows(struct input *in)
{
    size_t i;

    in->rows = 1 + chance(6);
    in->table_len = in->rows * ROW_SIZE;
    for (i = 0; i < in->rows; i++) {
        set(in, i, KIND, chance(20));
        set(in, i, PLACE, chance((unsigned)in->source_len + 2));
        set(in, i, FIRST, chance(4) ? chance(4) : random_bits() >> chance(64));
        set(in, i, SECOND, chance(3) ? 0 : chance(4));
        set(in, i, AFTER, chance(8));
    }
    damage_afters(in);
}

/* Rows, source, claim and table are changed, or some of them. */
static void damage_input(struct input *in)
{
    unsigned times;

    for (times = chance(4); times > 0 && in->rows > 0; times--)
        damage_rows(in);
    if (in->rows > 0)
        damage_afters(in);
    if (chance(4) == 0)
        damage_source(in);
    if (chance(8) == 0)
        in->rows = other_number(in->rows);
    if (chance(8) == 0 && in->table_len > 0)
        in->table_len -= 1 + chance((unsigned)(in->table_len < 100 ? in->table_len : 100));
}

/* As many bytes as are needed, one too few, more, any, or none. */
static size_t some_length(const struct input *in)
{
    uint64_t answer = baseline_write(in->source, in->source_len, in->table, in->table_len, in->rows, NULL, 0);
    size_t needed = number_of(answer) == 9 ? count_of(answer) : chance(100);

    switch (chance(8)) {
    case 0:
    case 1:
        return needed;
    case 2:
    case 3:
        return needed > 0 ? needed - 1 : 0;
    case 4:
        return chance((unsigned)needed + 1);
    case 5:
        return 0;
    default:
        return needed + chance(50);
    }
}

/* ---- random messages */

static void check_random(unsigned long count)
{
    struct input in = new_input(), shortest = new_input(), other = new_input();
    struct maker m;
    unsigned long i;

    pick = chance;
    m.out = in.source;
    for (i = 0; i < count; i++) {
        start_message(&m, 1 + chance(40));
        put_random(&m);
        if (chance(10) == 0)
            damage(&m);
        in.source_len = m.len;
        if (read_source(&in)) {
            if (check_record(&in, &shortest))
                check_spelling(&in, &shortest, &other);
            try_after(&in, chance((unsigned)in.rows), chance(AFTER_TRIALS));
        } else {
            random_rows(&in);
        }
        try_write(&in, some_length(&in), NULL, NULL);
        damage_input(&in);
        try_write(&in, some_length(&in), NULL, NULL);
    }
    free_input(&in);
    free_input(&shortest);
    free_input(&other);
}

int main(int argc, char **argv)
{
    unsigned long count = 60000;

    if (argc < 3 || argc > 5) {
        fprintf(stderr, "usage: check_write CASES EXPECTED [COUNT [SEED]]\n");
        return 2;
    }
    if (argc > 3)
        count = strtoul(argv[3], NULL, 10);
    seed = argc > 4 ? strtoull(argv[4], NULL, 10) : 1;
    check_vectors(argv[1], argv[2]);
    check_afters();
    check_spellings();
    check_random(count);
    printf("check_write: %lu cases, %lu differences\n", cases, differences);
    return differences == 0 ? 0 : 1;
}
