#include "compare.h"

#include <inttypes.h>
#include <stdio.h>
#include <stdlib.h>
#include <string.h>

#include "../afters.h"
#include "../rows.h"
#include "baseline.h"
#include "fence.h"
#include "hessian.h"
#include "holdings.h"
#include "lending.h"
#include "packed.h"

enum {
    LONGEST = HESSIAN_LONGEST,
    MOST_MESSAGE = 300000,
    MOST_ALTERED = 4,
    SOME_PLACES = 8,  /* whose contents are copied, whatever opens there */
    PACKED_NAMES = 64 /* rows of a packed input whose contents are copied */
};

/* What the library is lent. */
static struct fence message_fence, table_fence, output_fence;

static void start(const uint8_t *data, size_t size)
{
    if (message_fence.start == NULL) {
        message_fence = new_fence(MOST_MESSAGE);
        table_fence = new_fence((size_t)(LONGEST + 2) * ROW_SIZE);
        output_fence = new_fence(MOST_MESSAGE + 64);
    }
    start_picking(data, size);
}

static bool differ(const char *what, uint64_t library, uint64_t plain)
{
    fprintf(stderr, "fuzz: %s: library %u %zu %zu, plain %u %zu %zu\n", what, HESSIAN_NUMBER(library),
            HESSIAN_COUNT(library), HESSIAN_PLACE(library), HESSIAN_NUMBER(plain), HESSIAN_COUNT(plain),
            HESSIAN_PLACE(plain));
    return false;
}

/* Whether both answered the same and left the same, and nothing but the first `stored` bytes was changed. */
static bool agree(const char *what, const struct lent *l, uint64_t library, uint64_t plain, size_t stored)
{
    if (library != plain)
        return differ(what, library, plain);
    if (!lent_alike(l))
        return differ("different bytes are left", library, plain);
    if (!lent_kept(l, stored))
        return differ("bytes are changed that must stay", library, plain);
    return true;
}

/* ---- the reader */

/* A rule of 5f: the library's reader and the plain one, and the lengths that they say. */
struct rule {
    uint64_t (*library)(const uint8_t *message, size_t message_len, uint8_t *table, size_t table_len);
    uint64_t (*plain)(const uint8_t *message, size_t message_len, uint8_t *table, size_t table_len);
    uint64_t (*library_length)(const uint8_t *message, size_t message_len);
    uint64_t (*plain_length)(const uint8_t *message, size_t message_len);
};

static const struct rule float_rule = {hessian_read, baseline_read, hessian_shortest_length, baseline_shortest_length};
static const struct rule thousandths_rule = {hessian_read_thousandths, baseline_read_thousandths,
                                             hessian_shortest_length_thousandths,
                                             baseline_shortest_length_thousandths};

/* Reads with both, into a table of so many bytes. Its rows are copied to `rows`, unless that is NULL. */
static bool compare_read(const struct rule *rule, const uint8_t *data, size_t size, size_t table_len, uint8_t **rows,
                         uint64_t *answer)
{
    struct lent l = lend(&table_fence, table_len);
    struct given message = give(&message_fence, data, size);
    size_t stored;
    bool same;

    *answer = rule->library(message.library, size, l.library, table_len);
    stored = HESSIAN_NUMBER(*answer) == 0 ? HESSIAN_COUNT(*answer) * ROW_SIZE : 0;
    same = agree("read", &l, *answer, rule->plain(message.plain, size, l.plain, table_len), stored);
    if (!take_back(&message))
        same = differ("the message is changed", *answer, 0);
    if (rows != NULL)
        *rows = copy_of(l.library, stored);
    free(l.plain);
    return same;
}

/* The length of the shortest message by both; 0 exactly where the message is refused, as the reader's answer says. */
static bool compare_length(const struct rule *rule, const uint8_t *data, size_t size, uint64_t answer)
{
    struct given message = give(&message_fence, data, size);
    uint64_t length = rule->library_length(message.library, size), plain = rule->plain_length(message.plain, size);

    if (!take_back(&message))
        return differ("the message is changed", length, 0);
    if (length != plain)
        return differ("length", length, plain);
    if ((length > 0) != (HESSIAN_NUMBER(answer) == HESSIAN_ACCEPTED))
        return differ("a length where there is none, or none", length, answer);
    return true;
}

/* The rows a message needs; 0 where it is refused. */
static size_t rows_needed(const uint8_t *data, size_t size)
{
    uint8_t *copy = copy_of(data, size);
    uint64_t answer = baseline_read(copy, size, NULL, 0);

    free(copy);
    return HESSIAN_NUMBER(answer) == HESSIAN_ROOM ? HESSIAN_COUNT(answer) : 0;
}

/* ---- the writer */

struct input {
    const uint8_t *source;
    size_t source_len;
    const uint8_t *table;
    size_t table_len;
    uint64_t rows;
};

/* Writes with both, into an output of so many bytes. What is written is copied to `written`, unless that is NULL. */
static bool compare_write(const struct input *in, size_t output_len, uint8_t **written, uint64_t *answer)
{
    struct lent l = lend(&output_fence, output_len);
    struct given source = give(&message_fence, in->source, in->source_len);
    struct given table = give(&table_fence, in->table, in->table_len);
    uint64_t plain;
    size_t stored;
    bool same, source_kept, table_kept;

    *answer = hessian_write(source.library, source.len, table.library, table.len, in->rows, l.library, output_len);
    stored = HESSIAN_NUMBER(*answer) == 0 ? HESSIAN_COUNT(*answer) : 0;
    plain = baseline_write(source.plain, source.len, table.plain, table.len, in->rows, l.plain, output_len);
    same = agree("write", &l, *answer, plain, stored);
    source_kept = take_back(&source);
    table_kept = take_back(&table);
    if (!source_kept || !table_kept)
        same = differ("the source or the table is changed", *answer, 0);
    if (written != NULL)
        *written = copy_of(l.library, stored);
    free(l.plain);
    return same;
}

/* Writes into no room, into some, and into as much as is needed; what is then written is copied. */
static bool compare_writes(const struct input *in, uint8_t **written, uint64_t *answer)
{
    uint64_t needed;

    return compare_write(in, 0, NULL, &needed) && compare_write(in, some_room(HESSIAN_COUNT(needed)), NULL, answer) &&
           compare_write(in, HESSIAN_COUNT(needed), written, answer);
}

/* ---- contents */

/* An answer of three numbers as the other calls pack it, or one that no call gives. */
static uint64_t packed_answer(uint64_t number, uint64_t count, uint64_t place)
{
    if (number > UINT16_MAX || count > MOST_MESSAGE || place > MOST_MESSAGE)
        return UINT64_MAX;
    return number << 48 | count << 24 | place;
}

/* Copies content with both, into an output of so many bytes. */
static bool compare_copy(const struct given *source, uint64_t kind, uint64_t place, size_t output_len, uint64_t *answer)
{
    struct lent l = lend(&output_fence, output_len);
    hessian_answer library = hessian_content(source->library, source->len, kind, place, l.library, output_len);
    struct baseline_answer plain = baseline_content(source->plain, source->len, kind, place, l.plain, output_len);
    size_t stored = plain.number == HESSIAN_ACCEPTED ? (size_t)plain.count : 0;
    bool same;

    *answer = packed_answer(library.number, library.count, library.place);
    same = agree("content", &l, *answer, packed_answer(plain.number, plain.count, plain.place), stored);
    free(l.plain);
    return same;
}

/* Copies into no room, into some, and into as much as is needed: the last answer. */
static bool compare_copies(const struct given *source, uint64_t kind, uint64_t place, uint64_t *answer)
{
    uint64_t needed;

    return compare_copy(source, kind, place, 0, &needed) &&
           compare_copy(source, kind, place, some_room(HESSIAN_COUNT(needed)), answer) &&
           compare_copy(source, kind, place, HESSIAN_COUNT(needed), answer);
}

/* What a row names; where it is a row of the source, it says how many bytes that has. */
static bool compare_named(const struct given *source, hessian_row row, bool of_source)
{
    uint64_t answer, size = row.kind == HESSIAN_BYTES ? row.first : row.second;

    if (!compare_copies(source, row.kind, row.place, &answer))
        return false;
    if (of_source && answer != packed_answer(HESSIAN_ACCEPTED, size, 0))
        return differ("a row says another size than its content has", answer, size);
    return true;
}

static bool has_content(uint64_t kind)
{
    return kind == HESSIAN_TEXT || kind == HESSIAN_BYTES || (kind >= HESSIAN_CLASS_NAME && kind <= HESSIAN_TYPE_NAME);
}

/* A place of the source or just behind it, and mostly a kind that has content; now and then numbers far from any. */
static bool compare_somewhere(const struct given *source)
{
    uint64_t kind = pick(2) == 0 ? HESSIAN_TEXT : HESSIAN_BYTES, place = pick(source->len + 2), answer;

    if (pick(4) == 0)
        kind = pick(HESSIAN_TYPE_NUMBER + 2);
    if (pick(32) == 0)
        kind = UINT64_MAX - pick(2);
    if (pick(32) == 0)
        place = UINT64_MAX - pick(3);
    return compare_copies(source, kind, place, &answer);
}

/* Contents of the first `rows` rows that have some, which are those of the source or not, and of some places. */
static bool compare_contents(const struct input *in, size_t rows, bool of_source)
{
    struct given source = give(&message_fence, in->source, in->source_len);
    bool same = true;
    size_t i;

    for (i = 0; same && i < rows; i++) {
        hessian_row row = hessian_row_at(in->table, i);

        if (has_content(row.kind))
            same = compare_named(&source, row, of_source);
    }
    for (i = 0; same && i < SOME_PLACES; i++)
        same = compare_somewhere(&source);
    return take_back(&source) ? same : differ("the source is changed", 0, 0);
}

/* ---- messages */

/* Whether rows agree in all but their places. */
static bool same_rows(const uint8_t *one, const uint8_t *two, size_t rows)
{
    size_t i;
    unsigned which;

    for (i = 0; i < rows; i++)
        for (which = 0; which < ROW_NUMBERS; which++)
            if (which != PLACE && get_number(one, i, which) != get_number(two, i, which))
                return false;
    return true;
}

/* What is written reads back, by the main rule, as the same rows, and is written from them again. */
static bool check_shortest(const struct input *in, const uint8_t *shortest, size_t len)
{
    uint8_t *rows = NULL, *again = NULL;
    uint64_t read, written;
    struct input back = {shortest, len, NULL, in->table_len, in->rows};
    bool good;

    good = compare_read(&float_rule, shortest, len, in->table_len, &rows, &read);
    if (good && (HESSIAN_NUMBER(read) != 0 || HESSIAN_COUNT(read) != in->rows || !same_rows(rows, in->table, in->rows)))
        good = differ("the shortest form reads otherwise", read, in->rows);
    back.table = rows;
    if (good)
        good = compare_write(&back, len, &again, &written);
    if (good && (HESSIAN_COUNT(written) != len || memcmp(again, shortest, len) != 0))
        good = differ("the shortest form is written otherwise", written, len);
    free(rows);
    free(again);
    return good;
}

/* Writes with another fifth number in one row: refused 10, unless it is the right one. */
static bool compare_after(const struct input *in)
{
    uint8_t *table = copy_of(in->table, in->table_len);
    struct input altered = *in;
    size_t row = (size_t)pick(in->rows);
    uint64_t right = get_number(table, row, AFTER), answer;
    uint64_t n = after_trial(table, (size_t)in->rows, row, (unsigned)pick(AFTER_TRIALS));
    bool good;

    altered.table = table;
    set_number(table, row, AFTER, n);
    good = compare_write(&altered, 0, NULL, &answer);
    if (good && HESSIAN_NUMBER(answer) != (n == right ? HESSIAN_ROOM : HESSIAN_NO_RECORD))
        good = differ("a fifth number is judged wrongly", answer, n == right);
    free(table);
    return good;
}

/* Alters a number of a row. */
static void alter(uint8_t *table, size_t rows, enum column which)
{
    static const uint64_t edges[] = {0,   1,   7,   8,          15,         16,                 47,
                                     48,  255, 256, 0x7fffffff, 0x80000000, 0xffffffff80000000, UINT64_MAX};
    size_t row = (size_t)pick(rows);
    uint64_t n = get_number(table, row, which) + pick(5) - 2;

    if (pick(3) == 0)
        n = edges[pick(sizeof edges / sizeof edges[0])];
    if (which == AFTER && pick(3) != 0)
        n = after_trial(table, rows, row, (unsigned)pick(AFTER_TRIALS));
    set_number(table, row, which, n);
}

/* Writes rows of which some numbers are altered, or more or fewer are claimed; the fifth numbers follow, or not. */
static bool compare_altered(const struct input *in)
{
    uint8_t *table = copy_of(in->table, in->table_len);
    struct input altered = *in;
    size_t times = 1 + (size_t)pick(MOST_ALTERED), rows = (size_t)in->rows;
    uint64_t answer;
    bool same;

    altered.table = table;
    if (pick(4) == 0)
        altered.rows += pick(5) - 2;
    for (; times > 0; times--)
        alter(table, rows, (enum column)pick(AFTER));
    if (pick(4) != 0)
        set_afters(table, rows);
    if (pick(4) == 0)
        alter(table, rows, AFTER);
    if (pick(8) == 0)
        altered.source_len = (size_t)pick(in->source_len + 1);
    same = compare_writes(&altered, NULL, &answer);
    free(table);
    return same;
}

/* Whether so many bytes were written as the library's length says; or it says that these would be too many. */
static bool has_length(const struct input *in, const struct rule *rule, uint64_t written)
{
    uint64_t length = rule->library_length(in->source, in->source_len);

    return HESSIAN_NUMBER(written) == HESSIAN_LENGTH ? length > LONGEST : length == HESSIAN_COUNT(written);
}

/* Writes the rows of a message. What the main rule reads becomes no longer; by the other rule it may, and too long. */
static bool compare_rewriting(const struct input *in, const struct rule *rule)
{
    uint8_t *shortest = NULL;
    uint64_t written;
    bool same = compare_writes(in, &shortest, &written);

    if (same && HESSIAN_NUMBER(written) == HESSIAN_ACCEPTED)
        same = check_shortest(in, shortest, HESSIAN_COUNT(written));
    else if (same && (rule == &float_rule || HESSIAN_NUMBER(written) != HESSIAN_LENGTH))
        same = differ("rows of a message are not written", written, 0);
    if (same && rule == &float_rule && HESSIAN_COUNT(written) > in->source_len)
        same = differ("the shortest form is longer", HESSIAN_COUNT(written), in->source_len);
    if (same && !has_length(in, rule, written))
        same = differ("the shortest form has another length", HESSIAN_COUNT(written), in->source_len);
    free(shortest);
    return same;
}

/* Whether rows by the two rules agree in all but the bits of doubles at a 5f. */
static bool same_but_doubles(const struct input *in, const uint8_t *other)
{
    size_t i;
    unsigned which;

    for (i = 0; i < in->rows; i++) {
        hessian_row row = hessian_row_at(in->table, i);

        for (which = 0; which < ROW_NUMBERS; which++)
            if (get_number(in->table, i, which) != get_number(other, i, which) &&
                !(which == FIRST && row.kind == HESSIAN_DOUBLE && in->source[row.place] == 0x5f))
                return false;
    }
    return true;
}

/* The same message by the rule of thousandths, which differs in doubles alone; and its rows written. */
static bool compare_thousandths(const struct input *in, uint64_t expected)
{
    struct input counted = *in;
    uint8_t *table;
    uint64_t answer;
    size_t room = some_room(in->table_len);
    bool same = compare_read(&thousandths_rule, in->source, in->source_len, room, NULL, &answer);

    if (!same || !compare_read(&thousandths_rule, in->source, in->source_len, in->table_len, &table, &answer))
        return false;
    counted.table = table;
    if (answer != expected)
        same = differ("the rules answer differently", answer, expected);
    else if (!compare_length(&thousandths_rule, in->source, in->source_len, answer))
        same = false;
    else if (HESSIAN_NUMBER(answer) == HESSIAN_ACCEPTED)
        same = same_but_doubles(in, table) ? compare_rewriting(&counted, &thousandths_rule)
                                           : differ("the rules give different rows", answer, expected);
    free(table);
    return same;
}

static bool compare_message(const uint8_t *data, size_t size)
{
    size_t rows = rows_needed(data, size);
    uint8_t *table;
    uint64_t answer;
    struct input in = {data, size, NULL, rows * ROW_SIZE, rows};
    bool same = compare_read(&float_rule, data, size, some_room(rows * ROW_SIZE), NULL, &answer);

    if (!same || !compare_read(&float_rule, data, size, rows * ROW_SIZE, &table, &answer))
        return false;
    in.table = table;
    same = compare_length(&float_rule, data, size, answer) && compare_thousandths(&in, answer) &&
           compare_contents(&in, HESSIAN_NUMBER(answer) == 0 ? rows : 0, true);
    if (same && HESSIAN_NUMBER(answer) == 0)
        same = compare_rewriting(&in, &float_rule) && compare_after(&in) && compare_altered(&in);
    free(table);
    return same;
}

static bool compare_packed(const struct packed *p)
{
    uint8_t *table = block(p->rows * ROW_SIZE);
    struct input in = {p->source, p->source_len, table, p->rows * ROW_SIZE, p->claimed};
    uint64_t answer;
    bool same;

    unpack_rows(p, table);
    same = compare_writes(&in, NULL, &answer) &&
           compare_contents(&in, p->rows < PACKED_NAMES ? p->rows : PACKED_NAMES, false);
    free(table);
    return same;
}

bool compare(const uint8_t *data, size_t size)
{
    struct packed p;
    struct held h;

    if (size > MOST_MESSAGE)
        return true;
    start(data, size);
    if (unpack_held(data, size, &h))
        return compare_held(&h);
    if (unpack(data, size, &p) && p.rows <= LONGEST)
        return compare_packed(&p);
    return compare_message(data, size);
}
