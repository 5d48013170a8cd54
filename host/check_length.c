/*
 * Checks hessian_shortest_length and hessian_shortest_length_thousandths from C.
 *
 *     check_length CASES [COUNT [SEED]]
 *
 * CASES is stdin of record_vectors; crates/record_vectors/vectors.py says what its lines mean. Measured are its
 * messages and COUNT random ones, valid and damaged, from SEED. Before them come examples with their lengths, numbers
 * at the edges of their forms in all forms that hold them, lists of 0 to 60 elements, texts and byte strings with as
 * many units as their heads and chunks hold and a few more or less, with pairs at the cuts, in many chunks, and
 * messages of as many bytes as there may be. Checked is, by each rule of 5f, that
 *   - the length is the one that baseline_shortest_length says;
 *   - it is 0 where hessian_read refuses, and else as many bytes as hessian_write writes of what was read; where
 *     hessian_write refuses that as too long, the length says so too. Baseline's reader and writer come to the same;
 *   - by the main rule it is no more than the message has, and what is written is as long as its own length says;
 *   - the examples have the lengths that are given, and a list in thousandths passes the ceiling, with its length;
 *   - the message is unchanged, at any alignment, and nothing past its end is needed;
 *   - a pointer may be null where the length is 0.
 */
#include <inttypes.h>
#include <stdbool.h>
#include <stdio.h>
#include <stdlib.h>
#include <string.h>

#include "baseline.h"
#include "generate.h"
#include "hessian.h"
#include "rows.h"
#include "support.h"

enum {
    TABLE_LEN = MOST_BYTES * ROW_SIZE,
    LONGEST_CHUNK = 65535,
    COUNT_SIZE = 5, /* of thousandths, and of the double that nine are */
    DOUBLE_SIZE = 9,
    MOST_SHOWN = 10
};

const char *const check_name = "check_length";

static unsigned long cases, differences;

static uint8_t table[TABLE_LEN], output[MOST_BYTES];

/* ---- a message by one rule */

typedef uint64_t measuring(const uint8_t *message, size_t message_len);
typedef uint64_t reading(const uint8_t *message, size_t message_len, uint8_t *table, size_t table_len);
typedef uint64_t writing(const uint8_t *source, size_t source_len, const uint8_t *table, size_t table_len,
                         uint64_t rows, uint8_t *output, size_t output_len);

/* The rules of 5f. */
enum rule { FLOAT, THOUSANDTHS, RULES };

static measuring *const library_length[RULES] = {hessian_shortest_length, hessian_shortest_length_thousandths};
static measuring *const baseline_length[RULES] = {baseline_shortest_length, baseline_shortest_length_thousandths};
static reading *const library_read[RULES] = {hessian_read, hessian_read_thousandths};
static reading *const baseline_reads[RULES] = {baseline_read, baseline_read_thousandths};

static void show_difference(const char *what, enum rule rule, const uint8_t *message, size_t len)
{
    size_t i;

    if (differences++ >= MOST_SHOWN)
        return;
    printf("%s%s\n    message of %zu bytes:", what, rule == THOUSANDTHS ? ", in thousandths" : "", len);
    for (i = 0; i < len && i < 400; i++)
        printf(" %02x", message[i]);
    puts(i < len ? " .." : "");
}

static void show_lengths(const char *who, uint64_t other, uint64_t length, enum rule rule, const uint8_t *message,
                         size_t len)
{
    char what[120];

    snprintf(what, sizeof what, "the length is %" PRIu64 ", %s %" PRIu64, length, who, other);
    show_difference(what, rule, message, len);
}

/* What comes of a message by reading and writing: the bytes written; 0 where it is refused; one more than may be. */
static uint64_t written(reading *read, writing *write, const uint8_t *message, size_t len)
{
    uint64_t answer = read(message, len, table, sizeof table);
    size_t rows = count_of(answer);

    if (number_of(answer) != HESSIAN_ACCEPTED)
        return 0;
    answer = write(message, len, table, rows * ROW_SIZE, rows, output, sizeof output);
    return number_of(answer) == HESSIAN_LENGTH ? MOST_BYTES + 1 : count_of(answer);
}

/* The length, called as it is meant for: of a message that is not to be changed, with nothing behind it. */
static uint64_t measured(enum rule rule, const uint8_t *message, size_t len)
{
    size_t shift = cases++ % 8;
    /* a block that ends with the message, so that a memory checker sees any read past its end */
    uint8_t *block = allocate(shift + len), *copy = block + shift;
    uint64_t length;

    memcpy(copy, message, len);
    length = library_length[rule](copy, len);
    if (memcmp(copy, message, len) != 0)
        show_difference("the message is changed", rule, message, len);
    free(block);
    return length;
}

/* By the main rule nothing grows, and the shortest form, which is in the output, is its own. */
static void check_shortest(const uint8_t *message, size_t len, uint64_t length)
{
    uint64_t own = measured(FLOAT, output, (size_t)length);

    if (length > len)
        show_difference("the length is more than the message has", FLOAT, message, len);
    if (own != length)
        show_lengths("that of what is written", own, length, FLOAT, message, len);
}

/* The length of a message by one rule. */
static uint64_t check_rule(enum rule rule, const uint8_t *message, size_t len)
{
    uint64_t length = measured(rule, message, len), plain = baseline_length[rule](message, len);
    uint64_t told = length <= MOST_BYTES ? length : MOST_BYTES + 1, other;

    if (plain != length)
        show_lengths("that of the baseline", plain, length, rule, message, len);
    other = written(baseline_reads[rule], baseline_write, message, len);
    if (other != told)
        show_lengths("what the baseline writes", other, length, rule, message, len);
    other = written(library_read[rule], hessian_write, message, len);
    if (other != told)
        show_lengths("what is written", other, length, rule, message, len);
    else if (rule == FLOAT && length > 0)
        check_shortest(message, len, length);
    return length;
}

static void check_message(const uint8_t *message, size_t len)
{
    check_rule(FLOAT, message, len);
    check_rule(THOUSANDTHS, message, len);
}

static void check_made(const struct maker *m)
{
    check_message(m->out, m->len);
}

/* The same, where the length is known. */
static void expect_by_rule(enum rule rule, const uint8_t *message, size_t len, uint64_t expected)
{
    uint64_t length = check_rule(rule, message, len);

    if (length != expected)
        show_lengths("expected", expected, length, rule, message, len);
}

/* A message without a 5f. */
static void expect_length(const struct maker *m, uint64_t expected)
{
    expect_by_rule(FLOAT, m->out, m->len, expected);
    expect_by_rule(THOUSANDTHS, m->out, m->len, expected);
}

/* ---- examples */

struct example {
    const char *bytes;
    uint64_t lengths[RULES];
};

static const struct example examples[] = {
    {" 4e", {1, 1}},
    {" 49 00 00 01 2c", {2, 2}},
    {" 49 00 04 00 00", {5, 5}},
    {" 4c 00 00 00 00 00 00 00 0f", {1, 1}},
    {" 4a 00 00 00 d0 4b 92 0b a0", {5, 5}},
    {" 4a 00 00 00 d0 4b 92 0b a1", {9, 9}},
    {" 44 40 28 80 00 00 00 00 00", {5, 5}},
    {" 44 80 00 00 00 00 00 00 00", {5, 5}},
    {" 5d 00", {1, 1}},
    {" 5e ff 80", {2, 2}},
    {" 5f 00 00 05 dc", {5, 5}},
    {" 5f 00 00 03 e8", {5, 1}},
    {" 5f 00 00 00 09", {5, 9}},
    {" 5f 3f 80 00 00", {1, 9}},
    {" 52 00 07 68 65 6c 6c 6f 2c 20 05 77 6f 72 6c 64", {13, 13}},
    {" 02 ed a0 bd ed b8 80", {5, 5}},
    {" 41 00 01 07 41 00 00 21 08", {3, 3}},
    {" 57 90 91 5a", {3, 3}},
    {" 58 49 00 00 00 01 90", {2, 2}},
    {" 56 04 5b 69 6e 74 92 90 91", {8, 8}},
    {" 55 01 54 5a", {3, 3}},
    {" 4d 53 00 01 54 5a", {4, 4}},
    {" 43 52 00 01 43 01 61 49 00 00 00 00 4f 49 00 00 00 00", {6, 6}},
    {" 79 51 49 00 00 00 00", {3, 3}},
    {" 58 c8 30 90*48", {50, 50}},
    {" 57 90*47 5a", {49, 49}},
    {" 90 90", {0, 0}},
    {" 5a", {0, 0}},
    {" 51 90", {0, 0}},
    {" 01 80", {0, 0}},
    {" 5f 00 00 00", {0, 0}},
    {" 57 5f 00 00 00 09", {0, 0}},
    {" 79*31 78", {32, 32}},
    {" 79*33", {0, 0}}
};

static void check_examples(void)
{
    uint8_t *message = allocate(MOST_MESSAGE);
    size_t i;

    for (i = 0; i < sizeof examples / sizeof examples[0]; i++) {
        const struct example *e = &examples[i];
        const char *text = e->bytes;
        size_t len;

        if (!groups(&text, message, &len) || *text != '\0')
            give_up("no example:", e->bytes);
        expect_by_rule(FLOAT, message, len, e->lengths[FLOAT]);
        expect_by_rule(THOUSANDTHS, message, len, e->lengths[THOUSANDTHS]);
    }
    free(message);
}

/* ---- numbers */

/* A code, and so many bytes of a number. */
static void check_wide(struct maker *m, unsigned code, uint64_t n, unsigned size)
{
    start_message(m, 0);
    put(m, code);
    put_number(m, n, size);
    check_made(m);
}

/* An int, a long, a date in milliseconds and in minutes, a double and a float of these bits; and neighbours. */
static void check_numbers_near(struct maker *m, uint64_t n)
{
    int step;

    for (step = -2; step <= 2; step++) {
        uint64_t near = n + (uint64_t)(int64_t)step;

        check_wide(m, 0x49, near, 4);
        check_wide(m, 0x59, near, 4);
        check_wide(m, 0x4c, near, 8);
        check_wide(m, 0x4a, near, 8);
        check_wide(m, 0x4a, near * 60000, 8);
        check_wide(m, 0x4b, near, 4);
        check_wide(m, 0x44, near, 8);
        check_wide(m, 0x5f, near, 4);
    }
}

/* A whole number as a double, and with one bit more: edges of the forms of doubles. */
static void check_whole(struct maker *m, double value)
{
    uint64_t bits;

    memcpy(&bits, &value, sizeof bits);
    check_wide(m, 0x44, bits, 8);
    check_wide(m, 0x44, bits + 1, 8);
    check_wide(m, 0x44, bits + (1 << 29), 8);
    check_wide(m, 0x44, bits ^ UINT64_C(1) << 63, 8);
}

static void check_numbers(struct maker *m)
{
    unsigned bit, i;

    for (bit = 0; bit < 64; bit++) {
        check_numbers_near(m, UINT64_C(1) << bit);
        check_numbers_near(m, -(UINT64_C(1) << bit));
    }
    for (i = 0; i < 100; i++)
        check_numbers_near(m, i - 50u);
    for (i = 0; i < 1 << 16; i++)
        check_wide(m, 0x5e, i, 2);
    for (i = 0; i < 40000; i += i < 300 || i > 32700 ? 1 : 97) {
        check_whole(m, i);
        check_whole(m, -(double)i);
    }
    /* exponents of doubles, with one bit of the fraction */
    for (i = 0; i < 2048; i++)
        for (bit = 20; bit < 52; bit++)
            check_wide(m, 0x44, (uint64_t)i << 52 | UINT64_C(1) << bit, 8);
}

/* ---- lists */

/* A list of so many null values in one of its forms, with or without a type; its shortest form's own bytes. */
static void check_list(struct maker *m, unsigned count, bool typed, bool open)
{
    unsigned i;

    start_message(m, 0);
    put(m, typed ? (open ? 0x55 : 0x56) : open ? 0x57 : 0x58);
    if (typed)
        put_number(m, 0x0154, 2);
    if (!open) {
        put(m, 0x49);
        put_number(m, count, 4);
    }
    for (i = 0; i < count; i++)
        put(m, 0x4e);
    if (open)
        put(m, 0x5a);
    expect_length(m, count + (count < 8 ? 1 : 2) + (typed ? 2 : 0));
}

static void check_lists(struct maker *m)
{
    unsigned count;

    for (count = 0; count <= 60; count++) {
        check_list(m, count, false, false);
        check_list(m, count, false, true);
        check_list(m, count, true, false);
        check_list(m, count, true, true);
    }
}

/* ---- texts and byte strings in chunks */

/* The head of a chunk in three bytes. */
static void put_head(struct maker *m, bool text, bool last, size_t length)
{
    put(m, text ? (last ? 0x53 : 0x52) : last ? 0x42 : 0x41);
    put_number(m, length, 2);
}

static uint64_t head_length(bool text, size_t length)
{
    return length < (text ? 32 : 16) ? 1 : length < 1024 ? 2 : 3;
}

/* A byte string of so many bytes, in chunks of at most `part`. */
static void check_bytes(struct maker *m, size_t all, size_t part)
{
    size_t left = all, n, heads = all == 0 ? 0 : (all - 1) / LONGEST_CHUNK;

    start_message(m, 0);
    do {
        n = left < part ? left : part;
        put_head(m, false, left == n, n);
        for (left -= n; n > 0; n--)
            put(m, 0x20);
    } while (left > 0);
    if (m->len <= MOST_BYTES)
        expect_length(m, all + 3 * heads + head_length(false, all - heads * LONGEST_CHUNK));
}

/*
 * A text of `units` units: plain characters, and in each chunk that would be written a character of two units which
 * begins `before` units before its end. That is one unit for the last of which there is no room where `before` is 1. It
 * is in chunks of at most `part` units, with the pairs in four or in six bytes.
 */
struct cut_text {
    size_t units, before, part;
    bool six;
};

/* Units of a text, one after the other: where the next cut is due, how many bytes come so far, and how many heads. */
struct cuts {
    size_t filled, heads, bytes;
};

static void count_character(struct cuts *c, size_t units)
{
    if (c->filled + units > LONGEST_CHUNK) {
        c->heads++;
        c->filled = 0;
    }
    c->filled += units;
    c->bytes += units == 2 ? 4 : 1;
}

/* Puts a chunk of `n` units from unit `from` on; how many units it has, which is one less where a pair would be cut. */
static size_t put_chunk(struct maker *m, const struct cut_text *t, struct cuts *c, size_t from, size_t n)
{
    size_t head = m->len, done = 0;

    put_head(m, true, from + n == t->units, n);
    while (done < n) {
        bool pair = c->filled + t->before == LONGEST_CHUNK && t->before > 0 && from + done + 2 <= t->units;

        if (pair && done + 2 > n)
            break;
        count_character(c, pair ? 2 : 1);
        if (pair && t->six)
            put_pair(m, 0x1f600);
        else if (pair)
            put_number(m, 0xf09f9880, 4);
        else
            put(m, 'a' + (unsigned)(done % 26));
        done += pair ? 2 : 1;
    }
    m->out[head] = from + done == t->units ? 0x53 : 0x52;
    m->out[head + 1] = (uint8_t)(done >> 8);
    m->out[head + 2] = (uint8_t)done;
    return done;
}

static void check_text(struct maker *m, struct cut_text t)
{
    struct cuts c = {0, 0, 0};
    size_t from = 0;

    start_message(m, 0);
    do
        from += put_chunk(m, &t, &c, from, t.units - from < t.part ? t.units - from : t.part);
    while (from < t.units);
    if (m->len <= MOST_BYTES)
        expect_length(m, c.bytes + 3 * c.heads + head_length(true, c.filled));
}

/* Lengths around those that heads and chunks hold. */
static void check_strings(struct maker *m)
{
    static const size_t edges[] = {0, 15, 31, 1023, LONGEST_CHUNK - 3, 2 * LONGEST_CHUNK - 3, 3 * LONGEST_CHUNK - 3};
    static const size_t parts[] = {LONGEST_CHUNK, LONGEST_CHUNK - 1, 40000, 4097};
    size_t i, more, before, part;

    for (i = 0; i < sizeof edges / sizeof edges[0]; i++)
        for (more = 0; more < 8; more++)
            for (part = 0; part < sizeof parts / sizeof parts[0]; part++) {
                check_bytes(m, edges[i] + more, parts[part]);
                for (before = 0; before < 4; before++) {
                    check_text(m, (struct cut_text){edges[i] + more, before, parts[part], false});
                    check_text(m, (struct cut_text){edges[i] + more, before, parts[part], true});
                }
            }
}

/* Texts and byte strings of many chunks of a few units, and of empty ones. */
static void check_many_chunks(struct maker *m)
{
    unsigned part;

    for (part = 2; part < 12; part++) {
        check_text(m, (struct cut_text){70000, 1, part, part % 2 == 0});
        check_bytes(m, 70000, part);
    }
    start_message(m, 0);
    while (m->len < MOST_BYTES - 6)
        put_head(m, true, false, 0);
    put(m, 0x00);
    expect_length(m, 1);
}

/* A text of pairs alone, in chunks that hold an odd number of units: the cut is always at 65,534. */
static void check_pairs_alone(struct maker *m)
{
    size_t pairs, i;

    for (pairs = 32765; pairs < 32771; pairs++) {
        size_t units = 2 * pairs, heads = units > LONGEST_CHUNK;

        start_message(m, 0);
        for (i = 0; i < pairs; i++) {
            put_head(m, true, i + 1 == pairs, 2);
            put_number(m, 0xf09f9880, 4);
        }
        if (m->len <= MOST_BYTES)
            expect_length(m, 4 * pairs + 3 * heads + head_length(true, units - heads * (LONGEST_CHUNK - 1)));
    }
}

/* ---- as many bytes as there may be */

/* A list of so many counts of nine thousandths, which have nine bytes each, and of so many null values. */
static void check_counts(struct maker *m, unsigned counts, unsigned nulls)
{
    uint64_t expected = 2 + (uint64_t)counts * DOUBLE_SIZE + nulls;

    start_message(m, 0);
    put(m, 0x57);
    for (; counts > 0; counts--) {
        put(m, 0x5f);
        put_number(m, 9, 4);
    }
    for (; nulls > 0; nulls--)
        put(m, 0x4e);
    put(m, 0x5a);
    expect_by_rule(FLOAT, m->out, m->len, m->len > MOST_BYTES ? 0 : m->len);
    expect_by_rule(THOUSANDTHS, m->out, m->len, m->len > MOST_BYTES ? 0 : expected);
}

static void check_ceiling(struct maker *m)
{
    unsigned most = (MOST_BYTES - 2) / DOUBLE_SIZE, rest = (MOST_BYTES - 2) % DOUBLE_SIZE;

    check_counts(m, most, rest - 1);
    check_counts(m, most, rest);
    check_counts(m, most, rest + 1);
    check_counts(m, most + 1, rest);
    most = (MOST_BYTES - 2) / COUNT_SIZE;
    rest = (MOST_BYTES - 2) % COUNT_SIZE;
    check_counts(m, most, rest);
    check_counts(m, most, rest + 1);
    check_counts(m, 60, MOST_BYTES - 2 - 60 * COUNT_SIZE);
    check_counts(m, 60, MOST_BYTES - 1 - 60 * COUNT_SIZE);
}

/* ---- null pointers */

static void check_nulls(void)
{
    enum rule rule;

    for (rule = FLOAT; rule < RULES; rule++) {
        cases++;
        if (library_length[rule](NULL, 0) != 0)
            show_difference("nothing has a length", rule, NULL, 0);
    }
}

/* ---- random messages */

static void check_random(struct maker *m, unsigned long count)
{
    unsigned times;

    for (; count > 0; count--) {
        start_message(m, 1 + chance(60));
        put_random(m);
        if (chance(3) == 0)
            for (times = 1 + chance(3); times > 0; times--)
                damage(m);
        check_made(m);
    }
}

int main(int argc, char **argv)
{
    unsigned long count = 60000;
    struct maker m;

    if (argc < 2 || argc > 4) {
        fputs("usage: check_length CASES [COUNT [SEED]]\n", stderr);
        return 2;
    }
    if (argc > 2)
        count = strtoul(argv[2], NULL, 10);
    seed = argc > 3 ? strtoull(argv[3], NULL, 10) : 1;
    m.out = allocate(MOST_MESSAGE);
    check_nulls();
    check_examples();
    check_numbers(&m);
    check_lists(&m);
    check_strings(&m);
    check_many_chunks(&m);
    check_pairs_alone(&m);
    check_ceiling(&m);
    each_message(argv[1], check_message);
    check_random(&m, count);
    free(m.out);
    printf("check_length: %lu cases, %lu differences\n", cases, differences);
    return differences == 0 ? 0 : 1;
}
