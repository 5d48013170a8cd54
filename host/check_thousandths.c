/*
 * Checks hessian_read_thousandths from C, and hessian_write after it. check_read compares both rules of 5f on messages;
 * here are many counts, and what becomes of the rows.
 *
 *     check_thousandths CASES [COUNT [SEED]]
 *
 * CASES is stdin of record_vectors; crates/record_vectors/vectors.py says what its lines mean. Read are its messages,
 * all counts of 17 bits, those around each power of two, and COUNT random messages, from SEED, half of them lists of a
 * thousand counts. Checked is that
 *   - hessian_read_thousandths answers what baseline_read_thousandths does, and stores the same rows;
 *   - hessian_write, with room for any message, writes of them what baseline_write does, or both answer HESSIAN_LENGTH;
 *   - that reads back, by hessian_read, as the same rows but for places, and is written from them again;
 *   - a list of counts whose shortest form has the most bytes that a message has is written, and not with a byte more;
 *   - a pointer may be null where its length is 0.
 */
#include <stdbool.h>
#include <stdio.h>
#include <stdlib.h>
#include <string.h>

#include "baseline.h"
#include "generate.h"
#include "hessian.h"
#include "rows.h"
#include "support.h"

enum {
    TABLE_LEN = MOST_BYTES * ROW_SIZE,
    COUNTS = 1000, /* of a list */
    COUNT_SIZE = 5,
    DOUBLE_SIZE = 9,
    MOST_SHOWN = 10
};

const char *const check_name = "check_thousandths";

static unsigned long cases, differences;

/* Of the library, of the baseline, and read back. */
static uint8_t table[TABLE_LEN], plain_table[TABLE_LEN], back_table[TABLE_LEN];
static uint8_t output[MOST_BYTES], plain_output[MOST_BYTES], again[MOST_BYTES];

static void show_difference(const char *what, const uint8_t *message, size_t len)
{
    size_t i;

    if (differences++ >= MOST_SHOWN)
        return;
    printf("%s\n    message of %zu bytes:", what, len);
    for (i = 0; i < len && i < 400; i++)
        printf(" %02x", message[i]);
    puts(i < len ? " .." : "");
}

/* ---- a message */

/* Whether rows agree in all but their places. */
static bool same_record(const uint8_t *one, const uint8_t *two, size_t rows)
{
    size_t i;

    for (i = 0; i < rows; i++) {
        hessian_row a = hessian_row_at(one, i), b = hessian_row_at(two, i);

        if (a.kind != b.kind || a.first != b.first || a.second != b.second || a.after != b.after)
            return false;
    }
    return true;
}

/* What was written of rows: it reads back as them, and is written from them again. */
static void check_back(const uint8_t *message, size_t len, size_t rows, size_t written)
{
    uint64_t answer = hessian_read(output, written, back_table, sizeof back_table);

    if (number_of(answer) != HESSIAN_ACCEPTED || count_of(answer) != rows || !same_record(table, back_table, rows))
        show_difference("what is written reads back as another record", message, len);
    answer = hessian_write(output, written, back_table, rows * ROW_SIZE, rows, again, sizeof again);
    if (number_of(answer) != HESSIAN_ACCEPTED || count_of(answer) != written || memcmp(again, output, written) != 0)
        show_difference("what is written is written otherwise", message, len);
}

/* Writes the rows in the table: the answer. */
static uint64_t check_written(const uint8_t *message, size_t len, size_t rows)
{
    uint64_t answer = hessian_write(message, len, table, rows * ROW_SIZE, rows, output, sizeof output);
    uint64_t plain = baseline_write(message, len, table, rows * ROW_SIZE, rows, plain_output, sizeof plain_output);

    if (answer != plain)
        show_difference("library and baseline do not write alike", message, len);
    else if (number_of(answer) != HESSIAN_ACCEPTED && number_of(answer) != HESSIAN_LENGTH)
        show_difference("rows are not written", message, len);
    else if (memcmp(output, plain_output, count_of(answer)) != 0)
        show_difference("library and baseline write different bytes", message, len);
    else if (number_of(answer) == HESSIAN_ACCEPTED)
        check_back(message, len, rows, count_of(answer));
    return answer;
}

/* Reads a message, and writes its rows: the answer to that, or to reading where it is refused. */
static uint64_t check_message(const uint8_t *message, size_t len)
{
    uint64_t answer = hessian_read_thousandths(message, len, table, sizeof table);
    uint64_t plain = baseline_read_thousandths(message, len, plain_table, sizeof plain_table);

    cases++;
    if (answer != plain) {
        show_difference("library and baseline answer differently", message, len);
        return answer;
    }
    if (number_of(answer) != HESSIAN_ACCEPTED)
        return answer;
    if (memcmp(table, plain_table, count_of(answer) * ROW_SIZE) != 0)
        show_difference("library and baseline store different rows", message, len);
    return check_written(message, len, count_of(answer));
}

static void check_vector(const uint8_t *message, size_t len)
{
    check_message(message, len);
}

/* ---- counts */

static void put_count(struct maker *m, int64_t count)
{
    put(m, 0x5f);
    put_number(m, (uint64_t)count, 4);
}

/* A list of counts, from `first` on, of which each is a step more. */
static void check_counts(struct maker *m, int64_t first, int64_t step, unsigned n)
{
    start_message(m, 0);
    put(m, 0x57);
    for (; n > 0; n--, first += step)
        put_count(m, first);
    put(m, 0x5a);
    if (number_of(check_message(m->out, m->len)) != HESSIAN_ACCEPTED)
        show_difference("a list of counts is refused", m->out, m->len);
}

/* A count of up to 32 bits with its sign, of any length. */
static int32_t random_count(void)
{
    int32_t n = (int32_t)(random_bits() >> 33 >> chance(31));

    return chance(2) ? n : -n - 1;
}

static void check_random_counts(struct maker *m)
{
    unsigned n;

    start_message(m, 0);
    put(m, 0x57);
    for (n = COUNTS; n > 0; n--)
        put_count(m, random_count());
    put(m, 0x5a);
    check_message(m->out, m->len);
}

static void check_all_counts(struct maker *m)
{
    int64_t first, power;

    for (first = -65536; first < 65536; first += COUNTS)
        check_counts(m, first, 1, COUNTS);
    /* those of the edges are not more than 32 bits hold */
    for (power = 65536; power < INT64_C(1) << 31; power *= 2) {
        check_counts(m, power - COUNTS / 2, 1, COUNTS);
        check_counts(m, -power - COUNTS / 2, 1, COUNTS);
    }
    check_counts(m, INT32_MAX, -1, COUNTS);
    check_counts(m, INT32_MIN, 1, COUNTS);
}

static void check_random(struct maker *m, unsigned long count)
{
    for (; count > 0; count--) {
        if (count % 2 == 0) {
            check_random_counts(m);
            continue;
        }
        start_message(m, 1 + chance(60));
        put_random(m);
        check_message(m->out, m->len);
    }
}

/* ---- as many bytes as there may be */

/* A list of so many counts, which are written in nine bytes each, and of so many null values: the answer to writing. */
static uint64_t write_counts(struct maker *m, unsigned counts, unsigned nulls)
{
    start_message(m, 0);
    put(m, 0x57);
    for (; counts > 0; counts--)
        put_count(m, 1);
    for (; nulls > 0; nulls--)
        put(m, 0x4e);
    put(m, 0x5a);
    return check_message(m->out, m->len);
}

static void check_ceiling(struct maker *m)
{
    unsigned most = (MOST_BYTES - 2) / DOUBLE_SIZE, rest = (MOST_BYTES - 2) % DOUBLE_SIZE;
    uint64_t answer = write_counts(m, most, rest);

    if (number_of(answer) != HESSIAN_ACCEPTED || count_of(answer) != MOST_BYTES)
        show_difference("a list is not written in the most bytes", m->out, m->len);
    if (number_of(write_counts(m, most, rest + 1)) != HESSIAN_LENGTH)
        show_difference("a list is written in more than the most bytes", m->out, m->len);
    most = (MOST_BYTES - 2) / COUNT_SIZE;
    if (number_of(write_counts(m, most, (MOST_BYTES - 2) % COUNT_SIZE)) != HESSIAN_LENGTH || m->len != MOST_BYTES)
        show_difference("the longest list of counts is written", m->out, m->len);
}

/* ---- null pointers */

static void expect(const char *what, uint64_t answer, enum hessian_refusal number, size_t count, size_t place)
{
    cases++;
    if (number_of(answer) != number || count_of(answer) != count || place_of(answer) != place)
        show_difference(what, NULL, 0);
}

static void check_nulls(void)
{
    static const uint8_t two[] = {0x79, 0x5f, 0, 0, 0, 9};
    uint8_t row[ROW_SIZE];

    expect("null, null", hessian_read_thousandths(NULL, 0, NULL, 0), HESSIAN_LENGTH, 0, 0);
    expect("null, a row", hessian_read_thousandths(NULL, 0, row, sizeof row), HESSIAN_LENGTH, 0, 0);
    expect("a list, null", hessian_read_thousandths(two, sizeof two, NULL, 0), HESSIAN_ROOM, 2, 0);
    expect("a list, a row", hessian_read_thousandths(two, sizeof two, row, sizeof row), HESSIAN_ROOM, 2, 0);
    expect("a count, a row", hessian_read_thousandths(two + 1, COUNT_SIZE, row, sizeof row), HESSIAN_ACCEPTED, 1, 5);
    if (hessian_row_at(row, 0).first != UINT64_C(0x3f826e978d4fdf3c))
        show_difference("9 is another double", two, sizeof two);
    expect("cut, null", hessian_read_thousandths(two, sizeof two - 1, NULL, 0), HESSIAN_CUT, 0, sizeof two - 1);
}

int main(int argc, char **argv)
{
    unsigned long count = 4000;
    struct maker m;

    if (argc < 2 || argc > 4) {
        fprintf(stderr, "usage: check_thousandths CASES [COUNT [SEED]]\n");
        return 2;
    }
    if (argc > 2)
        count = strtoul(argv[2], NULL, 10);
    seed = argc > 3 ? strtoull(argv[3], NULL, 10) : 1;
    m.out = allocate(MOST_MESSAGE);
    check_nulls();
    each_message(argv[1], check_vector);
    check_ceiling(&m);
    check_all_counts(&m);
    check_random(&m, count);
    free(m.out);
    printf("check_thousandths: %lu cases, %lu differences\n", cases, differences);
    return differences == 0 ? 0 : 1;
}
