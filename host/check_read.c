/*
 * Checks hessian_read and hessian_read_thousandths from C.
 *
 *     check_read CASES EXPECTED [COUNT [SEED]]
 *
 * CASES and EXPECTED are stdin and stdout of record_vectors; crates/record_vectors/vectors.py says what their lines
 * mean. After them come COUNT random messages, valid and damaged, from SEED. Each is read by both rules of 5f: library
 * and baseline get the same message and the same table between guard bytes, at any alignment. Checked is that
 *   - answer, lengths and checksum are those of EXPECTED;
 *   - both readers give the same answer and leave the same bytes;
 *   - both rules give the same answer and the same rows, but for the bits of doubles at a 5f;
 *   - the fifth numbers of accepted rows are those that kinds and counts give, and lead through the record;
 *   - the guards, the message, the bytes past the rows accepted and, after a refusal, the whole table are unchanged.
 *
 * Compiled with SELF, the baseline stands in for the library.
 */
#include <inttypes.h>
#include <stdbool.h>
#include <stdio.h>
#include <stdlib.h>
#include <string.h>

#include "afters.h"
#include "baseline.h"
#include "generate.h"
#include "rows.h"
#include "support.h"

#ifdef SELF
#define hessian_read baseline_read
#define hessian_read_thousandths baseline_read_thousandths
#define hessian_shortest_length baseline_shortest_length
#define hessian_shortest_length_thousandths baseline_shortest_length_thousandths
#endif

enum {
    MOST_LENT = 8000, /* numbers of a table in CASES */
    MOST_SHOWN = 10
};

const char *const check_name = "check_read";

static unsigned long cases, differences;

/* The rules of 5f. */
enum { FLOAT, THOUSANDTHS, RULES };

typedef uint64_t reading(const uint8_t *message, size_t message_len, uint8_t *table, size_t table_len);

static reading *const library[RULES] = {hessian_read, hessian_read_thousandths};
static reading *const baseline[RULES] = {baseline_read, baseline_read_thousandths};

/* Byte i of a table before a call. Number k is 0xb1a0000000000000 + k; part of one may stand at the end. */
static uint8_t table_byte(size_t i)
{
    uint64_t number = UINT64_C(0xb1a0000000000000) + i / 8;

    return (uint8_t)(number >> (56 - i % 8 * 8));
}

static uint64_t checksum(const uint8_t *table, size_t numbers)
{
    uint64_t sum = 7;
    size_t i, j;

    for (i = 0; i < numbers; i++) {
        uint64_t number = 0;

        for (j = 0; j < 8; j++)
            number = number << 8 | table[8 * i + j];
        sum = (sum * 1000003 + (number >> 32)) % 0x7fffffff;
        sum = (sum * 1000003 + (number & 0xffffffff)) % 0x7fffffff;
    }
    return sum;
}

/* ---- a case */

static void show_difference(const char *what, const uint8_t *message, size_t message_len, size_t table_len)
{
    size_t i;

    if (differences++ >= MOST_SHOWN)
        return;
    printf("%s\n    table of %zu bytes, message of %zu bytes:", what, table_len, message_len);
    for (i = 0; i < message_len && i < 400; i++)
        printf(" %02x", message[i]);
    printf(i < message_len ? " ..\n" : "\n");
}

/* Whether the fifth numbers of the first rows of a table are right. */
static bool ends_right(const uint8_t *table, size_t rows)
{
    uint8_t *other = allocate(rows * ROW_SIZE);
    bool right;

    memcpy(other, table, rows * ROW_SIZE);
    set_afters(other, rows);
    right = memcmp(other, table, rows * ROW_SIZE) == 0 && leads_through(table, rows);
    free(other);
    return right;
}

/* What a reading left. */
struct result {
    uint64_t answer;
    struct lent table;
};

/* Reads a message with both readers by one rule: what the library left. */
static struct result try_rule(unsigned rule, const uint8_t *source, size_t len, size_t table_len)
{
    size_t shift = cases % 8;
    struct result r = {0, new_lent(table_len, shift, table_byte)};
    struct lent two = new_lent(table_len, shift, table_byte);
    /* a block that ends with the message, so that a memory checker sees any read past its end */
    uint8_t *block = allocate(len + cases % 3), *message = block + cases % 3;
    uint64_t other;
    char what[300];

    memcpy(message, source, len);
    r.answer = library[rule](message, len, lent_bytes(&r.table), table_len);
    if (memcmp(message, source, len) != 0)
        show_difference("the message is changed", source, len, table_len);
    other = baseline[rule](message, len, lent_bytes(&two), table_len);
    if (r.answer != other) {
        snprintf(what, sizeof what, "library %u %zu %zu, baseline %u %zu %zu", number_of(r.answer), count_of(r.answer),
                 place_of(r.answer), number_of(other), count_of(other), place_of(other));
        show_difference(what, source, len, table_len);
    } else if (!alike(&r.table, &two)) {
        show_difference("library and baseline leave different bytes", source, len, table_len);
    }
    if (!kept(&r.table, number_of(r.answer) == 0 ? count_of(r.answer) * ROW_SIZE : 0))
        show_difference("the library changes bytes that must stay", source, len, table_len);
    cases++;
    free(block);
    free(two.block);
    return r;
}

/* Whether rows are the same by both rules, but for the bits of doubles at a 5f. */
static bool same_but_doubles(const uint8_t *source, const uint8_t *one, const uint8_t *two, size_t rows)
{
    size_t i;
    unsigned which;

    for (i = 0; i < rows; i++)
        for (which = 0; which < ROW_NUMBERS; which++)
            if (get_number(one, i, which) != get_number(two, i, which) &&
                !(which == FIRST && get_number(one, i, KIND) == HESSIAN_DOUBLE &&
                  source[get_number(one, i, PLACE)] == 0x5f))
                return false;
    return true;
}

/* The line of EXPECTED as it is by these results and lengths. */
static void line_of(const struct result *results, const uint64_t *lengths, size_t lent, char *line, size_t size)
{
    size_t used = 0;
    unsigned rule;

    for (rule = 0; rule < RULES; rule++) {
        const struct result *r = &results[rule];

        used += (size_t)snprintf(line + used, size - used, "%u %zu %zu %" PRIu64 " %" PRIu64 " ok; ",
                                 number_of(r->answer), count_of(r->answer), place_of(r->answer),
                                 number_of(r->answer) == 0 ? lengths[rule] : 0,
                                 checksum(lent_bytes(&r->table), lent));
    }
    snprintf(line + used, size - used, "%" PRIu64 " %" PRIu64, lengths[FLOAT], lengths[THOUSANDTHS]);
}

/*
 * Reads a message with both readers by both rules. `expected` is the line of EXPECTED, or NULL; its checksums are over
 * the first `lent` numbers of the table.
 */
static uint64_t try_message(const uint8_t *source, size_t len, size_t table_len, size_t lent, const char *expected)
{
    struct result results[RULES] = {try_rule(FLOAT, source, len, table_len),
                                    try_rule(THOUSANDTHS, source, len, table_len)};
    uint64_t lengths[RULES] = {hessian_shortest_length(source, len), hessian_shortest_length_thousandths(source, len)};
    const uint8_t *one = lent_bytes(&results[FLOAT].table), *two = lent_bytes(&results[THOUSANDTHS].table);
    uint64_t answer = results[FLOAT].answer;
    size_t rows = number_of(answer) == 0 ? count_of(answer) : 0;
    char line[200], what[500];

    if (answer != results[THOUSANDTHS].answer)
        show_difference("the rules give different answers", source, len, table_len);
    else if (!same_but_doubles(source, one, two, rows))
        show_difference("the rules give different rows", source, len, table_len);
    if (rows > 0 && !ends_right(one, rows))
        show_difference("a fifth number is wrong", source, len, table_len);
    line_of(results, lengths, lent, line, sizeof line);
    if (expected != NULL && strcmp(line, expected) != 0) {
        snprintf(what, sizeof what, "library %s, expected %.200s", line, expected);
        show_difference(what, source, len, table_len);
    }
    free(results[FLOAT].table.block);
    free(results[THOUSANDTHS].table.block);
    return answer;
}

/* ---- the cases of record_vectors */

static void check_vectors(const char *cases_name, const char *expected_name)
{
    char *cases_text = read_file(cases_name), *expected_text = read_file(expected_name);
    char *cases_rest = cases_text, *expected_rest = expected_text, *line;
    uint8_t *message = allocate(MOST_MESSAGE);
    size_t len;

    while ((line = next_line(&cases_rest)) != NULL) {
        const char *expected = next_line(&expected_rest), *rest = line;
        size_t rows, spare;
        uint64_t lent, answer;

        if (!decimal(&rest, MOST_LENT, &lent) || !groups(&rest, message, &len) || *rest != '\0' || expected == NULL)
            give_up("no case, or none expected:", line);
        /* bytes past the numbers, fewer than make a row of their own */
        spare = cases % (ROW_SIZE - lent % ROW_NUMBERS * NUMBER_SIZE);
        answer = try_message(message, len, lent * NUMBER_SIZE + spare, lent, expected);
        if (number_of(answer) != 0 && number_of(answer) != 9)
            continue;
        /* just the rows needed, and a byte less */
        rows = count_of(answer);
        if (number_of(try_message(message, len, rows * ROW_SIZE, 0, NULL)) != 0 ||
            number_of(try_message(message, len, rows * ROW_SIZE - 1, 0, NULL)) != 9)
            show_difference("not as many rows are found in a table as it has", message, len, rows * ROW_SIZE);
    }
    if (next_line(&expected_rest) != NULL)
        give_up("more is expected than there are cases", "");
    free(cases_text);
    free(expected_text);
    free(message);
}

/* ---- random messages */

static void check_random(unsigned long count)
{
    struct maker m;
    unsigned long i;

    m.out = allocate(MOST_MESSAGE);
    for (i = 0; i < count; i++) {
        unsigned times;
        size_t room;
        uint64_t answer;

        start_message(&m, 1 + chance(60));
        put_random(&m);
        if (chance(2))
            for (times = 1 + chance(3); times > 0; times--)
                damage(&m);
        /* a table of any size, with just enough rows, with one too few, of none */
        answer = baseline_read(m.out, m.len, NULL, 0);
        room = number_of(answer) == 9 ? count_of(answer) * ROW_SIZE : chance(1000);
        switch (chance(8)) {
        case 0:
            room = chance((unsigned)room + 1);
            break;
        case 1:
            room = room > 0 ? room - 1 : 0;
            break;
        case 2:
            room = 0;
            break;
        case 3:
            room += chance(500);
            break;
        default:
            room += chance(ROW_SIZE);
        }
        try_message(m.out, m.len, room, 0, NULL);
    }
    free(m.out);
}

int main(int argc, char **argv)
{
    unsigned long count = 100000;

    if (argc < 3 || argc > 5) {
        fprintf(stderr, "usage: check_read CASES EXPECTED [COUNT [SEED]]\n");
        return 2;
    }
    if (argc > 3)
        count = strtoul(argv[3], NULL, 10);
    seed = argc > 4 ? strtoull(argv[4], NULL, 10) : 1;
    check_vectors(argv[1], argv[2]);
    check_random(count);
    printf("check_read: %lu cases, %lu differences\n", cases, differences);
    return differences == 0 ? 0 : 1;
}
