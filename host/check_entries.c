/*
 * Checks hessian_holdings_list, hessian_holdings_add and hessian_holdings_add_all from C.
 *
 *     check_entries CASES [COUNT [SEED]]
 *
 * CASES is what entry_cases prints, which says what its lines mean. COUNT random files, whole and damaged, come from
 * SEED, and what is expected of them from baseline_holdings_*; baseline is held to CASES too. Checked is that
 *   - the answer is the expected one, and so are the file, the list and the numbers afterwards, to the last byte of
 *     what was lent;
 *   - neither changes with the working memory: just enough, some numbers more, which make no index, one that gets full,
 *     and one that does not;
 *   - too little of it, and none, is 9 with count and place 0, and then nothing is changed;
 *   - the records are unchanged, guard bytes and numbers around all that was lent too, at any alignment of bytes;
 *   - what is accepted afterwards lists as before, with the new entries behind;
 *   - a pointer may be null where its length is 0.
 */
#include <inttypes.h>
#include <stdbool.h>
#include <stdio.h>
#include <stdlib.h>
#include <string.h>

#include "baseline.h"
#include "generate.h"
#include "hessian.h"
#include "rows.h"
#include "support.h"

enum {
    MOST_FILE = 2 * MOST_MESSAGE,
    MOST_ENTRIES = 600,
    MOST_INDEX = 4 * MOST_ENTRIES,
    LENGTH_SIZE = 4,
    HEADER_SIZE = 5,
    FIRST_INT = 48, /* the least that has two bytes */
    GUARDS = 8,     /* numbers behind the rows, bytes behind the bytes */
    MOST_SHOWN = 10
};

static const uint64_t GUARD = UINT64_C(0xa5a6a7a8a9aaabac);

const char *const check_name = "check_entries";

static unsigned long cases, differences;

/* ---- the functions, and the plain ones beside them */

enum what { LIST, ADD, ADD_ALL };

/* A call: what it works on. Of a list the length in bytes, of numbers in bytes too. */
struct call {
    enum what what;
    const uint8_t *file;
    size_t file_len;
    uint64_t used;
    const uint8_t *records; /* or the record */
    size_t records_len;
    size_t list_len;
};

struct memory {
    uint64_t *rows;
    size_t rows_len;
    uint8_t *bytes;
    size_t bytes_len;
};

static hessian_answer by_library(const struct call *c, struct memory m, uint8_t *file, uint8_t *list)
{
    if (c->what == LIST)
        return hessian_holdings_list(file, c->file_len, c->used, m.rows, m.rows_len, m.bytes, m.bytes_len, list,
                                     c->list_len);
    if (c->what == ADD)
        return hessian_holdings_add(file, c->file_len, c->used, c->records, c->records_len, m.rows, m.rows_len,
                                    m.bytes, m.bytes_len);
    return hessian_holdings_add_all(file, c->file_len, c->used, c->records, c->records_len, m.rows, m.rows_len,
                                    m.bytes, m.bytes_len, (uint64_t *)(void *)list, c->list_len / 8);
}

static hessian_answer by_baseline(const struct call *c, struct memory m, uint8_t *file, uint8_t *list)
{
    struct baseline_answer a;

    if (c->what == LIST)
        a = baseline_holdings_list(file, c->file_len, c->used, m.rows, m.rows_len, m.bytes, m.bytes_len, list,
                                   c->list_len);
    else if (c->what == ADD)
        a = baseline_holdings_add(file, c->file_len, c->used, c->records, c->records_len, m.rows, m.rows_len, m.bytes,
                                  m.bytes_len);
    else
        a = baseline_holdings_add_all(file, c->file_len, c->used, c->records, c->records_len, m.rows, m.rows_len,
                                      m.bytes, m.bytes_len, (uint64_t *)(void *)list, c->list_len / 8);
    return (hessian_answer){a.number, a.count, a.place};
}

typedef hessian_answer performing(const struct call *c, struct memory m, uint8_t *file, uint8_t *list);

/* What a call comes to: the answer, and all of the buffer and of the list, or of the numbers, afterwards. */
struct outcome {
    hessian_answer answer;
    const uint8_t *file, *list;
};

static void show_difference(const char *who, const char *what, const struct call *c, hessian_answer seen,
                            hessian_answer expected)
{
    static const char *const names[] = {"list", "add", "add_all"};
    size_t i;

    if (differences++ >= MOST_SHOWN)
        return;
    printf("%s, %s: %s\n    seen %" PRIu64 " %" PRIu64 " %" PRIu64 ", expected %" PRIu64 " %" PRIu64 " %" PRIu64
           "\n    used %" PRIu64 ", list of %zu bytes, file of %zu bytes:",
           who, names[c->what], what, seen.number, seen.count, seen.place, expected.number, expected.count,
           expected.place, c->used, c->list_len, c->file_len);
    for (i = 0; i < c->file_len && i < 200; i++)
        printf(" %02x", c->file[i]);
    printf("\n    records of %zu bytes:", c->records_len);
    for (i = 0; i < c->records_len && i < 200; i++)
        printf(" %02x", c->records[i]);
    puts("");
}

/* ---- lent bytes: as they are before a call, and as they have to be afterwards */

static const uint8_t *filling;

static uint8_t filled(size_t i)
{
    return filling[i];
}

static uint8_t list_byte(size_t i)
{
    return (uint8_t)(i * 7 + 3);
}

static struct lent lend(const uint8_t *bytes, size_t len, size_t shift)
{
    filling = bytes;
    return new_lent(len, shift, filled);
}

/* Takes it back: whether it is so, and all around it as it was. */
static bool take_back(struct lent *l, const uint8_t *expected)
{
    bool good;

    filling = expected;
    good = kept(l, 0);
    free(l->block);
    return good;
}

/* ---- working memory */

static uint64_t *rows;
static uint8_t *bytes;

static struct memory memory_of(size_t rows_len, size_t bytes_len)
{
    struct memory m = {rows, rows_len, bytes, bytes_len};
    size_t i;

    for (i = 0; i < GUARDS; i++) {
        rows[rows_len + i] = GUARD + i;
        bytes[bytes_len + i] = (uint8_t)(GUARD >> i);
    }
    return m;
}

static bool memory_guarded(const struct memory *m)
{
    size_t i;

    for (i = 0; i < GUARDS; i++)
        if (rows[m->rows_len + i] != GUARD + i || bytes[m->bytes_len + i] != (uint8_t)(GUARD >> i))
            return false;
    return true;
}

/* Numbers beyond those that are needed. */
static const size_t more_numbers[] = {0, 1, 4, 3, 8, 40, 11, 400, MOST_INDEX};

enum { MEMORIES = sizeof more_numbers / sizeof more_numbers[0] };

/* ---- a call in one working memory */

static void check_call_in(const char *who, performing *perform, const struct call *c, const struct outcome *expected,
                          struct memory m)
{
    size_t shift = cases++ % 8;
    struct lent file = lend(c->file, c->file_len, shift), records = lend(c->records, c->records_len, shift / 2), list;
    struct call lent = *c;
    uint8_t *before = allocate(c->list_len);
    hessian_answer seen;
    bool kept_records, kept_file, kept_list;
    size_t i;

    for (i = 0; i < c->list_len; i++)
        before[i] = list_byte(i);
    /* numbers are to be aligned */
    list = lend(before, c->list_len, c->what == ADD_ALL ? 0 : shift);
    lent.records = c->records_len > 0 ? lent_bytes(&records) : NULL;
    seen = perform(&lent, m, c->file_len > 0 ? lent_bytes(&file) : NULL,
                   c->list_len > 0 ? lent_bytes(&list) : NULL);
    kept_records = take_back(&records, c->records);
    kept_file = take_back(&file, expected->file);
    kept_list = take_back(&list, expected->list);
    if (memcmp(&seen, &expected->answer, sizeof seen) != 0)
        show_difference(who, "another answer", c, seen, expected->answer);
    else if (!kept_file)
        show_difference(who, "another file is left, or bytes beside it", c, seen, expected->answer);
    else if (!kept_list)
        show_difference(who, "another list is left, or bytes beside it", c, seen, expected->answer);
    else if (!kept_records || (m.rows != NULL && !memory_guarded(&m)))
        show_difference(who, "the records, or what lies beside working memory, is changed", c, seen, expected->answer);
    free(before);
}

/* Too little working memory: 9, and nothing is changed. */
static void check_without(const char *who, performing *perform, const struct call *c)
{
    uint8_t *before = allocate(c->list_len);
    struct outcome nothing = {{HESSIAN_ROOM, 0, 0}, c->file, before};
    size_t i;

    for (i = 0; i < c->list_len; i++)
        before[i] = list_byte(i);
    check_call_in(who, perform, c, &nothing, memory_of(HESSIAN_WORKING_NUMBERS - 1, HESSIAN_WORKING_BYTES));
    check_call_in(who, perform, c, &nothing, memory_of(HESSIAN_WORKING_NUMBERS, HESSIAN_WORKING_BYTES - 1));
    check_call_in(who, perform, c, &nothing, memory_of(0, HESSIAN_WORKING_BYTES));
    check_call_in(who, perform, c, &nothing, memory_of(HESSIAN_WORKING_NUMBERS, 0));
    check_call_in(who, perform, c, &nothing, (struct memory){NULL, 0, NULL, 0});
    free(before);
}

/* A call in so many working memories, a different one first each time. */
static void check_call(const char *who, performing *perform, const struct call *c, const struct outcome *expected,
                       unsigned memories)
{
    static unsigned next;

    for (; memories > 0; memories--)
        check_call_in(who, perform, c, expected,
                      memory_of(HESSIAN_WORKING_NUMBERS + more_numbers[next++ % MEMORIES], HESSIAN_WORKING_BYTES));
}

/* ---- cases from the file */

static uint8_t *field(const char **text, size_t *len)
{
    uint8_t *found = allocate(MOST_MESSAGE);

    if (strncmp(*text, " ;", 2) != 0)
        give_up("no case:", *text);
    *text += 2;
    if (!groups(text, found, len))
        give_up("no bytes:", *text);
    return found;
}

static uint64_t number(const char **text)
{
    uint64_t n;

    if (*(*text)++ != ' ' || !decimal(text, UINT64_MAX, &n))
        give_up("no number:", *text - 1);
    return n;
}

/* Puts bytes at a place of others, which have room for them. */
static void overlay(uint8_t *to, size_t to_len, uint64_t place, const uint8_t *from, size_t len)
{
    if (len == 0)
        return;
    if (place > to_len || len > to_len - place)
        give_up("a case has no room for what it expects", "");
    memcpy(to + place, from, len);
}

/* Big-endian numbers as this machine has them. */
static void to_numbers(uint8_t *list, size_t len)
{
    size_t i;

    for (i = 0; i + 8 <= len; i += 8) {
        uint64_t n = hessian_number_at(list + i);

        memcpy(list + i, &n, sizeof n);
    }
}

static void check_line(const char *line)
{
    struct call c = {LIST, NULL, 0, 0, NULL, 0, 0};
    size_t word = strcspn(line, " "), appended_len = 0, listed_len = 0, i;
    const char *text = line + word;
    struct outcome expected;
    uint8_t *file, *after, *records, *appended = NULL, *listed = NULL, *list;

    c.what = word == 4 ? LIST : strncmp(line, "add", 3) == 0 ? ADD : ADD_ALL;
    c.used = number(&text);
    if (c.what != ADD)
        c.list_len = (size_t)number(&text) * (c.what == ADD_ALL ? 8 : 1);
    expected.answer.number = number(&text);
    expected.answer.count = number(&text);
    expected.answer.place = number(&text);
    c.file = file = field(&text, &c.file_len);
    c.records = records = c.what == LIST ? NULL : field(&text, &c.records_len);
    if (c.what != LIST)
        appended = field(&text, &appended_len);
    if (c.what != ADD)
        listed = field(&text, &listed_len);
    if (*text != '\0')
        give_up("no end of a case:", text);
    after = allocate(c.file_len);
    memcpy(after, file, c.file_len);
    overlay(after, c.file_len, c.used, appended, appended_len);
    list = allocate(c.list_len);
    for (i = 0; i < c.list_len; i++)
        list[i] = list_byte(i);
    if (c.what == ADD_ALL)
        to_numbers(listed, listed_len);
    overlay(list, c.list_len, 0, listed, listed_len);
    expected.file = after;
    expected.list = list;
    check_call("baseline", by_baseline, &c, &expected, 1);
    check_call("library", by_library, &c, &expected, c.file_len > MOST_BYTES ? 2 : MEMORIES);
    check_without("library", by_library, &c);
    free(file), free(after), free(records), free(appended), free(listed), free(list);
}

static void check_cases(const char *name)
{
    char *text = read_file(name), *rest = text, *line;

    while ((line = next_line(&rest)) != NULL)
        check_line(line);
    free(text);
}

/* ---- random files */

/* Messages, in the spelling that they were made in. */
struct pool {
    struct maker m[16];
    unsigned count;
};

/* Bytes that grow, and never past MOST_FILE. */
struct build {
    uint8_t *bytes;
    size_t len;
};

static void append(struct build *b, const uint8_t *more, size_t len)
{
    if (len > MOST_FILE - b->len)
        len = MOST_FILE - b->len;
    memcpy(b->bytes + b->len, more, len);
    b->len += len;
}

static void append_entry(struct build *b, const uint8_t *message, size_t len)
{
    uint8_t length[LENGTH_SIZE] = {(uint8_t)(len >> 24), (uint8_t)(len >> 16), (uint8_t)(len >> 8), (uint8_t)len};

    append(b, length, sizeof length);
    append(b, message, len);
}

/* An entry of the shortest message, or of the message itself where it has none. */
static void append_shortest(struct build *b, const struct maker *m)
{
    uint8_t *table = (uint8_t *)rows;
    size_t table_len = (size_t)HESSIAN_WORKING_NUMBERS * sizeof *rows;
    uint64_t read = baseline_read(m->out, m->len, table, table_len);

    if (number_of(read) == 0)
        append_entry(b, bytes, count_of(baseline_write(m->out, m->len, table, table_len, count_of(read), bytes,
                                                       HESSIAN_WORKING_BYTES)));
    else
        append_entry(b, m->out, m->len);
}

/* A message: an int, which meets again soon or is among many, or any; now and then one with damage. */
static void make_message(struct maker *m)
{
    start_message(m, 1 + chance(8));
    if (chance(3) == 0) {
        put(m, 0x49);
        put_number(m, chance(2) == 0 ? chance(60) : FIRST_INT + chance(MOST_ENTRIES), 4);
    } else {
        put_random(m);
    }
    if (chance(40) == 0)
        damage(m);
}

static void make_pool(struct pool *p)
{
    unsigned i;

    p->count = 1 + chance(sizeof p->m / sizeof p->m[0]);
    for (i = 0; i < p->count; i++)
        make_message(&p->m[i]);
}

static void make_file(struct build *b, const struct pool *p)
{
    static const uint8_t header[HEADER_SIZE] = {'S', 'W', 'P', 0, 1};
    unsigned i, entries = chance(p->count + 1);

    b->len = 0;
    append(b, header, sizeof header);
    for (i = 0; i < entries; i++) {
        const struct maker *m = &p->m[chance(60) == 0 ? chance(p->count) : i];

        if (chance(60) == 0)
            append_entry(b, m->out, m->len);
        else
            append_shortest(b, m);
    }
}

/* Ints, each once, so that there are many entries. */
static void make_ints(struct build *b, unsigned count)
{
    uint8_t message[2];
    unsigned i;

    b->len = 0;
    append(b, (const uint8_t *)"SWP\0\1", HEADER_SIZE);
    for (i = 0; i < count; i++) {
        message[0] = (uint8_t)(0xc8 + (FIRST_INT + i) / 256);
        message[1] = (uint8_t)(FIRST_INT + i);
        append_entry(b, message, sizeof message);
    }
}

/* Damage to a file or to records. */
static void damage_build(struct build *b)
{
    size_t at = b->len > 0 ? chance((unsigned)b->len) : 0;

    if (b->len == 0)
        return;
    if (chance(3) == 0)
        b->len = at;
    else if (chance(2) == 0)
        b->bytes[at] = (uint8_t)random_bits();
    else
        b->bytes[at] ^= (uint8_t)(1u << chance(8));
}

/* What baseline says of a call, and the same of the library; the file afterwards is left in the build. */
static hessian_answer check_against_baseline(const struct call *c, uint8_t *after)
{
    uint8_t *list = allocate(c->list_len);
    struct outcome expected = {{0, 0, 0}, after, list};
    size_t i;

    memcpy(after, c->file, c->file_len);
    for (i = 0; i < c->list_len; i++)
        list[i] = list_byte(i);
    expected.answer = by_baseline(c, memory_of(HESSIAN_WORKING_NUMBERS, HESSIAN_WORKING_BYTES), after, list);
    check_call("library", by_library, c, &expected, 3);
    if (cases % 16 == 0)
        check_without("library", by_library, c);
    free(list);
    return expected.answer;
}

/* What was accepted lists: so many entries as before, or more, and those before are where they were. */
static void check_afterwards(const struct call *c, const uint8_t *after, hessian_answer added)
{
    struct call list = {LIST, after, c->file_len, added.place, NULL, 0, 16 * MOST_ENTRIES};
    uint8_t *other = allocate(c->file_len);
    hessian_answer a;

    if (added.number == HESSIAN_ACCEPTED && added.place > 0) {
        a = check_against_baseline(&list, other);
        if (a.number != HESSIAN_ACCEPTED || a.place != added.place || (c->what == ADD && a.count <= added.count))
            show_difference("library", "what was added to does not list", &list, a, added);
        else if (c->used > 0 && memcmp(after, c->file, (size_t)c->used) != 0)
            show_difference("library", "what was there before is changed", c, a, added);
    }
    free(other);
}

/* Room behind a file: none, just enough for some records, or plenty. */
static size_t some_room(size_t records_len)
{
    size_t most = records_len + HEADER_SIZE + LENGTH_SIZE;

    switch (chance(4)) {
    case 0:
        return 0;
    case 1:
        return chance((unsigned)most + 1);
    default:
        return most + chance(30);
    }
}

/* Lists a file, adds a record of the pool and some of them; now and then to no file. */
static void check_file(struct build *b, const struct pool *p, struct build *records, uint8_t *after)
{
    struct call c = {LIST, b->bytes, b->len, b->len, NULL, 0, 16 * (size_t)chance(20) + chance(16)};
    const struct maker *m = &p->m[chance(p->count)];
    unsigned i, count = chance(12);
    hessian_answer a;

    if (chance(6) == 0)
        c.used += chance(3) - 1u;
    check_against_baseline(&c, after);
    for (records->len = 0, i = 0; i < count; i++) {
        const struct maker *r = &p->m[chance(p->count)];

        append_entry(records, r->out, r->len);
    }
    if (chance(6) == 0)
        damage_build(records);
    if (chance(6) == 0)
        c.used = 0;
    c.file_len += some_room(records->len);
    if (c.file_len > MOST_FILE)
        c.file_len = MOST_FILE;
    memset(b->bytes + b->len, 0xa5, c.file_len - b->len);
    c.what = ADD;
    c.records = m->out;
    c.records_len = m->len;
    c.list_len = 0;
    a = check_against_baseline(&c, after);
    check_afterwards(&c, after, a);
    c.what = ADD_ALL;
    c.records = records->bytes;
    c.records_len = records->len;
    c.list_len = 8 * (size_t)chance(14);
    a = check_against_baseline(&c, after);
    check_afterwards(&c, after, a);
}

static void check_random(unsigned long count)
{
    struct build file = {allocate(MOST_FILE), 0}, records = {allocate(MOST_FILE), 0};
    uint8_t *after = allocate(MOST_FILE);
    struct pool p;
    unsigned i;

    for (i = 0; i < sizeof p.m / sizeof p.m[0]; i++)
        p.m[i].out = allocate(MOST_MESSAGE);
    for (; count > 0; count--) {
        make_pool(&p);
        if (chance(50) == 0)
            make_ints(&file, chance(MOST_ENTRIES - 20));
        else
            make_file(&file, &p);
        if (chance(4) == 0)
            damage_build(&file);
        check_file(&file, &p, &records, after);
    }
    for (i = 0; i < sizeof p.m / sizeof p.m[0]; i++)
        free(p.m[i].out);
    free(file.bytes), free(records.bytes), free(after);
}

int main(int argc, char **argv)
{
    unsigned long count = 4000;

    if (argc < 2 || argc > 4) {
        fputs("usage: check_entries CASES [COUNT [SEED]]\n", stderr);
        return 2;
    }
    if (argc > 2)
        count = strtoul(argv[2], NULL, 10);
    seed = argc > 3 ? strtoull(argv[3], NULL, 10) : 1;
    rows = allocate((HESSIAN_WORKING_NUMBERS + MOST_INDEX + GUARDS) * sizeof *rows);
    bytes = allocate(HESSIAN_WORKING_BYTES + GUARDS);
    check_cases(argv[1]);
    check_random(count);
    free(rows), free(bytes);
    printf("check_entries: %lu cases, %lu differences\n", cases, differences);
    return differences == 0 ? 0 : 1;
}
