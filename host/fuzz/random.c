/*
 * Random messages and holdings files, valid and damaged, through compare.
 *
 *     fuzz_random SECONDS [SEED]     runs so long; an input that differs goes to the file `difference`
 *     fuzz_random FILE               one input once more
 */
#include <inttypes.h>
#include <stdio.h>
#include <stdlib.h>
#include <string.h>
#include <time.h>

#include "../generate.h"
#include "../support.h"
#include "compare.h"
#include "holdings.h"

const char *const check_name = "fuzz_random";

static int keep_difference(const uint8_t *data, size_t size)
{
    FILE *file = fopen("difference", "wb");

    if (file == NULL || fwrite(data, 1, size, file) != size || fclose(file) != 0)
        give_up("cannot write the file", "difference");
    fputs("fuzz_random: the input is in the file difference\n", stderr);
    return 1;
}

static void make_message(struct maker *m)
{
    unsigned times;

    start_message(m, 1 + chance(60));
    put_random(m);
    if (chance(3) == 0)
        for (times = 1 + chance(3); times > 0; times--)
            damage(m);
}

/* ---- holdings files */

enum { MOST_ENTRIES = 12, MOST_PART = 60000 };

/* Entries of messages, some of which come again; and now and then damage. */
static size_t make_entries(struct maker *m, uint8_t *entries)
{
    unsigned count = chance(MOST_ENTRIES);
    size_t len = 0;

    for (; count > 0; count--) {
        if (chance(4) != 0)
            make_message(m);
        len = put_entry(entries, len, MOST_PART, m->out, m->len);
    }
    if (len > 0 && chance(3) == 0)
        entries[chance((unsigned)len)] = (uint8_t)random_bits();
    if (chance(8) == 0)
        len = chance((unsigned)len + 1);
    return len;
}

/* A file and records, mostly with some that are in the file. */
static void make_held(struct maker *m)
{
    static uint8_t entries[MOST_PART], records[MOST_PART];
    struct held h = {chance(2) == 0 ? HELD_TIDY : chance(HELD_FLAGS), entries, 0, records, 0};

    make_message(m);
    h.entries_len = make_entries(m, entries);
    if (chance(3) == 0) {
        h.records_len = h.entries_len;
        memcpy(records, entries, h.entries_len);
    } else {
        h.records_len = make_entries(m, records);
    }
    m->len = pack_held(&h, m->out, MOST_MESSAGE);
}

static int run(double seconds)
{
    time_t end = time(NULL) + (time_t)seconds;
    unsigned long executions = 0;
    struct maker m;

    m.out = allocate(MOST_MESSAGE);
    do {
        (chance(4) == 0 ? make_held : make_message)(&m);
        if (!compare(m.out, m.len))
            return keep_difference(m.out, m.len);
        executions++;
    } while (time(NULL) < end);
    printf("fuzz_random: %lu executions, 0 differences\n", executions);
    free(m.out);
    return 0;
}

static int run_file(const char *name)
{
    static uint8_t data[MOST_MESSAGE];
    FILE *file = fopen(name, "rb");
    size_t size;

    if (file == NULL)
        give_up("cannot open", name);
    size = fread(data, 1, sizeof data, file);
    fclose(file);
    if (!compare(data, size))
        return 1;
    puts("fuzz_random: no difference");
    return 0;
}

int main(int argc, char **argv)
{
    char *end;
    double seconds;

    if (argc < 2 || argc > 3) {
        fputs("usage: fuzz_random SECONDS [SEED] or fuzz_random FILE\n", stderr);
        return 2;
    }
    seconds = strtod(argv[1], &end);
    if (*end != '\0')
        return run_file(argv[1]);
    seed = argc > 2 ? strtoull(argv[2], NULL, 10) : (uint64_t)time(NULL);
    printf("fuzz_random: seed %" PRIu64 "\n", seed);
    return run(seconds);
}
