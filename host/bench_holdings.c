/*
 * Times the library and the plain functions of baseline/ on holdings files of small records, with and without an index.
 *
 *     bench_holdings [ENTRIES]...     1000, 20000 and 100000, if no number is given
 *
 * list lists the file; found adds a record that it has, new one that it has not; all adds a thousand new records at
 * once, again all of its own records. A ratio above 1 says that the library is faster. Without an index the time of
 * each call goes by the square of the entries: above 50,000 only list is timed so.
 */
#ifndef _POSIX_C_SOURCE
#define _POSIX_C_SOURCE 199309L /* clock_gettime */
#endif

#include <stdbool.h>
#include <stdio.h>
#include <stdlib.h>
#include <string.h>
#include <time.h>

#include "baseline.h"
#include "hessian.h"

enum { MOST_ENTRY = 40, BATCH = 1000, ROUNDS = 5, MANY = 50000 };

static const double ENOUGH = 0.5; /* seconds of rounds */

enum job { LIST, FOUND, NEW, ALL, AGAIN, JOBS };

static const char *const job_names[JOBS] = {"list", "found", "new", "all", "again"};

/* A file, records for it, and what is lent. */
struct bench {
    uint8_t *file, *records, *own, *list, *bytes;
    size_t used, room, records_len, own_len, list_len, entries;
    uint64_t *rows, *numbers;
    size_t rows_len;
};

static void *allocate(size_t size)
{
    void *p = malloc(size);

    if (p == NULL) {
        fputs("bench_holdings: no memory\n", stderr);
        exit(2);
    }
    return p;
}

static double now(void)
{
    struct timespec t;

    clock_gettime(CLOCK_MONOTONIC, &t);
    return (double)t.tv_sec + (double)t.tv_nsec * 1e-9;
}

/* The entry of a record with its number and a name: a list of an int of three bytes and a text. */
static size_t put_record(uint8_t *p, unsigned n)
{
    int text = snprintf((char *)p + 9, MOST_ENTRY - 9, "record %u of a drive", n);
    size_t len = 5 + (size_t)text;

    p[0] = p[1] = p[2] = 0;
    p[3] = (uint8_t)len;
    p[4] = 0x7a;
    n += 2048;
    p[5] = (uint8_t)(0xd4 + (n >> 16));
    p[6] = (uint8_t)(n >> 8);
    p[7] = (uint8_t)n;
    p[8] = (uint8_t)text;
    return 4 + len;
}

static void start(struct bench *b, size_t entries)
{
    unsigned i;

    b->entries = entries;
    b->room = (entries + BATCH) * MOST_ENTRY;
    b->file = allocate(b->room);
    b->records = allocate(BATCH * MOST_ENTRY);
    b->own = allocate(b->room);
    b->list_len = entries * HESSIAN_LISTED_SIZE;
    b->list = allocate(b->list_len);
    b->bytes = allocate(HESSIAN_WORKING_BYTES);
    b->numbers = allocate((entries + BATCH) * sizeof *b->numbers);
    b->rows = allocate((HESSIAN_WORKING_NUMBERS + (entries + BATCH) * HESSIAN_INDEX_NUMBERS) * sizeof *b->rows);
    b->used = b->own_len = b->records_len = 0;
    for (i = 0; i < entries; i++)
        b->own_len += put_record(b->own + b->own_len, i);
    for (i = 0; i < BATCH; i++)
        b->records_len += put_record(b->records + b->records_len, (unsigned)entries + i);
    memcpy(b->file, "SWP\0\1", 5);
    memcpy(b->file + 5, b->own, b->own_len);
    b->used = 5 + b->own_len;
}

static void finish(struct bench *b)
{
    free(b->file), free(b->records), free(b->own), free(b->list), free(b->bytes), free(b->numbers), free(b->rows);
}

/* A record, behind its length. */
static const uint8_t *message_of(const uint8_t *entry)
{
    return entry + 4;
}

static uint64_t by_library(const struct bench *b, enum job job)
{
    const uint8_t *one = job == FOUND ? b->own : b->records, *all = job == AGAIN ? b->own : b->records;
    size_t all_len = job == AGAIN ? b->own_len : b->records_len;

    if (job == LIST)
        return hessian_holdings_list(b->file, b->used, b->used, b->rows, b->rows_len, b->bytes, HESSIAN_WORKING_BYTES,
                                     b->list, b->list_len).number;
    if (job == FOUND || job == NEW)
        return hessian_holdings_add(b->file, b->room, b->used, message_of(one), one[3], b->rows, b->rows_len, b->bytes,
                                    HESSIAN_WORKING_BYTES).number;
    return hessian_holdings_add_all(b->file, b->room, b->used, all, all_len, b->rows, b->rows_len, b->bytes,
                                    HESSIAN_WORKING_BYTES, b->numbers, b->entries + BATCH).number;
}

static uint64_t by_baseline(const struct bench *b, enum job job)
{
    const uint8_t *one = job == FOUND ? b->own : b->records, *all = job == AGAIN ? b->own : b->records;
    size_t all_len = job == AGAIN ? b->own_len : b->records_len;

    if (job == LIST)
        return baseline_holdings_list(b->file, b->used, b->used, b->rows, b->rows_len, b->bytes, HESSIAN_WORKING_BYTES,
                                      b->list, b->list_len).number;
    if (job == FOUND || job == NEW)
        return baseline_holdings_add(b->file, b->room, b->used, message_of(one), one[3], b->rows, b->rows_len, b->bytes,
                                     HESSIAN_WORKING_BYTES).number;
    return baseline_holdings_add_all(b->file, b->room, b->used, all, all_len, b->rows, b->rows_len, b->bytes,
                                     HESSIAN_WORKING_BYTES, b->numbers, b->entries + BATCH).number;
}

/* The least time of some rounds; of one, where that takes long. */
static double seconds(const struct bench *b, enum job job, uint64_t (*by)(const struct bench *, enum job))
{
    double least = 1e9, start = now(), before, took;
    int rounds;

    for (rounds = 0; rounds < ROUNDS || now() - start < ENOUGH / 5; rounds++) {
        before = now();
        if (by(b, job) != HESSIAN_ACCEPTED) {
            fputs("bench_holdings: a call was refused\n", stderr);
            exit(1);
        }
        took = now() - before;
        least = took < least ? took : least;
        if (now() - start > ENOUGH)
            break;
    }
    return least;
}

static void time_file(size_t entries)
{
    struct bench b;
    int with_index;
    enum job job;

    start(&b, entries);
    for (with_index = 1; with_index >= 0; with_index--) {
        b.rows_len = HESSIAN_WORKING_NUMBERS + (with_index ? (entries + BATCH) * HESSIAN_INDEX_NUMBERS : 0);
        for (job = LIST; job < (!with_index && entries > MANY ? FOUND : JOBS); job++) {
            double library = seconds(&b, job, by_library), plain = seconds(&b, job, by_baseline);

            printf("%8zu  %-5s  %-5s  %11.3f  %11.3f  %6.2f\n", entries, with_index ? "yes" : "no", job_names[job],
                   1e3 * library, 1e3 * plain, plain / library);
            fflush(stdout);
        }
    }
    finish(&b);
}

int main(int argc, char **argv)
{
    static const size_t sizes[] = {1000, 20000, 100000};
    size_t i;

    puts(" entries  index  call   library, ms  baseline, ms   ratio");
    for (i = 0; argc < 2 && i < sizeof sizes / sizeof sizes[0]; i++)
        time_file(sizes[i]);
    for (i = 1; (int)i < argc; i++)
        time_file(strtoul(argv[i], NULL, 10));
    return 0;
}
