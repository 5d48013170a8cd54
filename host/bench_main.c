/*
 * Times the library and the plain C reader and writer of baseline/, or an older library that stands in for them (make
 * bench_before), side by side on the same messages: reading, writing the table that was read, both in one, and the
 * length of the shortest message. Each has a table of its own, as an older library may lay out its rows otherwise.
 *
 *     bench                          prints a table; a ratio above 1 says that the library is faster
 *     bench -i INPUT JOB WHO TIMES   does one job so many times; JOB is read, write, rewrite or length, WHO library or
 *                                    baseline
 *
 * The second form is for counting instructions, as with valgrind --tool=callgrind: the counts for two values of TIMES
 * differ by what the calls take. Compiled with NO_LENGTH it leaves out lengths, which an older library may not have.
 */
#include <stdio.h>
#include <stdlib.h>
#include <string.h>

#include "baseline.h"
#include "bench.h"
#include "hessian.h"

const char *const bench_name = "bench";

static const size_t TABLE_LEN = (size_t)ROOM * HESSIAN_ROW_SIZE;
static uint8_t *table, *baseline_table, *output;
static uint64_t rows;

static uint64_t read_by_library(void)
{
    return hessian_read(message, message_len, table, TABLE_LEN);
}

static uint64_t read_by_baseline(void)
{
    return baseline_read(message, message_len, baseline_table, TABLE_LEN);
}

static uint64_t write_by_library(void)
{
    return hessian_write(message, message_len, table, TABLE_LEN, rows, output, ROOM);
}

static uint64_t write_by_baseline(void)
{
    return baseline_write(message, message_len, baseline_table, TABLE_LEN, rows, output, ROOM);
}

static uint64_t rewrite_by_library(void)
{
    read_by_library();
    return write_by_library();
}

static uint64_t rewrite_by_baseline(void)
{
    read_by_baseline();
    return write_by_baseline();
}

#ifndef NO_LENGTH
static uint64_t length_by_library(void)
{
    return hessian_shortest_length(message, message_len);
}

static uint64_t length_by_baseline(void)
{
    return baseline_shortest_length(message, message_len);
}
#endif

static call *const jobs[][2] = {
    {read_by_library, read_by_baseline},
    {write_by_library, write_by_baseline},
    {rewrite_by_library, rewrite_by_baseline},
#ifndef NO_LENGTH
    {length_by_library, length_by_baseline},
#endif
};

enum { JOBS = sizeof jobs / sizeof jobs[0] };

static const char *const job_names[] = {"read", "write", "rewrite", "length"};
static const char *const who_names[2] = {"library", "baseline"};

/* Builds an input and fills the tables with its rows. */
static void prepare(size_t input)
{
    build_input(input);
    read_by_baseline();
    rows = read_by_library() >> 24 & 0xffffff;
}

static int compare_all(void)
{
    size_t i, j;

    printf("%-8s %-8s %8s %8s %12s %12s %7s\n", "job", "input", "bytes", "rows", "library ns", "baseline ns", "ratio");
    for (j = 0; j < JOBS; j++)
        for (i = 0; i < INPUTS; i++) {
            uint64_t answer;
            double best[2];

            prepare(i);
            answer = jobs[j][0]();
            if (answer >> 48 != 0 || answer != jobs[j][1]()) {
                fprintf(stderr, "bench: %s %s is not accepted by both\n", job_names[j], input_name(i));
                return 1;
            }
            measure(jobs[j], best);
            printf("%-8s %-8s %8zu %8lu %12.0f %12.0f %7.2f\n", job_names[j], input_name(i), message_len,
                   (unsigned long)rows, best[0], best[1], best[1] / best[0]);
            fflush(stdout);
        }
    return 0;
}

/* The index of a name; count if it is none of them. */
static size_t find(const char *const names[], size_t count, const char *name)
{
    size_t i = 0;

    while (i < count && strcmp(names[i], name) != 0)
        i++;
    return i;
}

static size_t find_input(const char *name)
{
    size_t i = 0;

    while (i < INPUTS && strcmp(input_name(i), name) != 0)
        i++;
    return i;
}

static int run_one(char **words)
{
    size_t input = find_input(words[0]), job = find(job_names, JOBS, words[1]);
    size_t who = find(who_names, 2, words[2]);
    long times = strtol(words[3], NULL, 10);

    if (input == INPUTS || job == JOBS || who == 2) {
        fprintf(stderr, "bench: no such input, job or side: %s %s %s\n", words[0], words[1], words[2]);
        return 2;
    }
    prepare(input);
    while (times-- > 0)
        jobs[job][who]();
    return 0;
}

int main(int argc, char **argv)
{
    table = allocate_zeros(TABLE_LEN);
    baseline_table = allocate_zeros(TABLE_LEN);
    output = allocate_zeros(ROOM);
    if (argc == 1)
        return compare_all();
    if (argc == 6 && strcmp(argv[1], "-i") == 0)
        return run_one(argv + 2);
    fprintf(stderr, "usage: bench [-i INPUT JOB WHO TIMES]\n");
    return 2;
}
