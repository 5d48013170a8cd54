/* The sums of a run, and progress for a person who waits. */
#ifndef SUMS_H
#define SUMS_H

#include <stdbool.h>
#include <stdint.h>

#include "passed_over.h"

struct totals {
    uint64_t records; /* distinct, copies and refused */
    uint64_t distinct;
    uint64_t copies;
    uint64_t refused;
    uint64_t bytes_in;
    uint64_t bytes_of_copies;    /* gained by removing them */
    int64_t bytes_by_rewriting;  /* gained, of records kept; below 0 where thousandths took fewer bytes */
    uint64_t failed;             /* names that could not be used, and records that changed meanwhile */
    struct passed_over passed;
};

/* The last lines of standard output. */
void print_totals(const struct totals *t, bool json);

/* On standard error, where that is a terminal, from the thousandth file on. */
void show_progress(const struct totals *t);

#endif
