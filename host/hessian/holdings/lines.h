/* What hessian holdings add prints: a line for each name, and the sums. */
#ifndef HOLDINGS_LINES_H
#define HOLDINGS_LINES_H

#include <stdbool.h>
#include <stdint.h>

#include "batch.h"

/* Set once, before the first line. */
struct layout {
    bool json;
    bool lines; /* one for each name, not the sums alone */
};

struct sums {
    uint64_t of[STATES]; /* names of each state */
    bool known;          /* entries and bytes of the file are known */
    uint64_t entries, bytes;
    bool partial; /* the run was ended before it was done */
};

void begin_add_lines(const struct layout *layout);

/* The line of a name. What is not added has one in JSON alone. */
void print_added(const char *name, const struct item *item);

void print_add_sums(const struct sums *s);

#endif
