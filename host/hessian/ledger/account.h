/* What a record takes and what its shortest form takes, in all and by group; and sums of such accounts. */
#ifndef ACCOUNT_H
#define ACCOUNT_H

#include <stdint.h>

#include "groups.h"
#include "record.h"

struct amount {
    uint64_t bytes, shortest;
};

/* What is saved by the shortest form: below 0 where thousandths took fewer bytes. */
int64_t saved(const struct amount *a);

struct account {
    struct amount all, groups[GROUPS];
};

/*
 * The account of a record that was loaded and rewritten, which is accepted. Its rows are then those of the shortest
 * form. NULL, or in which respect the library contradicts itself.
 */
const char *account_of(struct record *r, struct account *a);

/* NULL where the length that the library says of a record agrees with its other answers, or in which respect not. */
const char *wrong_length(const struct record *r);

void add_account(struct account *sum, const struct account *a);

#endif
