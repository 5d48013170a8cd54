/* What a run through files passes over, and says on standard error: one line for all names of a kind. */
#ifndef PASSED_OVER_H
#define PASSED_OVER_H

#include <stdbool.h>
#include <stdint.h>

#include "command.h"

struct passed_over {
    uint64_t repeated; /* names of files met before */
    uint64_t links;    /* names of symbolic links */
    bool partial;      /* the run was ended before it was done */
};

void say_passed_over(const struct command *self, const struct passed_over *p);

#endif
