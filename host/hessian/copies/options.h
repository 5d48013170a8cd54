/* The options of `hessian copies`. */
#ifndef OPTIONS_H
#define OPTIONS_H

#include <stdbool.h>

#include "command.h"
#include "filter.h"
#include "lines.h"

struct options {
    struct layout layout;
    struct filter filter;
    bool only;    /* some states were chosen */
    bool summary; /* sums alone */
    bool thousandths; /* 5f of the records counts thousandths */
    bool time;
    bool help;
    int end; /* of a name on standard input */
    int names; /* index of the first in argv, which getopt_long puts after the options */
};

/* DONE, or the status of wrong usage, which was said. */
int parse_options(struct options *o, const struct command *self, int argc, char **argv);

void free_options(struct options *o);

#endif
