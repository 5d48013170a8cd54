/* The records that the words of a command line name, one after another, and what is said of them. */
#ifndef INPUT_H
#define INPUT_H

#include <stdbool.h>
#include <stdio.h>

#include "command.h"
#include "record.h"

struct input {
    const struct command *self; /* which subcommand reads it */
    const char *name;           /* as it was named; - is standard input */
    bool standard;              /* it is standard input */
    bool several;               /* more than one is named: each has to be told from the others */
    struct record *r;           /* loaded and rewritten */
};

/* Does with a record what the subcommand is for; the status. */
typedef int use_record(const struct input *in, const void *how);

/* What a command line names, and whether 5f counts thousandths in all of it. */
struct named {
    int count;
    char **names;
    bool thousandths;
};

/*
 * Hands the named records to `use`, or standard input where no name is given, until standard output fails. The worst
 * status: TROUBLE where a record cannot be read, which is said.
 */
int each_record(const struct command *self, struct named named, use_record *use, const void *how);

/* Whether there was more on standard input than was read, since it is too long for a record. */
bool has_more(const struct input *in);

/* The name as a person knows it: standard input in words. */
void put_shown_name(FILE *out, const char *name);
void put_input_name(FILE *out, const struct input *in);

/* "hessian COMMAND: cannot DO NAME: WHY" on standard error; the status. */
int complain(const struct command *self, const char *what, const char *name, const char *why);

#endif
