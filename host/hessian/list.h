/* The names of a command line, and lists of names on standard input. */
#ifndef LIST_H
#define LIST_H

#include "files.h"
#include "filter.h"

/*
 * Visits what these names, up to NULL, stand for. - stands for the names on standard input, each of which ends with the
 * byte `end`; the last may go without.
 */
void each_named(char *const *names, int end, const struct filter *filter, const struct visitor *v);

#endif
