/* What is printed: a line for each file, and what a person has to know about it. Lines are written whole. */
#ifndef LINES_H
#define LINES_H

#include <stdbool.h>
#include <stdint.h>

#include "record.h"

/* The states that a line for a file can have, as bits. */
enum { LINE_KEPT = 1, LINE_COPY = 2, LINE_REFUSED = 4, LINE_OTHER = 8, ALL_LINES = 15 };

/* How lines are printed; set once, before the first. */
struct layout {
    bool json;
    bool names; /* names alone, each with a zero byte */
    bool pairs; /* a copy's name is followed by that of the kept file */
    unsigned lines; /* the states that are printed */
};

void begin_lines(const struct layout *layout);

void print_kept(const char *name, const struct record *r);
void print_copy(const char *name, uint64_t size, size_t shortest, const char *of);
void print_refused(const char *name, const struct record *r);

/* A name that was passed over: a line of JSON alone, since all are counted in one line. */
void print_repeated(const char *name);
void print_link(const char *name);

/* These are on standard error, and where lines are JSON on standard output too. */
void print_failed(const char *name, const char *why);
void print_changed(const char *name, const char *why, const char *other);

#endif
