/* Sums of bytes for a person. */
#ifndef SIZES_H
#define SIZES_H

#include <stdint.h>

/* "WHAT: BYTES" as a line: exact, and from 1,024 on in units too; a sum may be below 0. */
void print_size(const char *what, int64_t bytes);

#endif
