/* The library held against the plain C reader and writer, on one input. */
#ifndef COMPARE_H
#define COMPARE_H

#include <stdbool.h>
#include <stddef.h>
#include <stdint.h>

/*
 * An input is a message: both read it and say its length, by each rule of 5f, and what is accepted both rewrite, with
 * all its rows as they are, and by the main rule with a wrong fifth number in one of them, which is refused, and with
 * some altered. Or it begins with the byte 40, which begins no message, and is a source and rows for the writers
 * (packed.h); or with 45, and is a holdings file and records for it (holdings.h). False at the first difference, which is then on standard error.
 */
bool compare(const uint8_t *data, size_t size);

#endif
