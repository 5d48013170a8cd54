/* The fifth numbers of rows, for the checks: which are right, and what may stand for a wrong one. */
#ifndef AFTERS_H
#define AFTERS_H

#include <stdbool.h>
#include <stddef.h>
#include <stdint.h>

/*
 * Sets the fifth numbers as they have to be by the kinds and counts of the rows. Where these are no record, a list, map
 * or object ends with its last value or with the last row, and a class where its count says.
 */
void set_afters(uint8_t *table, size_t rows);

/*
 * Whether the fifth numbers lead through the rows of a record as hessian.h says: from each list, map, object and class
 * past as many values, or names, as it has, to its end.
 */
bool leads_through(const uint8_t *table, size_t rows);

/* Numbers to be tried in the place of a row's fifth number, which is one of them: near it, near its row, at the edges. */
enum { AFTER_TRIALS = 14 };

uint64_t after_trial(const uint8_t *table, size_t rows, size_t row, unsigned trial);

#endif
