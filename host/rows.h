/* The numbers of rows in a table of bytes, as hessian.h lays them out, and groups of kinds. */
#ifndef ROWS_H
#define ROWS_H

#include <stdbool.h>
#include <stddef.h>
#include <stdint.h>

#include "hessian.h"

/* Which number of a row. */
enum column { KIND, PLACE, FIRST, SECOND, AFTER, ROW_NUMBERS };

enum { ROW_SIZE = HESSIAN_ROW_SIZE, NUMBER_SIZE = ROW_SIZE / ROW_NUMBERS };

uint64_t get_number(const uint8_t *table, size_t row, enum column which);

void set_number(uint8_t *table, size_t row, enum column which, uint64_t n);

/* A list, map or object. */
bool is_holder(uint64_t kind);

/* A list or map that the row of its type follows. */
bool is_typed(uint64_t kind);

bool is_map(uint64_t kind);

#endif
