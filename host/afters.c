#include "afters.h"

#include <stdio.h>
#include <stdlib.h>

#include "rows.h"

/* A list, map or object that is open, and how many values it still needs. */
struct open {
    size_t row;
    uint64_t left;
};

/* How many values a list, map or object has. */
static uint64_t values_of(const uint8_t *table, size_t row)
{
    uint64_t kind = get_number(table, row, KIND), first = get_number(table, row, FIRST);

    if (kind == HESSIAN_OBJECT)
        return get_number(table, row, SECOND);
    if (is_map(kind))
        return first > UINT64_MAX / 2 ? UINT64_MAX : 2 * first;
    return first;
}

/* Row i is the next after a value: the lists, maps and objects that it completes end there. How many stay open. */
static size_t close_holders(uint8_t *table, struct open *open, size_t depth, size_t i)
{
    while (depth > 0 && open[depth - 1].left == 0) {
        set_number(table, open[--depth].row, AFTER, i);
        if (depth > 0)
            open[depth - 1].left--;
    }
    return depth;
}

/* The row after a class definition and those of its names that are there. */
static size_t pass_class(uint8_t *table, size_t rows, size_t row)
{
    uint64_t names = get_number(table, row, FIRST) + 1;

    set_number(table, row, AFTER, row + 1 + names);
    return names < rows - row - 1 ? row + 1 + (size_t)names : rows;
}

void set_afters(uint8_t *table, size_t rows)
{
    struct open *open = malloc(rows * sizeof *open + 1);
    size_t depth = 0, i;

    if (open == NULL) {
        fputs("no memory for open rows\n", stderr);
        exit(2);
    }
    for (i = 0; i < rows; i++)
        set_number(table, i, AFTER, i + 1);
    for (i = 0; i < rows;) {
        uint64_t kind = get_number(table, i, KIND);

        if (kind == HESSIAN_CLASS) {
            i = pass_class(table, rows, i);
            continue;
        }
        if (is_holder(kind)) {
            open[depth].row = i;
            open[depth++].left = values_of(table, i);
        } else if (depth > 0) {
            open[depth - 1].left--;
        }
        i += 1 + (is_typed(kind) && i + 1 < rows);
        depth = close_holders(table, open, depth, i);
    }
    while (depth > 0)
        set_number(table, open[--depth].row, AFTER, rows);
    free(open);
}

/* ---- hopping, as hessian.h shows it */

/* How many values a list, map or object leads to; UINT64_MAX where the last of them does not end with it. */
static uint64_t hop(const uint8_t *table, size_t rows, size_t row)
{
    uint64_t i = row + 1, end = get_number(table, row, AFTER), values = 0;

    if (is_typed(get_number(table, row, KIND)))
        i++;
    while (i < end && i < rows) {
        uint64_t next = get_number(table, (size_t)i, AFTER);

        values += get_number(table, (size_t)i, KIND) != HESSIAN_CLASS;
        if (next <= i)
            return UINT64_MAX;
        i = next;
    }
    return i == end ? values : UINT64_MAX;
}

static bool leads_on(const uint8_t *table, size_t rows, size_t row)
{
    uint64_t kind = get_number(table, row, KIND), after = get_number(table, row, AFTER);

    if (kind == HESSIAN_CLASS)
        return after == row + 2 + get_number(table, row, FIRST);
    if (is_holder(kind))
        return hop(table, rows, row) == values_of(table, row);
    return after == row + 1;
}

bool leads_through(const uint8_t *table, size_t rows)
{
    size_t i;

    for (i = 0; i < rows; i++)
        if (!leads_on(table, rows, i))
            return false;
    return true;
}

/* ---- trials */

uint64_t after_trial(const uint8_t *table, size_t rows, size_t row, unsigned trial)
{
    uint64_t n = get_number(table, row, AFTER);
    const uint64_t trials[AFTER_TRIALS] = {
        n, n - 1, n + 1, 0, 1, row, row + 1, row + 2, rows, rows + 1, n + (UINT64_C(1) << 32), n ^ UINT64_C(1) << 63,
        UINT64_MAX, UINT64_MAX - row,
    };

    return trials[trial];
}
