/* The names of kinds and refusals, and the reason of a refusal in words. */
#ifndef NAMES_H
#define NAMES_H

#include <stdbool.h>
#include <stdint.h>
#include <stdio.h>

#include "record.h"

/* The kind of a row. */
const char *kind_name(uint64_t kind);

/* The name of a refusal in hessian.h. */
const char *refusal_name(unsigned number);

/* Why a record was refused: the library's words, and of the length what holds for a file or its shortest form. */
const char *reason(const struct record *r);

/* "refused NUMBER NAME at PLACE: REASON"; the place may be left out. */
void put_refusal(FILE *out, const struct record *r, bool place);

#endif
