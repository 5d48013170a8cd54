/* A holdings file in memory, what the library needs to work on it, and what is said of it. */
#ifndef HOLDINGS_FILE_H
#define HOLDINGS_FILE_H

#include <stdbool.h>
#include <stddef.h>
#include <stdint.h>
#include <stdio.h>

#include "command.h"
#include "hessian.h"
#include "json.h"

struct holdings {
    const char *name; /* as it was named; - is standard input */
    uint8_t *bytes;
    size_t used, room;
    uint64_t entries; /* as its lengths say: no more than there can be, and right where the library accepts it */
    uint64_t *rows;   /* working memory */
    size_t rows_len;
    uint8_t *working;
    uint8_t *list; /* of its entries, where it was listed */
};

void new_holdings(struct holdings *h, const char *name);

void free_holdings(struct holdings *h);

/* Reads all of an open file, with room for so many bytes more behind it. NULL, or why that cannot be. */
const char *load_holdings(struct holdings *h, int descriptor, size_t more);

/* The same where there is no file yet. */
const char *begin_with_none(struct holdings *h, size_t more);

/* Working memory for its entries and so many more; without an index, where there is too little memory for one. */
const char *lend_working(struct holdings *h, uint64_t more);

/* Reads the file of this name, or standard input, and has the library list it. NULL, or why it cannot be read. */
const char *list_holdings(struct holdings *h, hessian_answer *answer);

/* Its version, where the library accepts it. */
unsigned version_of(const struct holdings *h);

/* ---- a file that the library refuses */

/* "NAME: refused NUMBER .. at PLACE, entry N: WHY", and of an entry that is no record why it is none. */
void put_fault(FILE *out, const struct holdings *h, hessian_answer answer);

/* The same on standard error behind "hessian COMMAND: "; the status. */
int refuse_holdings(const struct command *self, const struct holdings *h, hessian_answer answer);

/* The same as a JSON document in a line. */
void put_json_fault(FILE *out, const struct holdings *h, hessian_answer answer);

/* What the library says of a file that it says of none: a fault of its own; the status. */
int library_fault(const struct command *self, const struct holdings *h);

#endif
