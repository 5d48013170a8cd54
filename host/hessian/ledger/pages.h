/* How the ledger is printed: a line for each file, and the sums; as text, JSON or CSV. */
#ifndef PAGES_H
#define PAGES_H

#include <stdbool.h>
#include <stdint.h>

#include "account.h"
#include "passed_over.h"
#include "record.h"

enum print_as { AS_TEXT, AS_JSON, AS_CSV };

/* Set once, before the first line. */
struct pages {
    enum print_as as;
    bool lines;       /* one for each file, not the sums alone */
    bool thousandths; /* 5f of the records counts thousandths */
};

struct sums {
    uint64_t records; /* accepted and refused */
    uint64_t accepted;
    uint64_t refused;
    uint64_t failed; /* names that could not be used, and records for which there is no account */
    struct passed_over passed;
    struct account account; /* of the records that were accepted */
};

void begin_pages(const struct pages *pages);

void print_accepted(const char *name, const struct account *a);
void print_refused_record(const char *name, const struct record *r);

/* A name with no record of its own, with its state: a line of JSON alone. */
void print_no_record(const char *state, const char *name, const char *why);

/* CSV has none. */
void print_sums(const struct sums *s);

#endif
