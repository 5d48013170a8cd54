/* What the bytes of a message are there for: each byte belongs to one row, and each row to one group of the ledger. */
#ifndef GROUPS_H
#define GROUPS_H

#include <stdbool.h>
#include <stddef.h>
#include <stdint.h>

enum group {
    CONSTANTS, /* null, false, true */
    INTS,
    LONGS,
    DOUBLES,
    DATES,
    TEXTS,        /* heads of chunks and characters */
    BYTE_STRINGS, /* the same with bytes */
    LISTS,        /* code, count, 5a */
    MAPS,         /* code, 5a */
    OBJECTS,      /* code, number of the class */
    REFERENCES,
    CLASS_DEFINITIONS, /* code, names, count of fields */
    TYPES,             /* names, numbers */
    GROUPS
};

/* The name for a person, and as a key. */
const char *group_name(enum group group);
const char *group_key(enum group group);

/* A message, and the rows that the library read of it. */
struct message_rows {
    const uint8_t *message;
    size_t len;
    const uint8_t *table;
    size_t rows;
};

/* The bytes of each group; whether they come to the length of the message. */
bool bytes_by_group(const struct message_rows *r, uint64_t bytes[GROUPS]);

#endif
