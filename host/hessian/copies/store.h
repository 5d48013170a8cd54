/*
 * What is remembered of records: of each distinct one the name of its file and when that last changed; and the forms of
 * these records, by their hashes. The bytes of forms are in a cache, as far as that reaches.
 */
#ifndef STORE_H
#define STORE_H

#include <stdbool.h>
#include <stddef.h>
#include <stdint.h>

#include "cache.h"
#include "record.h"

/* A record that was kept, and its file as it was when it was read. */
struct kept {
    size_t name; /* where it begins among the names */
    struct stamp stamp;
    uint32_t shortest; /* bytes of its shortest form */
    bool settled;      /* it had not changed for so long that a change since would show in these times */
    bool lost;         /* the file has changed or is gone */
};

/* Whose bytes a form is. */
enum origin {
    OWN = 1,      /* those of the kept record's file */
    SHORTEST = 2, /* those of its shortest form, by the main rule; a file may be its own */
    A_COPY = 4    /* those of another file that was found to be a copy, which are always in the cache */
};

/* Bytes that are a message of a kept record: by the rule that files are read by, or the main rule if only SHORTEST. */
struct form {
    uint64_t hash;
    const uint8_t *bytes; /* NULL: not in the cache */
    uint32_t size;
    uint32_t kept : 28; /* index of the record */
    uint32_t origin : 4;
};

struct store {
    char *names;
    size_t names_len, names_room;
    struct kept *kept;
    size_t kept_count, kept_room;
    struct form *forms;
    size_t forms_count, forms_room;
    uint32_t *slots; /* one more than an index into `forms`, at the first free slot from its hash on; 0 is free */
    size_t slots_room; /* a power of two */
    struct cache cache;
};

void new_store(struct store *s);

void free_store(struct store *s);

/* The next form of these origins and a record not lost, of this hash and size; NULL after the last. *from: 0 first. */
const struct form *candidate(const struct store *s, unsigned origins, uint64_t hash, size_t size, size_t *from);

/* Remembers a record: the others of its fields are as in `k`. Its index. */
size_t keep(struct store *s, struct kept k, const char *name);

/* Remembers a form of a kept record, and its bytes if there is room; without them a form of a copy is of no use. */
void add_form(struct store *s, size_t kept, unsigned origin, uint64_t hash, const uint8_t *bytes, size_t size);

struct kept *record_of(const struct store *s, const struct form *f);

const char *name_of(const struct store *s, const struct kept *k);

#endif
