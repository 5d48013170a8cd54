/* A file on its way: it is read, hashed and, where that is needed, rewritten, in any thread. */
#ifndef READING_H
#define READING_H

#include <stdbool.h>
#include <stddef.h>
#include <stdint.h>

#include "files.h"
#include "hash.h"
#include "record.h"

/* Its buffers hold one file after another. */
struct file {
    char *name; /* whole */
    size_t room;
    size_t base; /* where its name in the folder begins */
    struct folder *folder; /* NULL: it is not read */
    bool link; /* a link that was named: it is not read */
    const char *why; /* why it cannot be read, or NULL */
    struct record record;
    bool settled; /* as of a kept record */
    uint64_t hash; /* of its bytes */
    bool rewritten; /* whether the record's answer is there, and if it is accepted its shortest form with a hash */
    bool shortest_already; /* the shortest form is the message, and is not stored */
    uint64_t shortest_hash;
};

/* What a file is rewritten with. */
struct tools {
    uint8_t *table;
    uint8_t *shortest; /* changed for the file's buffer where it is to be stored */
};

/* In these buffers 5f of every record counts thousandths, or of none. */
void new_file(struct file *f, bool thousandths);
void free_file(struct file *f);

void new_tools(struct tools *tools);
void free_tools(struct tools *tools);

/* The name and the place of the next file in these buffers. */
void set_file(struct file *f, const struct place *place, bool link, const char *why);

/* Reads it; it is rewritten only where its hash is not known to have been met. */
void read_file(struct file *f, struct hints *hints, struct tools *tools);

void rewrite_file(struct file *f, struct tools *tools);

/* The shortest form of a file that was rewritten. */
const uint8_t *shortest_of(const struct file *f);

/* The folder is left; the buffers stay. */
void end_file(struct file *f);

#endif
