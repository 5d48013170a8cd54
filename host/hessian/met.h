/* The files that were met, whatever their names: a file that is named again, or by a hard link, is known by it. */
#ifndef MET_H
#define MET_H

#include <stdbool.h>
#include <stddef.h>
#include <stdint.h>

/* Which file. An inode of 0 is no file. */
struct identity {
    uint64_t device, inode;
};

struct met {
    struct identity *slots; /* a file stands at the first free slot from its hash on */
    size_t count, room;     /* the room is a power of two */
};

void new_met(struct met *m);

void free_met(struct met *m);

/* Whether the file was met before; now it is. */
bool met_before(struct met *m, uint64_t device, uint64_t inode);

#endif
