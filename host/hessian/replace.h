/* Writing a file whole or not at all. */
#ifndef REPLACE_H
#define REPLACE_H

#include <stddef.h>
#include <stdint.h>
#include <sys/stat.h>

/*
 * Makes these bytes the content of a file. NULL, or why that cannot be: then a regular file is as it was, or still not
 * there. A link's target is replaced, not the link. What is there and is no regular file (a pipe, a terminal, a
 * device), or is standard output by another name, is written into as it stands.
 *
 * The bytes go to a new file in the same folder, which takes the name when it is complete and on the disk. The old
 * file's permissions are kept, and its owner and group where that is allowed. Signals that end the program wait
 * meanwhile; one that comes before the name is given leaves the old file, and the new one is removed. Only the last
 * step, to have the name on the disk, may fail with the file replaced; the words then say so.
 */
const char *replace_file(const char *name, const uint8_t *bytes, size_t len);

/* A new file that is open, by which one is replaced. */
struct replacement {
    const char *path;       /* of the file that is replaced, which is no link */
    const char *temporary;  /* the name of the new one, in the same folder */
    const struct stat *old; /* NULL: there is no file yet */
    const uint8_t *bytes;
    size_t len;
};

/* The same by such a file, which is empty. It is closed, and removed where this fails before it has the name. */
const char *replace_by(const struct replacement *new, int descriptor);

/* Why a file is as it was though nothing failed: a signal that ends the program waited. */
extern const char told_to_end[];

/* `what` as a name in the folder of another file; NULL where there is no memory. */
char *name_beside(const char *path, const char *what);

#endif
