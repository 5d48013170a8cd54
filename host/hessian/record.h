/* A record file: its bytes, its rows, and its shortest form, all by the library. */
#ifndef RECORD_H
#define RECORD_H

#include <stdbool.h>
#include <stddef.h>
#include <stdint.h>

/* Which file it is, whatever its name, and when it last changed, in nanoseconds since 1970. */
struct stamp {
    uint64_t device, inode;
    int64_t modified; /* its bytes */
    int64_t changed;  /* anything about it */
};

/* Buffers are allocated once, and hold one file after another. */
struct record {
    bool thousandths;   /* 5f counts thousandths in all of these files; set before the first, or false */
    uint8_t *message;   /* the file's bytes; one past HESSIAN_LONGEST tells that it is too long */
    size_t len;         /* bytes read */
    uint64_t size;      /* bytes of the file, also where it is too long */
    struct stamp stamp; /* its inode is 0 where it is no regular file */
    unsigned number;    /* of the refusal; 0 if it was accepted */
    size_t place;       /* of the refusal */
    bool by_writer;     /* the refusal is the writer's: it has no short enough form, or else this cannot be */
    uint8_t *table;     /* HESSIAN_LONGEST rows */
    size_t rows;
    uint8_t *shortest;  /* HESSIAN_LONGEST bytes */
    size_t shortest_len;
    double seconds;     /* spent in the library, for all files so far */
};

/* False where there is no memory. */
bool new_record(struct record *r);

/* The same with no table, which is to be lent before each rewrite and taken back after it. */
bool new_record_lent_table(struct record *r);

/* A table of HESSIAN_LONGEST rows to lend, or NULL. */
uint8_t *new_table(void);

void free_record(struct record *r);

/* Opens a regular file for reading, to which a link may lead. NULL, or why it cannot be read. */
const char *open_regular(const char *name, int *descriptor);

/* What an open file is. NULL, or why it cannot be read: it may be a folder. */
struct stat;
const char *look_at(int descriptor, struct stat *about);

/* Reads a file. NULL, or why it cannot be read. */
const char *load_file(struct record *r, const char *name);

/* The same by its name in an open folder, or AT_FDCWD; a link is not followed, and only a regular file is read. */
const char *load_at(struct record *r, int folder, const char *name);

/* The same from an open file; nothing is known of its device and inode where it is no regular file. */
const char *load_descriptor(struct record *r, int descriptor);

/* Reads the message without a table: number and place say whether it is accepted. */
void judge(struct record *r);

/*
 * Reads the message into rows and rewrites it; number, place, rows and the shortest form say what came of it. The
 * shortest form is by the main rule, whichever the message is read by.
 */
void rewrite(struct record *r);

/*
 * The length of the shortest form as the library says it without writing it: also where that is longer than
 * HESSIAN_LONGEST; 0 where the message is refused when it is read.
 */
uint64_t shortest_length(const struct record *r);

/* Reads the shortest form into rows, which take the place of the message's; whether they are as many. */
bool read_shortest(struct record *r);

/*
 * Whether it was read, and only its shortest form was refused, as longer than HESSIAN_LONGEST: five bytes of
 * thousandths may become nine. By the main rule no record is such.
 */
bool too_long_shortest(const struct record *r);

/* Whether it was read into rows, whether or not it has a shortest form. */
bool has_rows(const struct record *r);

/* The stamp of the regular file that a name, not a link, stands for; false where there is none. */
bool stamp_now(const char *name, struct stamp *stamp);

/* Why a pipe, a device or the like is not read. */
extern const char not_regular[];

/* Why a file or folder cannot be used, from errno. */
const char *why_not(int error);

#endif
