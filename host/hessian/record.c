#include "record.h"

#include <errno.h>
#include <fcntl.h>
#include <stdlib.h>
#include <string.h>
#include <sys/stat.h>
#include <time.h>
#include <unistd.h>

#include "hessian.h"

enum { LONGEST = HESSIAN_LONGEST };

static const size_t TABLE_LEN = (size_t)LONGEST * HESSIAN_ROW_SIZE;

uint8_t *new_table(void)
{
    return malloc(TABLE_LEN);
}

bool new_record_lent_table(struct record *r)
{
    memset(r, 0, sizeof *r);
    r->message = malloc(LONGEST + 1);
    r->shortest = malloc(LONGEST);
    return r->message != NULL && r->shortest != NULL;
}

bool new_record(struct record *r)
{
    bool lent = new_record_lent_table(r);

    r->table = new_table();
    return lent && r->table != NULL;
}

void free_record(struct record *r)
{
    free(r->message);
    free(r->table);
    free(r->shortest);
}

/* ---- files */

const char not_regular[] = "it is not a regular file";

const char *why_not(int error)
{
    switch (error) {
    case ENOENT:
        return "there is no such file or folder";
    case EACCES:
        return "permission is denied";
    case EISDIR:
        return "it is a folder";
    case ENOTDIR:
        return "a part of its path is no folder";
    default:
        return strerror(error);
    }
}

/*
 * Up to one byte more than a message may have. A regular file is at its end where it has given the bytes that it was
 * said to have, so that most need one read.
 */
static const char *read_bytes(struct record *r, int descriptor, const struct stat *about)
{
    r->len = 0;
    while (r->len < LONGEST + 1) {
        ssize_t n = read(descriptor, r->message + r->len, LONGEST + 1 - r->len);

        if (n < 0 && errno == EINTR)
            continue;
        if (n < 0)
            return why_not(errno);
        r->len += (size_t)n;
        if (n == 0 || (S_ISREG(about->st_mode) && (uint64_t)about->st_size == r->len))
            break;
    }
    return NULL;
}

static int64_t nanoseconds(const struct timespec *t)
{
    return (int64_t)t->tv_sec * 1000000000 + t->tv_nsec;
}

static struct stamp stamp_of(const struct stat *about)
{
    struct stamp stamp = {(uint64_t)about->st_dev, (uint64_t)about->st_ino, nanoseconds(&about->st_mtim),
                          nanoseconds(&about->st_ctim)};

    return stamp;
}

bool stamp_now(const char *name, struct stamp *stamp)
{
    struct stat about;

    if (lstat(name, &about) != 0 || !S_ISREG(about.st_mode))
        return false;
    *stamp = stamp_of(&about);
    return true;
}

const char *look_at(int descriptor, struct stat *about)
{
    if (fstat(descriptor, about) != 0)
        return why_not(errno);
    return S_ISDIR(about->st_mode) ? why_not(EISDIR) : NULL;
}

const char *load_descriptor(struct record *r, int descriptor)
{
    struct stat about;
    const char *why = look_at(descriptor, &about);

    if (why != NULL)
        return why;
    why = read_bytes(r, descriptor, &about);
    r->size = r->len;
    r->stamp.inode = 0;
    if (S_ISREG(about.st_mode)) {
        r->stamp = stamp_of(&about);
        if (r->len > LONGEST && (uint64_t)about.st_size > r->size)
            r->size = (uint64_t)about.st_size;
    }
    return why;
}

/* A pipe or a device must not keep us waiting, and no program that is started has a use for the descriptor. */
static const char *open_at(int folder, const char *name, int flags, int *descriptor)
{
    *descriptor = openat(folder, name, O_RDONLY | O_NONBLOCK | O_NOCTTY | O_CLOEXEC | flags);
    return *descriptor < 0 ? why_not(errno) : NULL;
}

const char *open_regular(const char *name, int *descriptor)
{
    struct stat about;

    *descriptor = -1;
    /* to open a device may already do something */
    if (stat(name, &about) == 0 && !S_ISREG(about.st_mode))
        return S_ISDIR(about.st_mode) ? why_not(EISDIR) : not_regular;
    return open_at(AT_FDCWD, name, 0, descriptor);
}

/* Reads an open file, if it could be opened, and closes it. */
static const char *load_and_close(struct record *r, const char *why, int descriptor)
{
    if (why != NULL)
        return why;
    why = load_descriptor(r, descriptor);
    close(descriptor);
    return why;
}

const char *load_at(struct record *r, int folder, const char *name)
{
    int descriptor;
    const char *why = open_at(folder, name, O_NOFOLLOW, &descriptor);

    why = load_and_close(r, why, descriptor);
    return why == NULL && r->stamp.inode == 0 ? not_regular : why;
}

const char *load_file(struct record *r, const char *name)
{
    int descriptor;
    const char *why = open_regular(name, &descriptor);

    return load_and_close(r, why, descriptor);
}

/* ---- the library */

static double now(void)
{
    struct timespec t;

    clock_gettime(CLOCK_MONOTONIC, &t);
    return (double)t.tv_sec + (double)t.tv_nsec * 1e-9;
}

static bool accepted(struct record *r, uint64_t answer)
{
    r->number = HESSIAN_NUMBER(answer);
    r->place = HESSIAN_PLACE(answer);
    return r->number == HESSIAN_ACCEPTED;
}

void judge(struct record *r)
{
    uint64_t answer = hessian_read(r->message, r->len, NULL, 0);

    /* a record has rows, and none are lent */
    accepted(r, HESSIAN_NUMBER(answer) == HESSIAN_ROOM ? HESSIAN_ACCEPTED : answer);
    r->by_writer = false;
}

void rewrite(struct record *r)
{
    double start = now();
    uint64_t answer =
        (r->thousandths ? hessian_read_thousandths : hessian_read)(r->message, r->len, r->table, TABLE_LEN);

    r->by_writer = false;
    r->rows = r->shortest_len = 0;
    if (accepted(r, answer)) {
        r->rows = HESSIAN_COUNT(answer);
        answer = hessian_write(r->message, r->len, r->table, TABLE_LEN, r->rows, r->shortest, LONGEST);
        r->by_writer = !accepted(r, answer);
        r->shortest_len = r->by_writer ? 0 : HESSIAN_COUNT(answer);
        r->place = 0;
    }
    r->seconds += now() - start;
}

uint64_t shortest_length(const struct record *r)
{
    return (r->thousandths ? hessian_shortest_length_thousandths : hessian_shortest_length)(r->message, r->len);
}

bool read_shortest(struct record *r)
{
    uint64_t answer = hessian_read(r->shortest, r->shortest_len, r->table, TABLE_LEN);

    return HESSIAN_NUMBER(answer) == HESSIAN_ACCEPTED && HESSIAN_COUNT(answer) == r->rows;
}

bool too_long_shortest(const struct record *r)
{
    return r->thousandths && r->by_writer && r->number == HESSIAN_LENGTH;
}

bool has_rows(const struct record *r)
{
    return r->number == HESSIAN_ACCEPTED || too_long_shortest(r);
}
