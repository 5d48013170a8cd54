#define _DEFAULT_SOURCE /* flock */
#define _XOPEN_SOURCE 700 /* realpath */

#include "claim.h"

#include <errno.h>
#include <fcntl.h>
#include <stdbool.h>
#include <stdlib.h>
#include <string.h>
#include <sys/file.h>
#include <sys/stat.h>
#include <time.h>
#include <unistd.h>

#include "interrupt.h"
#include "record.h"
#include "replace.h"

enum { PAUSE = 10, LONG_WAIT = 1000 }; /* milliseconds */

/* ---- names */

static char *beside(const char *path)
{
    static const char suffix[] = ".hessian-new";
    const char *slash = strrchr(path, '/'), *base = slash == NULL ? path : slash + 1;
    char *what = malloc(1 + strlen(base) + sizeof suffix), *name = NULL;

    if (what != NULL) {
        what[0] = '.';
        strcpy(what + 1, base);
        strcat(what, suffix);
        name = name_beside(path, what);
    }
    free(what);
    return name;
}

/* The path of a file that is there, and may be written: a new name would ask for no permission. */
static const char *path_of_old(const char *name, const struct stat *about, char **path)
{
    if (S_ISDIR(about->st_mode))
        return why_not(EISDIR);
    if (!S_ISREG(about->st_mode))
        return not_regular;
    *path = access(name, W_OK) == 0 ? realpath(name, NULL) : NULL;
    return *path == NULL ? why_not(errno) : NULL;
}

static const char *path_of_new(const char *name, char **path)
{
    struct stat about;

    if (lstat(name, &about) == 0)
        return "it is a link that leads nowhere";
    *path = strdup(name);
    return *path == NULL ? why_not(errno) : NULL;
}

const char *name_claim(struct claim *c, const char *name)
{
    struct stat about;
    const char *why;

    c->path = c->beside = NULL;
    c->descriptor = -1;
    if (stat(name, &about) == 0)
        why = path_of_old(name, &about, &c->path);
    else
        why = errno == ENOENT ? path_of_new(name, &c->path) : why_not(errno);
    if (why == NULL && (c->beside = beside(c->path)) == NULL)
        why = why_not(ENOMEM);
    return why;
}

void free_claim(struct claim *c)
{
    free(c->path);
    free(c->beside);
}

/* ---- the lock */

/* Whether the open file is the one that has the name of the claim. */
static bool has_name(const struct claim *c, int descriptor)
{
    struct stat open, named;

    return fstat(descriptor, &open) == 0 && lstat(c->beside, &named) == 0 && open.st_dev == named.st_dev &&
           open.st_ino == named.st_ino;
}

/* The permissions that the new file will have, so that who may replace the file may look at the claim. */
static mode_t mode_of(const char *path)
{
    struct stat about;

    return stat(path, &about) == 0 ? about.st_mode & 0666 : 0666;
}

/* What an attempt came to. */
enum attempt { OWNED, OTHERS, AGAIN, FAILED };

/* A new claim of our own, unless someone has removed it before it was locked. */
static enum attempt lock_new(struct claim *c, int descriptor)
{
    if (flock(descriptor, LOCK_EX | LOCK_NB) == 0 && has_name(c, descriptor)) {
        c->descriptor = descriptor;
        return OWNED;
    }
    if (errno != EWOULDBLOCK && has_name(c, descriptor)) {
        int error = errno;

        unlink(c->beside);
        close(descriptor);
        errno = error;
        return FAILED;
    }
    close(descriptor);
    return AGAIN;
}

/* A claim that was there: its owner has it, or has left it behind. */
static enum attempt look_at_old(const struct claim *c, int descriptor)
{
    enum attempt came = AGAIN;
    int error;

    if (flock(descriptor, LOCK_EX | LOCK_NB) != 0)
        came = errno == EWOULDBLOCK ? OTHERS : FAILED;
    else if (has_name(c, descriptor) && unlink(c->beside) != 0)
        came = FAILED;
    error = errno;
    close(descriptor);
    errno = error;
    return came;
}

/* Errno says why it failed. */
static enum attempt attempt(struct claim *c)
{
    int common = O_CLOEXEC | O_NOFOLLOW | O_NONBLOCK | O_NOCTTY;
    int descriptor = open(c->beside, O_RDWR | O_CREAT | O_EXCL | common, mode_of(c->path));

    if (descriptor >= 0)
        return lock_new(c, descriptor);
    if (errno != EEXIST)
        return FAILED;
    descriptor = open(c->beside, O_RDONLY | common);
    if (descriptor >= 0)
        return look_at_old(c, descriptor);
    return errno == ENOENT ? AGAIN : FAILED;
}

const char *take_claim(struct claim *c, void (*waits)(const char *path))
{
    const struct timespec pause = {0, PAUSE * 1000000L};
    unsigned waited = 0;
    enum attempt came;

    while ((came = attempt(c)) != OWNED) {
        if (came == FAILED)
            return why_not(errno);
        if (signal_met() != 0)
            return told_to_end;
        if (came == AGAIN)
            continue;
        nanosleep(&pause, NULL);
        waited += PAUSE;
        if (waited == LONG_WAIT)
            waits(c->path);
    }
    return NULL;
}

/* ---- the end of it */

static void unlock(struct claim *c)
{
    close(c->descriptor);
    c->descriptor = -1;
}

/* The lock stays until the name is given: what is closed before is another descriptor of the same open file. */
const char *replace_claimed(struct claim *c, const uint8_t *bytes, size_t len)
{
    struct stat about;
    bool old = stat(c->path, &about) == 0;
    const struct replacement new = {c->path, c->beside, old ? &about : NULL, bytes, len};
    int writing = fcntl(c->descriptor, F_DUPFD_CLOEXEC, 0);
    const char *why;

    if (writing < 0) {
        why = why_not(errno);
        drop_claim(c);
        return why;
    }
    why = replace_by(&new, writing);
    unlock(c);
    return why;
}

void drop_claim(struct claim *c)
{
    unlink(c->beside);
    unlock(c);
}
