/* realpath is not in POSIX without it */
#define _XOPEN_SOURCE 700

#include "replace.h"

#include <errno.h>
#include <fcntl.h>
#include <signal.h>
#include <stdbool.h>
#include <stdio.h>
#include <stdlib.h>
#include <string.h>
#include <sys/stat.h>
#include <unistd.h>

#include "record.h"

/* ---- signals that wait */

static const int ends[] = {SIGHUP, SIGINT, SIGQUIT, SIGTERM};

enum { ENDS = sizeof ends / sizeof ends[0] };

/* Has the signals wait that end a program; `before` is to be handed to sigprocmask afterwards. */
static void hold_signals(sigset_t *before)
{
    sigset_t held;
    int i;

    sigemptyset(&held);
    for (i = 0; i < ENDS; i++)
        sigaddset(&held, ends[i]);
    sigprocmask(SIG_BLOCK, &held, before);
}

/* Whether a signal waits that is not ignored, as SIGHUP is below nohup. */
static bool interrupted(void)
{
    sigset_t waiting;
    struct sigaction action;
    int i;

    sigpending(&waiting);
    for (i = 0; i < ENDS; i++)
        if (sigismember(&waiting, ends[i]) == 1 && sigaction(ends[i], NULL, &action) == 0 &&
            action.sa_handler != SIG_IGN)
            return true;
    return false;
}

/* ---- writing */

static const char *write_all(int descriptor, const uint8_t *bytes, size_t len)
{
    while (len > 0) {
        ssize_t n = write(descriptor, bytes, len);

        if (n < 0 && errno == EINTR)
            continue;
        if (n < 0)
            return why_not(errno);
        bytes += n;
        len -= (size_t)n;
    }
    return NULL;
}

static mode_t new_mode(void)
{
    mode_t mask = umask(0);

    umask(mask);
    return 0666 & ~mask;
}

/* Owner and group first: a change of them may take permissions away. What is not allowed stays undone. */
static const char *take_over(int descriptor, const struct stat *old)
{
    if (old != NULL && fchown(descriptor, old->st_uid, old->st_gid) != 0 &&
        fchown(descriptor, (uid_t)-1, old->st_gid) != 0)
        errno = 0;
    if (fchmod(descriptor, old == NULL ? new_mode() : old->st_mode & 0777) != 0)
        return why_not(errno);
    return NULL;
}

static const char *fill(int descriptor, const struct replacement *new)
{
    const char *why = write_all(descriptor, new->bytes, new->len);

    if (why == NULL)
        why = take_over(descriptor, new->old);
    if (why == NULL && fsync(descriptor) != 0)
        why = why_not(errno);
    if (close(descriptor) != 0 && why == NULL)
        why = why_not(errno);
    return why;
}

const char told_to_end[] = "the program was told to end";

/* Fills the new file and gives it the name, or removes it. */
static const char *put_in_place(const struct replacement *new, int descriptor)
{
    const char *why = fill(descriptor, new);

    if (why == NULL && interrupted())
        why = told_to_end;
    if (why == NULL && rename(new->temporary, new->path) != 0)
        why = why_not(errno);
    if (why != NULL)
        unlink(new->temporary);
    return why;
}

/*
 * Has the new name on the disk: without that a crash may bring back the old file, whole. A folder that may not be read,
 * or whose disk knows no such order, is left to the system.
 */
static const char *sync_folder(const char *path)
{
    int descriptor = open(path, O_RDONLY | O_DIRECTORY), done;

    if (descriptor < 0)
        return NULL;
    done = fsync(descriptor) == 0 || errno == EINVAL;
    close(descriptor);
    return done ? NULL : "it is replaced, but may be the old one again after a crash: its folder cannot be written";
}

/* ---- names */

char *name_beside(const char *path, const char *what)
{
    const char *slash = strrchr(path, '/');
    size_t folder = slash == NULL ? 0 : (size_t)(slash - path) + 1;
    char *name = malloc(folder + strlen(what) + 1);

    if (name != NULL) {
        memcpy(name, path, folder);
        strcpy(name + folder, what);
    }
    return name;
}

/* The name is given, and on the disk. */
static const char *put_on_disk(const struct replacement *new, int descriptor)
{
    char *folder = name_beside(new->path, ".");
    const char *why = put_in_place(new, descriptor);

    /* where there is no memory for its name, the folder is left to the system */
    if (why == NULL && folder != NULL)
        why = sync_folder(folder);
    free(folder);
    return why;
}

const char *replace_by(const struct replacement *new, int descriptor)
{
    sigset_t before;
    const char *why;

    hold_signals(&before);
    why = put_on_disk(new, descriptor);
    sigprocmask(SIG_SETMASK, &before, NULL);
    return why;
}

static const char *replace_regular(const char *path, const struct stat *old, const uint8_t *bytes, size_t len)
{
    char *temporary = name_beside(path, ".hessian-XXXXXX");
    struct replacement new = {path, temporary, old, bytes, len};
    const char *why = why_not(ENOMEM);
    sigset_t before;
    int descriptor;

    if (temporary != NULL) {
        hold_signals(&before);
        descriptor = mkstemp(temporary);
        why = descriptor < 0 ? why_not(errno) : put_on_disk(&new, descriptor);
        sigprocmask(SIG_SETMASK, &before, NULL);
    }
    free(temporary);
    return why;
}

static bool is_standard_output(const struct stat *about)
{
    struct stat output;

    return fstat(STDOUT_FILENO, &output) == 0 && output.st_dev == about->st_dev && output.st_ino == about->st_ino;
}

static const char *write_into(const char *name, const uint8_t *bytes, size_t len)
{
    int descriptor = open(name, O_WRONLY | O_NOCTTY);
    const char *why;

    if (descriptor < 0)
        return why_not(errno);
    why = write_all(descriptor, bytes, len);
    if (close(descriptor) != 0 && why == NULL)
        why = why_not(errno);
    return why;
}

/* A file that is there: by its own path, where it may be written, since a new name would ask for no permission. */
static const char *replace_old(const char *name, const struct stat *old, const uint8_t *bytes, size_t len)
{
    char *path = access(name, W_OK) == 0 ? realpath(name, NULL) : NULL;
    const char *why = path == NULL ? why_not(errno) : replace_regular(path, old, bytes, len);

    free(path);
    return why;
}

const char *replace_file(const char *name, const uint8_t *bytes, size_t len)
{
    struct stat about;

    if (stat(name, &about) != 0) {
        if (errno != ENOENT)
            return why_not(errno);
        if (lstat(name, &about) == 0)
            return "it is a link that leads nowhere";
        return replace_regular(name, NULL, bytes, len);
    }
    if (S_ISDIR(about.st_mode))
        return why_not(EISDIR);
    if (is_standard_output(&about))
        return write_all(STDOUT_FILENO, bytes, len);
    return S_ISREG(about.st_mode) ? replace_old(name, &about, bytes, len) : write_into(name, bytes, len);
}
