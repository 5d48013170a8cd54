"""A library that comes before the system's, for checks of what a program does where a call fails, takes long, or is the
last one: for the program as built, since sanitizers want to come first.

FAIL names the call that fails; `short` has writes take half, `slow` has fsync wait for a byte on standard input. KILL
is a number n: the program is killed before the nth of the calls that change something on the disk, a write counting
twice, at its beginning and when half of it is done. LOG is a file to which the names of these calls are appended.
"""
import os
import subprocess

SOURCE = r"""
#define _GNU_SOURCE
#include <dlfcn.h>
#include <errno.h>
#include <fcntl.h>
#include <signal.h>
#include <stdarg.h>
#include <stdio.h>
#include <stdlib.h>
#include <string.h>
#include <sys/file.h>
#include <sys/stat.h>
#include <sys/syscall.h>
#include <unistd.h>
static int is(const char *call) { const char *fail = getenv("FAIL"); return fail != 0 && strcmp(fail, call) == 0; }
static int no(int error) { errno = error; return -1; }
static int is_folder(int d) { struct stat s; return fstat(d, &s) == 0 && S_ISDIR(s.st_mode); }
static void step(const char *call)
{
    static int steps;
    const char *last = getenv("KILL"), *log = getenv("LOG");
    if (log != 0) {
        int d = openat(AT_FDCWD, log, O_WRONLY | O_APPEND | O_CREAT, 0666);
        dprintf(d, "%s\n", call);
        syscall(SYS_close, d);
    }
    if (last != 0 && ++steps == atoi(last)) kill(getpid(), SIGKILL);
}
ssize_t write(int d, const void *p, size_t n)
{
    ssize_t (*real)(int, const void *, size_t) = (ssize_t (*)(int, const void *, size_t))dlsym(RTLD_NEXT, "write");
    if (d <= 2) return real(d, p, n);
    step("write");
    if (is("write")) return no(ENOSPC);
    if (is("short") && n > 1) n = (n + 1) / 2;
    if (getenv("KILL") != 0 && n > 1) {
        ssize_t half = real(d, p, n / 2);
        step("write");
        return half;
    }
    return real(d, p, n);
}
int open(const char *name, int flags, ...)
{
    int (*real)(const char *, int, ...) = (int (*)(const char *, int, ...))dlsym(RTLD_NEXT, "open");
    va_list more;
    mode_t mode;
    va_start(more, flags);
    mode = flags & O_CREAT ? va_arg(more, mode_t) : 0;
    va_end(more);
    if (flags & O_CREAT) step("open");
    return flags & O_CREAT && is("open") ? no(EROFS) : real(name, flags, mode);
}
int flock(int d, int how)
{
    int (*real)(int, int) = (int (*)(int, int))dlsym(RTLD_NEXT, "flock");
    step("flock");
    return is("flock") ? no(ENOLCK) : real(d, how);
}
int fsync(int d)
{
    if (is("slow")) { char c; while (read(0, &c, 1) < 0) {} return 0; }
    step(is_folder(d) ? "fsync folder" : "fsync");
    return is(is_folder(d) ? "fsync folder" : "fsync") ? no(EIO) : 0;
}
int close(int d)
{
    int (*real)(int) = (int (*)(int))dlsym(RTLD_NEXT, "close");
    int writing = (fcntl(d, F_GETFL) & O_ACCMODE) != O_RDONLY, done;
    if (d > 2 && writing) step("close");
    done = real(d);
    return d > 2 && writing && is("close") ? no(EIO) : done;
}
int rename(const char *a, const char *b)
{
    step("rename");
    return is("rename") ? no(EBUSY) : renameat(AT_FDCWD, a, AT_FDCWD, b);
}
int unlink(const char *name)
{
    step("unlink");
    return is("unlink") ? no(EBUSY) : unlinkat(AT_FDCWD, name, 0);
}
int fchmod(int d, mode_t m)
{
    int (*real)(int, mode_t) = (int (*)(int, mode_t))dlsym(RTLD_NEXT, "fchmod");
    step("fchmod");
    return is("fchmod") ? no(EPERM) : real(d, m);
}
int fchown(int d, uid_t u, gid_t g) { (void)d, (void)u, (void)g; return no(EPERM); }
"""


def preloaded(folder, **variables):
    """The environment with the library, which is made in lib/ of a folder, and with these variables."""
    library = folder / "lib/preload.so"
    if not library.exists():
        os.mkdir(folder / "lib")
        words = [*os.environ.get("CC", "gcc").split(), "-shared", "-fPIC", "-x", "c", "-o", library, "-", "-ldl"]
        subprocess.run(words, input=SOURCE.encode(), check=True)
    return {**os.environ, "LD_PRELOAD": str(library), **{name: str(value) for name, value in variables.items()}}


def failing(folder, call):
    """The environment in which a call fails."""
    return preloaded(folder, FAIL=call)
