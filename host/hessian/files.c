#define _DEFAULT_SOURCE /* d_type */
#include "files.h"

#include <dirent.h>
#include <errno.h>
#include <fcntl.h>
#include <limits.h>
#include <stdlib.h>
#include <string.h>
#include <sys/stat.h>
#include <unistd.h>

#include "memory.h"
#include "record.h"

/* Of folders; a process may have some hundreds of files open. */
enum { MOST_OPEN = 100 };

/* What is looked at: its path grows and shrinks with the folders. */
struct walk {
    char *path;
    size_t len, room;
    const struct filter *filter;
    const struct visitor *v;
};

static void push(struct walk *w, const char *name)
{
    size_t more = strlen(name);

    w->path = grown(w->path, &w->room, w->len + more + 2, 1);
    if (w->len > 0 && w->path[w->len - 1] != '/')
        w->path[w->len++] = '/';
    memcpy(w->path + w->len, name, more + 1);
    w->len += more;
}

static void pop(struct walk *w, size_t len)
{
    w->len = len;
    w->path[len] = '\0';
}

static void fail(const struct walk *w, int error)
{
    w->v->fail(w->v->context, w->path, why_not(error));
}

/* ---- open folders */

static unsigned open_folders;

struct folder *use_folder(struct folder *f)
{
    f->users++;
    return f;
}

void leave_folder(struct folder *f)
{
    if (--f->users > 0)
        return;
    if (f->descriptor != AT_FDCWD) {
        close(f->descriptor);
        open_folders--;
    }
    free(f);
}

/* A folder with one user. */
static struct folder *new_folder(int descriptor)
{
    struct folder *f = zeros(1, sizeof *f);

    f->descriptor = descriptor;
    f->users = 1;
    return f;
}

/* The same, for what is opened later, where not too many are open. */
static struct folder *kept_open(int descriptor)
{
    if (open_folders < MOST_OPEN) {
        open_folders++;
        return new_folder(descriptor);
    }
    close(descriptor);
    return new_folder(AT_FDCWD);
}

/* ---- the names in a folder */

struct names {
    char *text; /* of each its type, a byte, and the name with its zero byte */
    size_t len, room;
    const char **each;
    size_t count;
};

static int in_order(const void *a, const void *b)
{
    return strcmp(*(const char *const *)a, *(const char *const *)b);
}

static unsigned char type_of(const char *name)
{
    return (unsigned char)name[-1];
}

/* Links, pipes and devices are passed over here. */
static void add_name(struct names *n, const struct dirent *entry)
{
    const char *name = entry->d_name;
    size_t more = strlen(name) + 1;

    if (entry->d_type != DT_REG && entry->d_type != DT_DIR && entry->d_type != DT_UNKNOWN)
        return;
    if (strcmp(name, ".") == 0 || strcmp(name, "..") == 0)
        return;
    n->text = grown(n->text, &n->room, n->len + 1 + more, 1);
    n->text[n->len] = (char)entry->d_type;
    memcpy(n->text + n->len + 1, name, more);
    n->len += 1 + more;
    n->count++;
}

static void sort_names(struct names *n)
{
    size_t at = 0, i;

    n->each = zeros(n->count + 1, sizeof *n->each);
    for (i = 0; i < n->count; i++) {
        n->each[i] = n->text + at + 1;
        at += strlen(n->each[i]) + 2;
    }
    qsort(n->each, n->count, sizeof *n->each, in_order);
}

/* What closes the listing leaves the folder open: it has a descriptor of its own. False, with errno, where it fails. */
static bool list_folder(int descriptor, struct names *n)
{
    int own = openat(descriptor, ".", O_RDONLY | O_DIRECTORY | O_CLOEXEC), error;
    DIR *directory = own < 0 ? NULL : fdopendir(own);
    struct dirent *entry;

    if (directory == NULL) {
        error = errno;
        if (own >= 0)
            close(own);
        errno = error;
        return false;
    }
    for (errno = 0; (entry = readdir(directory)) != NULL; errno = 0)
        add_name(n, entry);
    error = errno;
    closedir(directory);
    errno = error;
    return error == 0;
}

/* ---- visits */

static void visit_folder(struct walk *w, int parent, const char *name, int flags);

/* For file systems that do not tell types when they list. */
static unsigned char looked_up(const struct walk *w, const struct folder *f, const char *name)
{
    struct stat about;

    if (fstatat(f->descriptor, name, &about, AT_SYMLINK_NOFOLLOW) != 0) {
        fail(w, errno);
        return DT_UNKNOWN;
    }
    return S_ISDIR(about.st_mode) ? DT_DIR : S_ISREG(about.st_mode) ? DT_REG : DT_UNKNOWN;
}

/* The path is that of the entry. */
static void visit_entry(struct walk *w, struct folder *f, const char *name)
{
    size_t base = f->descriptor == AT_FDCWD ? 0 : w->len - strlen(name);
    unsigned char type = type_of(name);

    if (w->len >= PATH_MAX) { /* by this name no program can open it */
        fail(w, ENAMETOOLONG);
        return;
    }
    if (type == DT_UNKNOWN)
        type = looked_up(w, f, w->path + base);
    if (type == DT_DIR && wants_folder(w->filter, w->path)) {
        visit_folder(w, f->descriptor, w->path + base, O_NOFOLLOW);
    } else if (type == DT_REG && wants_file(w->filter, w->path)) {
        struct place place = {w->path, base, f};

        w->v->file(w->v->context, &place);
    }
}

static void visit_names(struct walk *w, struct folder *f, const struct names *names)
{
    size_t len = w->len, i;

    for (i = 0; i < names->count && !w->v->stopped(w->v->context); i++) {
        push(w, names->each[i]);
        visit_entry(w, f, names->each[i]);
        pop(w, len);
    }
}

/* The folder of that name in `parent`, whose path is that of the walk. */
static void visit_folder(struct walk *w, int parent, const char *name, int flags)
{
    int descriptor = openat(parent, name, O_RDONLY | O_DIRECTORY | O_CLOEXEC | flags);
    struct names names = {NULL, 0, 0, NULL, 0};
    struct folder *f;

    if (descriptor < 0) {
        fail(w, errno);
        return;
    }
    if (!list_folder(descriptor, &names))
        fail(w, errno);
    sort_names(&names);
    f = kept_open(descriptor);
    visit_names(w, f, &names);
    leave_folder(f);
    free(names.text);
    free(names.each);
}

/* ---- what was named */

/* Whether a name stands for a folder, be it by a link. */
static bool is_folder(const char *name, const struct stat *about)
{
    struct stat of;

    return S_ISDIR(about->st_mode) || (S_ISLNK(about->st_mode) && stat(name, &of) == 0 && S_ISDIR(of.st_mode));
}

static void visit_named_file(const char *name, const struct visitor *v)
{
    struct place place = {name, 0, new_folder(AT_FDCWD)};

    v->file(v->context, &place);
    leave_folder(place.folder);
}

void each_file(const char *name, const struct filter *filter, const struct visitor *v)
{
    struct walk w = {NULL, 0, 0, filter, v};
    struct stat about;

    if (lstat(name, &about) != 0) {
        v->fail(v->context, name, why_not(errno));
    } else if (is_folder(name, &about)) {
        push(&w, name);
        visit_folder(&w, AT_FDCWD, w.path, 0);
        free(w.path);
    } else if (wants_file(filter, name)) {
        if (S_ISREG(about.st_mode))
            visit_named_file(name, v);
        else if (S_ISLNK(about.st_mode))
            v->link(v->context, name);
        else
            v->fail(v->context, name, not_regular);
    }
}
