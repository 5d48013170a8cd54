#include "filter.h"

#include <fnmatch.h>
#include <stdlib.h>
#include <string.h>

#include "memory.h"

void new_filter(struct filter *f, size_t globs)
{
    f->include = zeros(globs, sizeof *f->include);
    f->exclude = zeros(globs, sizeof *f->exclude);
    f->includes = f->excludes = 0;
}

void free_filter(struct filter *f)
{
    free(f->include);
    free(f->exclude);
}

/* A glob with a slash is about the whole path, as that of find -path, any other about what follows the last slash. */
static bool matches(const char *const *globs, size_t count, const char *path)
{
    const char *slash = strrchr(path, '/'), *base = slash != NULL ? slash + 1 : path;
    size_t i;

    for (i = 0; i < count; i++)
        if (fnmatch(globs[i], strchr(globs[i], '/') != NULL ? path : base, 0) == 0)
            return true;
    return false;
}

bool wants_file(const struct filter *f, const char *path)
{
    return (f->includes == 0 || matches(f->include, f->includes, path)) && wants_folder(f, path);
}

bool wants_folder(const struct filter *f, const char *path)
{
    return !matches(f->exclude, f->excludes, path);
}
