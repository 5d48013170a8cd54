/* Which files are looked at, by their names: --include and --exclude. */
#ifndef FILTER_H
#define FILTER_H

#include <stdbool.h>
#include <stddef.h>

struct filter {
    const char **include, **exclude; /* globs */
    size_t includes, excludes;
};

/* A filter with room for so many globs of each kind. */
void new_filter(struct filter *f, size_t globs);

void free_filter(struct filter *f);

/* Whether a file matches a glob that includes, if there are any, and none that excludes. */
bool wants_file(const struct filter *f, const char *path);

/* Whether a folder that was met in another is looked into: those that include are about files. */
bool wants_folder(const struct filter *f, const char *path);

#endif
