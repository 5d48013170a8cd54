/* The files that a name stands for: itself, or those in a folder and its folders, in the order of their names. */
#ifndef FILES_H
#define FILES_H

#include <stdbool.h>
#include <stddef.h>

#include "filter.h"

/* A folder that stays open as long as files in it wait to be read, which are then opened by their names in it. */
struct folder {
    int descriptor; /* AT_FDCWD: too many are open, and its files are opened by their whole names */
    unsigned users;
};

/* A file: its whole name, and where in it its name in the folder begins. */
struct place {
    const char *name;
    size_t base;
    struct folder *folder;
};

/* What is done with a regular file, with a link that was named, and with a name that cannot be used. */
struct visitor {
    void (*file)(void *context, const struct place *place);
    void (*link)(void *context, const char *name);
    void (*fail)(void *context, const char *name, const char *why);
    void (*wait)(void *context);    /* before it has to wait for more names */
    bool (*stopped)(void *context); /* whether nothing more is to be visited */
    void *context;
};

/* In folders, links and whatever else is neither a regular file nor a folder are passed over. */
void each_file(const char *name, const struct filter *filter, const struct visitor *v);

/* One user more, or one less, of a folder. */
struct folder *use_folder(struct folder *f);
void leave_folder(struct folder *f);

#endif
