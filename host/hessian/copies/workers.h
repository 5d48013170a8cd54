/*
 * Files are read, hashed and rewritten by workers, some at a time, and handed back in the order in which they came.
 * All functions here are for the one thread that hands files over; `done` is called in it too.
 */
#ifndef WORKERS_H
#define WORKERS_H

#include <pthread.h>
#include <stdbool.h>

#include "files.h"
#include "hash.h"
#include "reading.h"

enum { WORKERS = 2, TRAYS = 4, FILES = 16 };

/* Files that one worker takes at once, so that threads seldom wait for each other. */
struct tray {
    struct file files[FILES];
    unsigned count;
    bool ready; /* the worker is done with it */
};

struct worker {
    struct workers *all;
    pthread_t thread;
    struct tools tools;
};

/* Trays are counted from the first on; number n stands at n modulo TRAYS. */
struct workers {
    struct tray trays[TRAYS];
    unsigned long filled;  /* handed to the workers */
    unsigned long taken;   /* by a worker */
    unsigned long emptied; /* of which every file was handed back */
    bool stopping;
    pthread_mutex_t lock; /* of these, and of `ready` */
    pthread_cond_t more, done;
    struct worker each[WORKERS];
    unsigned running;
    struct hints hints;
    struct tools tools; /* for files that are rewritten in this thread */
    unsigned capacity;  /* of a tray: fewer files where these are large, so that fewer buffers are used */
    void (*take)(void *context, struct file *file); /* what is done with a file that was read */
    void *context;
};

/* Files are read by the rule of thousandths, or by the main rule. */
void start_workers(struct workers *w, bool thousandths, void (*take)(void *context, struct file *file), void *context);

/* Hands over a file; `place` without a folder is a name alone: that of a link, or why it cannot be read. */
void hand_over(struct workers *w, const struct place *place, bool link, const char *why);

/* Waits until every file was handed back. */
void hand_all_back(struct workers *w);

/* Files that were not handed back are forgotten. */
void stop_workers(struct workers *w);

/* Rewrites a file that no worker has rewritten, because its hash had been met. */
void rewrite_here(struct workers *w, struct file *f);

/* Seconds spent in the library. */
double library_seconds(const struct workers *w);

#endif
