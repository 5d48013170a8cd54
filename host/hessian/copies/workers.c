#include "workers.h"

#include <string.h>

#include "interrupt.h"

/* Files of so many bytes are large: of them a tray has few. */
enum { LARGE = 16384, FEW_FILES = 2 };

/* ---- the workers' threads */

static void read_tray(struct tray *t, struct hints *hints, struct tools *tools)
{
    unsigned i;

    for (i = 0; i < t->count; i++)
        read_file(&t->files[i], hints, tools);
}

/* The next tray, or NULL where there will be none. */
static struct tray *next_tray(struct workers *w)
{
    struct tray *t = NULL;

    pthread_mutex_lock(&w->lock);
    while (w->taken == w->filled && !w->stopping)
        pthread_cond_wait(&w->more, &w->lock);
    if (!w->stopping)
        t = &w->trays[w->taken++ % TRAYS];
    pthread_mutex_unlock(&w->lock);
    return t;
}

static void *work(void *argument)
{
    struct worker *self = argument;
    struct workers *w = self->all;
    struct tray *t;

    while ((t = next_tray(w)) != NULL) {
        read_tray(t, &w->hints, &self->tools);
        pthread_mutex_lock(&w->lock);
        t->ready = true;
        pthread_cond_signal(&w->done);
        pthread_mutex_unlock(&w->lock);
    }
    return NULL;
}

/* ---- the thread that hands over */

static void start_threads(struct workers *w)
{
    sigset_t before;

    hold_signals(&before);
    for (; w->running < WORKERS; w->running++) {
        struct worker *one = &w->each[w->running];

        one->all = w;
        new_tools(&one->tools);
        if (pthread_create(&one->thread, NULL, work, one) != 0)
            break;
    }
    release_signals(&before);
}

void start_workers(struct workers *w, bool thousandths, void (*take)(void *context, struct file *file), void *context)
{
    unsigned i;

    memset(w, 0, sizeof *w);
    for (i = 0; i < TRAYS * FILES; i++)
        new_file(&w->trays[i / FILES].files[i % FILES], thousandths);
    new_tools(&w->tools);
    w->capacity = FEW_FILES;
    new_hints(&w->hints);
    w->take = take;
    w->context = context;
    pthread_mutex_init(&w->lock, NULL);
    pthread_cond_init(&w->more, NULL);
    pthread_cond_init(&w->done, NULL);
    start_threads(w);
}

/* Where no thread could be started, the work is done here. */
static void hand_tray_over(struct workers *w)
{
    struct tray *t = &w->trays[w->filled % TRAYS];

    if (w->running == 0)
        read_tray(t, &w->hints, &w->tools);
    pthread_mutex_lock(&w->lock);
    t->ready = w->running == 0;
    w->filled++;
    pthread_cond_signal(&w->more);
    pthread_mutex_unlock(&w->lock);
}

/* Hands back the files of the oldest tray. */
static void empty_tray(struct workers *w)
{
    struct tray *t = &w->trays[w->emptied % TRAYS];
    size_t bytes = 0;
    unsigned i;

    pthread_mutex_lock(&w->lock);
    while (!t->ready)
        pthread_cond_wait(&w->done, &w->lock);
    pthread_mutex_unlock(&w->lock);
    for (i = 0; i < t->count; i++) {
        struct file *f = &t->files[i];

        w->take(w->context, f);
        bytes += f->folder != NULL ? f->record.len : 0;
        end_file(f);
    }
    w->capacity = bytes < t->count * LARGE ? FILES : FEW_FILES;
    t->count = 0;
    w->emptied++;
}

void hand_over(struct workers *w, const struct place *place, bool link, const char *why)
{
    struct tray *t = &w->trays[w->filled % TRAYS];

    set_file(&t->files[t->count++], place, link, why);
    if (t->count < w->capacity)
        return;
    hand_tray_over(w);
    if (w->filled - w->emptied == TRAYS)
        empty_tray(w);
}

void hand_all_back(struct workers *w)
{
    if (w->trays[w->filled % TRAYS].count > 0)
        hand_tray_over(w);
    while (w->emptied < w->filled)
        empty_tray(w);
}

void rewrite_here(struct workers *w, struct file *f)
{
    rewrite_file(f, &w->tools);
}

double library_seconds(const struct workers *w)
{
    double seconds = 0;
    unsigned i;

    for (i = 0; i < TRAYS * FILES; i++)
        seconds += w->trays[i / FILES].files[i % FILES].record.seconds;
    return seconds;
}

/* ---- the end */

static void stop_threads(struct workers *w)
{
    pthread_mutex_lock(&w->lock);
    w->stopping = true;
    pthread_cond_broadcast(&w->more);
    pthread_mutex_unlock(&w->lock);
    while (w->running > 0)
        pthread_join(w->each[--w->running].thread, NULL);
}

void stop_workers(struct workers *w)
{
    unsigned i;

    stop_threads(w);
    for (i = 0; i < TRAYS * FILES; i++)
        free_file(&w->trays[i / FILES].files[i % FILES]);
    for (i = 0; i < WORKERS; i++)
        free_tools(&w->each[i].tools);
    free_tools(&w->tools);
    free_hints(&w->hints);
    pthread_mutex_destroy(&w->lock);
    pthread_cond_destroy(&w->more);
    pthread_cond_destroy(&w->done);
}
