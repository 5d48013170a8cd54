#include "reading.h"

#include <stdlib.h>
#include <string.h>
#include <time.h>

#include "hessian.h"
#include "memory.h"

/*
 * A change within the same tick of a file system's clock as an earlier one leaves its times as they were. The coarsest
 * clocks have ticks of two seconds: a file whose last change is older than this cannot change unnoticed.
 */
static const int64_t SETTLED = INT64_C(3000000000);

static int64_t now(void)
{
    struct timespec t;

    clock_gettime(CLOCK_REALTIME, &t);
    return (int64_t)t.tv_sec * 1000000000 + t.tv_nsec;
}

/* Most records of an archive are in their shortest form already: it is stored only where it is another. */
void rewrite_file(struct file *f, struct tools *tools)
{
    struct record *r = &f->record;
    uint8_t *own = r->shortest;

    r->table = tools->table;
    r->shortest = tools->shortest;
    rewrite(r);
    r->table = NULL;
    f->rewritten = true;
    f->shortest_already = r->shortest_len == r->len && memcmp(r->shortest, r->message, r->len) == 0;
    f->shortest_hash = f->shortest_already ? f->hash : hash_of(r->shortest, r->shortest_len);
    if (f->shortest_already)
        r->shortest = own;
    else
        tools->shortest = own;
}

const uint8_t *shortest_of(const struct file *f)
{
    return f->shortest_already ? f->record.message : f->record.shortest;
}

/* Bytes whose hash was met are most likely those of a copy, which need not be rewritten. */
void read_file(struct file *f, struct hints *hints, struct tools *tools)
{
    int64_t start;

    if (f->folder == NULL)
        return;
    start = now();
    f->why = load_at(&f->record, f->folder->descriptor, f->name + f->base);
    if (f->why != NULL)
        return;
    f->settled = f->record.stamp.modified < start - SETTLED && f->record.stamp.changed < start - SETTLED;
    f->hash = hash_of(f->record.message, f->record.len);
    f->rewritten = false;
    if (!asked_before(hints, f->hash))
        rewrite_file(f, tools);
}

/* ---- buffers */

void new_file(struct file *f, bool thousandths)
{
    memset(f, 0, sizeof *f);
    if (!new_record_lent_table(&f->record))
        no_memory();
    f->record.thousandths = thousandths;
}

void set_file(struct file *f, const struct place *place, bool link, const char *why)
{
    size_t len = strlen(place->name) + 1;

    f->name = grown(f->name, &f->room, len, 1);
    memcpy(f->name, place->name, len);
    f->base = place->base;
    f->folder = place->folder == NULL ? NULL : use_folder(place->folder);
    f->link = link;
    f->why = why;
}

void end_file(struct file *f)
{
    if (f->folder != NULL)
        leave_folder(f->folder);
    f->folder = NULL;
}

void free_file(struct file *f)
{
    end_file(f);
    free(f->name);
    free_record(&f->record);
}

void new_tools(struct tools *tools)
{
    tools->table = new_table();
    tools->shortest = malloc(HESSIAN_LONGEST);
    if (tools->table == NULL || tools->shortest == NULL)
        no_memory();
}

void free_tools(struct tools *tools)
{
    free(tools->table);
    free(tools->shortest);
}
