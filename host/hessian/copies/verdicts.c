#include "verdicts.h"

#include <fcntl.h>
#include <string.h>

#include "command.h"
#include "hessian.h"
#include "interrupt.h"
#include "lines.h"
#include "memory.h"

bool stopped(void)
{
    return signal_met() != 0 || output_failed();
}

/* ---- the files of kept records */

/* Whether a kept record's file is, by its times, as it was when it was read. */
static bool as_it_was(const struct run *run, const struct kept *k)
{
    struct stamp now;

    return k->settled && stamp_now(name_of(&run->store, k), &now) && now.device == k->stamp.device &&
           now.inode == k->stamp.inode && now.modified == k->stamp.modified && now.changed == k->stamp.changed;
}

/* NULL where the kept record's file is in `earlier`, or why it is not to be compared with this one. */
static const char *read_again(struct run *run, const struct kept *k, const struct file *f)
{
    const struct stamp *now = &run->earlier.stamp;

    run->read_again++;
    if (load_at(&run->earlier, AT_FDCWD, name_of(&run->store, k)) != NULL)
        return "it can no longer be read";
    if (now->inode == f->record.stamp.inode && now->device == f->record.stamp.device)
        return "its name now stands for another file";
    return NULL;
}

/* The same, its shortest form with it, which has to be the one that it had. */
static const char *rewrite_again(struct run *run, const struct form *form, const struct file *f)
{
    const char *why = read_again(run, record_of(&run->store, form), f);
    struct record *r = &run->earlier;

    if (why != NULL)
        return why;
    rewrite(r);
    if (r->number != HESSIAN_ACCEPTED || r->shortest_len != form->size ||
        hash_of(r->shortest, r->shortest_len) != form->hash)
        return "it has changed since";
    return NULL;
}

/* ---- is it a copy? */

/*
 * Whether the file's bytes are this form of a kept record. Where that cannot be told without rewriting it is not said
 * to be: the shortest forms are compared then.
 */
static bool has_bytes(struct run *run, const struct file *f, const struct form *form)
{
    const struct kept *k = record_of(&run->store, form);
    const struct record *r = &f->record;

    if (form->bytes != NULL && memcmp(form->bytes, r->message, r->len) != 0)
        return false;
    if (form->bytes != NULL && as_it_was(run, k))
        return true;
    return (form->origin & OWN) != 0 && read_again(run, k, f) == NULL && run->earlier.len == r->len &&
           memcmp(run->earlier.message, r->message, r->len) == 0;
}

/* Whether the file's shortest form is that of a kept record, whose file is lost if it has changed. */
static bool has_shortest(struct run *run, const struct file *f, const struct form *form)
{
    struct kept *k = record_of(&run->store, form);
    const char *why;

    if (form->bytes != NULL && memcmp(form->bytes, shortest_of(f), form->size) != 0)
        return false;
    if (form->bytes != NULL && as_it_was(run, k))
        return true;
    why = rewrite_again(run, form, f);
    if (why != NULL) {
        k->lost = true;
        run->totals.failed++;
        print_changed(name_of(&run->store, k), why, f->name);
        return false;
    }
    return memcmp(run->earlier.shortest, shortest_of(f), form->size) == 0;
}

/*
 * The forms of kept records that stand for these records where a file has them for its bytes. Those of files do, since
 * all files are read by one rule. Shortest forms are by the main rule: by that rule the shortest form of a shortest
 * form is itself, but read as thousandths it may be another record.
 */
static unsigned origins_of_bytes(const struct file *f)
{
    return f->record.thousandths ? OWN | A_COPY : OWN | A_COPY | SHORTEST;
}

/* The form of a kept record that the file's bytes are, or NULL. */
static const struct form *same_bytes(struct run *run, const struct file *f)
{
    const unsigned origins = origins_of_bytes(f);
    const struct form *form;
    size_t from = 0;

    while ((form = candidate(&run->store, origins, f->hash, f->record.len, &from)) != NULL)
        if (has_bytes(run, f, form))
            break;
    return form;
}

/* The shortest form of a kept record that the file's shortest form is, or NULL. */
static const struct form *same_shortest(struct run *run, const struct file *f)
{
    const struct form *form;
    size_t from = 0;

    while ((form = candidate(&run->store, SHORTEST, f->shortest_hash, f->record.shortest_len, &from)) != NULL)
        if (has_shortest(run, f, form))
            break;
    return form;
}

/* ---- verdicts */

static void take_copy(struct run *run, const struct file *f, const struct kept *k)
{
    run->totals.copies++;
    run->totals.bytes_of_copies += f->record.size;
    print_copy(f->name, f->record.size, k->shortest, name_of(&run->store, k));
}

static void take_kept(struct run *run, const struct file *f)
{
    const struct record *r = &f->record;
    struct kept k = {0, r->stamp, (uint32_t)r->shortest_len, f->settled, false};
    size_t index = keep(&run->store, k, f->name);

    add_form(&run->store, index, f->shortest_already ? OWN | SHORTEST : OWN, f->hash, r->message, r->len);
    if (!f->shortest_already)
        add_form(&run->store, index, SHORTEST, f->shortest_hash, r->shortest, r->shortest_len);
    run->totals.distinct++;
    run->totals.bytes_by_rewriting += (int64_t)r->size - (int64_t)r->shortest_len;
    print_kept(f->name, r);
}

static void take_refused(struct run *run, const struct file *f)
{
    run->totals.refused++;
    print_refused(f->name, &f->record);
}

/* A file none of whose bytes were met: by its shortest form. */
static void take_new(struct run *run, struct file *f)
{
    const struct form *form;

    if (!f->rewritten)
        rewrite_here(&run->workers, f);
    if (f->record.number != HESSIAN_ACCEPTED) {
        take_refused(run, f);
    } else if ((form = same_shortest(run, f)) != NULL) {
        size_t kept = form->kept;

        take_copy(run, f, record_of(&run->store, form));
        add_form(&run->store, kept, A_COPY, f->hash, f->record.message, f->record.len);
    } else {
        take_kept(run, f);
    }
}

static void take_record(struct run *run, struct file *f)
{
    const struct form *form = same_bytes(run, f);

    run->totals.records++;
    run->totals.bytes_in += f->record.size;
    if (form != NULL)
        take_copy(run, f, record_of(&run->store, form));
    else
        take_new(run, f);
    show_progress(&run->totals);
}

static void take_file(void *context, struct file *f)
{
    struct run *run = context;

    if (stopped())
        return;
    if (f->link) {
        run->totals.passed.links++;
        print_link(f->name);
    } else if (f->why != NULL) {
        run->totals.failed++;
        print_failed(f->name, f->why);
    } else if (met_before(&run->met, f->record.stamp.device, f->record.stamp.inode)) {
        run->totals.passed.repeated++;
        print_repeated(f->name);
    } else {
        take_record(run, f);
    }
}

/* ---- the run */

void start_run(struct run *run, bool thousandths)
{
    memset(run, 0, sizeof *run);
    if (!new_record(&run->earlier))
        no_memory();
    run->earlier.thousandths = thousandths;
    new_met(&run->met);
    new_store(&run->store);
    start_workers(&run->workers, thousandths, take_file, run);
}

void end_run(struct run *run)
{
    stop_workers(&run->workers);
    free_store(&run->store);
    free_met(&run->met);
    free_record(&run->earlier);
}
