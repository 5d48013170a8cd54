#include "sums.h"

#include <inttypes.h>
#include <stdio.h>

#include "progress.h"
#include "sizes.h"

/* ---- sums for a person */

/* Bytes gained in all, which may be below 0. */
static int64_t bytes_saved(const struct totals *t)
{
    return (int64_t)t->bytes_of_copies + t->bytes_by_rewriting;
}

static void print_text(const struct totals *t)
{
    if (t->passed.partial)
        puts("interrupted: partial sums");
    printf("%" PRIu64 " records, %" PRIu64 " distinct, %" PRIu64 " copies, %" PRIu64 " refused, %" PRIu64
           " failed, %" PRIu64 " repeated, %" PRIu64 " links\n",
           t->records, t->distinct, t->copies, t->refused, t->failed, t->passed.repeated, t->passed.links);
    print_size("bytes in", (int64_t)t->bytes_in);
    print_size("bytes gained by removing copies", (int64_t)t->bytes_of_copies);
    print_size("bytes gained by rewriting", t->bytes_by_rewriting);
    print_size("bytes saved", bytes_saved(t));
}

/* ---- sums for a program */

static void print_json(const struct totals *t)
{
    printf("{\"state\":\"total\",\"records\":%" PRIu64 ",\"distinct\":%" PRIu64 ",\"copies\":%" PRIu64
           ",\"refused\":%" PRIu64 ",\"bytes_in\":%" PRIu64 ",\"bytes_saved\":%" PRId64,
           t->records, t->distinct, t->copies, t->refused, t->bytes_in, bytes_saved(t));
    printf(",\"gained_by_removing\":%" PRIu64 ",\"gained_by_rewriting\":%" PRId64 ",\"repeated\":%" PRIu64
           ",\"links\":%" PRIu64 ",\"failed\":%" PRIu64 ",\"partial\":%s}\n",
           t->bytes_of_copies, t->bytes_by_rewriting, t->passed.repeated, t->passed.links, t->failed,
           t->passed.partial ? "true" : "false");
}

void print_totals(const struct totals *t, bool json)
{
    if (json)
        print_json(t);
    else
        print_text(t);
}

/* ---- progress */

void show_progress(const struct totals *t)
{
    if (progress_due(t->records))
        fprintf(stderr, "%" PRIu64 " records, %" PRIu64 " copies, %" PRIu64 " refused", t->records, t->copies,
                t->refused);
}
