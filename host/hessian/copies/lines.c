#include "lines.h"

#include <inttypes.h>
#include <stdio.h>

#include "names.h"
#include "progress.h"
#include "quote.h"
#include "whole_lines.h"

static struct layout layout;

void begin_lines(const struct layout *l)
{
    layout = *l;
    begin_whole_lines();
}

/* ---- parts of lines */

/* A text and a name. */
static void put_both(FILE *out, const char *text, const char *name)
{
    fputs(text, out);
    if (layout.json && out == stdout)
        put_json(out, name);
    else
        put_name(out, name);
}

static void put_with_zero_byte(const char *name)
{
    fputs(name, stdout);
    putchar('\0');
}

/* The state and the name, if such a line is printed. Progress is in its way only where both are on one terminal. */
static bool begin_line(unsigned state, const char *word, const char *name)
{
    if ((layout.lines & state) == 0)
        return false;
    if (lines_on_terminal())
        end_progress();
    if (layout.names) {
        put_with_zero_byte(name);
    } else if (layout.json) {
        printf("{\"state\":\"%s\"", word);
        put_both(stdout, ",\"name\":", name);
    } else {
        fputs(word, stdout);
        put_both(stdout, " ", name);
    }
    return true;
}

static void end_line(void)
{
    if (!layout.names)
        fputs(layout.json ? "}\n" : "\n", stdout);
    end_whole_line();
}

/* ---- a line for each file */

void print_kept(const char *name, const struct record *r)
{
    if (!begin_line(LINE_KEPT, "kept", name))
        return;
    if (layout.json)
        printf(",\"bytes\":%" PRIu64 ",\"shortest\":%zu", r->size, r->shortest_len);
    else if (!layout.names)
        printf(" %zu", r->shortest_len);
    end_line();
}

void print_copy(const char *name, uint64_t size, size_t shortest, const char *of)
{
    if (!begin_line(LINE_COPY, "copy", name))
        return;
    if (!layout.names)
        put_both(stdout, layout.json ? ",\"of\":" : " ", of);
    else if (layout.pairs)
        put_with_zero_byte(of);
    if (layout.json)
        printf(",\"bytes\":%" PRIu64 ",\"shortest\":%zu", size, shortest);
    end_line();
}

void print_refused(const char *name, const struct record *r)
{
    if (!begin_line(LINE_REFUSED, "refused", name))
        return;
    if (layout.json)
        printf(",\"bytes\":%" PRIu64 ",\"number\":%u,\"place\":%zu,\"reason\":\"%s\"", r->size, r->number, r->place,
               reason(r));
    else if (!layout.names)
        printf(" %u %zu %s", r->number, r->place, reason(r));
    end_line();
}

/* ---- what is no record */

/* For programs; a person is told on standard error. */
static void print_other(const char *state, const char *name, const char *why)
{
    if (layout.json && begin_line(LINE_OTHER, state, name)) {
        put_both(stdout, ",\"reason\":", why);
        end_line();
    }
}

void print_repeated(const char *name)
{
    print_other("repeated", name, "this file was met before, by this or another name");
}

void print_link(const char *name)
{
    print_other("link", name, "it is a symbolic link");
}

void print_failed(const char *name, const char *why)
{
    print_other("failed", name, why);
    end_progress();
    put_both(stderr, "hessian copies: cannot read ", name);
    fprintf(stderr, ": %s\n", why);
}

void print_changed(const char *name, const char *why, const char *other)
{
    print_other("changed", name, why);
    end_progress();
    put_both(stderr, "hessian copies: ", name);
    fprintf(stderr, " was kept, but %s; ", why);
    put_both(stderr, "", other);
    fputs(" is not taken for a copy of it\n", stderr);
}
