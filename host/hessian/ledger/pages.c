#include "pages.h"

#include <inttypes.h>
#include <stdio.h>

#include "json.h"
#include "names.h"
#include "quote.h"
#include "sizes.h"
#include "whole_lines.h"

static struct pages pages;

/* ---- text */

static void put_text_heading(void)
{
    printf("%8s  %8s  %8s  file%s\n", "bytes", "shortest", "saved", pages.thousandths ? ", 5f in thousandths" : "");
}

/* Where the bytes were saved. */
static void put_reasons(const struct account *a)
{
    const char *before = ": ";
    unsigned i;

    for (i = 0; i < GROUPS; i++)
        if (saved(&a->groups[i]) != 0) {
            printf("%s%s %" PRId64, before, group_name(i), saved(&a->groups[i]));
            before = ", ";
        }
}

static void put_text_accepted(const char *name, const struct account *a)
{
    printf("%8" PRIu64 "  %8" PRIu64 "  %8" PRId64 "  ", a->all.bytes, a->all.shortest, saved(&a->all));
    put_name(stdout, name);
    put_reasons(a);
    putchar('\n');
}

static void put_text_refused(const char *name, const struct record *r)
{
    fputs("refused ", stdout);
    put_name(stdout, name);
    printf(" %u %zu %s\n", r->number, r->place, reason(r));
}

static void put_text_sums(const struct sums *s)
{
    char what[40];
    unsigned i;

    if (s->passed.partial)
        puts("interrupted: partial sums");
    printf("%" PRIu64 " records, %" PRIu64 " accepted, %" PRIu64 " refused, %" PRIu64 " failed, %" PRIu64
           " repeated, %" PRIu64 " links\n",
           s->records, s->accepted, s->refused, s->failed, s->passed.repeated, s->passed.links);
    print_size("bytes accepted", (int64_t)s->account.all.bytes);
    print_size("bytes of shortest forms", (int64_t)s->account.all.shortest);
    print_size("bytes saved", saved(&s->account.all));
    for (i = 0; i < GROUPS; i++)
        if (saved(&s->account.groups[i]) != 0) {
            snprintf(what, sizeof what, "    in %s", group_name(i));
            print_size(what, saved(&s->account.groups[i]));
        }
}

/* ---- JSON */

static void put_json_amount(struct json *j, const struct amount *a)
{
    json_number(j, "bytes", a->bytes);
    json_number(j, "shortest", a->shortest);
    json_signed(j, "saved", saved(a));
}

static void put_json_group(struct json *j, enum group group, const struct amount *a)
{
    json_key(j, group_key(group));
    json_open(j, '{');
    put_json_amount(j, a);
    json_close(j, '}');
}

/* Groups that have no bytes are left out. */
static void put_json_account(struct json *j, const struct account *a)
{
    unsigned i;

    put_json_amount(j, &a->all);
    json_key(j, "groups");
    json_open(j, '{');
    for (i = 0; i < GROUPS; i++)
        if (a->groups[i].bytes > 0)
            put_json_group(j, i, &a->groups[i]);
    json_close(j, '}');
}

/* The state, the name of a file, and the rule that it is read by. */
static void open_json_line(struct json *j, const char *state, const char *name)
{
    json_open(j, '{');
    json_text(j, "state", state);
    if (name != NULL)
        json_text(j, "name", name);
    if (pages.thousandths)
        json_truth(j, "thousandths", true);
}

static void close_json_line(struct json *j)
{
    json_close(j, '}');
    putc('\n', j->out);
}

static void put_json_accepted(const char *name, const struct account *a)
{
    struct json j = {stdout, false};

    open_json_line(&j, "accepted", name);
    put_json_account(&j, a);
    close_json_line(&j);
}

static void put_json_refused(const char *name, const struct record *r)
{
    struct json j = {stdout, false};

    open_json_line(&j, "refused", name);
    json_number(&j, "bytes", r->size);
    if (too_long_shortest(r))
        json_number(&j, "shortest", shortest_length(r));
    json_number(&j, "number", r->number);
    json_number(&j, "place", r->place);
    json_text(&j, "reason", reason(r));
    close_json_line(&j);
}

static void put_json_sums(const struct sums *s)
{
    struct json j = {stdout, false};

    open_json_line(&j, "total", NULL);
    json_number(&j, "records", s->records);
    json_number(&j, "accepted", s->accepted);
    json_number(&j, "refused", s->refused);
    put_json_account(&j, &s->account);
    json_number(&j, "failed", s->failed);
    json_number(&j, "repeated", s->passed.repeated);
    json_number(&j, "links", s->passed.links);
    json_truth(&j, "partial", s->passed.partial);
    close_json_line(&j);
}

/* ---- CSV, by RFC 4180, where lines end with two characters */

static void put_csv_heading(void)
{
    unsigned i;

    fputs("state,name,bytes,shortest,saved", stdout);
    for (i = 0; i < GROUPS; i++)
        printf(",%s", group_key(i));
    fputs(",number,place,reason\r\n", stdout);
}

static void put_csv_accepted(const char *name, const struct account *a)
{
    unsigned i;

    fputs("accepted,", stdout);
    put_csv(stdout, name);
    printf(",%" PRIu64 ",%" PRIu64 ",%" PRId64, a->all.bytes, a->all.shortest, saved(&a->all));
    for (i = 0; i < GROUPS; i++)
        printf(",%" PRId64, saved(&a->groups[i]));
    fputs(",,,\r\n", stdout);
}

static void put_csv_refused(const char *name, const struct record *r)
{
    unsigned i;

    fputs("refused,", stdout);
    put_csv(stdout, name);
    printf(",%" PRIu64 ",,", r->size);
    for (i = 0; i < GROUPS; i++)
        putchar(',');
    printf(",%u,%zu,", r->number, r->place);
    put_csv(stdout, reason(r));
    fputs("\r\n", stdout);
}

/* ---- all of them */

void begin_pages(const struct pages *p)
{
    pages = *p;
    begin_whole_lines();
    if (!pages.lines || pages.as == AS_JSON)
        return;
    (pages.as == AS_CSV ? put_csv_heading : put_text_heading)();
    end_whole_line();
}

void print_accepted(const char *name, const struct account *a)
{
    static void (*const put[])(const char *, const struct account *) = {
        [AS_TEXT] = put_text_accepted, [AS_JSON] = put_json_accepted, [AS_CSV] = put_csv_accepted
    };

    if (!pages.lines)
        return;
    put[pages.as](name, a);
    end_whole_line();
}

void print_refused_record(const char *name, const struct record *r)
{
    static void (*const put[])(const char *, const struct record *) = {
        [AS_TEXT] = put_text_refused, [AS_JSON] = put_json_refused, [AS_CSV] = put_csv_refused
    };

    if (!pages.lines)
        return;
    put[pages.as](name, r);
    end_whole_line();
}

void print_no_record(const char *state, const char *name, const char *why)
{
    struct json j = {stdout, false};

    if (!pages.lines || pages.as != AS_JSON)
        return;
    open_json_line(&j, state, name);
    json_text(&j, "reason", why);
    close_json_line(&j);
    end_whole_line();
}

void print_sums(const struct sums *s)
{
    if (pages.as == AS_JSON)
        put_json_sums(s);
    else if (pages.as == AS_TEXT)
        put_text_sums(s);
}
