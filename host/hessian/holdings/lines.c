#include "lines.h"

#include <inttypes.h>
#include <stdio.h>

#include "json.h"
#include "quote.h"
#include "sizes.h"
#include "whole_lines.h"

static struct layout layout;

static const char *const words[STATES] = {[NEW] = "new",           [FOUND] = "found", [REFUSED_RECORD] = "refused",
                                          [FAILED] = "failed",     [REPEATED] = "repeated",
                                          [LINK] = "link",         [SELF] = "self"};

void begin_add_lines(const struct layout *l)
{
    layout = *l;
    begin_whole_lines();
}

/* ---- text */

static void put_text_item(const char *name, const struct item *item)
{
    printf("%s ", words[item->state]);
    put_name(stdout, name);
    if (item->state == REFUSED_RECORD)
        printf(" %u %zu %s\n", item->number, item->place, item->reason);
    else
        printf(" %" PRIu64 "\n", item->entry);
}

/* All that were records. */
static uint64_t records(const struct sums *s)
{
    return s->of[NEW] + s->of[FOUND] + s->of[REFUSED_RECORD];
}

static void put_text_sums(const struct sums *s)
{
    if (s->partial)
        puts("interrupted: partial sums");
    printf("%" PRIu64 " records, %" PRIu64 " new, %" PRIu64 " found, %" PRIu64 " refused, %" PRIu64 " failed, %" PRIu64
           " repeated, %" PRIu64 " links\n",
           records(s), s->of[NEW], s->of[FOUND], s->of[REFUSED_RECORD], s->of[FAILED], s->of[REPEATED], s->of[LINK]);
    if (!s->known)
        return;
    printf("entries in the file: %" PRIu64 "\n", s->entries);
    print_size("bytes of the file", (int64_t)s->bytes);
}

/* ---- JSON */

static void put_json_item(const char *name, const struct item *item)
{
    struct json j = {stdout, false};

    json_open(&j, '{');
    json_text(&j, "state", words[item->state]);
    json_text(&j, "name", name);
    if (item->state <= REFUSED_RECORD)
        json_number(&j, "bytes", item->bytes);
    if (item->state == NEW || item->state == FOUND)
        json_number(&j, "entry", item->entry);
    if (item->state == REFUSED_RECORD) {
        json_number(&j, "number", item->number);
        json_number(&j, "place", item->place);
    }
    if (item->reason != NULL)
        json_text(&j, "reason", item->reason);
    json_close(&j, '}');
    putchar('\n');
}

static void put_json_sums(const struct sums *s)
{
    static const enum state told[] = {NEW, FOUND, REFUSED_RECORD, FAILED, REPEATED};
    struct json j = {stdout, false};
    unsigned i;

    json_open(&j, '{');
    json_text(&j, "state", "total");
    json_number(&j, "records", records(s));
    for (i = 0; i < sizeof told / sizeof told[0]; i++)
        json_number(&j, words[told[i]], s->of[told[i]]);
    json_number(&j, "links", s->of[LINK]);
    if (s->known) {
        json_number(&j, "entries", s->entries);
        json_number(&j, "bytes", s->bytes);
    }
    json_truth(&j, "partial", s->partial);
    json_close(&j, '}');
    putchar('\n');
}

/* ---- both */

void print_added(const char *name, const struct item *item)
{
    if (!layout.lines || (!layout.json && item->state > REFUSED_RECORD))
        return;
    (layout.json ? put_json_item : put_text_item)(name, item);
    end_whole_line();
}

void print_add_sums(const struct sums *s)
{
    (layout.json ? put_json_sums : put_text_sums)(s);
}
