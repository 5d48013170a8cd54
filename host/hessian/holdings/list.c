/* hessian holdings list and check: the entries of a file, and whether it is sound. */
#include <getopt.h>
#include <inttypes.h>
#include <stdio.h>

#include "file.h"
#include "input.h"
#include "json.h"
#include "verbs.h"
#include "whole_lines.h"

/* ---- list */

static void print_entry(uint64_t number, hessian_listed listed)
{
    printf("%" PRIu64 " %" PRIu64 " %" PRIu64 "\n", number, listed.place, listed.length);
}

static void print_json_entry(uint64_t number, hessian_listed listed)
{
    struct json j = {stdout, false};

    json_open(&j, '{');
    json_text(&j, "state", "entry");
    json_number(&j, "entry", number);
    json_number(&j, "place", listed.place);
    json_number(&j, "bytes", listed.length);
    json_close(&j, '}');
    putchar('\n');
}

static void print_entries(const struct holdings *h, uint64_t count, bool json)
{
    uint64_t i;

    for (i = 0; i < count && !output_failed(); i++) {
        (json ? print_json_entry : print_entry)(i, hessian_listed_at(h->list, (size_t)i));
        end_whole_line();
    }
}

/* ---- check */

static void put_json_sound(const struct holdings *h, const char *state, uint64_t entries)
{
    struct json j = {stdout, false};

    json_open(&j, '{');
    json_text(&j, "state", state);
    json_text(&j, "name", h->name);
    json_number(&j, "version", version_of(h));
    json_number(&j, "entries", entries);
    json_number(&j, "bytes", h->used);
    json_close(&j, '}');
    putchar('\n');
}

static void put_sound(const struct holdings *h, uint64_t entries)
{
    put_shown_name(stdout, h->name);
    printf(": %" PRIu64 " %s, %zu bytes, version %u\n", entries, entries == 1 ? "entry" : "entries", h->used,
           version_of(h));
}

/* ---- both */

/* What is done with a file that the library accepts, and with one that it refuses; the status. */
struct manner {
    void (*accepted)(const struct holdings *h, uint64_t entries, bool json);
    int (*refused)(const struct command *self, const struct holdings *h, hessian_answer answer);
};

static void list_accepted(const struct holdings *h, uint64_t entries, bool json)
{
    print_entries(h, entries, json);
    if (json)
        put_json_sound(h, "total", entries);
}

static void check_accepted(const struct holdings *h, uint64_t entries, bool json)
{
    if (json)
        put_json_sound(h, "sound", entries);
    else
        put_sound(h, entries);
}

static int check_refused(const struct command *self, const struct holdings *h, hessian_answer answer)
{
    (void)self;
    put_fault(stdout, h, answer);
    return REFUSED;
}

static int judge_file(const struct command *self, struct holdings *h, const struct manner *m, bool json)
{
    hessian_answer answer;
    const char *why = list_holdings(h, &answer);

    if (why != NULL)
        return complain(self, "read", h->name, why);
    if (answer.number == HESSIAN_ACCEPTED) {
        m->accepted(h, answer.count, json);
        return DONE;
    }
    if (answer.number == HESSIAN_ROOM)
        return library_fault(self, h);
    if (!json)
        return m->refused(self, h, answer);
    put_json_fault(stdout, h, answer);
    return REFUSED;
}

static int run_by(const struct command *self, const struct manner *m, int argc, char **argv)
{
    struct holdings h;
    bool json;
    int status;

    if (!json_option(self, argc, argv, &json, &status))
        return status;
    begin_whole_lines();
    new_holdings(&h, argv[optind]);
    status = finished(self, judge_file(self, &h, m, json));
    free_holdings(&h);
    return status;
}

static int run_list(const struct command *self, int argc, char **argv)
{
    static const struct manner listing = {list_accepted, refuse_holdings};

    return run_by(self, &listing, argc, argv);
}

static int run_check(const struct command *self, int argc, char **argv)
{
    static const struct manner checking = {check_accepted, check_refused};

    return run_by(self, &checking, argc, argv);
}

const struct command holdings_list = {"holdings list", NULL, holdings_help, run_list};
const struct command holdings_check = {"holdings check", NULL, holdings_help, run_check};
