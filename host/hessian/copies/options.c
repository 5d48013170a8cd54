#include "options.h"

#include <getopt.h>
#include <string.h>

/* Options that have no letter. */
enum { JSON = 256, TIME, ONLY, PRINT0, PAIRS, INCLUDE, EXCLUDE, THOUSANDTHS };

static const char letters[] = ":hq0";

static const struct option words[] = {
    {"help", no_argument, NULL, 'h'},          {"summary", no_argument, NULL, 'q'},
    {"json", no_argument, NULL, JSON},         {"time", no_argument, NULL, TIME},
    {"only", required_argument, NULL, ONLY},   {"print0", no_argument, NULL, PRINT0},
    {"pairs", no_argument, NULL, PAIRS},       {"include", required_argument, NULL, INCLUDE},
    {"exclude", required_argument, NULL, EXCLUDE}, {"thousandths", no_argument, NULL, THOUSANDTHS},
    {NULL, 0, NULL, 0}};

/* ---- --only */

/* The state that the first `len` characters of a text name, or 0. */
static unsigned state_named(const char *text, size_t len)
{
    static const struct {
        const char *name;
        unsigned state;
    } states[] = {{"kept", LINE_KEPT}, {"copy", LINE_COPY}, {"refused", LINE_REFUSED}};
    unsigned i;

    for (i = 0; i < sizeof states / sizeof states[0]; i++)
        if (strlen(states[i].name) == len && memcmp(states[i].name, text, len) == 0)
            return states[i].state;
    return 0;
}

/* The states of a list with commas; 0 where a word is none. */
static unsigned states_named(const char *list)
{
    unsigned states = 0, one;

    for (;; list++) {
        size_t len = strcspn(list, ",");

        if ((one = state_named(list, len)) == 0)
            return 0;
        states |= one;
        list += len;
        if (*list == '\0')
            return states;
    }
}

/* Given again, it adds states. */
static bool take_only(struct options *o, const char *list)
{
    unsigned states = states_named(list);

    o->layout.lines = (o->only ? o->layout.lines : 0) | states;
    o->only = true;
    return states != 0;
}

/* ---- one option */

static const char *take_option(struct options *o, int option, const char *value)
{
    switch (option) {
    case 'h':
        o->help = true;
        break;
    case 'q':
        o->summary = true;
        break;
    case '0':
        o->end = '\0';
        break;
    case JSON:
        o->layout.json = true;
        break;
    case TIME:
        o->time = true;
        break;
    case ONLY:
        return take_only(o, value) ? NULL : "--only takes kept, copy and refused, with commas between them";
    case PRINT0:
        o->layout.names = true;
        break;
    case PAIRS:
        o->layout.pairs = true;
        break;
    case THOUSANDTHS:
        o->thousandths = true;
        break;
    case INCLUDE:
        o->filter.include[o->filter.includes++] = value;
        break;
    default:
        o->filter.exclude[o->filter.excludes++] = value;
    }
    return NULL;
}

/* ---- all of them */

/* Why they do not go together, or NULL. */
static const char *contradiction(const struct options *o, bool named)
{
    if (o->layout.names && !o->only)
        return "--print0 needs --only, which says whose names";
    if (o->layout.names && o->layout.json)
        return "--print0 and --json are two ways to print";
    if (o->layout.pairs && !(o->layout.names && o->layout.lines == LINE_COPY))
        return "--pairs needs --print0 and --only=copy";
    if (o->summary && o->only)
        return "--summary prints no lines of which --only could choose";
    if (!named)
        return "no record file or folder was named";
    return NULL;
}

int parse_options(struct options *o, const struct command *self, int argc, char **argv)
{
    const char *why = NULL;
    int option;

    memset(o, 0, sizeof *o);
    o->layout.lines = ALL_LINES;
    o->end = '\n';
    new_filter(&o->filter, (size_t)argc);
    while (why == NULL && (option = next_option(argc, argv, letters, words)) != -1) {
        if (option == '?' || option == ':')
            return wrong_option(self, option, argv);
        why = take_option(o, option, optarg);
    }
    o->names = optind;
    if (why == NULL && !o->help)
        why = contradiction(o, optind < argc);
    if (o->summary)
        o->layout.lines = 0;
    return why == NULL ? DONE : wrong_usage(self, why);
}

void free_options(struct options *o)
{
    free_filter(&o->filter);
}
