/* ledger: how many bytes each record file would save in its shortest form, and by what. Nothing is changed. */
#include <getopt.h>
#include <stdio.h>
#include <string.h>

#include "account.h"
#include "command.h"
#include "files.h"
#include "filter.h"
#include "hessian.h"
#include "interrupt.h"
#include "list.h"
#include "memory.h"
#include "met.h"
#include "pages.h"
#include "quote.h"
#include "record.h"

static const char help[] =
    "usage: hessian ledger [OPTION]... NAME...\n"
    "\n"
    "Says how many bytes Hessian 2.0 records take, how many their shortest forms take, and by what they differ.\n"
    "NAME is a record file, a folder (every regular file in it and its folders, by name; links are passed\n"
    "over), or - for names on standard input, one a line. Nothing is changed.\n"
    "\n"
    "One line a file, in the order given: its bytes, those of its shortest form, those saved, its name, and\n"
    "how many are saved in which group. What is no record has the line\n"
    "    refused NAME NUMBER PLACE REASON     hessian.h has the numbers; PLACE is a byte of the file\n"
    "A name with spaces, quotes, backslashes or unseen characters is in double quotes, with \\\" \\\\ \\n \\r \\t,\n"
    "\\u{HEX} for a character and \\xHH for a byte that is not UTF-8.\n"
    "Each byte of a record belongs to one group:\n"
    "    constants            null, true and false, which have one form each\n"
    "    ints, longs, doubles, dates\n"
    "    texts, byte strings  values: their contents and the heads of their chunks\n"
    "    lists, maps          what opens and closes them, and counts of elements\n"
    "    objects              what opens them, and numbers of classes\n"
    "    references           what opens them, and their numbers\n"
    "    class definitions    what opens them, names of classes and fields, and counts of fields\n"
    "    types                names and numbers of types of lists and maps\n"
    "The last lines have the sums, of bytes those of the accepted records. Failed: what could not be read.\n"
    "Repeated: names of files met before, by this or another name, such as hard links; they count once. Links:\n"
    "symbolic links that were named; they are passed over, but a link to a folder is looked into.\n"
    "\n"
    "    -q, --summary     the sums alone\n"
    "    --json            a JSON object a line: state is accepted, refused, total, or repeated, link, failed.\n"
    "                      An accepted one and the total have bytes, shortest and saved, and in groups the same\n"
    "                      of each group that has bytes; a byte of a name that is not UTF-8 is \\udcHH\n"
    "    --csv             a table as RFC 4180 has it: a line with the names of its columns, then a line a file,\n"
    "                      with the bytes saved in each group; no sums\n"
    "    --include=GLOB    only files that match this, or another such, glob\n"
    "    --exclude=GLOB    no files that match this glob, nor what is in folders that do, but for those named.\n"
    "                      Both hold for files in folders, in lists and named. A glob is matched with what\n"
    "                      follows the last slash of a name, or with the whole where it has a slash itself;\n"
    "                      * stands for slashes too\n"
    "    -0                names on standard input end with a zero byte, as those of find -print0\n"
    "    --thousandths     5f and four bytes are no float but a whole number m, and stand for m times 0.001, in\n"
    "                      all files. Shortest forms are by the main rule, where 5f is a float: one may be longer\n"
    "                      than its file, so that bytes saved may be below 0. A file is refused, number 1, where\n"
    "                      it would be longer than 262144 bytes; JSON then has shortest too\n"
    "    -h, --help        this page\n"
    "    --                what follows is no option\n"
    "\n"
    "SIGINT and SIGTERM end it after a whole line. The sums are then those of the lines so far, which a line\n"
    "`interrupted: partial sums` says, or \"partial\":true.\n"
    "\n"
    "Status: 0 all were read, 1 some were refused, 2 wrong usage, or a file could not be read, or the lines\n"
    "could not be written; 130 after SIGINT, 143 after SIGTERM.\n";

/* ---- files */

struct run {
    const struct command *self;
    struct record r; /* the file in hand */
    struct met met;
    struct sums sums;
};

static bool stopped(void *context)
{
    (void)context;
    return signal_met() != 0 || output_failed();
}

/* "hessian ledger: cannot DO NAME: WHY" on standard error, and where lines are JSON on standard output too. */
static void fail(struct run *run, const char *what, const char *name, const char *why)
{
    run->sums.failed++;
    print_no_record("failed", name, why);
    fprintf(stderr, "hessian %s: cannot %s ", run->self->name, what);
    put_name(stderr, name);
    fprintf(stderr, ": %s\n", why);
}

static void take_failure(void *context, const char *name, const char *why)
{
    fail(context, "read", name, why);
}

static void take_link(void *context, const char *name)
{
    struct run *run = context;

    run->sums.passed.links++;
    print_no_record("link", name, "it is a symbolic link");
}

static void take_record(struct run *run, const char *name)
{
    struct account account;
    bool accepted;
    const char *why;

    rewrite(&run->r);
    accepted = run->r.number == HESSIAN_ACCEPTED;
    why = accepted ? account_of(&run->r, &account) : wrong_length(&run->r);
    if (why != NULL) {
        fail(run, "account for", name, why);
        return;
    }
    run->sums.records++;
    if (accepted) {
        run->sums.accepted++;
        add_account(&run->sums.account, &account);
        print_accepted(name, &account);
    } else {
        run->sums.refused++;
        print_refused_record(name, &run->r);
    }
}

static void take_file(void *context, const struct place *place)
{
    struct run *run = context;
    const char *why = load_at(&run->r, place->folder->descriptor, place->name + place->base);

    if (why != NULL) {
        take_failure(run, place->name, why);
    } else if (met_before(&run->met, run->r.stamp.device, run->r.stamp.inode)) {
        run->sums.passed.repeated++;
        print_no_record("repeated", place->name, "this file was met before, by this or another name");
    } else {
        take_record(run, place->name);
    }
}

/* Who gives names one by one sees what came of each before giving the next. */
static void show_lines(void *context)
{
    (void)context;
    fflush(stdout);
}

/* ---- the run */

struct options {
    struct pages pages;
    struct filter filter;
    int end; /* of a name on standard input */
    bool csv, json, summary, help;
};

static int status(const struct sums *s)
{
    if (s->passed.partial)
        return status_by_signal();
    if (s->failed > 0)
        return TROUBLE;
    return s->refused > 0 ? REFUSED : DONE;
}

static int ledger_of_names(const struct command *self, const struct options *o, char **names)
{
    struct run run = {.self = self};
    const struct visitor visitor = {take_file, take_link, take_failure, show_lines, stopped, &run};
    int answer;

    if (!new_record(&run.r))
        no_memory();
    run.r.thousandths = o->pages.thousandths;
    new_met(&run.met);
    begin_pages(&o->pages);
    watch_signals();
    each_named(names, o->end, &o->filter, &visitor);
    run.sums.passed.partial = signal_met() != 0;
    print_sums(&run.sums);
    say_passed_over(self, &run.sums.passed);
    answer = finished(self, status(&run.sums));
    free_met(&run.met);
    free_record(&run.r);
    return answer;
}

/* ---- options */

/* Options that have no letter. */
enum { JSON = 256, CSV, INCLUDE, EXCLUDE, THOUSANDTHS };

static const char letters[] = ":hq0";

static const struct option words[] = {
    {"help", no_argument, NULL, 'h'},            {"summary", no_argument, NULL, 'q'},
    {"json", no_argument, NULL, JSON},           {"csv", no_argument, NULL, CSV},
    {"include", required_argument, NULL, INCLUDE}, {"exclude", required_argument, NULL, EXCLUDE},
    {"thousandths", no_argument, NULL, THOUSANDTHS}, {NULL, 0, NULL, 0}
};

static void take_option(struct options *o, int option)
{
    switch (option) {
    case 'h':
        o->help = true;
        break;
    case 'q':
        o->summary = true;
        break;
    case '0':
        o->end = '\0';
        break;
    case JSON:
        o->json = true;
        break;
    case CSV:
        o->csv = true;
        break;
    case THOUSANDTHS:
        o->pages.thousandths = true;
        break;
    case INCLUDE:
        o->filter.include[o->filter.includes++] = optarg;
        break;
    default:
        o->filter.exclude[o->filter.excludes++] = optarg;
    }
}

/* Why they do not go together, or NULL. */
static const char *contradiction(const struct options *o, bool named)
{
    if (o->csv && o->json)
        return "--json and --csv are two ways to print";
    if (o->csv && o->summary)
        return "--csv has no sums that --summary could print";
    return named ? NULL : "no record file or folder was named";
}

static int ledger_by_options(const struct command *self, struct options *o, int argc, char **argv)
{
    const char *why;
    int option;

    while ((option = next_option(argc, argv, letters, words)) != -1) {
        if (option == '?' || option == ':')
            return wrong_option(self, option, argv);
        take_option(o, option);
    }
    if (o->help)
        return print_help(self);
    if ((why = contradiction(o, optind < argc)) != NULL)
        return wrong_usage(self, why);
    o->pages.as = o->json ? AS_JSON : o->csv ? AS_CSV : AS_TEXT;
    o->pages.lines = !o->summary;
    return ledger_of_names(self, o, argv + optind);
}

static int run_ledger(const struct command *self, int argc, char **argv)
{
    struct options o = {.end = '\n'};
    int answer;

    new_filter(&o.filter, (size_t)argc);
    answer = ledger_by_options(self, &o, argc, argv);
    free_filter(&o.filter);
    return answer;
}

const struct command ledger_command = {"ledger", "what each record saves in its shortest form, and why", help,
                                       run_ledger};
