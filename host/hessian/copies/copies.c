/* copies: says which record files are true copies, by their shortest forms. Nothing is changed or deleted. */
#include <stdio.h>
#include <time.h>

#include "command.h"
#include "files.h"
#include "interrupt.h"
#include "lines.h"
#include "list.h"
#include "options.h"
#include "passed_over.h"
#include "progress.h"
#include "sums.h"
#include "verdicts.h"

static const char help[] =
    "usage: hessian copies [OPTION]... NAME...\n"
    "\n"
    "Says which Hessian 2.0 records are true copies of another: those whose shortest forms are the same,\n"
    "byte for byte. NAME is a record file, a folder (every regular file in it and its folders, by name;\n"
    "links are passed over), or - for names on standard input, one a line. Nothing is changed or deleted.\n"
    "\n"
    "One line a file, in the order given:\n"
    "    kept NAME SHORTEST_BYTES             the first of its kind\n"
    "    copy NAME OF                         the same record as the file OF, which was kept\n"
    "    refused NAME NUMBER PLACE REASON     no record: hessian.h has the numbers; PLACE is a byte of the file\n"
    "A name with spaces, quotes, backslashes or unseen characters is in double quotes, with \\\" \\\\ \\n \\r \\t,\n"
    "\\u{HEX} for a character and \\xHH for a byte that is not UTF-8.\n"
    "The last lines have the sums. Bytes in: of all records. Bytes gained by removing copies: those of their\n"
    "files. Bytes gained by rewriting: if each kept record is stored in its shortest form. Bytes saved: both.\n"
    "Failed: what could not be read, or changed while it was compared. Repeated: names of files met before,\n"
    "by this or another name, such as hard links; a file is no copy of itself. Links: symbolic links that\n"
    "were named; they are passed over and never called a copy, but a link to a folder is looked into.\n"
    "\n"
    "    --only=STATE[,STATE]...  of the lines only those that begin with kept, copy or refused\n"
    "    --print0          names alone, each with a zero byte after it, and no sums: for xargs -0; needs --only\n"
    "    --pairs           after each name that of the kept file; needs --print0 and --only=copy\n"
    "    -q, --summary     the sums alone\n"
    "    --json            a JSON object a line: state is kept, copy, refused, total, or repeated, link, failed,\n"
    "                      changed (while we ran); a byte of a name that is not UTF-8 is \\udcHH\n"
    "    --include=GLOB    only files that match this, or another such, glob\n"
    "    --exclude=GLOB    no files that match this glob, nor what is in folders that do, but for those named.\n"
    "                      Both hold for files in folders, in lists and named. A glob is matched with what\n"
    "                      follows the last slash of a name, or with the whole where it has a slash itself;\n"
    "                      * stands for slashes too\n"
    "    -0                names on standard input end with a zero byte, as those of find -print0\n"
    "    --time            say on standard error how long it took, and how much of it in the library\n"
    "    --thousandths     5f and four bytes are no float but a whole number m, and stand for m times 0.001, in\n"
    "                      all files. Shortest forms are by the main rule, where 5f is a float: one may be longer\n"
    "                      than its file, so that bytes gained by rewriting and bytes saved may be below 0. A\n"
    "                      file is refused, number 1, where it would be longer than 262144 bytes\n"
    "    -h, --help        this page\n"
    "    --                what follows is no option\n"
    "\n"
    "SIGINT and SIGTERM end it after a whole line. The sums are then those of the lines so far, which a line\n"
    "`interrupted: partial sums` says, or \"partial\":true.\n"
    "\n"
    "Status: 0 all were read, 1 some were refused, 2 wrong usage, or a file could not be read or changed, or\n"
    "the lines could not be written; 130 after SIGINT, 143 after SIGTERM.\n";

/* ---- what names stand for */

static void hand_file(void *context, const struct place *place)
{
    struct run *run = context;

    hand_over(&run->workers, place, false, NULL);
}

static void hand_link(void *context, const char *name)
{
    struct run *run = context;
    struct place place = {name, 0, NULL};

    hand_over(&run->workers, &place, true, NULL);
}

static void hand_failure(void *context, const char *name, const char *why)
{
    struct run *run = context;
    struct place place = {name, 0, NULL};

    hand_over(&run->workers, &place, false, why);
}

/* Who gives names one by one sees what came of each before giving the next. */
static void take_stock(void *context)
{
    struct run *run = context;

    hand_all_back(&run->workers);
    fflush(stdout);
}

static bool ended(void *context)
{
    (void)context;
    return stopped();
}

static void take_names(struct run *run, const struct options *o, char **names)
{
    const struct visitor visitor = {hand_file, hand_link, hand_failure, take_stock, ended, run};

    each_named(names, o->end, &o->filter, &visitor);
    if (!stopped())
        hand_all_back(&run->workers);
}

/* ---- the run */

static double now(void)
{
    struct timespec t;

    clock_gettime(CLOCK_MONOTONIC, &t);
    return (double)t.tv_sec + (double)t.tv_nsec * 1e-9;
}

static int status(const struct totals *t)
{
    if (t->passed.partial)
        return status_by_signal();
    if (t->failed > 0)
        return TROUBLE;
    return t->refused > 0 ? REFUSED : DONE;
}

static void print_time(struct run *run, double start)
{
    fprintf(stderr, "hessian copies: %.3f s, %.3f s of work in the library, %llu earlier files read again\n",
            now() - start, library_seconds(&run->workers) + run->earlier.seconds, (unsigned long long)run->read_again);
}

static int copies_of_names(const struct command *self, const struct options *o, char **names)
{
    double start = now();
    struct run run;
    int answer;

    begin_lines(&o->layout);
    watch_signals();
    start_run(&run, o->thousandths);
    take_names(&run, o, names);
    run.totals.passed.partial = signal_met() != 0;
    end_progress();
    if (!o->layout.names)
        print_totals(&run.totals, o->layout.json);
    say_passed_over(self, &run.totals.passed);
    if (o->time)
        print_time(&run, start);
    answer = finished(self, status(&run.totals));
    end_run(&run);
    return answer;
}

static int run_copies(const struct command *self, int argc, char **argv)
{
    struct options o;
    int answer = parse_options(&o, self, argc, argv);

    if (answer == DONE)
        answer = o.help ? print_help(self) : copies_of_names(self, &o, argv + o.names);
    free_options(&o);
    return answer;
}

const struct command copies_command = {"copies", "which record files are copies of another", help, run_copies};
