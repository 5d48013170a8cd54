/* hessian holdings add: records into a holdings file, many at a time, each in its place on the disk before its line. */
#include <errno.h>
#include <getopt.h>
#include <inttypes.h>
#include <signal.h>
#include <stdio.h>
#include <stdlib.h>
#include <string.h>
#include <unistd.h>

#include "batch.h"
#include "claim.h"
#include "entry.h"
#include "file.h"
#include "files.h"
#include "filter.h"
#include "input.h"
#include "interrupt.h"
#include "lines.h"
#include "list.h"
#include "memory.h"
#include "met.h"
#include "passed_over.h"
#include "progress.h"
#include "quote.h"
#include "replace.h"
#include "verbs.h"

struct run {
    const struct command *self;
    bool json;
    struct holdings file;
    struct claim claim;
    struct record r; /* the file in hand */
    struct batch batch;
    uint64_t *numbers; /* of entries, of the records of the batch that wait */
    size_t numbers_room;
    struct met met;
    struct sums sums;
    uint64_t seen; /* names */
    int ended;     /* the status of a run that FILE has ended; else DONE */
};

/* ---- FILE */

/* Nothing more can be added: the status is that of the run. */
static void end_run(struct run *run, int status)
{
    run->ended = status;
}

static void fail_file(struct run *run, const char *what, const char *why)
{
    if (why == told_to_end && signal_met() != 0)
        return;
    end_progress();
    end_run(run, complain(run->self, what, run->file.name, why));
    if (run->batch.waiting > 0)
        fprintf(stderr, "hessian %s: %zu record%s not added\n", run->self->name, run->batch.waiting,
                run->batch.waiting == 1 ? " was" : "s were");
}

static void refuse_file(struct run *run, hessian_answer answer)
{
    end_progress();
    if (run->json)
        put_json_fault(stdout, &run->file, answer);
    else
        refuse_holdings(run->self, &run->file, answer);
    end_run(run, REFUSED);
}

/* Where there is no file it is one of no bytes. No record becomes longer. */
static const char *load_claimed(struct run *run)
{
    size_t more = HEADER_SIZE + run->batch.records_len;
    int descriptor;
    const char *why = open_regular(run->claim.path, &descriptor);

    if (why != NULL)
        return access(run->claim.path, F_OK) != 0 && errno == ENOENT ? begin_with_none(&run->file, more) : why;
    why = load_holdings(&run->file, descriptor, more);
    close(descriptor);
    return why;
}

/* ---- adding */

/* How far the records of the batch have been handed to the library. */
struct handed {
    size_t at;         /* in its records */
    struct item *item; /* the next that waits, or one before it */
    uint64_t used, entries;
};

static struct item *next_waiting(struct handed *p)
{
    while (p->item->state != WAITING)
        p->item++;
    return p->item;
}

/* The next record has this entry: a new one where there is none of the number yet. */
static void settle_added(struct run *run, struct handed *p, uint64_t entry)
{
    struct item *item = next_waiting(p);

    item->state = entry == p->entries ? NEW : FOUND;
    item->entry = entry;
    if (item->state == NEW)
        p->entries++;
    p->at += LENGTH_SIZE + entry_length(run->batch.records + p->at);
}

/* The next record is refused, though it was accepted when it came; whether the library says why. */
static bool settle_refused(struct run *run, struct handed *p)
{
    struct item *item = next_waiting(p);
    const uint8_t *entry = run->batch.records + p->at;
    size_t len = entry_length(entry);

    memcpy(run->r.message, entry + LENGTH_SIZE, len);
    run->r.len = len;
    judge(&run->r);
    item->state = REFUSED_RECORD;
    item->number = run->r.number;
    item->place = run->r.place;
    item->reason = hessian_refusal_text(run->r.number);
    p->at += LENGTH_SIZE + len;
    return run->r.number != HESSIAN_ACCEPTED;
}

/* Whether an answer is about the file, and not about a record. */
static bool of_file(hessian_answer answer, uint64_t used)
{
    return answer.number >= HESSIAN_WRONG_MARK && (answer.number != HESSIAN_CUT_ENTRY || answer.place < used);
}

static hessian_answer add_rest(struct run *run, const struct handed *p)
{
    struct holdings *h = &run->file;

    return hessian_holdings_add_all(h->bytes, h->room, p->used, run->batch.records + p->at,
                                    run->batch.records_len - p->at, h->rows, h->rows_len, h->working,
                                    HESSIAN_WORKING_BYTES, run->numbers, run->batch.waiting);
}

/* Adds the records of the batch in memory. False where the run ends: the file is refused, or the library at fault. */
static bool add_batch(struct run *run)
{
    struct handed p = {0, run->batch.items, run->file.used, run->file.entries};
    hessian_answer answer;
    uint64_t i;

    do {
        answer = add_rest(run, &p);
        if (of_file(answer, p.used)) {
            refuse_file(run, answer);
            return false;
        }
        for (i = 0; i < answer.count; i++)
            settle_added(run, &p, run->numbers[i]);
        p.used = answer.place;
        if (answer.number != HESSIAN_ACCEPTED && (answer.number >= HESSIAN_ROOM || !settle_refused(run, &p))) {
            end_run(run, library_fault(run->self, &run->file));
            return false;
        }
    } while (answer.number != HESSIAN_ACCEPTED);
    run->file.used = (size_t)p.used;
    run->file.entries = p.entries;
    return true;
}

/* ---- a batch */

static void say_self(const struct command *self, const char *name)
{
    fprintf(stderr, "hessian %s: passed over ", self->name);
    put_name(stderr, name);
    fputs(": it is the holdings file itself\n", stderr);
}

static void print_batch(struct run *run)
{
    size_t i;

    end_progress();
    for (i = 0; i < run->batch.count && !output_failed(); i++) {
        const struct item *item = &run->batch.items[i];
        const char *name = item_name(&run->batch, item);

        run->sums.of[item->state]++;
        print_added(name, item);
        if (item->state == FAILED)
            complain(run->self, "read", name, item->reason);
        if (item->state == SELF)
            say_self(run->self, name);
    }
    run->sums.known = true;
    run->sums.entries = run->file.entries;
    run->sums.bytes = run->file.used;
}

static void wait_for_others(const char *path)
{
    end_progress();
    fputs("hessian holdings add: waiting for another program that adds to ", stderr);
    put_name(stderr, path);
    putc('\n', stderr);
}

/* Has the claim: reads FILE, adds what waits, and replaces FILE where there is something new. Whether all was well. */
static bool add_claimed(struct run *run)
{
    const char *why = load_claimed(run);
    size_t before = run->file.used;

    if (why == NULL)
        why = lend_working(&run->file, run->batch.waiting);
    run->numbers = grown(run->numbers, &run->numbers_room, run->batch.waiting, sizeof *run->numbers);
    if (why != NULL) {
        drop_claim(&run->claim);
        fail_file(run, "read", why);
        return false;
    }
    if (!add_batch(run) || run->file.used == before) {
        drop_claim(&run->claim);
        return run->ended == DONE;
    }
    why = replace_claimed(&run->claim, run->file.bytes, run->file.used);
    if (why != NULL)
        fail_file(run, "write", why);
    return why == NULL;
}

/* Adds all that waits. Nothing is printed of names whose records are not added. */
static void flush_batch(struct run *run)
{
    const char *why = take_claim(&run->claim, wait_for_others);

    if (why != NULL)
        fail_file(run, "write", why);
    else if (add_claimed(run))
        print_batch(run);
    empty_batch(&run->batch);
}

/* ---- names */

static bool stopped(void *context)
{
    const struct run *run = context;

    return signal_met() != 0 || output_failed() || run->ended != DONE;
}

/* Whether the file in hand has this name. */
static bool is_named(const struct record *r, const char *name)
{
    struct stamp stamp;

    return stamp_now(name, &stamp) && stamp.device == r->stamp.device && stamp.inode == r->stamp.inode;
}

static void take_loaded(struct run *run, const char *name)
{
    struct record *r = &run->r;

    if (is_named(r, run->claim.path) || is_named(r, run->claim.beside)) {
        put_other(&run->batch, name, SELF, "it is the holdings file itself");
    } else if (met_before(&run->met, r->stamp.device, r->stamp.inode)) {
        put_other(&run->batch, name, REPEATED, "this file was met before, by this or another name");
    } else if (shortest_length(r) > 0) {
        put_record(&run->batch, name, r);
    } else {
        judge(r);
        put_refused(&run->batch, name, r);
    }
}

static void took_name(struct run *run)
{
    if (progress_due(++run->seen))
        fprintf(stderr, "%" PRIu64 " names, %" PRIu64 " new entries", run->seen, run->sums.of[NEW]);
    if (is_full(&run->batch))
        flush_batch(run);
}

static void take_file(void *context, const struct place *place)
{
    struct run *run = context;
    const char *why = load_at(&run->r, place->folder->descriptor, place->name + place->base);

    if (why != NULL)
        put_other(&run->batch, place->name, FAILED, why);
    else
        take_loaded(run, place->name);
    took_name(run);
}

static void take_link(void *context, const char *name)
{
    struct run *run = context;

    put_other(&run->batch, name, LINK, "it is a symbolic link");
    took_name(run);
}

static void take_failure(void *context, const char *name, const char *why)
{
    struct run *run = context;

    put_other(&run->batch, name, FAILED, why);
    took_name(run);
}

/* Who gives names one by one sees what came of each before giving the next. */
static void add_before_waiting(void *context)
{
    struct run *run = context;

    if (run->batch.count > 0)
        flush_batch(run);
    fflush(stdout);
}

/* ---- the run */

struct options {
    struct layout layout;
    struct filter filter;
    int end; /* of a name on standard input */
    bool help;
};

static int status(const struct run *run)
{
    if (run->ended != DONE)
        return run->ended;
    if (run->sums.partial)
        return status_by_signal();
    if (run->sums.of[FAILED] > 0)
        return TROUBLE;
    return run->sums.of[REFUSED_RECORD] > 0 ? REFUSED : DONE;
}

static void print_end(struct run *run)
{
    struct passed_over passed = {run->sums.of[REPEATED], run->sums.of[LINK], false};

    end_progress();
    run->sums.partial = signal_met() != 0;
    print_add_sums(&run->sums);
    say_passed_over(run->self, &passed);
    if (run->sums.partial)
        fprintf(stderr, "hessian %s: interrupted: records that have no line were not added\n", run->self->name);
}

static void add_names(struct run *run, const struct options *o, char **names)
{
    const struct visitor visitor = {take_file, take_link, take_failure, add_before_waiting, stopped, run};

    if (!new_record_lent_table(&run->r))
        no_memory();
    new_met(&run->met);
    begin_add_lines(&o->layout);
    watch_signals();
    each_named(names, o->end, &o->filter, &visitor);
    /* FILE is looked at even where nothing is to be added */
    if (!stopped(run) && (run->batch.count > 0 || !run->sums.known))
        flush_batch(run);
    print_end(run);
    free_met(&run->met);
    free_record(&run->r);
}

static int add_to(const struct command *self, const struct options *o, char **words)
{
    struct run run = {.self = self, .json = o->layout.json, .ended = DONE};
    const char *why = name_claim(&run.claim, words[0]);
    int answer;

    /* a file that may grow no further is trouble to be told, and to be cleared away */
    signal(SIGXFSZ, SIG_IGN);
    new_holdings(&run.file, words[0]);
    if (why == NULL) {
        add_names(&run, o, words + 1);
        answer = finished(self, status(&run));
    } else {
        answer = complain(self, "add to", words[0], why);
    }
    free_claim(&run.claim);
    free_holdings(&run.file);
    free_batch(&run.batch);
    free(run.numbers);
    return answer;
}

/* ---- options */

/* Options that have no letter. */
enum { JSON = 256, INCLUDE, EXCLUDE };

static void take_option(struct options *o, int option)
{
    if (option == 'h')
        o->help = true;
    else if (option == 'q')
        o->layout.lines = false;
    else if (option == '0')
        o->end = '\0';
    else if (option == JSON)
        o->layout.json = true;
    else if (option == INCLUDE)
        o->filter.include[o->filter.includes++] = optarg;
    else
        o->filter.exclude[o->filter.excludes++] = optarg;
}

static int add_by_options(const struct command *self, struct options *o, int argc, char **argv)
{
    static const struct option words[] = {
        {"help", no_argument, NULL, 'h'},           {"summary", no_argument, NULL, 'q'},
        {"json", no_argument, NULL, JSON},          {"include", required_argument, NULL, INCLUDE},
        {"exclude", required_argument, NULL, EXCLUDE}, {NULL, 0, NULL, 0}
    };
    int option;

    while ((option = next_option(argc, argv, ":hq0", words)) != -1) {
        if (option == '?' || option == ':')
            return wrong_option(self, option, argv);
        take_option(o, option);
    }
    if (o->help)
        return print_help(self);
    if (argc - optind < 2)
        return wrong_usage(self, argc == optind ? "no FILE is named" : "no record file or folder was named");
    if (strcmp(argv[optind], "-") == 0)
        return wrong_usage(self, "FILE cannot be standard input");
    return add_to(self, o, argv + optind);
}

static int run_add(const struct command *self, int argc, char **argv)
{
    struct options o = {.layout = {false, true}, .end = '\n'};
    int answer;

    new_filter(&o.filter, (size_t)argc);
    answer = add_by_options(self, &o, argc, argv);
    free_filter(&o.filter);
    return answer;
}

const struct command holdings_add = {"holdings add", NULL, holdings_help, run_add};
