/* hessian shorten: a record in its shortest form. */
#include <getopt.h>
#include <signal.h>
#include <stdio.h>
#include <string.h>
#include <unistd.h>

#include "command.h"
#include "hessian.h"
#include "input.h"
#include "names.h"
#include "replace.h"

static const char help[] =
    "usage: hessian shorten [--thousandths] [FILE] [-o OUT]\n"
    "\n"
    "Writes the shortest form of a Hessian 2.0 record. FILE is a record file; - or no name is standard input.\n"
    "\n"
    "    -o, --output OUT   write to OUT instead of standard output; - is standard output\n"
    "    --thousandths      5f and four bytes of FILE are no float but a whole number m, and stand for m times\n"
    "                       0.001. What is written is by the main rule, where 5f is a float: it is no longer\n"
    "                       to be read by --thousandths, and nothing in it tells. It may be longer than FILE,\n"
    "                       and FILE is refused, number 1, where it would be longer than 262144 bytes\n"
    "    -h, --help         this page\n"
    "    --                 what follows is no option\n"
    "\n"
    "Nothing is written where FILE is refused; number, place and reason then stand on standard error.\n"
    "OUT is replaced whole or not at all, and may be FILE itself: a new file in the same folder takes its\n"
    "name when it is complete. It has the permissions of the old one, and its owner and group where that is\n"
    "allowed; another hard link to the old one keeps the old bytes. A link's target is replaced, not the link.\n"
    "A pipe or a device is written into. The form is binary: it goes to a terminal only by -o -.\n"
    "\n"
    "Status: 0 it is written, 1 FILE was refused, 2 wrong usage, or a file could not be read or written.\n";

static int refuse(const struct input *in)
{
    fprintf(stderr, "hessian %s: ", in->self->name);
    put_input_name(stderr, in);
    fputs(": ", stderr);
    put_refusal(stderr, in->r, true);
    putc('\n', stderr);
    return REFUSED;
}

/* Writes to the file of this name; to standard output if it has none. */
static int write_shortest(const struct input *in, const void *how)
{
    const struct record *r = in->r;
    const char *output = how, *why;

    if (r->number != HESSIAN_ACCEPTED)
        return refuse(in);
    if (output == NULL) {
        fwrite(r->shortest, 1, r->shortest_len, stdout);
        return DONE;
    }
    why = replace_file(output, r->shortest, r->shortest_len);
    return why == NULL ? DONE : complain(in->self, "write", output, why);
}

static int run_shorten(const struct command *self, int argc, char **argv)
{
    static const struct option options[] = {
        {"output", required_argument, NULL, 'o'}, {"thousandths", no_argument, NULL, 't'},
        {"help", no_argument, NULL, 'h'},         {NULL, 0, NULL, 0}
    };
    const char *output = NULL;
    bool thousandths = false;
    int option;

    while ((option = next_option(argc, argv, ":ho:", options)) != -1) {
        if (option == 'h')
            return print_help(self);
        if (option == 't')
            thousandths = true;
        else if (option == 'o')
            output = optarg;
        else
            return wrong_option(self, option, argv);
    }
    if (argc - optind > 1)
        return wrong_usage(self, "more than one FILE is named");
    if (output == NULL && isatty(STDOUT_FILENO))
        return wrong_usage(self, "the shortest form is binary, and standard output is a terminal");
    if (output != NULL && strcmp(output, "-") == 0)
        output = NULL;
    /* a file that may grow no further is trouble to be told, and to be cleared away */
    signal(SIGXFSZ, SIG_IGN);
    return finished(self, each_record(self, (struct named){argc - optind, argv + optind, thousandths}, write_shortest,
                                      output));
}

const struct command shorten_command = {"shorten", "the shortest form of a record", help, run_shorten};
