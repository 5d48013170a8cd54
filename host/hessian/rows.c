/* hessian rows: the table of a record as numbers. */
#include <getopt.h>
#include <inttypes.h>
#include <stdio.h>

#include "command.h"
#include "hessian.h"
#include "input.h"

static const char help[] =
    "usage: hessian rows [--thousandths] [NAME]...\n"
    "\n"
    "Prints the rows of Hessian 2.0 records. NAME is a record file; - or no name is standard input.\n"
    "\n"
    "A row is a line of five unsigned decimals with one space between: kind, place, first and second number,\n"
    "and the number of the row after what it opens (hessian.h has the kinds). Ints, longs and dates are in\n"
    "two's complement of 64 bits, doubles the 64 bits. What is no record is one line: refused, the\n"
    "refusal's number, its place. Where several are named, a line with the name and a colon comes before\n"
    "each; a name with spaces or anything that is not to be seen is quoted.\n"
    "\n"
    "    --thousandths   5f and four bytes are no float but a whole number m, and stand for m times 0.001, in\n"
    "                    all that is named; of the rows only the bits of such doubles are others\n"
    "    -h, --help      this page\n"
    "    --              what follows is no option\n"
    "\n"
    "Status: 0 all were read, 1 some were refused, 2 wrong usage, or a file could not be read.\n";

static int print_rows(const struct input *in, const void *how)
{
    const struct record *r = in->r;
    size_t i;

    (void)how;
    if (in->several) {
        put_input_name(stdout, in);
        fputs(":\n", stdout);
    }
    if (!has_rows(r)) {
        printf("refused %u %zu\n", r->number, r->place);
        return REFUSED;
    }
    for (i = 0; i < r->rows && !output_failed(); i++) {
        hessian_row row = hessian_row_at(r->table, i);

        printf("%" PRIu64 " %" PRIu64 " %" PRIu64 " %" PRIu64 " %" PRIu64 "\n", row.kind, row.place, row.first,
               row.second, row.after);
    }
    return DONE;
}

static int run_rows(const struct command *self, int argc, char **argv)
{
    static const struct option options[] = {
        {"thousandths", no_argument, NULL, 't'}, {"help", no_argument, NULL, 'h'}, {NULL, 0, NULL, 0}
    };
    bool thousandths = false;
    int option;

    while ((option = next_option(argc, argv, ":h", options)) != -1) {
        if (option == 'h')
            return print_help(self);
        if (option != 't')
            return wrong_option(self, option, argv);
        thousandths = true;
    }
    return finished(self, each_record(self, (struct named){argc - optind, argv + optind, thousandths}, print_rows,
                                      NULL));
}

const struct command rows_command = {"rows", "the rows of a record, a line each", help, run_rows};
