/* hessian holdings extract: the message of an entry. */
#include <getopt.h>
#include <inttypes.h>
#include <signal.h>
#include <stdio.h>
#include <string.h>
#include <unistd.h>

#include "file.h"
#include "input.h"
#include "replace.h"
#include "verbs.h"

/* Writes to the file of this name; to standard output if it has none. */
static int write_message(const struct command *self, const struct holdings *h, hessian_listed listed,
                         const char *output)
{
    const uint8_t *message = h->bytes + listed.place;
    const char *why;

    if (output == NULL) {
        fwrite(message, 1, (size_t)listed.length, stdout);
        return DONE;
    }
    why = replace_file(output, message, (size_t)listed.length);
    return why == NULL ? DONE : complain(self, "write", output, why);
}

static int extract(const struct command *self, struct holdings *h, uint64_t number, const char *output)
{
    hessian_answer answer;
    const char *why = list_holdings(h, &answer);
    char none[80];

    if (why != NULL)
        return complain(self, "read", h->name, why);
    if (answer.number == HESSIAN_ROOM)
        return library_fault(self, h);
    if (answer.number != HESSIAN_ACCEPTED)
        return refuse_holdings(self, h, answer);
    if (number >= answer.count) {
        snprintf(none, sizeof none, "there is no entry %" PRIu64 " among its %" PRIu64, number, answer.count);
        return complain(self, "extract from", h->name, none);
    }
    return write_message(self, h, hessian_listed_at(h->list, (size_t)number), output);
}

static int extract_to(const struct command *self, char **words, const char *output)
{
    struct holdings h;
    uint64_t number;
    int status;

    if (!parse_number(words[1], &number))
        return wrong_usage(self, "NUMBER has to be a decimal number");
    if (output == NULL && isatty(STDOUT_FILENO))
        return wrong_usage(self, "a message is binary, and standard output is a terminal");
    if (output != NULL && strcmp(output, "-") == 0)
        output = NULL;
    /* a file that may grow no further is trouble to be told, and to be cleared away */
    signal(SIGXFSZ, SIG_IGN);
    new_holdings(&h, words[0]);
    status = finished(self, extract(self, &h, number, output));
    free_holdings(&h);
    return status;
}

static int run_extract(const struct command *self, int argc, char **argv)
{
    static const struct option options[] = {
        {"output", required_argument, NULL, 'o'}, {"help", no_argument, NULL, 'h'}, {NULL, 0, NULL, 0}
    };
    const char *output = NULL;
    int option;

    while ((option = next_option(argc, argv, ":ho:", options)) != -1) {
        if (option == 'h')
            return print_help(self);
        if (option != 'o')
            return wrong_option(self, option, argv);
        output = optarg;
    }
    if (argc - optind != 2)
        return wrong_usage(self, argc - optind < 2 ? "FILE and NUMBER have to be given" : "too much is given");
    return extract_to(self, argv + optind, output);
}

const struct command holdings_extract = {"holdings extract", NULL, holdings_help, run_extract};
