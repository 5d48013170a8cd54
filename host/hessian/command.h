/*
 * A subcommand of `hessian`. Each has a file, or a folder, of its own, which defines its `struct command`; the table in
 * main.c lists them.
 */
#ifndef COMMAND_H
#define COMMAND_H

#include <stdbool.h>
#include <stdint.h>

/* What a run comes to: all went well, some record was refused, or wrong usage or trouble with a file. */
enum status { DONE = 0, REFUSED = 1, TROUBLE = 2 };

struct command {
    const char *name;
    const char *summary; /* half a line of `hessian --help` */
    const char *help;    /* the page of `hessian NAME --help` */
    int (*run)(const struct command *self, int argc, char **argv); /* argv[0] is the name; the status */
};

extern const struct command copies_command, ledger_command, show_command, shorten_command, rows_command,
    holdings_command;

/* ---- options */

/* Prints the page of a subcommand; the status. */
int print_help(const struct command *self);

/* "hessian NAME: WHY; hessian NAME --help says how" on standard error; the status. */
int wrong_usage(const struct command *self, const char *why);

/* The next option by getopt_long, which says nothing itself: -1 after the last; ? or : for a wrong one. */
struct option;
int next_option(int argc, char **argv, const char *brief, const struct option *options);

/* Says on standard error what is wrong with the option for which next_option answered ? or :; the status. */
int wrong_option(const struct command *self, int answer, char **argv);

/* Whether `text` is a decimal number. */
bool parse_number(const char *text, uint64_t *n);

/* The same where 0 stands for no limit, which is UINT64_MAX. */
bool parse_limit(const char *text, uint64_t *n);

/* ---- the end of a run */

/* Flushes standard output: the status, or TROUBLE, said on standard error, where it cannot be written. */
int finished(const struct command *self, int status);

/* Whether standard output has failed already, so that there is no use in going on. */
bool output_failed(void);

#endif
