#include "command.h"

#include <errno.h>
#include <getopt.h>
#include <stdio.h>
#include <stdlib.h>
#include <string.h>

int print_help(const struct command *self)
{
    fputs(self->help, stdout);
    return finished(self, DONE);
}

int wrong_usage(const struct command *self, const char *why)
{
    fprintf(stderr, "hessian %s: %s; hessian %s --help says how\n", self->name, why, self->name);
    return TROUBLE;
}

int next_option(int argc, char **argv, const char *brief, const struct option *options)
{
    opterr = 0;
    return getopt_long(argc, argv, brief, options, NULL);
}

int wrong_option(const struct command *self, int answer, char **argv)
{
    const char *word = argv[optind - 1];
    char why[120];

    if (answer == ':')
        snprintf(why, sizeof why, "option %.60s needs a value", word);
    else if (optopt != 0 && strncmp(word, "--", 2) != 0)
        snprintf(why, sizeof why, "there is no option -%c", optopt);
    else if (optopt != 0)
        snprintf(why, sizeof why, "option %.60s takes no value", word);
    else
        snprintf(why, sizeof why, "there is no option %.60s, or it is short for several", word);
    return wrong_usage(self, why);
}

bool parse_number(const char *text, uint64_t *n)
{
    char *end;

    if (text[0] < '0' || text[0] > '9')
        return false;
    errno = 0;
    *n = strtoull(text, &end, 10);
    return *end == '\0' && errno == 0;
}

bool parse_limit(const char *text, uint64_t *n)
{
    if (!parse_number(text, n))
        return false;
    if (*n == 0)
        *n = UINT64_MAX;
    return true;
}

bool output_failed(void)
{
    return ferror(stdout) != 0;
}

int finished(const struct command *self, int status)
{
    if (fflush(stdout) == 0 && !output_failed())
        return status;
    fprintf(stderr, "hessian %s: standard output cannot be written\n", self->name);
    return TROUBLE;
}
