/* hessian: what the archive does with records, one subcommand each. Every decision about a record is the library's. */
#include <stdio.h>
#include <string.h>

#include "command.h"
#include "hessian.h"

static const struct command *const commands[] = {&copies_command, &ledger_command, &show_command, &shorten_command,
                                                 &rows_command, &holdings_command};

enum { COMMANDS = sizeof commands / sizeof commands[0] };

static const struct command *find_command(const char *name)
{
    unsigned i;

    for (i = 0; i < COMMANDS; i++)
        if (strcmp(commands[i]->name, name) == 0)
            return commands[i];
    return NULL;
}

static void print_commands(FILE *out)
{
    unsigned i;

    fputs("usage: hessian COMMAND [OPTION]... [NAME]...\n\n"
          "Reads Hessian 2.0 records, rewrites them in their shortest form, and keeps them in holdings files.\n\n",
          out);
    for (i = 0; i < COMMANDS; i++)
        fprintf(out, "    %-10s%s\n", commands[i]->name, commands[i]->summary);
    fputs("\nhessian COMMAND --help says more; hessian --version prints the version.\n"
          "Status: 0 all was well, 1 some record was refused, 2 wrong usage or trouble with a file.\n", out);
}

int main(int argc, char **argv)
{
    static const struct command self = {"--help", NULL, NULL, NULL};
    const char *word = argc > 1 ? argv[1] : "";
    const struct command *command = find_command(word);

    if (command != NULL)
        return command->run(command, argc - 1, argv + 1);
    if (strcmp(word, "help") == 0 && argc == 3 && (command = find_command(argv[2])) != NULL)
        return print_help(command);
    if (strcmp(word, "--help") == 0 || strcmp(word, "-h") == 0 || strcmp(word, "help") == 0) {
        print_commands(stdout);
        return finished(&self, DONE);
    }
    if (strcmp(word, "--version") == 0 || strcmp(word, "-V") == 0) {
        puts("hessian " HESSIAN_VERSION);
        return finished(&self, DONE);
    }
    if (word[0] == '\0')
        print_commands(stderr);
    else
        fprintf(stderr, "hessian: there is no command %s; hessian --help names them\n", word);
    return TROUBLE;
}
