/* hessian holdings: one file for many records. */
#include <getopt.h>
#include <stdio.h>
#include <string.h>

#include "command.h"
#include "verbs.h"

const char holdings_help[] =
    "usage: hessian holdings list [--json] FILE\n"
    "       hessian holdings check [--json] FILE\n"
    "       hessian holdings extract FILE NUMBER [-o OUT]\n"
    "       hessian holdings add [OPTION]... FILE NAME...\n"
    "\n"
    "A holdings file keeps many Hessian 2.0 records in one file, each once and in its shortest form. Each is an\n"
    "entry; they are numbered from 0. FILE is a holdings file; but for add, - is standard input.\n"
    "\n"
    "list prints a line for each entry: its number, the place of its message in FILE, and its bytes. check\n"
    "prints a line that says how many entries and bytes FILE has. extract writes the message of an entry, which\n"
    "is the shortest form of its record. Each looks at the whole file first. It is refused, with a number, the\n"
    "place of the faulty entry and a reason, where it does not begin with SWP (20), has a version that is not\n"
    "known (21), or has an entry that is cut off (22), is no record (23), is not in its shortest form (24) or is\n"
    "the same as an earlier one (25): check says so on standard output, the others on standard error.\n"
    "\n"
    "add adds records to FILE, which is made where it is not there. NAME is a record file, a folder (every\n"
    "regular file in it and its folders, by name; links are passed over), or - for names on standard input, one\n"
    "a line. A line is printed for each record when it is in FILE and on the disk:\n"
    "    new NAME NUMBER                      the number of its new entry\n"
    "    found NAME NUMBER                    an entry has this record, in whatever spelling NAME has it\n"
    "    refused NAME NUMBER PLACE REASON     no record; hessian.h has the numbers; PLACE is a byte of NAME\n"
    "A name with spaces, quotes, backslashes or unseen characters is in double quotes, with \\\" \\\\ \\n \\r \\t,\n"
    "\\u{HEX} for a character and \\xHH for a byte that is not UTF-8. The last lines have the sums, and how many\n"
    "entries and bytes FILE then has. Repeated: names of files met before, by this or another name. Links:\n"
    "symbolic links that were named; they are passed over, as is FILE itself, but a link to a folder is looked\n"
    "into. Where FILE is refused nothing is added.\n"
    "\n"
    "Records are added many at a time, up to 65536 or 64 MiB. FILE is replaced whole or not at all: a new file\n"
    "in the same folder, .FILE.hessian-new, takes its name when it is complete and on the disk, with the\n"
    "permissions of the old one, and its owner and group where that is allowed; where FILE is a link, its target\n"
    "is replaced. Several may add to FILE at once: they wait for each other. FILE has to fit the memory.\n"
    "\n"
    "    -o, --output OUT   of extract: write to OUT, as shorten does, instead of standard output; - is standard\n"
    "                       output, also where that is a terminal\n"
    "    --json             of list, check and add: a JSON object a line. state is entry, with entry, place and\n"
    "                       bytes; sound or refused, of FILE; new, found, refused, failed, repeated, link, self,\n"
    "                       of NAME; or total. A byte of a name that is not UTF-8 is \\udcHH\n"
    "    -q, --summary      of add: the sums alone\n"
    "    --include=GLOB     of add: only files that match this, or another such, glob\n"
    "    --exclude=GLOB     of add: no files that match this glob, nor what is in folders that do, but for those\n"
    "                       named; hessian copies --help says how a glob is matched\n"
    "    -0                 of add: names on standard input end with a zero byte, as those of find -print0\n"
    "    -h, --help         this page\n"
    "    --                 what follows is no option\n"
    "\n"
    "SIGINT and SIGTERM end add with FILE whole: records that have no line are not added then. The sums are\n"
    "those of the lines so far, which a line `interrupted: partial sums` says, or \"partial\":true.\n"
    "\n"
    "Status: 0 all was well, 1 FILE or some record was refused, 2 wrong usage, or a file could not be read or\n"
    "written, or there is no entry NUMBER; 130 after SIGINT, 143 after SIGTERM, of add.\n";

static const struct command *const verbs[] = {&holdings_list, &holdings_check, &holdings_extract, &holdings_add};

enum { VERBS = sizeof verbs / sizeof verbs[0] };

/* The word of a verb, behind "holdings ". */
static const char *word_of(const struct command *verb)
{
    return strchr(verb->name, ' ') + 1;
}

static const struct command *find_verb(const char *word)
{
    unsigned i;

    for (i = 0; i < VERBS; i++)
        if (strcmp(word_of(verbs[i]), word) == 0)
            return verbs[i];
    return NULL;
}

/* Options before the verb: only that for help. */
static int run_holdings(const struct command *self, int argc, char **argv)
{
    static const struct option options[] = {{"help", no_argument, NULL, 'h'}, {NULL, 0, NULL, 0}};
    const struct command *verb;
    char why[120];
    int option = next_option(argc, argv, "+:h", options), first = optind;

    if (option == 'h')
        return print_help(self);
    if (option != -1)
        return wrong_option(self, option, argv);
    if (first == argc)
        return wrong_usage(self, "list, check, extract or add has to follow");
    verb = find_verb(argv[first]);
    if (verb == NULL) {
        snprintf(why, sizeof why, "there is no %.60s, but list, check, extract and add", argv[first]);
        return wrong_usage(self, why);
    }
    optind = 0; /* options are looked for anew */
    return verb->run(verb, argc - first, argv + first);
}

const struct command holdings_command = {"holdings", "one file for many records: list it, check it, add to it",
                                         holdings_help, run_holdings};

bool json_option(const struct command *self, int argc, char **argv, bool *json, int *status)
{
    static const struct option options[] = {
        {"json", no_argument, NULL, 'j'}, {"help", no_argument, NULL, 'h'}, {NULL, 0, NULL, 0}
    };
    int option;

    *json = false;
    while ((option = next_option(argc, argv, ":h", options)) == 'j')
        *json = true;
    if (option == -1 && argc - optind == 1)
        return true;
    if (option == 'h')
        *status = print_help(self);
    else if (option != -1)
        *status = wrong_option(self, option, argv);
    else
        *status = wrong_usage(self, argc == optind ? "no FILE is named" : "more than one FILE is named");
    return false;
}
