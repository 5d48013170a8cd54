/* hessian show: records as a person reads them, or as JSON. */
#include <getopt.h>
#include <stdio.h>
#include <stdlib.h>
#include <string.h>
#include <unistd.h>

#include "command.h"
#include "document.h"
#include "hessian.h"
#include "input.h"
#include "manner.h"
#include "page.h"
#include "view.h"

enum { PAGE_LIMIT = 64 };

static const char help[] =
    "usage: hessian show [OPTION]... [NAME]...\n"
    "\n"
    "Shows Hessian 2.0 records. NAME is a record file; - or no name is standard input.\n"
    "\n"
    "First a line with the file's name, bytes, rows and the bytes of its shortest form; then a line for each\n"
    "value: its place in the file, what it is to the list, map or object that holds it, its kind, its worth.\n"
    "Lists, maps and objects are numbered #0, #1 .. as references name them. Dates are in UTC. In texts and\n"
    "names \\\" \\\\ \\n \\r \\t and \\u{HEX} stand for what is not to be seen as it is: controls, formats, spaces\n"
    "other than U+0020, fillers, variation selectors.\n"
    "What is no record is shown with the refusal's number and name (hessian.h), its place, and the bytes\n"
    "around it.\n"
    "\n"
    "    --limit BYTES    of a text, byte string or name (64); 0 is no limit\n"
    "    --elements N     of each list or map the first N elements or pairs (0); 0 is no limit. The rest is\n"
    "                     passed over: a line says how many more there are, and in how many rows\n"
    "    --no-places      nothing that depends on the file and not on its record, so that diff tells records\n"
    "                     apart: no places, no first line (where several are named, the name and a colon),\n"
    "                     and no limit unless one is given\n"
    "    --color[=WHEN]   auto (places, names, texts and refusals coloured on a terminal, unless NO_COLOR is\n"
    "                     set), always or never; --color is --color=always\n"
    "    --json           one JSON document a record, in one line, never coloured\n"
    "    --thousandths    5f and four bytes are no float but a whole number m, and stand for m times 0.001, in\n"
    "                     all that is named. The first line says so. The shortest form is by the main rule,\n"
    "                     where 5f is a float: it may be longer than the file, and too long to be written\n"
    "    -h, --help       this page\n"
    "    --               what follows is no option\n"
    "\n"
    "A document has state (accepted, refused), name (- is standard input), bytes, rows, shortest (bytes) and\n"
    "record, a value; where it is refused number, refusal (its name), place and reason instead. What cannot\n"
    "be read has none, and is told on standard error. By --thousandths a document has thousandths, which is\n"
    "true. A shortest form of more than 262144 bytes cannot be written. A value has kind, place, and\n"
    "    value          null, true, false, an int, a text, the number of a reference; a long as a decimal in\n"
    "                   quotes, since many readers of JSON keep 53 bits; a double as its shortest decimal or\n"
    "                   \"Infinity\", \"-Infinity\", \"NaN\"; a date in ISO 8601; bytes in base64\n"
    "    bits           of a double: its 64 bits in hexadecimal, which are exact\n"
    "    milliseconds   of a date: since 1970, as a decimal in quotes\n"
    "    length         of bytes, and of what holds values: bytes, elements, pairs or fields\n"
    "    reference      of what holds values: its number\n"
    "    class, type    number and name; of a type also written_out: false where its number stands there\n"
    "    elements, pairs, fields   what is held: values; key and value; name and value\n"
    "    defines        the classes defined before it: number, name, fields\n"
    "    more           what is left out: bytes; elements or pairs, and in how many rows\n"
    "There --limit is none unless it is given, and names are always whole. --no-places leaves out place,\n"
    "bytes, thousandths, and name unless several are named.\n"
    "\n"
    "Status: 0 all were read, 1 some were refused, 2 wrong usage, or a file could not be read.\n";

static int show_record(const struct input *in, const void *manner)
{
    const struct manner *how = manner;
    const char *why;
    struct view v;

    if (!has_rows(in->r)) {
        (how->json ? put_refused_document : put_refused_page)(stdout, in, how);
        return REFUSED;
    }
    why = open_view(&v, in->r);
    if (why == NULL)
        (how->json ? put_document : put_page)(stdout, in, how, &v);
    close_view(&v);
    return why == NULL ? DONE : complain(in->self, "show", in->name, why);
}

/* ---- options */

static bool on_terminal(void)
{
    const char *none = getenv("NO_COLOR"), *terminal = getenv("TERM");

    return isatty(STDOUT_FILENO) && (none == NULL || none[0] == '\0') && terminal != NULL &&
           strcmp(terminal, "dumb") != 0;
}

/* Whether `when` is a word that --color knows. */
static bool parse_color(const char *when, bool *color)
{
    *color = strcmp(when, "always") == 0 || (strcmp(when, "auto") == 0 && on_terminal());
    return *color || strcmp(when, "auto") == 0 || strcmp(when, "never") == 0;
}

/* Takes one option; NULL, or what is wrong with its value. */
static const char *take_option(int option, struct manner *how)
{
    switch (option) {
    case 'l':
        return parse_limit(optarg, &how->bytes) ? NULL : "--limit needs a number of bytes";
    case 'e':
        return parse_limit(optarg, &how->elements) ? NULL : "--elements needs a number of elements";
    case 'c':
        return parse_color(optarg == NULL ? "always" : optarg, &how->color) ? NULL :
               "--color is auto, always or never";
    case 'p':
        how->places = false;
        return NULL;
    case 't':
        how->thousandths = true;
        return NULL;
    default:
        how->json = true;
        return NULL;
    }
}

static int run_show(const struct command *self, int argc, char **argv)
{
    static const struct option options[] = {
        {"limit", required_argument, NULL, 'l'}, {"elements", required_argument, NULL, 'e'},
        {"no-places", no_argument, NULL, 'p'},   {"color", optional_argument, NULL, 'c'},
        {"json", no_argument, NULL, 'j'},        {"thousandths", no_argument, NULL, 't'},
        {"help", no_argument, NULL, 'h'},        {NULL, 0, NULL, 0}
    };
    struct manner how = {false, 0, UINT64_MAX, true, false, on_terminal()};
    const char *why;
    int option;

    while ((option = next_option(argc, argv, ":h", options)) != -1) {
        if (option == 'h')
            return print_help(self);
        if (option == '?' || option == ':')
            return wrong_option(self, option, argv);
        if ((why = take_option(option, &how)) != NULL)
            return wrong_usage(self, why);
    }
    /* what is compared is not to be cut unasked */
    if (how.bytes == 0)
        how.bytes = how.json || !how.places ? UINT64_MAX : PAGE_LIMIT;
    return finished(self, each_record(self, (struct named){argc - optind, argv + optind, how.thousandths}, show_record,
                                      &how));
}

const struct command show_command = {"show", "records as a person reads them, or as JSON", help, run_show};
