#include "input.h"

#include <string.h>
#include <unistd.h>

#include "hessian.h"
#include "quote.h"

/* ---- records */

/* The words are not quoted. */
void put_shown_name(FILE *out, const char *name)
{
    if (strcmp(name, "-") == 0)
        fputs("standard input", out);
    else
        put_name(out, name);
}

bool has_more(const struct input *in)
{
    return in->standard && in->r->len > HESSIAN_LONGEST;
}

void put_input_name(FILE *out, const struct input *in)
{
    put_shown_name(out, in->name);
}

int complain(const struct command *self, const char *what, const char *name, const char *why)
{
    fflush(stdout);
    fprintf(stderr, "hessian %s: cannot %s ", self->name, what);
    put_shown_name(stderr, name);
    fprintf(stderr, ": %s\n", why);
    return TROUBLE;
}

static int use_input(struct input *in, use_record *use, const void *how)
{
    const char *why;

    in->standard = strcmp(in->name, "-") == 0;
    why = in->standard ? load_descriptor(in->r, STDIN_FILENO) : load_file(in->r, in->name);
    if (why != NULL)
        return complain(in->self, "read", in->name, why);
    rewrite(in->r);
    return use(in, how);
}

int each_record(const struct command *self, struct named named, use_record *use, const void *how)
{
    static char *standard[] = {"-"};
    struct record r;
    struct input in = {self, NULL, false, named.count > 1, &r};
    int worst = DONE, i;

    if (!new_record(&r)) {
        fprintf(stderr, "hessian %s: there is no memory left\n", self->name);
        free_record(&r);
        return TROUBLE;
    }
    r.thousandths = named.thousandths;
    if (named.count == 0) {
        named.names = standard;
        named.count = 1;
    }
    for (i = 0; i < named.count && !output_failed(); i++) {
        int status;

        in.name = named.names[i];
        status = use_input(&in, use, how);
        worst = status > worst ? status : worst;
    }
    free_record(&r);
    return worst;
}
