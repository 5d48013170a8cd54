#include "passed_over.h"

#include <inttypes.h>
#include <stdio.h>

void say_passed_over(const struct command *self, const struct passed_over *p)
{
    if (p->repeated > 0)
        fprintf(stderr, "hessian %s: passed over %" PRIu64 " name%s of files met before, by this or another name\n",
                self->name, p->repeated, p->repeated == 1 ? "" : "s");
    if (p->links > 0)
        fprintf(stderr, "hessian %s: passed over %" PRIu64 " symbolic link%s: name the files they stand for\n",
                self->name, p->links, p->links == 1 ? "" : "s");
    if (p->partial)
        fprintf(stderr, "hessian %s: interrupted: the files after the last line were not looked at\n", self->name);
}
