/* What `hessian holdings` does: a struct command for each word behind it. They share one help page. */
#ifndef VERBS_H
#define VERBS_H

#include <stdbool.h>

#include "command.h"

extern const char holdings_help[];

extern const struct command holdings_list, holdings_check, holdings_extract, holdings_add;

/* The options of a verb that has no other than --json. False where the run ends here, with a status. */
bool json_option(const struct command *self, int argc, char **argv, bool *json, int *status);

#endif
