#include "progress.h"

#include <stdio.h>
#include <unistd.h>

enum { QUIET = 1000, EVERY = 500 }; /* records before the first line, and between two */

static bool shown; /* a line stands on the terminal */

bool progress_due(uint64_t records)
{
    if (records <= QUIET || records % EVERY != 0 || !isatty(STDERR_FILENO))
        return false;
    fflush(stdout);
    putc('\r', stderr);
    shown = true;
    return true;
}

void end_progress(void)
{
    if (shown)
        fputs("\r\033[K", stderr);
    shown = false;
}
