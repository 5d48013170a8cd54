#include "whole_lines.h"

#include <limits.h>
#include <stdio.h>
#include <stdio_ext.h>
#include <unistd.h>

/*
 * Lines are written when there are so many bytes of them. The buffer holds a line more, with two of the longest names
 * and every byte of them quoted by six characters: each write ends with a line. So half a name is left at most where a
 * line alone is longer than a pipe takes.
 */
enum { ENOUGH = PIPE_BUF / 2, NUMBERS = 2048, BUFFER = ENOUGH + 2 * 6 * PATH_MAX + NUMBERS };

static char buffer[BUFFER];
static bool terminal;

void begin_whole_lines(void)
{
    terminal = isatty(STDOUT_FILENO);
    setvbuf(stdout, buffer, _IOFBF, sizeof buffer);
}

bool lines_on_terminal(void)
{
    return terminal;
}

void end_whole_line(void)
{
    if (terminal || __fpending(stdout) >= ENOUGH)
        fflush(stdout);
}
