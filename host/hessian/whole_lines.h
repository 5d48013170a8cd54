/*
 * Standard output in lines that are written whole, so that a run that is killed leaves no half of one: a pipe takes up
 * to PIPE_BUF bytes whole or not at all.
 */
#ifndef WHOLE_LINES_H
#define WHOLE_LINES_H

#include <stdbool.h>

/* To be called once, before the first line. */
void begin_whole_lines(void);

/* To be called behind the end of each line. On a terminal it is written at once. */
void end_whole_line(void);

/* Whether standard output is a terminal. */
bool lines_on_terminal(void);

#endif
