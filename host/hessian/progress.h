/* A line on the terminal that says how far a long run has come, and is replaced by the next. */
#ifndef PROGRESS_H
#define PROGRESS_H

#include <stdbool.h>
#include <stdint.h>

/* Whether such a line is due after so many records, and standard error is a terminal: it is then to be put there. */
bool progress_due(uint64_t records);

/* Takes the line away, if there is one. */
void end_progress(void);

#endif
