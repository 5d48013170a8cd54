/* SIGINT and SIGTERM: the run ends after the line in hand, and its sums are said to be partial. */
#ifndef INTERRUPT_H
#define INTERRUPT_H

#include <signal.h>
#include <stdbool.h>

/* A signal that is ignored, as after nohup, stays so. */
void watch_signals(void);

/* The signal that came, or 0. */
int signal_met(void);

/* The status of a run that it ended, as a shell has it. */
int status_by_signal(void);

/* Keeps the signals from the threads that are started before it is undone: they are for the thread that prints. */
void hold_signals(sigset_t *before);
void release_signals(const sigset_t *before);

/* Waits until there is something to read; false where a signal came. */
bool wait_for_input(int descriptor);

#endif
