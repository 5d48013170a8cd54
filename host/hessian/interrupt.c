#define _GNU_SOURCE /* ppoll */
#include "interrupt.h"

#include <errno.h>
#include <poll.h>
#include <stddef.h>

enum { BY_SIGNAL = 128 }; /* a status from here on says which signal ended the run */

static volatile sig_atomic_t met;

static void meet(int number)
{
    met = number;
}

int signal_met(void)
{
    return met;
}

int status_by_signal(void)
{
    return BY_SIGNAL + met;
}

/* SA_RESTART: a line that is being written is written to its end. */
static void watch(int number)
{
    struct sigaction action = {0}, before;

    action.sa_handler = meet;
    action.sa_flags = SA_RESTART;
    sigemptyset(&action.sa_mask);
    if (sigaction(number, NULL, &before) == 0 && before.sa_handler != SIG_IGN)
        sigaction(number, &action, NULL);
}

void watch_signals(void)
{
    watch(SIGINT);
    watch(SIGTERM);
}

void hold_signals(sigset_t *before)
{
    sigset_t both;

    sigemptyset(&both);
    sigaddset(&both, SIGINT);
    sigaddset(&both, SIGTERM);
    pthread_sigmask(SIG_BLOCK, &both, before);
}

void release_signals(const sigset_t *before)
{
    pthread_sigmask(SIG_SETMASK, before, NULL);
}

/* Held between the look at `met` and the wait, a signal cannot come unseen. */
bool wait_for_input(int descriptor)
{
    struct pollfd input = {descriptor, POLLIN, 0};
    sigset_t before;
    int n;

    hold_signals(&before);
    do
        n = met == 0 ? ppoll(&input, 1, NULL, &before) : 0;
    while (n < 0 && errno == EINTR);
    release_signals(&before);
    return met == 0;
}
