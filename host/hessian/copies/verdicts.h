/*
 * What is said of each file, in their order: that it is kept, a copy, refused, or that it was passed over or failed.
 *
 * A copy is a verdict on which a file may be removed, so a hash only finds candidates: the bytes are compared, with
 * those of the kept file as they are now. They are the ones in memory where the file's times show that it has not
 * changed since, and else those that are read from it once more.
 */
#ifndef VERDICTS_H
#define VERDICTS_H

#include <stdbool.h>
#include <stdint.h>

#include "met.h"
#include "record.h"
#include "store.h"
#include "sums.h"
#include "workers.h"

struct run {
    struct workers workers;
    struct met met;
    struct store store;
    struct record earlier; /* the file of a kept record, read again */
    uint64_t read_again;   /* how often */
    struct totals totals;
};

/* 5f of all files counts thousandths, or of none. */
void start_run(struct run *run, bool thousandths);

void end_run(struct run *run);

/* Whether a signal has come or a line could not be written, so that the run is to end. */
bool stopped(void);

#endif
