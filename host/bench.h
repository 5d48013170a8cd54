/* What the benchmarks share: the inputs, and timing. */
#ifndef BENCH_H
#define BENCH_H

#include <stddef.h>
#include <stdint.h>

enum {
    ROOM = 262144, /* bytes of a message, and rows of a table */
    INPUTS = 12
};

extern const char *const bench_name;

/* The input: a message. */
extern uint8_t message[ROOM];
extern size_t message_len;

/* The name of the input of this number; builds it. */
const char *input_name(size_t number);
void build_input(size_t number);

/* What is timed: one call, and its answer. */
typedef uint64_t call(void);

/* Two calls in turn, round for round: the best time of each, in nanoseconds. */
void measure(call *const calls[2], double best[2]);

/* Zeroed memory. */
uint8_t *allocate_zeros(size_t size);

#endif
