/* Random messages, valid and damaged, for the checks. */
#ifndef GENERATE_H
#define GENERATE_H

#include <stdbool.h>
#include <stddef.h>
#include <stdint.h>

enum {
    MOST_OPEN = 32,
    MOST_CLASSES = 256
};

extern uint64_t seed;

/* A number below n. */
unsigned chance(unsigned n);

uint64_t random_bits(void);

/* A message in the making. */
struct maker {
    uint8_t *out; /* MOST_MESSAGE bytes */
    size_t len;
    unsigned values; /* so many more, then containers become rare */
    unsigned references;
    unsigned types;
    unsigned classes;
    unsigned fields[MOST_CLASSES];
};

/* A message without a byte yet. */
void start_message(struct maker *m, unsigned values);

/* A byte; the low `size` bytes of a number. */
void put(struct maker *m, unsigned byte);
void put_number(struct maker *m, uint64_t number, unsigned size);

/* A character beyond the 16-bit range as a pair of halves, in six bytes. */
void put_pair(struct maker *m, uint32_t c);

/* A random message without damage, but for what does not fit or passes a ceiling, and for halves that are no pair. */
void put_random(struct maker *m);

/* Changes, inserts or removes bytes. */
void damage(struct maker *m);

#endif
