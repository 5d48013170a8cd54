/* What the checks share: memory, answers, lent bytes between guard bytes, files of cases. */
#ifndef SUPPORT_H
#define SUPPORT_H

#include <stdbool.h>
#include <stddef.h>
#include <stdint.h>

enum {
    MOST_BYTES = 262144,  /* of a message that is not too long */
    MOST_MESSAGE = 300000 /* bytes of a message that is tried */
};

/* The name of the check, which its complaints begin with. */
extern const char *const check_name;

/* Complains, and ends the check. */
void give_up(const char *why, const char *about);

void *allocate(size_t size);

/* ---- answers */

unsigned number_of(uint64_t answer);
size_t count_of(uint64_t answer);
size_t place_of(uint64_t answer);

/* ---- lent bytes */

/* `len` bytes between guard bytes. */
struct lent {
    uint8_t *block;
    size_t before; /* guard bytes before them */
    size_t len;
    uint8_t (*fill)(size_t i); /* byte i before a call */
};

/* Bytes as they are before a call; `shift` moves them off their alignment. */
struct lent new_lent(size_t len, size_t shift, uint8_t (*fill)(size_t i));

uint8_t *lent_bytes(const struct lent *l);

/* Whether all is as before the call but the first `stored` bytes. */
bool kept(const struct lent *l, size_t stored);

/* Whether two that began alike are alike, guard bytes too. */
bool alike(const struct lent *l, const struct lent *m);

/* ---- files of cases */

/* A whole file, with a zero byte after it. */
char *read_file(const char *name);

/* The next line, without its end; NULL after the last. */
char *next_line(char **rest);

/* A decimal number of at most `most`. */
bool decimal(const char **text, uint64_t most, uint64_t *value);

/*
 * Bytes in groups, a space before each, up to the end of the text or up to ` ;`, which is left: into a buffer of
 * MOST_MESSAGE bytes.
 */
bool groups(const char **text, uint8_t *bytes, size_t *len);

/* Hands each message of a file of cases of record_vectors to `use`. */
void each_message(const char *name, void (*use)(const uint8_t *message, size_t len));

#endif
