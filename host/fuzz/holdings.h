/* A holdings file and records to be added to it, as an input of the fuzzers. */
#ifndef FUZZ_HOLDINGS_H
#define FUZZ_HOLDINGS_H

#include <stdbool.h>
#include <stddef.h>
#include <stdint.h>

enum {
    HELD_CODE = 0x45,
    HELD_HEAD = 4 /* the code; flags; two bytes, the length of the entries of the file. The records are the rest */
};

/* Flags: what is made of the bytes of the file. */
enum {
    HELD_TIDY = 1,  /* its entries are shortened, and those that cannot be, or are there already, left out */
    HELD_BARE = 2,  /* they have no header before them */
    HELD_NONE = 4,  /* no byte of it is used */
    HELD_HURT = 8,  /* a bit of it is another */
    HELD_WIDE = 16, /* the first entry, as it was given, stands behind them once more */
    HELD_FLAGS = 32
};

struct held {
    unsigned flags;
    const uint8_t *entries;
    size_t entries_len;
    const uint8_t *records;
    size_t records_len;
};

/* False if this is no such input. */
bool unpack_held(const uint8_t *data, size_t size, struct held *h);

/* Packs entries and records; the bytes, which are at most `room`. 0 where they are too many. */
size_t pack_held(const struct held *h, uint8_t *data, size_t room);

/* An entry of a message, behind others of so many bytes; how many there are then, which are at most `room`. */
size_t put_entry(uint8_t *entries, size_t len, size_t room, const uint8_t *message, size_t message_len);

/* Lists the file, adds the first record and all of them: by the library and by the plain functions. */
bool compare_held(const struct held *h);

#endif
