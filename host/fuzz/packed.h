/* A source and rows for the writer, in few bytes: what a fuzzer can alter with some hope. */
#ifndef PACKED_H
#define PACKED_H

#include <stdbool.h>
#include <stddef.h>
#include <stdint.h>

enum {
    PACKED_CODE = 0x40,
    PACKED_HEAD = 4, /* the code; two bytes, the source's length; a byte, how many rows more or less are claimed than there are */
    PACKED_ROW = 8   /* kind and shifts; two bytes each, signed: place, first, second; a byte of its own for the fifth number */
};

struct packed {
    const uint8_t *source;
    size_t source_len;
    size_t rows;
    uint64_t claimed;
    const uint8_t *packed_rows;
};

/* False if this is no packed input. */
bool unpack(const uint8_t *data, size_t size, struct packed *p);

/*
 * Its rows, as the writer takes them. The fifth numbers are those of the record that the rows would be, so that other numbers can
 * be altered alone; the byte of a row says how much is added there, or the lowest ones which of the trials of afters.h it is.
 */
void unpack_rows(const struct packed *p, uint8_t *table);

/* Packs a source and the rows of a record; what does not fit is cut off. The bytes, of at most `room`. */
size_t pack(const uint8_t *source, size_t source_len, const uint8_t *table, size_t rows, uint8_t *data, size_t room);

#endif
