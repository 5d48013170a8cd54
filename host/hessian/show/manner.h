/* How records are shown. */
#ifndef MANNER_H
#define MANNER_H

#include <stdbool.h>
#include <stdint.h>

struct manner {
    bool thousandths;  /* 5f of the records counts thousandths */
    uint64_t bytes;    /* of a text or byte string, on a page also of a name */
    uint64_t elements; /* of a list, or pairs of a map */
    bool places;       /* also what else depends on a file and not on its record: its name and its size */
    bool json;
    bool color;
};

#endif
