/* Memory for the library: a page that nothing may touch lies right behind it or right before it, guard bytes on the other side. */
#ifndef FENCE_H
#define FENCE_H

#include <stdbool.h>
#include <stddef.h>
#include <stdint.h>

struct fence {
    uint8_t *start; /* of what may be touched */
    size_t room;
};

/* Room for so many bytes and the guard bytes; ends the program where there is none. */
struct fence new_fence(size_t most);

/* `len` bytes that end at the fence, or begin there. The guard bytes are set, the bytes are not. */
uint8_t *fenced(const struct fence *f, size_t len, bool at_end);

/* Whether the guard bytes are as they were. */
bool guarded(const struct fence *f, size_t len, bool at_end);

#endif
