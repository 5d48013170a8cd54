/* Arrays that grow. Where there is no memory the program says so and ends with status 2. */
#ifndef MEMORY_H
#define MEMORY_H

#include <stddef.h>

void no_memory(void);

/* An array with room for at least `needed` items of `size` bytes; the room is at least doubled. */
void *grown(void *array, size_t *room, size_t needed, size_t size);

/* An array of zeros. */
void *zeros(size_t count, size_t size);

#endif
