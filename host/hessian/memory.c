#include "memory.h"

#include <stdint.h>
#include <stdio.h>
#include <stdlib.h>

void no_memory(void)
{
    fflush(stdout);
    fputs("hessian: there is no memory left; the lines so far hold, what comes after them was not looked at\n", stderr);
    exit(2);
}

void *grown(void *array, size_t *room, size_t needed, size_t size)
{
    size_t more = *room < 64 ? 64 : *room;

    if (needed <= *room)
        return array;
    while (more < needed && more <= SIZE_MAX / 2)
        more *= 2;
    if (more < needed || more > SIZE_MAX / size || (array = realloc(array, more * size)) == NULL)
        no_memory();
    *room = more;
    return array;
}

void *zeros(size_t count, size_t size)
{
    void *array = calloc(count, size);

    if (array == NULL)
        no_memory();
    return array;
}
