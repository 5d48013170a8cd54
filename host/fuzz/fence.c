#define _DEFAULT_SOURCE /* MAP_ANONYMOUS */

#include "fence.h"

#include <stdio.h>
#include <stdlib.h>
#include <string.h>
#include <sys/mman.h>
#include <unistd.h>

enum { GUARDS = 64, GUARD = 0xa5 };

struct fence new_fence(size_t most)
{
    size_t page = (size_t)sysconf(_SC_PAGESIZE), room = (most + GUARDS + page - 1) / page * page;
    uint8_t *block = mmap(NULL, room + 2 * page, PROT_NONE, MAP_PRIVATE | MAP_ANONYMOUS, -1, 0);
    struct fence f = {block + page, room};

    if (block == MAP_FAILED || mprotect(f.start, room, PROT_READ | PROT_WRITE) != 0) {
        perror("fuzz: no memory between fences");
        exit(2);
    }
    return f;
}

static uint8_t *guards(const struct fence *f, size_t len, bool at_end)
{
    return at_end ? f->start + f->room - len - GUARDS : f->start + len;
}

uint8_t *fenced(const struct fence *f, size_t len, bool at_end)
{
    memset(guards(f, len, at_end), GUARD, GUARDS);
    return at_end ? f->start + f->room - len : f->start;
}

bool guarded(const struct fence *f, size_t len, bool at_end)
{
    const uint8_t *g = guards(f, len, at_end);
    size_t i;

    for (i = 0; i < GUARDS; i++)
        if (g[i] != GUARD)
            return false;
    return true;
}
