#include "lending.h"

#include <stdio.h>
#include <stdlib.h>
#include <string.h>

static uint64_t state;

void start_picking(const uint8_t *data, size_t size)
{
    size_t i;

    state = size;
    for (i = 0; i < size; i++)
        state = (state ^ data[i]) * UINT64_C(1099511628211);
}

uint64_t pick(uint64_t n)
{
    state = state * UINT64_C(6364136223846793005) + UINT64_C(1442695040888963407);
    return (state >> 33) % n;
}

size_t some_room(size_t needed)
{
    switch (pick(4)) {
    case 0:
        return needed > 0 ? needed - 1 : 0;
    case 1:
        return (size_t)pick(needed + 1);
    case 2:
        return needed + (size_t)pick(40);
    default:
        return 0;
    }
}

void *block(size_t size)
{
    void *p = malloc(size > 0 ? size : 1);

    if (p == NULL) {
        fputs("fuzz: no memory\n", stderr);
        exit(2);
    }
    return p;
}

uint8_t *copy_of(const uint8_t *bytes, size_t len)
{
    uint8_t *p = block(len);

    memcpy(p, bytes, len);
    return p;
}

/* ---- what is lent to both */

static void fill(uint8_t *p, size_t len)
{
    size_t i;

    for (i = 0; i < len; i++)
        p[i] = (uint8_t)(i * 7 + 3);
}

struct lent lend(const struct fence *f, size_t len)
{
    struct lent l = {f, pick(4) != 0, len, NULL, block(len)};

    l.library = fenced(f, len, l.at_end);
    fill(l.library, len);
    fill(l.plain, len);
    return l;
}

bool lent_kept(const struct lent *l, size_t from)
{
    for (; from < l->len; from++)
        if (l->library[from] != (uint8_t)(from * 7 + 3))
            return false;
    return guarded(l->fence, l->len, l->at_end);
}

bool lent_alike(const struct lent *l)
{
    return memcmp(l->library, l->plain, l->len) == 0;
}

/* ---- what both are given */

struct given give(const struct fence *f, const uint8_t *original, size_t len)
{
    struct given g = {f, pick(4) != 0, original, len, NULL, copy_of(original, len)};

    g.library = fenced(f, len, g.at_end);
    memcpy(g.library, original, len);
    return g;
}

bool take_back(struct given *g)
{
    free(g->plain);
    return memcmp(g->library, g->original, g->len) == 0 && guarded(g->fence, g->len, g->at_end);
}
