#include "store.h"

#include <stdlib.h>
#include <string.h>

#include "memory.h"

enum { FIRST_ROOM = 1024, MOST_KEPT = (1 << 28) - 1 };

void new_store(struct store *s)
{
    memset(s, 0, sizeof *s);
    s->slots_room = FIRST_ROOM;
    s->slots = zeros(s->slots_room, sizeof *s->slots);
    new_cache(&s->cache);
}

void free_store(struct store *s)
{
    free(s->names);
    free(s->kept);
    free(s->forms);
    free(s->slots);
    free_cache(&s->cache);
}

/* ---- records kept */

size_t keep(struct store *s, struct kept k, const char *name)
{
    size_t len = strlen(name) + 1;

    if (s->kept_count == MOST_KEPT)
        no_memory();
    k.name = s->names_len;
    s->names = grown(s->names, &s->names_room, s->names_len + len, 1);
    memcpy(s->names + s->names_len, name, len);
    s->names_len += len;
    s->kept = grown(s->kept, &s->kept_room, s->kept_count + 1, sizeof *s->kept);
    s->kept[s->kept_count] = k;
    return s->kept_count++;
}

struct kept *record_of(const struct store *s, const struct form *f)
{
    return &s->kept[f->kept];
}

const char *name_of(const struct store *s, const struct kept *k)
{
    return s->names + k->name;
}

/* ---- their forms */

static void fill_slot(struct store *s, size_t index)
{
    size_t i = (size_t)s->forms[index].hash & (s->slots_room - 1);

    while (s->slots[i] != 0)
        i = (i + 1) & (s->slots_room - 1);
    s->slots[i] = (uint32_t)index + 1;
}

static void grow_slots(struct store *s)
{
    size_t i;

    free(s->slots);
    s->slots_room *= 2;
    s->slots = zeros(s->slots_room, sizeof *s->slots);
    for (i = 0; i < s->forms_count; i++)
        fill_slot(s, i);
}

void add_form(struct store *s, size_t kept, unsigned origin, uint64_t hash, const uint8_t *bytes, size_t size)
{
    struct form f = {hash, cached(&s->cache, bytes, size), (uint32_t)size, (uint32_t)kept & MOST_KEPT, origin & 15u};

    if (f.bytes == NULL && origin == A_COPY)
        return;
    if (s->forms_count == UINT32_MAX - 1)
        no_memory();
    s->forms = grown(s->forms, &s->forms_room, s->forms_count + 1, sizeof *s->forms);
    s->forms[s->forms_count++] = f;
    if (s->forms_count > s->slots_room / 4 * 3)
        grow_slots(s);
    else
        fill_slot(s, s->forms_count - 1);
}

const struct form *candidate(const struct store *s, unsigned origins, uint64_t hash, size_t size, size_t *from)
{
    for (;;) {
        size_t i = ((size_t)hash + (*from)++) & (s->slots_room - 1);
        const struct form *f;

        if (s->slots[i] == 0)
            return NULL;
        f = &s->forms[s->slots[i] - 1];
        if (f->hash == hash && f->size == size && (f->origin & origins) != 0 && !record_of(s, f)->lost)
            return f;
    }
}
