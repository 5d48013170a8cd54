#include "met.h"

#include <stdlib.h>

#include "memory.h"
#include "mixed.h"

enum { FIRST_ROOM = 1024 };

void new_met(struct met *m)
{
    m->count = 0;
    m->room = FIRST_ROOM;
    m->slots = zeros(m->room, sizeof *m->slots);
}

void free_met(struct met *m)
{
    free(m->slots);
}

/* The slot of a file, or a free one. */
static struct identity *slot_of(struct identity *slots, size_t room, uint64_t device, uint64_t inode)
{
    size_t i = (size_t)mixed(inode ^ mixed(device)) & (room - 1);

    while (slots[i].inode != 0 && (slots[i].inode != inode || slots[i].device != device))
        i = (i + 1) & (room - 1);
    return &slots[i];
}

static void grow(struct met *m)
{
    size_t room = 2 * m->room, i;
    struct identity *slots = zeros(room, sizeof *slots);

    for (i = 0; i < m->room; i++)
        if (m->slots[i].inode != 0)
            *slot_of(slots, room, m->slots[i].device, m->slots[i].inode) = m->slots[i];
    free(m->slots);
    m->slots = slots;
    m->room = room;
}

bool met_before(struct met *m, uint64_t device, uint64_t inode)
{
    struct identity *slot = slot_of(m->slots, m->room, device, inode);

    if (inode == 0)
        return false;
    if (slot->inode != 0)
        return true;
    slot->device = device;
    slot->inode = inode;
    if (++m->count > m->room / 4 * 3)
        grow(m);
    return false;
}
