#include "batch.h"

#include <stdlib.h>
#include <string.h>

#include "entry.h"
#include "memory.h"
#include "names.h"

#ifndef BATCH
#define BATCH 65536 /* names; the checks have fewer */
#endif

enum { MOST_BYTES = 64 << 20 };

void empty_batch(struct batch *b)
{
    b->count = b->names_len = b->records_len = b->waiting = 0;
}

void free_batch(struct batch *b)
{
    free(b->items);
    free(b->names);
    free(b->records);
}

bool is_full(const struct batch *b)
{
    return b->count >= BATCH || b->records_len >= MOST_BYTES;
}

const char *item_name(const struct batch *b, const struct item *item)
{
    return b->names + item->name;
}

/* An item of this name, all else 0. */
static struct item *put_item(struct batch *b, const char *name, enum state state)
{
    size_t len = strlen(name) + 1;
    struct item *item;

    b->items = grown(b->items, &b->items_room, b->count + 1, sizeof *b->items);
    b->names = grown(b->names, &b->names_room, b->names_len + len, 1);
    item = &b->items[b->count++];
    memset(item, 0, sizeof *item);
    item->name = b->names_len;
    item->state = state;
    memcpy(b->names + b->names_len, name, len);
    b->names_len += len;
    return item;
}

void put_record(struct batch *b, const char *name, const struct record *r)
{
    uint8_t *p;

    put_item(b, name, WAITING)->bytes = r->size;
    b->records = grown(b->records, &b->records_room, b->records_len + LENGTH_SIZE + r->len, 1);
    p = b->records + b->records_len;
    set_entry_length(p, r->len);
    memcpy(p + LENGTH_SIZE, r->message, r->len);
    b->records_len += LENGTH_SIZE + r->len;
    b->waiting++;
}

void put_refused(struct batch *b, const char *name, const struct record *r)
{
    struct item *item = put_item(b, name, REFUSED_RECORD);

    item->bytes = r->size;
    item->number = r->number;
    item->place = r->place;
    item->reason = reason(r);
}

void put_other(struct batch *b, const char *name, enum state state, const char *reason)
{
    put_item(b, name, state)->reason = reason;
}
