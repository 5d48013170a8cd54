/* Names in the order in which they came, what is known of each, and the records among them that are to be added. */
#ifndef BATCH_H
#define BATCH_H

#include <stdbool.h>
#include <stddef.h>
#include <stdint.h>

#include "record.h"

/* What a name stands for: a record that is to be added, or was; what is no record; or nothing that is added. */
enum state { WAITING, NEW, FOUND, REFUSED_RECORD, FAILED, REPEATED, LINK, SELF, STATES };

struct item {
    size_t name; /* its offset in the batch's names */
    enum state state;
    uint64_t bytes;     /* of the file */
    uint64_t entry;     /* of a record that was added */
    unsigned number;    /* of a refusal */
    size_t place;       /* of a refusal */
    const char *reason; /* of a refusal, and of what is not added */
};

struct batch {
    struct item *items;
    size_t count, items_room;
    char *names;
    size_t names_len, names_room;
    uint8_t *records; /* those that wait, laid out as entries */
    size_t records_len, records_room;
    size_t waiting;
};

/* No names; what they took is kept for the next ones. */
void empty_batch(struct batch *b);

void free_batch(struct batch *b);

/* Whether it has to be added before more names come: 65536 of them, or 64 MiB of records. */
bool is_full(const struct batch *b);

const char *item_name(const struct batch *b, const struct item *item);

/* A record that is to be added. */
void put_record(struct batch *b, const char *name, const struct record *r);

/* A record that is refused, as `judge` says. */
void put_refused(struct batch *b, const char *name, const struct record *r);

/* A name that stands for no record. */
void put_other(struct batch *b, const char *name, enum state state, const char *reason);

#endif
