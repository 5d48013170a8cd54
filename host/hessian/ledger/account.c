#include "account.h"

#include <stddef.h>

#include "hessian.h"

#define FAULT ": a fault of this library, please report it"

int64_t saved(const struct amount *a)
{
    return (int64_t)a->bytes - (int64_t)a->shortest;
}

const char *wrong_length(const struct record *r)
{
    uint64_t length = shortest_length(r);

    if (r->number == HESSIAN_ACCEPTED)
        return length == r->shortest_len ? NULL : "its shortest form has another length than is said of it" FAULT;
    if (too_long_shortest(r))
        return length > HESSIAN_LONGEST ? NULL : "its shortest form is not written, though it is short enough" FAULT;
    return length == 0 || r->by_writer ? NULL : "it is refused, and has a length all the same" FAULT;
}

const char *account_of(struct record *r, struct account *a)
{
    const struct message_rows message = {r->message, r->len, r->table, r->rows};
    const struct message_rows shortest = {r->shortest, r->shortest_len, r->table, r->rows};
    uint64_t bytes[GROUPS], shortest_bytes[GROUPS];
    const char *why = wrong_length(r);
    unsigned i;

    if (why != NULL)
        return why;
    if (!bytes_by_group(&message, bytes))
        return "its rows do not come to its bytes" FAULT;
    if (!read_shortest(r) || !bytes_by_group(&shortest, shortest_bytes))
        return "the rows of its shortest form do not come to its bytes" FAULT;
    a->all.bytes = r->len;
    a->all.shortest = r->shortest_len;
    for (i = 0; i < GROUPS; i++) {
        a->groups[i].bytes = bytes[i];
        a->groups[i].shortest = shortest_bytes[i];
    }
    return NULL;
}

static void add_amount(struct amount *sum, const struct amount *a)
{
    sum->bytes += a->bytes;
    sum->shortest += a->shortest;
}

void add_account(struct account *sum, const struct account *a)
{
    unsigned i;

    add_amount(&sum->all, &a->all);
    for (i = 0; i < GROUPS; i++)
        add_amount(&sum->groups[i], &a->groups[i]);
}
