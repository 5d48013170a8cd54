#include "groups.h"

#include <string.h>

#include "hessian.h"

/* ---- groups */

static const struct {
    const char *name, *key;
} names[GROUPS] = {
    [CONSTANTS] = {"constants", "constants"},
    [INTS] = {"ints", "ints"},
    [LONGS] = {"longs", "longs"},
    [DOUBLES] = {"doubles", "doubles"},
    [DATES] = {"dates", "dates"},
    [TEXTS] = {"texts", "texts"},
    [BYTE_STRINGS] = {"byte strings", "byte_strings"},
    [LISTS] = {"lists", "lists"},
    [MAPS] = {"maps", "maps"},
    [OBJECTS] = {"objects", "objects"},
    [REFERENCES] = {"references", "references"},
    [CLASS_DEFINITIONS] = {"class definitions", "class_definitions"},
    [TYPES] = {"types", "types"}
};

const char *group_name(enum group group)
{
    return names[group].name;
}

const char *group_key(enum group group)
{
    return names[group].key;
}

static enum group group_of(uint64_t kind)
{
    static const enum group groups[] = {
        [HESSIAN_NULL] = CONSTANTS,
        [HESSIAN_FALSE] = CONSTANTS,
        [HESSIAN_TRUE] = CONSTANTS,
        [HESSIAN_INT] = INTS,
        [HESSIAN_LONG] = LONGS,
        [HESSIAN_DOUBLE] = DOUBLES,
        [HESSIAN_DATE] = DATES,
        [HESSIAN_TEXT] = TEXTS,
        [HESSIAN_BYTES] = BYTE_STRINGS,
        [HESSIAN_LIST] = LISTS,
        [HESSIAN_TYPED_LIST] = LISTS,
        [HESSIAN_MAP] = MAPS,
        [HESSIAN_TYPED_MAP] = MAPS,
        [HESSIAN_OBJECT] = OBJECTS,
        [HESSIAN_REFERENCE] = REFERENCES,
        [HESSIAN_CLASS] = CLASS_DEFINITIONS,
        [HESSIAN_CLASS_NAME] = CLASS_DEFINITIONS,
        [HESSIAN_FIELD_NAME] = CLASS_DEFINITIONS,
        [HESSIAN_TYPE_NAME] = TYPES,
        [HESSIAN_TYPE_NUMBER] = TYPES
    };

    return groups[kind < sizeof groups / sizeof groups[0] ? kind : HESSIAN_NULL];
}

/* ---- what stands at a place of the message; past its end are zeros, which end a text and a byte string there */

static unsigned byte_at(const struct message_rows *r, size_t at)
{
    return at < r->len ? r->message[at] : 0;
}

/* The bytes of the number, null, false or true whose first byte is at this place. */
static size_t single_size(const struct message_rows *r, size_t at)
{
    unsigned code = byte_at(r, at);

    if (code >= 0xf0 || (code >= 0xc0 && code <= 0xcf) || code == 0x5d)
        return 2;
    if ((code >= 0xd0 && code <= 0xd7) || (code >= 0x38 && code <= 0x3f) || code == 0x5e)
        return 3;
    if (code == 0x49 || code == 0x59 || code == 0x5f || code == 0x4b)
        return 5;
    if (code == 0x4c || code == 0x44 || code == 0x4a)
        return 9;
    return 1;
}

/* The bytes of characters of so many units. A half of a pair in six bytes is three of them, and a unit. */
static size_t characters_size(const struct message_rows *r, size_t at, size_t units)
{
    size_t start = at;

    while (units > 0) {
        unsigned lead = byte_at(r, at);
        size_t wide = lead >= 0xf0 && units > 1 ? 2 : 1;

        at += lead < 0x80 ? 1 : lead < 0xe0 ? 2 : lead < 0xf0 ? 3 : 4;
        units -= wide;
    }
    return at - start;
}

/* The bytes of the head of a chunk, of a text or not, its length, and whether another follows. */
static size_t head_size(const struct message_rows *r, size_t at, bool text, size_t *length, bool *more)
{
    unsigned code = byte_at(r, at), brief = text ? 0x30 : 0x34;

    *more = code == (text ? 0x52 : 0x41);
    if (*more || code == (text ? 0x53 : 0x42)) {
        *length = byte_at(r, at + 1) << 8 | byte_at(r, at + 2);
        return 3;
    }
    if (code >= brief && code < brief + 4) {
        *length = (code - brief) << 8 | byte_at(r, at + 1);
        return 2;
    }
    *length = code & (text ? 0x1f : 0x0f);
    return 1;
}

static size_t string_size(const struct message_rows *r, size_t at, bool text)
{
    size_t start = at, length;
    bool more;

    do {
        at += head_size(r, at, text, &length, &more);
        at += text ? characters_size(r, at, length) : length;
    } while (more);
    return at - start;
}

/* ---- rows */

/* The bytes of a row that is a single item: a number, a text, a byte string or a name. */
static size_t item_size(const struct message_rows *r, const hessian_row *row)
{
    size_t at = (size_t)row->place;

    switch (row->kind) {
    case HESSIAN_TEXT:
    case HESSIAN_CLASS_NAME:
    case HESSIAN_FIELD_NAME:
    case HESSIAN_TYPE_NAME:
        return string_size(r, at, true);
    case HESSIAN_BYTES:
        return string_size(r, at, false);
    default:
        return single_size(r, at);
    }
}

/* The bytes of the count that stands behind the row after this one: a type, or the name of a class. */
static size_t count_behind(const struct message_rows *r, size_t index)
{
    hessian_row next = hessian_row_at(r->table, index + 1 < r->rows ? index + 1 : index);

    return single_size(r, (size_t)next.place + item_size(r, &next));
}

/* A list's own bytes: its code; a count behind it, or behind the type; 5a. */
static size_t list_size(const struct message_rows *r, size_t index, const hessian_row *row)
{
    switch (byte_at(r, (size_t)row->place)) {
    case 0x58:
        return 1 + single_size(r, (size_t)row->place + 1);
    case 0x56:
        return 1 + count_behind(r, index);
    case 0x55:
    case 0x57:
        return 2;
    default:
        return 1;
    }
}

/* The bytes that belong to a row, and to none of those that it opens. */
static size_t own_size(const struct message_rows *r, size_t index, const hessian_row *row)
{
    size_t at = (size_t)row->place;

    switch (row->kind) {
    case HESSIAN_LIST:
    case HESSIAN_TYPED_LIST:
        return list_size(r, index, row);
    case HESSIAN_MAP:
    case HESSIAN_TYPED_MAP:
        return 2;
    case HESSIAN_OBJECT:
        return byte_at(r, at) == 0x4f ? 1 + single_size(r, at + 1) : 1;
    case HESSIAN_REFERENCE:
        return 1 + single_size(r, at + 1);
    case HESSIAN_CLASS:
        return 1 + count_behind(r, index);
    default:
        return item_size(r, row);
    }
}

bool bytes_by_group(const struct message_rows *r, uint64_t bytes[GROUPS])
{
    uint64_t all = 0;
    size_t i;

    memset(bytes, 0, GROUPS * sizeof bytes[0]);
    for (i = 0; i < r->rows; i++) {
        hessian_row row = hessian_row_at(r->table, i);
        size_t own = own_size(r, i, &row);

        bytes[group_of(row.kind)] += own;
        all += own;
    }
    return all == r->len;
}
