/* A record by its rows: what the numbers in them mean, the contents they name, and the values that each value holds. */
#ifndef VIEW_H
#define VIEW_H

#include <stdbool.h>
#include <stddef.h>
#include <stdint.h>

#include "hessian.h"
#include "record.h"

/* The library gives no more classes and types. */
enum { MOST_GIVEN = 256 };

/*
 * All rows are looked through first, so that a class, a type or a reference is known also where what gives it is passed
 * over. The contents of all texts, names and byte strings are copied out once, one after the other: together they are
 * no longer than the message.
 */
struct view {
    const struct record *r;
    uint8_t *contents;
    size_t *numbers;    /* of each row: the number of its class, the reference to it, or where its content begins */
    size_t *references; /* the rows of lists, maps and objects */
    size_t reference_count;
    size_t classes[MOST_GIVEN]; /* the rows of classes */
    size_t class_count;
    size_t types[MOST_GIVEN]; /* the rows of names of types */
    size_t type_count;
};

/* NULL, or why there is no view. In either case close_view is due. */
const char *open_view(struct view *v, const struct record *r);

void close_view(struct view *v);

hessian_row view_row(const struct view *v, size_t index);

/* The content of a text, name or byte string. */
struct content {
    const uint8_t *bytes;
    size_t len;
};

struct content content_of(const struct view *v, size_t index);

/* The bytes of the first whole characters, no more than `most`. */
size_t whole_characters(struct content text, uint64_t most);

/* The rows of the name of a class, of a field of a class, and of a type. */
size_t class_name(const struct view *v, uint64_t class_number);
size_t field_name(const struct view *v, uint64_t class_number, uint64_t field);
size_t type_name(const struct view *v, uint64_t type_number);

/* ---- values in lists, maps and objects */

/* What a value is to what holds it. */
enum role { WHOLE_RECORD, ELEMENT, KEY, PAIR_VALUE, FIELD };

struct part {
    enum role role;
    uint64_t number; /* of the element, the pair or the field */
    size_t name;     /* the row of a field's name */
    size_t first;    /* the row of the first class that is defined before it, or its own */
    size_t row;
};

/* The record itself. */
struct part whole_record(const struct view *v);

/* The values of a list, map or object in turn. */
struct parts {
    const struct view *v;
    hessian_row holder;
    uint64_t taken, most; /* values */
    size_t next;          /* the row where the next one begins */
};

/* Of a list or map so many elements or pairs at the most. */
struct parts parts_of(const struct view *v, size_t holder, uint64_t most);

/* False after the last. */
bool next_part(struct parts *parts, struct part *part);

/* How many elements or pairs are beyond those that next_part gave. */
uint64_t parts_left(const struct parts *parts);

#endif
