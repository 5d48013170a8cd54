#include "view.h"

#include <stdlib.h>
#include <string.h>

#include "rows.h"

hessian_row view_row(const struct view *v, size_t index)
{
    return hessian_row_at(v->r->table, index);
}

/* ---- what rows give */

static bool has_content(uint64_t kind)
{
    return kind == HESSIAN_TEXT || kind == HESSIAN_BYTES ||
           (kind >= HESSIAN_CLASS_NAME && kind <= HESSIAN_TYPE_NAME);
}

static void note_given(struct view *v, size_t index, uint64_t kind)
{
    if (kind == HESSIAN_CLASS) {
        v->numbers[index] = v->class_count;
        v->classes[v->class_count++ % MOST_GIVEN] = index;
    } else if (is_holder(kind)) {
        v->numbers[index] = v->reference_count;
        v->references[v->reference_count++] = index;
    } else if (kind == HESSIAN_TYPE_NAME) {
        v->types[v->type_count++ % MOST_GIVEN] = index;
    }
}

/* Copies out the content of a row behind the `used` bytes; false where the library does not know its own row. */
static bool copy_content(struct view *v, size_t index, const hessian_row *row, size_t *used)
{
    const struct record *r = v->r;
    hessian_answer answer =
        hessian_content(r->message, r->len, row->kind, row->place, v->contents + *used, r->len - *used);

    v->numbers[index] = *used;
    *used += (size_t)answer.count;
    return answer.number == HESSIAN_ACCEPTED && answer.count == content_of(v, index).len;
}

const char *open_view(struct view *v, const struct record *r)
{
    size_t used = 0, i;

    memset(v, 0, sizeof *v);
    v->r = r;
    v->contents = malloc(r->len);
    v->numbers = malloc(r->rows * sizeof *v->numbers);
    v->references = malloc(r->rows * sizeof *v->references);
    if (v->contents == NULL || v->numbers == NULL || v->references == NULL)
        return "there is no memory left";
    for (i = 0; i < r->rows; i++) {
        hessian_row row = view_row(v, i);

        note_given(v, i, row.kind);
        if (has_content(row.kind) && !copy_content(v, i, &row, &used))
            return "the library has no content for a row of its own: a fault of this library, please report it";
    }
    return NULL;
}

void close_view(struct view *v)
{
    free(v->contents);
    free(v->numbers);
    free(v->references);
}

/* ---- contents and names */

struct content content_of(const struct view *v, size_t index)
{
    hessian_row row = view_row(v, index);
    struct content content = {v->contents + v->numbers[index],
                              (size_t)(row.kind == HESSIAN_BYTES ? row.first : row.second)};

    return content;
}

size_t whole_characters(struct content text, uint64_t most)
{
    size_t n = (size_t)most;

    if (most >= text.len)
        return text.len;
    while (n > 0 && (text.bytes[n] & 0xc0) == 0x80)
        n--;
    return n;
}

size_t class_name(const struct view *v, uint64_t class_number)
{
    return v->classes[class_number % MOST_GIVEN] + 1;
}

size_t field_name(const struct view *v, uint64_t class_number, uint64_t field)
{
    return class_name(v, class_number) + 1 + (size_t)field;
}

size_t type_name(const struct view *v, uint64_t type_number)
{
    return v->types[type_number % MOST_GIVEN];
}

/* ---- parts */

/* The row of the value that begins here, maybe with definitions of classes. */
static size_t past_classes(const struct view *v, size_t index)
{
    hessian_row row = view_row(v, index);

    for (; row.kind == HESSIAN_CLASS; row = view_row(v, index))
        index = (size_t)row.after;
    return index;
}

struct part whole_record(const struct view *v)
{
    struct part part = {WHOLE_RECORD, 0, 0, 0, past_classes(v, 0)};

    return part;
}

struct parts parts_of(const struct view *v, size_t holder, uint64_t most)
{
    hessian_row row = view_row(v, holder);
    struct parts parts = {v, row, 0, row.second, holder + 1 + is_typed(row.kind)};

    if (row.kind != HESSIAN_OBJECT)
        parts.most = (row.first < most ? row.first : most) * (is_map(row.kind) ? 2 : 1);
    return parts;
}

/* What the next value is to its holder. */
static enum role role_of_next(const struct parts *parts)
{
    if (parts->holder.kind == HESSIAN_OBJECT)
        return FIELD;
    if (!is_map(parts->holder.kind))
        return ELEMENT;
    return parts->taken % 2 == 0 ? KEY : PAIR_VALUE;
}

bool next_part(struct parts *parts, struct part *part)
{
    if (parts->taken == parts->most)
        return false;
    part->role = role_of_next(parts);
    part->number = is_map(parts->holder.kind) ? parts->taken / 2 : parts->taken;
    part->name = part->role == FIELD ? field_name(parts->v, parts->holder.first, part->number) : 0;
    part->first = parts->next;
    part->row = past_classes(parts->v, parts->next);
    parts->next = (size_t)view_row(parts->v, part->row).after;
    parts->taken++;
    return true;
}

uint64_t parts_left(const struct parts *parts)
{
    uint64_t given = is_map(parts->holder.kind) ? parts->taken / 2 : parts->taken;

    return parts->holder.kind == HESSIAN_OBJECT ? 0 : parts->holder.first - given;
}
