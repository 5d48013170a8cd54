#include "document.h"

#include <inttypes.h>

#include "json.h"
#include "names.h"
#include "quote.h"
#include "rows.h"
#include "values.h"

struct document {
    struct json j;
    const struct manner *how;
    const struct view *v;
};

/* ---- members that several kinds have */

static void put_place(struct document *d, uint64_t place)
{
    if (d->how->places)
        json_number(&d->j, "place", place);
}

/* Names are whole: a program tells things apart by them. */
static void put_row_name(struct document *d, size_t index)
{
    struct content name = content_of(d->v, index);

    json_key(&d->j, "name");
    put_json_bytes(d->j.out, name.bytes, name.len);
}

/* What is not shown: so many bytes, elements or pairs. The object stays open. */
static void open_more(struct document *d, const char *of_what, uint64_t n)
{
    json_key(&d->j, "more");
    json_open(&d->j, '{');
    json_number(&d->j, of_what, n);
}

static void put_more_bytes(struct document *d, size_t n)
{
    if (n == 0)
        return;
    open_more(d, "bytes", n);
    json_close(&d->j, '}');
}

/* ---- values without parts */

static void put_text(struct document *d, size_t index)
{
    struct content text = content_of(d->v, index);
    size_t shown = whole_characters(text, d->how->bytes);

    json_key(&d->j, "value");
    put_json_bytes(d->j.out, text.bytes, shown);
    put_more_bytes(d, text.len - shown);
}

static void put_bytes(struct document *d, size_t index)
{
    struct content bytes = content_of(d->v, index);
    size_t shown = bytes.len < d->how->bytes ? bytes.len : (size_t)d->how->bytes;

    json_number(&d->j, "length", bytes.len);
    json_key(&d->j, "value");
    putc('"', d->j.out);
    put_base64(d->j.out, bytes.bytes, shown);
    putc('"', d->j.out);
    put_more_bytes(d, bytes.len - shown);
}

/* As a person reads it, and exactly: its bits. */
static void put_double_value(struct document *d, uint64_t bits)
{
    json_key(&d->j, "value");
    put_json_double(d->j.out, bits);
    json_key(&d->j, "bits");
    fprintf(d->j.out, "\"%016" PRIx64 "\"", bits);
}

/* As a person reads it, and exactly: its milliseconds. */
static void put_date_value(struct document *d, int64_t milliseconds)
{
    json_key(&d->j, "value");
    putc('"', d->j.out);
    put_date(d->j.out, milliseconds);
    putc('"', d->j.out);
    json_key(&d->j, "milliseconds");
    fprintf(d->j.out, "\"%" PRId64 "\"", milliseconds);
}

/* The value of a row without parts. A long is in quotes: many readers of JSON take numbers for doubles. */
static void put_value(struct document *d, size_t index, const hessian_row *row)
{
    switch (row->kind) {
    case HESSIAN_TEXT:
        put_text(d, index);
        return;
    case HESSIAN_BYTES:
        put_bytes(d, index);
        return;
    case HESSIAN_DOUBLE:
        put_double_value(d, row->first);
        return;
    case HESSIAN_DATE:
        put_date_value(d, (int64_t)row->first);
        return;
    default:
        break;
    }
    json_key(&d->j, "value");
    if (row->kind == HESSIAN_LONG)
        fprintf(d->j.out, "\"%" PRId64 "\"", (int64_t)row->first);
    else if (row->kind == HESSIAN_INT || row->kind == HESSIAN_REFERENCE)
        fprintf(d->j.out, "%" PRId64, (int64_t)row->first);
    else
        fputs(kind_name(row->kind), d->j.out);
}

/* ---- classes and types */

static void put_class(struct document *d, size_t at)
{
    hessian_row row = view_row(d->v, at);
    size_t i;

    json_next(&d->j);
    json_open(&d->j, '{');
    json_number(&d->j, "number", d->v->numbers[at]);
    put_row_name(d, at + 1);
    put_place(d, row.place);
    json_key(&d->j, "fields");
    json_open(&d->j, '[');
    for (i = at + 2; i < row.after; i++) {
        json_next(&d->j);
        json_open(&d->j, '{');
        put_row_name(d, i);
        put_place(d, view_row(d->v, i).place);
        json_close(&d->j, '}');
    }
    json_close(&d->j, ']');
    json_close(&d->j, '}');
}

/* The classes that are defined before a value. */
static void put_classes(struct document *d, const struct part *part)
{
    size_t at;

    if (part->first == part->row)
        return;
    json_key(&d->j, "defines");
    json_open(&d->j, '[');
    for (at = part->first; at < part->row; at = (size_t)view_row(d->v, at).after)
        put_class(d, at);
    json_close(&d->j, ']');
}

/* The class or type of a holder, if it has one. */
static void put_sort(struct document *d, size_t at, const hessian_row *row)
{
    bool object = row->kind == HESSIAN_OBJECT;

    if (!object && !is_typed(row->kind))
        return;
    json_key(&d->j, object ? "class" : "type");
    json_open(&d->j, '{');
    json_number(&d->j, "number", object ? row->first : row->second);
    put_row_name(d, object ? class_name(d->v, row->first) : type_name(d->v, row->second));
    if (!object) {
        hessian_row type = view_row(d->v, at + 1);

        json_truth(&d->j, "written_out", type.kind == HESSIAN_TYPE_NAME);
        put_place(d, type.place);
    }
    json_close(&d->j, '}');
}

/* ---- lists, maps and objects */

static void put_part(struct document *d, const struct part *part);

/* An element as it is; a pair, or a field and its name, in an object. */
static void put_member(struct document *d, const struct part *part)
{
    if (part->role != PAIR_VALUE)
        json_next(&d->j);
    if (part->role == KEY || part->role == FIELD)
        json_open(&d->j, '{');
    if (part->role == FIELD)
        put_row_name(d, part->name);
    if (part->role != ELEMENT)
        json_key(&d->j, part->role == KEY ? "key" : "value");
    put_part(d, part);
    if (part->role == PAIR_VALUE || part->role == FIELD)
        json_close(&d->j, '}');
}

static void put_rest(struct document *d, const struct parts *parts, const char *of_what)
{
    uint64_t left = parts_left(parts);

    if (left == 0)
        return;
    open_more(d, of_what, left);
    json_number(&d->j, "rows", parts->holder.after - parts->next);
    json_close(&d->j, '}');
}

static void put_holder(struct document *d, size_t at, const hessian_row *row)
{
    const char *word = row->kind == HESSIAN_OBJECT ? "fields" : is_map(row->kind) ? "pairs" : "elements";
    struct parts parts = parts_of(d->v, at, d->how->elements);
    struct part part;

    json_number(&d->j, "reference", d->v->numbers[at]);
    put_sort(d, at, row);
    json_number(&d->j, "length", row->kind == HESSIAN_OBJECT ? row->second : row->first);
    json_key(&d->j, word);
    json_open(&d->j, '[');
    while (!ferror(d->j.out) && next_part(&parts, &part))
        put_member(d, &part);
    json_close(&d->j, ']');
    put_rest(d, &parts, word);
}

static void put_part(struct document *d, const struct part *part)
{
    hessian_row row = view_row(d->v, part->row);

    json_open(&d->j, '{');
    put_classes(d, part);
    json_text(&d->j, "kind", kind_name(row.kind));
    put_place(d, row.place);
    if (is_holder(row.kind))
        put_holder(d, part->row, &row);
    else
        put_value(d, part->row, &row);
    json_close(&d->j, '}');
}

/* ---- documents */

/*
 * Name and size of the file, as far as it is known, and the rule that it is read by; without places only the name,
 * where there are several.
 */
static void open_document(struct document *d, const struct input *in, const char *state)
{
    json_open(&d->j, '{');
    json_text(&d->j, "state", state);
    if (d->how->places || in->several)
        json_text(&d->j, "name", in->name);
    if (d->how->places && !has_more(in))
        json_number(&d->j, "bytes", in->r->size);
    if (d->how->places && d->how->thousandths)
        json_truth(&d->j, "thousandths", true);
}

static void close_document(struct document *d)
{
    json_close(&d->j, '}');
    putc('\n', d->j.out);
}

void put_document(FILE *out, const struct input *in, const struct manner *how, const struct view *v)
{
    struct document d = {{out, false}, how, v};
    const struct part whole = whole_record(v);

    open_document(&d, in, "accepted");
    json_number(&d.j, "rows", in->r->rows);
    json_number(&d.j, "shortest", shortest_length(in->r));
    json_key(&d.j, "record");
    put_part(&d, &whole);
    close_document(&d);
}

void put_refused_document(FILE *out, const struct input *in, const struct manner *how)
{
    struct document d = {{out, false}, how, NULL};
    const struct record *r = in->r;

    open_document(&d, in, "refused");
    json_number(&d.j, "number", r->number);
    json_text(&d.j, "refusal", refusal_name(r->number));
    put_place(&d, r->place);
    json_text(&d.j, "reason", reason(r));
    close_document(&d);
}
