#include "page.h"

#include <inttypes.h>
#include <string.h>

#include "names.h"
#include "quote.h"
#include "rows.h"
#include "values.h"

/* ---- colours: one SGR code before a part of a line, one after it */

#define DIM "\033[2m"
#define BOLD "\033[1m"
#define GREEN "\033[32m"
#define RED "\033[31m"
#define PLAIN "\033[0m"

struct page {
    FILE *out;
    const struct manner *how;
    const struct view *v;
};

static void paint(const struct page *p, const char *code)
{
    if (p->how->color)
        fputs(code, p->out);
}

/* ---- parts of a line */

static void put_place(const struct page *p, uint64_t place, unsigned depth)
{
    if (p->how->places) {
        paint(p, DIM);
        fprintf(p->out, "%6" PRIu64, place);
        paint(p, PLAIN);
        fputs("  ", p->out);
    }
    fprintf(p->out, "%*s", (int)(2 * depth), "");
}

static void put_rest(const struct page *p, size_t rest)
{
    if (rest > 0)
        fprintf(p->out, " and %zu more bytes", rest);
}

/* The text or name that a row has, in a colour. */
static void put_text(const struct page *p, size_t index, const char *code)
{
    struct content text = content_of(p->v, index);
    size_t shown = whole_characters(text, p->how->bytes);

    paint(p, code);
    put_quoted(p->out, text.bytes, shown);
    paint(p, PLAIN);
    put_rest(p, text.len - shown);
}

static void put_row_name(const struct page *p, size_t index)
{
    put_text(p, index, BOLD);
}

static void put_label(const struct page *p, const struct part *part)
{
    static const char *const words[] = {[ELEMENT] = "element", [KEY] = "key", [PAIR_VALUE] = "value"};

    if (part->role == WHOLE_RECORD)
        return;
    if (part->role == FIELD)
        put_row_name(p, part->name);
    else
        fprintf(p->out, "%s %" PRIu64, words[part->role], part->number);
    fputs(": ", p->out);
}

static const char *plural(uint64_t n)
{
    return n == 1 ? "" : "s";
}

static const char *part_word(uint64_t kind)
{
    return is_map(kind) ? "pair" : "element";
}

/* ---- values without parts */

static void put_bytes(const struct page *p, size_t index)
{
    struct content bytes = content_of(p->v, index);
    size_t shown = bytes.len < p->how->bytes ? bytes.len : (size_t)p->how->bytes;

    fprintf(p->out, " of %zu%s", bytes.len, bytes.len > 0 ? ": " : "");
    put_hex(p->out, bytes.bytes, shown);
    put_rest(p, bytes.len - shown);
}

static const char *holder_word(uint64_t kind)
{
    switch (kind) {
    case HESSIAN_LIST:
    case HESSIAN_TYPED_LIST:
        return "list";
    case HESSIAN_OBJECT:
        return "object";
    default:
        return "map";
    }
}

/* The class or type of a holder, if it has one. */
static void put_sort(const struct page *p, const hessian_row *row)
{
    if (row->kind == HESSIAN_OBJECT) {
        fprintf(p->out, " of class %" PRIu64 " ", row->first);
        put_row_name(p, class_name(p->v, row->first));
    } else if (is_typed(row->kind)) {
        fprintf(p->out, " of type %" PRIu64 " ", row->second);
        put_row_name(p, type_name(p->v, row->second));
    }
}

static void put_reference(const struct page *p, uint64_t number)
{
    hessian_row row;

    if (number >= p->v->reference_count)
        return;
    row = view_row(p->v, p->v->references[number]);
    fprintf(p->out, " to #%" PRIu64 ", the %s", number, holder_word(row.kind));
    put_sort(p, &row);
    if (p->how->places)
        fprintf(p->out, " at %" PRIu64, row.place);
}

/* What follows the kind in the line of a value without parts. */
static void put_value(const struct page *p, size_t index, const hessian_row *row)
{
    switch (row->kind) {
    case HESSIAN_INT:
    case HESSIAN_LONG:
        fprintf(p->out, " %" PRId64, (int64_t)row->first);
        break;
    case HESSIAN_DOUBLE:
        putc(' ', p->out);
        put_double(p->out, row->first);
        break;
    case HESSIAN_DATE:
        putc(' ', p->out);
        put_date(p->out, (int64_t)row->first);
        break;
    case HESSIAN_TEXT:
        putc(' ', p->out);
        put_text(p, index, GREEN);
        break;
    case HESSIAN_BYTES:
        put_bytes(p, index);
        break;
    case HESSIAN_REFERENCE:
        put_reference(p, row->first);
        break;
    default:
        break;
    }
}

/* ---- classes, lists, maps and objects */

static void show_class(const struct page *p, size_t at, unsigned depth)
{
    hessian_row row = view_row(p->v, at);
    size_t i;

    put_place(p, row.place, depth);
    fprintf(p->out, "class %zu ", p->v->numbers[at]);
    put_row_name(p, at + 1);
    fprintf(p->out, " with %" PRIu64 " field%s\n", row.first, plural(row.first));
    for (i = at + 2; i < row.after; i++) {
        put_place(p, view_row(p->v, i).place, depth + 1);
        fprintf(p->out, "field %zu ", i - at - 2);
        put_row_name(p, i);
        putc('\n', p->out);
    }
}

/* The type of a list or map, written out or by its number. */
static void show_type(const struct page *p, size_t at, unsigned depth)
{
    hessian_row row = view_row(p->v, at);

    put_place(p, row.place, depth);
    if (row.kind == HESSIAN_TYPE_NAME)
        put_row_name(p, at);
    fprintf(p->out, "%s\n", row.kind == HESSIAN_TYPE_NAME ? " names the type" : "the type by its number");
}

/* How many more elements or pairs there are, which are not shown. */
static void show_rest(const struct page *p, const struct parts *parts, unsigned depth)
{
    uint64_t left = parts_left(parts), rows = parts->holder.after - parts->next;

    if (left == 0)
        return;
    put_place(p, view_row(p->v, parts->next).place, depth);
    fprintf(p->out, "and %" PRIu64 " more %s%s in %" PRIu64 " row%s\n", left, part_word(parts->holder.kind),
            plural(left), rows, plural(rows));
}

static void show_part(const struct page *p, const struct part *part, unsigned depth);

/* A list, map or object whose place and label stand in the line. */
static void show_holder(const struct page *p, size_t at, const hessian_row *row, unsigned depth)
{
    struct parts parts = parts_of(p->v, at, p->how->elements);
    struct part part;

    fprintf(p->out, "%s #%zu", holder_word(row->kind), p->v->numbers[at]);
    put_sort(p, row);
    if (row->kind != HESSIAN_OBJECT)
        fprintf(p->out, " with %" PRIu64 " %s%s", row->first, part_word(row->kind), plural(row->first));
    putc('\n', p->out);
    if (is_typed(row->kind))
        show_type(p, at + 1, depth + 1);
    while (!ferror(p->out) && next_part(&parts, &part))
        show_part(p, &part, depth + 1);
    show_rest(p, &parts, depth + 1);
}

/* A value, with the class definitions before it. */
static void show_part(const struct page *p, const struct part *part, unsigned depth)
{
    hessian_row row = view_row(p->v, part->row);
    size_t at;

    for (at = part->first; at < part->row; at = (size_t)view_row(p->v, at).after)
        show_class(p, at, depth);
    put_place(p, row.place, depth);
    put_label(p, part);
    if (is_holder(row.kind)) {
        show_holder(p, part->row, &row, depth);
    } else {
        fputs(kind_name(row.kind), p->out);
        put_value(p, part->row, &row);
        putc('\n', p->out);
    }
}

/* ---- pages */

/*
 * Name and size of the file and the rule that it is read by, up to a comma; of a page without places only the name,
 * where there are several.
 */
static void put_file(const struct page *p, const struct input *in)
{
    const struct record *r = in->r;

    if (!p->how->places && !in->several)
        return;
    paint(p, BOLD);
    put_input_name(p->out, in);
    paint(p, PLAIN);
    if (p->how->places)
        fprintf(p->out, ": %" PRIu64 " byte%s%s, %s", r->size, plural(r->size), has_more(in) ? " at least" : "",
                p->how->thousandths ? "5f in thousandths, " : "");
    else
        fputs(":\n", p->out);
}

static void put_counts(FILE *out, const struct record *r)
{
    uint64_t shortest = shortest_length(r);

    fprintf(out, "%zu row%s, shortest form %" PRIu64 " byte%s%s\n", r->rows, plural(r->rows), shortest,
            plural(shortest), too_long_shortest(r) ? ", too long to be written" : "");
}

void put_page(FILE *out, const struct input *in, const struct manner *how, const struct view *v)
{
    const struct page p = {out, how, v};
    const struct part whole = whole_record(v);

    put_file(&p, in);
    if (how->places)
        put_counts(out, in->r);
    show_part(&p, &whole, 0);
}

/* Up to 16 bytes on each side of the place, with a mark under it; the end of the file is a place too. */
static void show_around(const struct page *p, const struct record *r)
{
    size_t from = r->place < 16 ? 0 : r->place - 16, to = r->len - r->place < 16 ? r->len : r->place + 16;

    put_place(p, from, 0);
    put_hex(p->out, r->message + from, to - from);
    fprintf(p->out, " %s\n%6s  %*s", to == r->len ? "(end)" : "..", "", (int)(3 * (r->place - from)), "");
    paint(p, RED);
    fprintf(p->out, "^^ %zu", r->place);
    paint(p, PLAIN);
    putc('\n', p->out);
}

void put_refused_page(FILE *out, const struct input *in, const struct manner *how)
{
    const struct page p = {out, how, NULL};
    const struct record *r = in->r;

    put_file(&p, in);
    paint(&p, RED);
    put_refusal(out, r, how->places);
    paint(&p, PLAIN);
    putc('\n', out);
    if (how->places && r->len > 0 && r->number != HESSIAN_LENGTH)
        show_around(&p, r);
}
