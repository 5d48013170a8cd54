#include "names.h"

#include "hessian.h"

static const char *const kinds[] = {
    "null", "false", "true", "int", "long", "double", "date", "text", "bytes", "list", "typed list", "map", "typed map",
    "object", "reference", "class", "class name", "field name", "type name", "type number"
};

static const char *const refusals[] = {
    "HESSIAN_ACCEPTED", "HESSIAN_LENGTH", "HESSIAN_CUT", "HESSIAN_BYTE", "HESSIAN_UTF8", "HESSIAN_NEGATIVE",
    "HESSIAN_UNGIVEN", "HESSIAN_CEILING", "HESSIAN_AFTER", "HESSIAN_ROOM", "HESSIAN_NO_RECORD",
    [HESSIAN_WRONG_MARK] = "HESSIAN_WRONG_MARK", "HESSIAN_UNKNOWN_VERSION", "HESSIAN_CUT_ENTRY",
    "HESSIAN_REFUSED_ENTRY", "HESSIAN_NOT_SHORTEST", "HESSIAN_REPEATED_ENTRY"
};

const char *kind_name(uint64_t kind)
{
    return kind < sizeof kinds / sizeof kinds[0] ? kinds[kind] : "no kind";
}

const char *refusal_name(unsigned number)
{
    return number < sizeof refusals / sizeof refusals[0] && refusals[number] != NULL ? refusals[number] : "no refusal";
}

const char *reason(const struct record *r)
{
    if (too_long_shortest(r))
        return "its shortest form is longer than 262144 bytes";
    if (r->by_writer)
        return "the writer refused what the reader had accepted: a fault of this library, please report it";
    if (r->number == HESSIAN_LENGTH)
        return r->len == 0 ? "the file is empty" : "the file is longer than 262144 bytes";
    return hessian_refusal_text(r->number);
}

void put_refusal(FILE *out, const struct record *r, bool place)
{
    fprintf(out, "refused %u %s", r->number, refusal_name(r->number));
    if (place)
        fprintf(out, " at %zu", r->place);
    fprintf(out, ": %s", reason(r));
}
