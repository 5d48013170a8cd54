#include "file.h"

#include <errno.h>
#include <inttypes.h>
#include <stdlib.h>
#include <string.h>
#include <sys/stat.h>
#include <unistd.h>

#include "entry.h"
#include "input.h"
#include "names.h"
#include "quote.h"
#include "record.h"

enum { PART = 1 << 16 };

static const char too_large[] = "it is larger than the memory there is";

void new_holdings(struct holdings *h, const char *name)
{
    memset(h, 0, sizeof *h);
    h->name = name;
}

void free_holdings(struct holdings *h)
{
    free(h->bytes);
    free(h->rows);
    free(h->working);
    free(h->list);
}

/* ---- reading */

static void begin_holdings(struct holdings *h)
{
    h->used = 0;
    h->entries = 0;
}

static bool make_room(struct holdings *h, size_t room)
{
    uint8_t *bytes;

    if (room <= h->room)
        return true;
    bytes = realloc(h->bytes, room);
    if (bytes == NULL)
        return false;
    h->bytes = bytes;
    h->room = room;
    return true;
}

/* The entries by their lengths alone. */
static uint64_t count_entries(const struct holdings *h)
{
    uint64_t place = HEADER_SIZE, count = 0;

    while (place < h->used && h->used - place >= LENGTH_SIZE) {
        place += LENGTH_SIZE + entry_length(h->bytes + place);
        count++;
    }
    return count;
}

/* All that is there, which may be more than was said. */
static const char *read_all(struct holdings *h, int descriptor)
{
    ssize_t n;

    while ((n = read(descriptor, h->bytes + h->used, h->room - h->used)) != 0) {
        if (n < 0 && errno == EINTR)
            continue;
        if (n < 0)
            return why_not(errno);
        h->used += (size_t)n;
        if (h->used == h->room && !make_room(h, h->room + h->room / 2 + PART))
            return too_large;
    }
    return NULL;
}

const char *load_holdings(struct holdings *h, int descriptor, size_t more)
{
    struct stat about;
    const char *why = look_at(descriptor, &about);

    if (why != NULL)
        return why;
    begin_holdings(h);
    /* a byte more than there are, so that the end is met */
    if (!make_room(h, (S_ISREG(about.st_mode) ? (size_t)about.st_size : 0) + 1 + more))
        return too_large;
    why = read_all(h, descriptor);
    if (why == NULL && !make_room(h, h->used + more))
        why = too_large;
    if (why == NULL)
        h->entries = count_entries(h);
    return why;
}

const char *begin_with_none(struct holdings *h, size_t more)
{
    begin_holdings(h);
    return make_room(h, more) ? NULL : too_large;
}

const char *lend_working(struct holdings *h, uint64_t more)
{
    uint64_t entries = h->entries + more;

    if (h->working == NULL && (h->working = malloc(HESSIAN_WORKING_BYTES)) == NULL)
        return too_large;
    if (h->rows_len >= HESSIAN_WORKING_NUMBERS + entries * HESSIAN_INDEX_NUMBERS)
        return NULL;
    free(h->rows);
    h->rows_len = HESSIAN_WORKING_NUMBERS + (size_t)(entries * HESSIAN_INDEX_NUMBERS);
    h->rows = malloc(h->rows_len * sizeof *h->rows);
    if (h->rows == NULL) {
        h->rows_len = HESSIAN_WORKING_NUMBERS;
        h->rows = malloc(h->rows_len * sizeof *h->rows);
    }
    return h->rows == NULL ? too_large : NULL;
}

static const char *open_named(const char *name, int *descriptor)
{
    if (strcmp(name, "-") != 0)
        return open_regular(name, descriptor);
    *descriptor = dup(STDIN_FILENO);
    return *descriptor < 0 ? why_not(errno) : NULL;
}

const char *list_holdings(struct holdings *h, hessian_answer *answer)
{
    int descriptor;
    const char *why = open_named(h->name, &descriptor);
    size_t list_len;

    if (why != NULL)
        return why;
    why = load_holdings(h, descriptor, 0);
    close(descriptor);
    if (why == NULL)
        why = lend_working(h, 0);
    if (why != NULL)
        return why;
    list_len = (size_t)h->entries * HESSIAN_LISTED_SIZE;
    h->list = malloc(list_len > 0 ? list_len : 1);
    if (h->list == NULL)
        return too_large;
    *answer = hessian_holdings_list(h->bytes, h->used, h->used, h->rows, h->rows_len, h->working, HESSIAN_WORKING_BYTES,
                                    h->list, list_len);
    return NULL;
}

unsigned version_of(const struct holdings *h)
{
    return (unsigned)h->bytes[VERSION_PLACE] << 8 | h->bytes[VERSION_PLACE + 1];
}

/* ---- faults */

/* The faulty entry of a file: its number, and its message where it has one. */
struct faulty {
    bool is_entry;
    uint64_t number;
    const uint8_t *message;
    size_t len;
};

static struct faulty faulty_entry(const struct holdings *h, hessian_answer answer)
{
    struct faulty f = {answer.place >= HEADER_SIZE, 0, NULL, 0};
    uint64_t place;

    if (!f.is_entry)
        return f;
    for (place = HEADER_SIZE; place < answer.place; place += LENGTH_SIZE + entry_length(h->bytes + place))
        f.number++;
    if (answer.number == HESSIAN_REFUSED_ENTRY) {
        f.message = h->bytes + place + LENGTH_SIZE;
        f.len = (size_t)entry_length(h->bytes + place);
    }
    return f;
}

void put_fault(FILE *out, const struct holdings *h, hessian_answer answer)
{
    struct faulty f = faulty_entry(h, answer);

    put_shown_name(out, h->name);
    fprintf(out, ": refused %" PRIu64 " %s at %" PRIu64, answer.number, refusal_name((unsigned)answer.number),
            answer.place);
    if (f.is_entry)
        fprintf(out, ", entry %" PRIu64, f.number);
    fprintf(out, ": %s", hessian_refusal_text(answer.number));
    if (f.message != NULL) {
        uint64_t read = hessian_read(f.message, f.len, NULL, 0);

        fprintf(out, ": %u %s at %zu: %s", HESSIAN_NUMBER(read), refusal_name(HESSIAN_NUMBER(read)),
                HESSIAN_PLACE(read), hessian_refusal_text(HESSIAN_NUMBER(read)));
    }
    putc('\n', out);
}

int refuse_holdings(const struct command *self, const struct holdings *h, hessian_answer answer)
{
    fprintf(stderr, "hessian %s: ", self->name);
    put_fault(stderr, h, answer);
    return REFUSED;
}

void put_json_fault(FILE *out, const struct holdings *h, hessian_answer answer)
{
    struct json j = {out, false};
    struct faulty f = faulty_entry(h, answer);

    json_open(&j, '{');
    json_text(&j, "state", "refused");
    json_text(&j, "name", h->name);
    json_number(&j, "bytes", h->used);
    json_number(&j, "number", answer.number);
    json_number(&j, "place", answer.place);
    if (f.is_entry)
        json_number(&j, "entry", f.number);
    json_text(&j, "reason", hessian_refusal_text(answer.number));
    if (f.message != NULL) {
        uint64_t read = hessian_read(f.message, f.len, NULL, 0);

        json_key(&j, "message");
        json_open(&j, '{');
        json_number(&j, "bytes", f.len);
        json_number(&j, "number", HESSIAN_NUMBER(read));
        json_number(&j, "place", HESSIAN_PLACE(read));
        json_text(&j, "reason", hessian_refusal_text(HESSIAN_NUMBER(read)));
        json_close(&j, '}');
    }
    json_close(&j, '}');
    putc('\n', out);
}

int library_fault(const struct command *self, const struct holdings *h)
{
    return complain(self, "use", h->name, "what the library says of it contradicts itself: a fault of this library, "
                                          "please report it");
}
