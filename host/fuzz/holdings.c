#include "holdings.h"

#include <inttypes.h>
#include <stdio.h>
#include <stdlib.h>
#include <string.h>

#include "baseline.h"
#include "fence.h"
#include "hessian.h"
#include "lending.h"

enum {
    LENGTH_SIZE = 4,
    HEADER_SIZE = 5,
    MOST = 700000,      /* bytes of a file with what is added to it */
    MOST_INDEX = 4000   /* numbers */
};

/* What the library is lent. The plain functions have working memory of their own. */
static struct fence file_fence, records_fence, list_fence, rows_fence, bytes_fence;
static uint64_t *plain_rows;
static uint8_t *plain_bytes, *file; /* of MOST bytes: the file that an input means */

static void start(void)
{
    if (file_fence.start != NULL)
        return;
    file_fence = new_fence(MOST);
    records_fence = new_fence(MOST);
    list_fence = new_fence(MOST);
    rows_fence = new_fence((HESSIAN_WORKING_NUMBERS + MOST_INDEX) * sizeof(uint64_t));
    bytes_fence = new_fence(HESSIAN_WORKING_BYTES);
    plain_rows = block((HESSIAN_WORKING_NUMBERS + MOST_INDEX) * sizeof(uint64_t));
    plain_bytes = block(HESSIAN_WORKING_BYTES);
    file = block(MOST);
}

/* ---- inputs */

bool unpack_held(const uint8_t *data, size_t size, struct held *h)
{
    if (size < HELD_HEAD || data[0] != HELD_CODE)
        return false;
    h->flags = data[1];
    h->entries = data + HELD_HEAD;
    h->entries_len = (size_t)(data[2] << 8 | data[3]);
    if (h->entries_len > size - HELD_HEAD)
        h->entries_len = size - HELD_HEAD;
    h->records = h->entries + h->entries_len;
    h->records_len = size - HELD_HEAD - h->entries_len;
    return true;
}

size_t pack_held(const struct held *h, uint8_t *data, size_t room)
{
    size_t size = HELD_HEAD + h->entries_len + h->records_len;

    if (h->entries_len > 0xffff || size > room)
        return 0;
    data[0] = HELD_CODE;
    data[1] = (uint8_t)h->flags;
    data[2] = (uint8_t)(h->entries_len >> 8);
    data[3] = (uint8_t)h->entries_len;
    memcpy(data + HELD_HEAD, h->entries, h->entries_len);
    memcpy(data + HELD_HEAD + h->entries_len, h->records, h->records_len);
    return size;
}

size_t put_entry(uint8_t *entries, size_t len, size_t room, const uint8_t *message, size_t message_len)
{
    uint8_t *p = entries + len;

    if (message_len + LENGTH_SIZE > room - len)
        return len;
    p[0] = (uint8_t)(message_len >> 24);
    p[1] = (uint8_t)(message_len >> 16);
    p[2] = (uint8_t)(message_len >> 8);
    p[3] = (uint8_t)message_len;
    memcpy(p + LENGTH_SIZE, message, message_len);
    return len + LENGTH_SIZE + message_len;
}

/* The next entry, whose message is in what is left: its bytes; 0 where it is cut off. */
static size_t next_entry(const uint8_t *p, size_t left)
{
    size_t len;

    if (left < LENGTH_SIZE)
        return 0;
    len = (size_t)p[0] << 24 | (size_t)p[1] << 16 | (size_t)p[2] << 8 | p[3];
    return len > left - LENGTH_SIZE ? 0 : LENGTH_SIZE + len;
}

/* The entries as a file that lists, by the plain functions. */
static size_t tidy(const struct held *h)
{
    size_t used = 0, at = 0, entry;

    for (; (entry = next_entry(h->entries + at, h->entries_len - at)) > 0; at += entry) {
        struct baseline_answer a =
            baseline_holdings_add(file, MOST, used, h->entries + at + LENGTH_SIZE, entry - LENGTH_SIZE, plain_rows,
                                  HESSIAN_WORKING_NUMBERS + MOST_INDEX, plain_bytes, HESSIAN_WORKING_BYTES);

        if (a.number == HESSIAN_ACCEPTED)
            used = (size_t)a.place;
    }
    return used;
}

/* The header and the entries as they are. */
static size_t leave(const struct held *h)
{
    size_t len = h->flags & HELD_BARE ? 0 : HEADER_SIZE;

    memcpy(file, "SWP\0\1", HEADER_SIZE);
    memcpy(file + len, h->entries, h->entries_len);
    return len + h->entries_len;
}

/* The file that an input means; how many bytes it has. */
static size_t make_file(const struct held *h)
{
    size_t len = h->flags & HELD_TIDY ? tidy(h) : leave(h), first = next_entry(h->entries, h->entries_len);

    if (h->flags & HELD_WIDE) {
        memcpy(file + len, h->entries, first);
        len += first;
    }
    if (h->flags & HELD_HURT && len > 0)
        file[pick(len)] ^= (uint8_t)(1 << pick(8));
    return h->flags & HELD_NONE ? 0 : len;
}

/* ---- calls */

/* A call: the buffer, how much of it is used, what is added, and the lent lengths. */
struct call {
    const uint8_t *file;
    size_t file_len;
    uint64_t used;
    const uint8_t *records;
    size_t records_len;
    size_t rows_len, bytes_len;
};

static bool differ(const char *what, const struct call *c, hessian_answer a, struct baseline_answer b)
{
    fprintf(stderr,
            "fuzz: %s: used %" PRIu64 " of %zu, library %" PRIu64 " %" PRIu64 " %" PRIu64 ", plain %" PRIu64 " %" PRIu64
            " %" PRIu64 "\n",
            what, c->used, c->file_len, a.number, a.count, a.place, b.number, b.count, b.place);
    return false;
}

static bool same_answer(hessian_answer a, struct baseline_answer b)
{
    return a.number == b.number && a.count == b.count && a.place == b.place;
}

/* Working memory for the library, at the fence. */
static uint64_t *lend_rows(const struct call *c)
{
    return (uint64_t *)(void *)fenced(&rows_fence, c->rows_len * sizeof(uint64_t), true);
}

static uint8_t *lend_bytes(const struct call *c)
{
    return fenced(&bytes_fence, c->bytes_len, true);
}

static bool working_guarded(const struct call *c)
{
    return guarded(&rows_fence, c->rows_len * sizeof(uint64_t), true) && guarded(&bytes_fence, c->bytes_len, true);
}

static bool compare_list(const struct call *c, size_t list_len)
{
    struct given file = give(&file_fence, c->file, c->file_len);
    struct lent list = lend(&list_fence, list_len);
    hessian_answer a = hessian_holdings_list(file.library, c->file_len, c->used, lend_rows(c), c->rows_len,
                                             lend_bytes(c), c->bytes_len, list.library, list_len);
    struct baseline_answer b = baseline_holdings_list(file.plain, c->file_len, c->used, plain_rows, c->rows_len,
                                                      plain_bytes, c->bytes_len, list.plain, list_len);
    size_t stored = b.number == HESSIAN_ACCEPTED ? (size_t)b.count * HESSIAN_LISTED_SIZE : 0;
    bool kept = take_back(&file) && working_guarded(c), same = lent_alike(&list) && lent_kept(&list, stored);

    free(list.plain);
    if (!same_answer(a, b))
        return differ("list", c, a, b);
    return (kept && same) || differ("list leaves something else", c, a, b);
}

/* Whether the buffers are the same afterwards; nothing is changed in a refusal of the file, nor in what was used. */
static bool same_file(const struct call *c, const struct given *file, struct baseline_answer b)
{
    size_t from = c->used < c->file_len ? (size_t)c->used : c->file_len;

    if (memcmp(file->library, file->plain, c->file_len) != 0 || !guarded(&file_fence, c->file_len, file->at_end))
        return false;
    if (b.number >= HESSIAN_WRONG_MARK && b.number != HESSIAN_CUT_ENTRY)
        from = c->file_len;
    return memcmp(file->library, c->file, from) == 0;
}

static bool compare_add(const struct call *c)
{
    struct given file = give(&file_fence, c->file, c->file_len);
    struct given record = give(&records_fence, c->records, c->records_len);
    hessian_answer a = hessian_holdings_add(file.library, c->file_len, c->used, record.library, c->records_len,
                                            lend_rows(c), c->rows_len, lend_bytes(c), c->bytes_len);
    struct baseline_answer b = baseline_holdings_add(file.plain, c->file_len, c->used, record.plain, c->records_len,
                                                     plain_rows, c->rows_len, plain_bytes, c->bytes_len);
    bool same = same_file(c, &file, b), kept = take_back(&record) && working_guarded(c);

    take_back(&file);
    if (!same_answer(a, b))
        return differ("add", c, a, b);
    return (same && kept) || differ("add leaves something else", c, a, b);
}

static bool compare_add_all(const struct call *c, size_t numbers_len)
{
    struct given file = give(&file_fence, c->file, c->file_len);
    struct given records = give(&records_fence, c->records, c->records_len);
    size_t size = numbers_len * sizeof(uint64_t);
    uint64_t *numbers = (uint64_t *)(void *)fenced(&list_fence, size, true), *plain = block(size);
    hessian_answer a;
    struct baseline_answer b;
    bool same, kept;

    memset(numbers, 0xa5, size);
    memset(plain, 0xa5, size);
    a = hessian_holdings_add_all(file.library, c->file_len, c->used, records.library, c->records_len, lend_rows(c),
                                 c->rows_len, lend_bytes(c), c->bytes_len, numbers, numbers_len);
    b = baseline_holdings_add_all(file.plain, c->file_len, c->used, records.plain, c->records_len, plain_rows,
                                  c->rows_len, plain_bytes, c->bytes_len, plain, numbers_len);
    same = same_file(c, &file, b) && memcmp(numbers, plain, size) == 0 && guarded(&list_fence, size, true);
    kept = take_back(&records) && working_guarded(c);
    take_back(&file);
    free(plain);
    if (!same_answer(a, b))
        return differ("add_all", c, a, b);
    return (same && kept) || differ("add_all leaves something else", c, a, b);
}

/* ---- an input */

/* Mostly enough working memory, with no index, a small one or a large one; now and then too little. */
static void choose_working(struct call *c)
{
    static const size_t more[] = {0, 3, 4, 40, MOST_INDEX};

    c->rows_len = HESSIAN_WORKING_NUMBERS + more[pick(sizeof more / sizeof more[0])];
    c->bytes_len = HESSIAN_WORKING_BYTES;
    if (pick(64) == 0)
        c->rows_len = (size_t)pick(HESSIAN_WORKING_NUMBERS);
    if (pick(64) == 0)
        c->bytes_len = (size_t)pick(HESSIAN_WORKING_BYTES);
}

/* The buffer ends with the file, with what some of the records need, or behind all that they can need. */
static void choose_room(struct call *c)
{
    size_t room = pick(4) == 0 ? 0 : some_room(HEADER_SIZE + LENGTH_SIZE + c->records_len);

    memset(file + c->used, 0xa5, room);
    c->file_len = (size_t)c->used + room;
    if (pick(16) == 0)
        c->used += pick(4) == 0 ? UINT64_MAX - 7 : pick(3);
}

bool compare_held(const struct held *h)
{
    struct call c = {NULL, 0, 0, h->records, h->records_len, 0, 0};
    size_t entry = next_entry(h->records, h->records_len);
    bool same;

    start();
    c.file = file;
    c.used = make_file(h);
    choose_room(&c);
    choose_working(&c);
    same = compare_list(&c, some_room((size_t)c.file_len / LENGTH_SIZE * HESSIAN_LISTED_SIZE)) &&
           compare_add_all(&c, (size_t)pick(12));
    if (entry > 0) {
        c.records += LENGTH_SIZE;
        c.records_len = entry - LENGTH_SIZE;
    }
    return same && compare_add(&c);
}
