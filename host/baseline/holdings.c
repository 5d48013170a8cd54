/* Holdings files: each entry is read and written once more, and sought among the earlier ones. */
#define _DEFAULT_SOURCE /* endian.h */

#include "baseline.h"

#include "forms.h"

enum {
    ROW_NUMBERS = ROW_SIZE / 8,
    MARK_SIZE = 3,
    HEADER_SIZE = 5,
    LENGTH_SIZE = 4,
    LISTED_SIZE = 16,
    SLOT_NUMBERS = 2
};

enum { WRONG_MARK = 20, UNKNOWN_VERSION, CUT_ENTRY, REFUSED_ENTRY, NOT_SHORTEST, REPEATED_ENTRY };

static const uint8_t header[HEADER_SIZE] = {'S', 'W', 'P', 0, 1};

/* What is lent to work with. */
struct lent {
    uint64_t *rows;
    size_t rows_len;
    uint8_t *bytes;
    size_t bytes_len;
};

/*
 * The entries of a file so far. Those before the place `scanned` are in the index, whose slots hold an entry's place
 * and number: an entry stands at the first free slot from its hash on, and half of the slots stay free. 0 is no entry's
 * place. The entries from `scanned` on are looked through one after the other.
 */
struct holdings {
    const uint8_t *file;
    size_t end; /* of the entries so far */
    uint64_t entries;
    const struct lent *lent;
    size_t slots;
    size_t scanned;
    uint64_t indexed;
};

static struct baseline_answer told(uint64_t number, uint64_t count, uint64_t place)
{
    struct baseline_answer a = {number, count, place};

    return a;
}

/* ---- the index */

static uint64_t *index_slot(const struct holdings *h, size_t i)
{
    return h->lent->rows + (size_t)MAX_MESSAGE * ROW_NUMBERS + i * SLOT_NUMBERS;
}

/* A file of no entries. */
static struct holdings no_entries(const uint8_t *file, const struct lent *lent)
{
    struct holdings h = {file, HEADER_SIZE, 0, lent, 0, HEADER_SIZE, 0};
    size_t i;

    h.slots = (lent->rows_len - (size_t)MAX_MESSAGE * ROW_NUMBERS) / SLOT_NUMBERS;
    for (i = 0; i < h.slots; i++)
        index_slot(&h, i)[0] = 0;
    return h;
}

/* FNV-1a. */
static uint64_t hash(const uint8_t *message, size_t len)
{
    uint64_t n = UINT64_C(14695981039346656037);
    size_t i;

    for (i = 0; i < len; i++)
        n = (n ^ message[i]) * UINT64_C(1099511628211);
    return n ^ n >> 32;
}

static bool is_at(const struct holdings *h, size_t place, const uint8_t *message, size_t len)
{
    return get_u32(h->file + place) == len && memcmp(h->file + place + LENGTH_SIZE, message, len) == 0;
}

/* The slot of a message, or the free one where it would stand. There is one, as not all are taken. */
static uint64_t *seek_slot(const struct holdings *h, const uint8_t *message, size_t len)
{
    size_t i = (size_t)(hash(message, len) % h->slots);

    while (index_slot(h, i)[0] != 0 && !is_at(h, (size_t)index_slot(h, i)[0], message, len))
        i = (i + 1) % h->slots;
    return index_slot(h, i);
}

/* The number of the entry with this message; as many as there are where none has it. */
static uint64_t number_of(const struct holdings *h, const uint8_t *message, size_t len)
{
    size_t place = h->scanned;
    uint64_t number = h->indexed;

    if (h->slots > 0) {
        const uint64_t *slot = seek_slot(h, message, len);

        if (slot[0] != 0)
            return slot[1];
    }
    while (place < h->end && !is_at(h, place, message, len)) {
        place += LENGTH_SIZE + get_u32(h->file + place);
        number++;
    }
    return number;
}

/* The next entry of the file, which no other has, is now one of them. */
static void take_entry(struct holdings *h)
{
    size_t len = get_u32(h->file + h->end), next = h->end + LENGTH_SIZE + len;

    if (h->scanned == h->end && 2 * (h->indexed + 1) <= h->slots) {
        uint64_t *slot = seek_slot(h, h->file + h->end + LENGTH_SIZE, len);

        slot[0] = h->end;
        slot[1] = h->indexed++;
        h->scanned = next;
    }
    h->end = next;
    h->entries++;
}

/* ---- the file */

/* The shortest message of a message, into the lent bytes: its length as the count; or the reader's refusal. */
static struct baseline_answer shorten(const struct lent *lent, const uint8_t *message, size_t len)
{
    uint8_t *table = (uint8_t *)lent->rows;
    size_t table_len = (size_t)MAX_MESSAGE * ROW_NUMBERS * sizeof *lent->rows;
    uint64_t read = baseline_read(message, len, table, table_len), written;

    if (read >> 48 != 0)
        return told(read >> 48, 0, read & 0xffffff);
    written = baseline_write(message, len, table, table_len, read >> 24 & 0xffffff, lent->bytes, MAX_MESSAGE);
    return told(written >> 48, written >> 24 & 0xffffff, 0);
}

/* What is wrong with the next entry; 0 is nothing. */
static uint64_t entry_fault(const struct holdings *h, size_t used)
{
    size_t left = used - h->end;
    const uint8_t *message = h->file + h->end + LENGTH_SIZE;
    struct baseline_answer shortest;
    size_t len;

    if (left < LENGTH_SIZE || (len = get_u32(h->file + h->end)) > left - LENGTH_SIZE)
        return CUT_ENTRY;
    shortest = shorten(h->lent, message, len);
    if (shortest.number != 0)
        return REFUSED_ENTRY;
    if (shortest.count != len || memcmp(h->lent->bytes, message, len) != 0)
        return NOT_SHORTEST;
    return number_of(h, message, len) < h->entries ? REPEATED_ENTRY : 0;
}

/* Whether so much is lent as the longest message needs. */
static bool lends_enough(const struct lent *lent)
{
    return lent->rows_len / ROW_NUMBERS >= MAX_MESSAGE && lent->bytes_len >= MAX_MESSAGE;
}

/* Checks working memory and the file; its entries. */
static struct baseline_answer open_file(struct holdings *h, const struct lent *lent, const uint8_t *file,
                                        size_t file_len, uint64_t used)
{
    if (!lends_enough(lent))
        return told(TOO_LITTLE_ROOM, 0, 0);
    *h = no_entries(file, lent);
    if (used > file_len)
        return told(CUT_ENTRY, 0, 0);
    if (used < MARK_SIZE || memcmp(file, header, MARK_SIZE) != 0)
        return told(WRONG_MARK, 0, 0);
    if (used < HEADER_SIZE || memcmp(file, header, HEADER_SIZE) != 0)
        return told(UNKNOWN_VERSION, 0, 0);
    while (h->end < used) {
        uint64_t fault = entry_fault(h, (size_t)used);

        if (fault != 0)
            return told(fault, 0, h->end);
        take_entry(h);
    }
    return told(0, h->entries, used);
}

struct baseline_answer baseline_holdings_list(const uint8_t *file, size_t file_len, uint64_t used, uint64_t *rows,
                                              size_t rows_len, uint8_t *bytes, size_t bytes_len, uint8_t *list,
                                              size_t list_len)
{
    struct lent lent = {rows, rows_len, bytes, bytes_len};
    struct holdings h;
    struct baseline_answer opened = open_file(&h, &lent, file, file_len, used);
    size_t place;

    if (opened.number != 0)
        return opened;
    if (list_len / LISTED_SIZE < h.entries)
        return told(TOO_LITTLE_ROOM, h.entries, 0);
    for (place = HEADER_SIZE; place < used; list += LISTED_SIZE) {
        size_t len = get_u32(file + place);

        put_u64(list, place + LENGTH_SIZE);
        put_u64(list + 8, len);
        place += LENGTH_SIZE + len;
    }
    return opened;
}

/* ---- adding */

/* The same where a file of no bytes is a new one. */
static struct baseline_answer open_to_add(struct holdings *h, const struct lent *lent, const uint8_t *file,
                                          size_t file_len, uint64_t used)
{
    if (used > 0 || !lends_enough(lent))
        return open_file(h, lent, file, file_len, used);
    *h = no_entries(file, lent);
    return told(0, 0, 0);
}

/* Adds a record to a file of so many used bytes, which may be none yet. */
static struct baseline_answer add(struct holdings *h, uint8_t *file, size_t file_len, size_t used,
                                  const uint8_t *record, size_t record_len)
{
    struct baseline_answer shortest = shorten(h->lent, record, record_len);
    const uint8_t *message = h->lent->bytes;
    size_t len = (size_t)shortest.count, needed = h->end + LENGTH_SIZE + len;
    uint64_t number;

    if (shortest.number != 0)
        return shortest;
    number = number_of(h, message, len);
    if (number < h->entries)
        return told(0, number, used);
    if (needed > file_len)
        return told(TOO_LITTLE_ROOM, needed, 0);
    if (used == 0)
        memcpy(file, header, HEADER_SIZE);
    put_u32(file + h->end, (uint32_t)len);
    memcpy(file + h->end + LENGTH_SIZE, message, len);
    take_entry(h);
    return told(0, number, needed);
}

struct baseline_answer baseline_holdings_add(uint8_t *file, size_t file_len, uint64_t used, const uint8_t *record,
                                             size_t record_len, uint64_t *rows, size_t rows_len, uint8_t *bytes,
                                             size_t bytes_len)
{
    struct lent lent = {rows, rows_len, bytes, bytes_len};
    struct holdings h;
    struct baseline_answer opened = open_to_add(&h, &lent, file, file_len, used);

    return opened.number != 0 ? opened : add(&h, file, file_len, (size_t)used, record, record_len);
}

struct baseline_answer baseline_holdings_add_all(uint8_t *file, size_t file_len, uint64_t used, const uint8_t *records,
                                                 size_t records_len, uint64_t *rows, size_t rows_len, uint8_t *bytes,
                                                 size_t bytes_len, uint64_t *numbers, size_t numbers_len)
{
    struct lent lent = {rows, rows_len, bytes, bytes_len};
    struct holdings h;
    struct baseline_answer opened = open_to_add(&h, &lent, file, file_len, used), added;
    size_t at = 0, taken;

    if (opened.number != 0)
        return opened;
    for (taken = 0; at < records_len; taken++) {
        size_t left = records_len - at;
        size_t len;

        if (left < LENGTH_SIZE || (len = get_u32(records + at)) > left - LENGTH_SIZE)
            return told(CUT_ENTRY, taken, used);
        added = add(&h, file, file_len, (size_t)used, records + at + LENGTH_SIZE, len);
        if (added.number != 0)
            return told(added.number, taken, used);
        if (taken < numbers_len)
            numbers[taken] = added.count;
        used = added.place;
        at += LENGTH_SIZE + len;
    }
    return told(0, taken, used);
}
