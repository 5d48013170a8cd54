/*
 * Hessian 2.0 records: read a message into a table of rows, write a table as its shortest message, say how long that
 * is, copy out the texts and byte strings that rows name; and keep many records in one holdings file. docs/FORMAT.md
 * has the formats and every rule.
 *
 * Every function may be handed any bytes. It ends, touches nothing beyond what it was lent, and answers a number, a
 * count and a place, or a length. A refusal changes nothing that was lent, but for working memory, where that is lent
 * too. The functions keep no state, use no heap, and may be called from several threads at once. Pointers to bytes need
 * no alignment; any may be null where its length is 0. What is read and what is written may not overlap. A call takes
 * less than 32 KiB of stack, as measured with 32 open containers. The library is compiled for x86-64.
 */
#ifndef HESSIAN_H
#define HESSIAN_H

#include <stddef.h>
#include <stdint.h>

#ifdef __cplusplus
extern "C" {
#endif

#define HESSIAN_VERSION "1.4"

/* The longest message, in bytes. A message has no more rows than bytes, so a table of so many rows is always enough. */
#define HESSIAN_LONGEST 262144u

/* The bytes of a row in a table: kind, place, first, second and after, eight bytes each, the highest first. */
#define HESSIAN_ROW_SIZE 40u

/*
 * The number of an answer: accepted, or why not. The place is where, as an index into the message; from 20 on, of a
 * holdings file, it is that of the faulty entry's first byte in the file, and 0 where no entry is at fault.
 */
enum hessian_refusal {
    HESSIAN_ACCEPTED = 0,
    HESSIAN_LENGTH = 1,    /* the message is empty or too long; writer: the source or the shortest message is */
    HESSIAN_CUT = 2,       /* the message ends where a byte is needed; place: its length */
    HESSIAN_BYTE = 3,      /* a byte cannot stand here */
    HESSIAN_UTF8 = 4,      /* a character is not UTF-8, is half a pair, or finds no room; place: its first byte */
    HESSIAN_NEGATIVE = 5,  /* a list or field count is negative */
    HESSIAN_UNGIVEN = 6,   /* no such class, type or reference number is given yet */
    HESSIAN_CEILING = 7,   /* more than 32 containers open, or 256 classes, types, or fields of one class */
    HESSIAN_AFTER = 8,     /* bytes after the record */
    HESSIAN_ROOM = 9,      /* fewer rows (writer, content: bytes) are lent than needed; the count says how many */
    HESSIAN_NO_RECORD = 10, /* writer: the rows are no record, or fifth numbers are wrong; content: a row names none */
    HESSIAN_WRONG_MARK = 20,      /* the file does not begin with SWP */
    HESSIAN_UNKNOWN_VERSION = 21, /* the file's version is cut off, or none that is known */
    HESSIAN_CUT_ENTRY = 22,       /* the file ends inside an entry; or its used length is more than was lent */
    HESSIAN_REFUSED_ENTRY = 23,   /* hessian_read refuses the entry's message */
    HESSIAN_NOT_SHORTEST = 24,    /* the entry's message is not the one that hessian_write writes of it */
    HESSIAN_REPEATED_ENTRY = 25   /* the entry's message is that of an earlier entry */
};

/*
 * The kinds of rows, with their first and second numbers; one that is not named is 0.
 *
 * Texts and names are UTF-8. In a message, a character beyond the 16-bit range may also stand as a pair of halves, each
 * in three bytes, as Java libraries write it: ed a0..af 80..bf, and next to it, in the same chunk, ed b0..bf 80..bf. It
 * is read as the character: a row counts two units and its four bytes of UTF-8, and hessian_write writes these four.
 */
enum hessian_kind {
    HESSIAN_NULL = 0,
    HESSIAN_FALSE = 1,
    HESSIAN_TRUE = 2,
    HESSIAN_INT = 3,        /* value, in two's complement */
    HESSIAN_LONG = 4,       /* value, in two's complement */
    HESSIAN_DOUBLE = 5,     /* the bits of the IEEE double */
    HESSIAN_DATE = 6,       /* milliseconds, in two's complement */
    HESSIAN_TEXT = 7,       /* UTF-16 units, UTF-8 bytes */
    HESSIAN_BYTES = 8,      /* length */
    HESSIAN_LIST = 9,       /* elements */
    HESSIAN_TYPED_LIST = 10, /* elements, type number; then a row of its type */
    HESSIAN_MAP = 11,       /* pairs */
    HESSIAN_TYPED_MAP = 12, /* pairs, type number; then a row of its type */
    HESSIAN_OBJECT = 13,    /* class number, fields */
    HESSIAN_REFERENCE = 14, /* number of the list, map or object, from 0 */
    HESSIAN_CLASS = 15,     /* fields; then a row of its name and one of each field's name */
    HESSIAN_CLASS_NAME = 16, /* as a text */
    HESSIAN_FIELD_NAME = 17, /* as a text */
    HESSIAN_TYPE_NAME = 18, /* as a text */
    HESSIAN_TYPE_NUMBER = 19 /* type number */
};

/*
 * The fifth number of a row, after. Rows are numbered from 0, and after is the number of the row just after what this
 * row opens: for a list, map or object the row after its last value, for a class the row after its last name, for
 * anything else the next row. The row of a type belongs to its list or map, and a class to the list, map or object that
 * it is defined in. So a value is passed over in one step, however much it holds. This visits the elements of the list
 * in row `list`, where kind(i) and after(i) are the first and the last number of row i:
 *
 *     uint64_t i = list + 1, end = after(list);
 *
 *     if (kind(list) == HESSIAN_TYPED_LIST)
 *         i++;                            // the row of its type
 *     for (; i < end; i = after(i))
 *         if (kind(i) != HESSIAN_CLASS)   // a class may be defined before an element
 *             element(i);
 *
 * The keys and values of a map, in turn, and the fields of an object are visited alike. hessian_write refuses a table
 * in which one of these numbers is wrong (HESSIAN_NO_RECORD).
 */

/*
 * Reads a message into a table of rows. Accepted: the count is the rows stored, the place the message's length; bytes
 * of the table past those rows stay as they were. HESSIAN_ROOM: the count is the rows needed. Bytes of the table beyond
 * a multiple of HESSIAN_ROW_SIZE are no row.
 */
uint64_t hessian_read(const uint8_t *message, size_t message_len, uint8_t *table, size_t table_len);

/*
 * The same for messages of loggers that count thousandths: 5f and four bytes are not a 32-bit float, but a signed whole
 * number m, and stand for m times 0.001 (m as a double, times the double nearest to 0.001, rounded once). Answers, rows
 * and places are those of hessian_read, but for the bits of such doubles. The caller has to know which messages these
 * are: nothing in them tells. hessian_write writes every table by the main rule, so that what it writes is read by
 * hessian_read; a double that took five bytes may then take nine, and a long message may become too long
 * (HESSIAN_LENGTH).
 */
uint64_t hessian_read_thousandths(const uint8_t *message, size_t message_len, uint8_t *table, size_t table_len);

/*
 * Writes the shortest message of the first `rows` rows of a table, as hessian_read fills it. The source is the message
 * in which the texts and byte strings of the rows lie: a row's place is an index into it. Accepted: the count is the
 * bytes written, the place 0; bytes of the output past them stay as they were. HESSIAN_ROOM: the count is the bytes
 * needed. An output of the source's length is enough for the rows that hessian_read stored of it; of those that
 * hessian_read_thousandths stored, one of HESSIAN_LONGEST bytes.
 */
uint64_t hessian_write(const uint8_t *source, size_t source_len, const uint8_t *table, size_t table_len, uint64_t rows,
                       uint8_t *output, size_t output_len);

/*
 * The length of the shortest message of the record that a message holds: the bytes that hessian_write would write of
 * what hessian_read reads. Rewriting the message saves message_len less this, which is never below 0. The answer is a
 * plain number: at least 1 where the message is accepted, and 0 where hessian_read, with rows enough, refuses it. No
 * table is needed.
 */
uint64_t hessian_shortest_length(const uint8_t *message, size_t message_len);

/*
 * The same for messages that hessian_read_thousandths reads: the bytes that hessian_write, which has the main rule
 * alone, would write of those rows. They may be more than the message has, nearly twice as many, and more than
 * HESSIAN_LONGEST: then hessian_write refuses the rows (HESSIAN_LENGTH), and the answer is this length all the same.
 */
uint64_t hessian_shortest_length_thousandths(const uint8_t *message, size_t message_len);

/* The parts of an answer of hessian_read, hessian_read_thousandths and hessian_write. */
#define HESSIAN_NUMBER(answer) ((unsigned)((uint64_t)(answer) >> 48))
#define HESSIAN_COUNT(answer) ((size_t)((uint64_t)(answer) >> 24 & 0xffffffu))
#define HESSIAN_PLACE(answer) ((size_t)((uint64_t)(answer) & 0xffffffu))

/* The answer of hessian_content, and of all functions after it. */
typedef struct {
    uint64_t number; /* enum hessian_refusal */
    uint64_t count;
    uint64_t place;
} hessian_answer;

/*
 * Copies out the content of the text or byte string that a row of this kind and place names, its chunks joined: the
 * bytes of a byte string (HESSIAN_BYTES), the characters of a text or name (HESSIAN_TEXT and the names) in UTF-8. A
 * row's place is that of the head before its first character, so content is not to be looked for there by hand.
 * Accepted: the count is the bytes copied, the place 0; bytes of the output past them stay as they were. HESSIAN_ROOM:
 * the count is the bytes needed, which a row has as its second number (HESSIAN_BYTES: its first). HESSIAN_NO_RECORD:
 * the place opens no complete text or byte string of this kind, or the kind is that of another row. The source may have
 * any length.
 */
hessian_answer hessian_content(const uint8_t *source, size_t source_len, uint64_t kind, uint64_t place, uint8_t *output,
                               size_t output_len);

/*
 * ---- holdings files: many records in one file, each once
 *
 * A holdings file is the bytes SWP, a version in two bytes, 00 01, and the entries, each a length in four bytes, the
 * highest first, and a message of so many bytes: the shortest of its record. No two entries are the same. Entries are
 * numbered from 0, in their order.
 *
 * A file is lent as the first `used` bytes of a buffer of file_len. Every call checks it whole, in this order: `used`
 * beyond file_len is HESSIAN_CUT_ENTRY at 0; then come mark, version, and entry by entry HESSIAN_CUT_ENTRY,
 * HESSIAN_REFUSED_ENTRY, HESSIAN_NOT_SHORTEST and HESSIAN_REPEATED_ENTRY, with the count 0.
 *
 * Working memory is lent to each call: `rows`, of which rows_len counts the numbers, at least HESSIAN_WORKING_NUMBERS,
 * and at least HESSIAN_WORKING_BYTES `bytes`, however small the file is. Less of either is HESSIAN_ROOM with the count
 * 0 and the place 0, before all else. What it holds before a call does not matter, nor what it holds afterwards; it
 * alone may change in a refusal.
 *
 * Numbers beyond HESSIAN_WORKING_NUMBERS serve as an index of the entries. Without them each entry is compared with all
 * earlier ones of its length, so that a call takes time by the square of the entries; with HESSIAN_INDEX_NUMBERS for
 * each entry of the file, and for each record that may be added, it takes time by the bytes alone. The answers are the
 * same.
 */
#define HESSIAN_WORKING_NUMBERS (5u * HESSIAN_LONGEST)
#define HESSIAN_WORKING_BYTES HESSIAN_LONGEST
#define HESSIAN_INDEX_NUMBERS 4u

/* The bytes of an entry in a list: the place of its message in the file, and its length, eight bytes each. */
#define HESSIAN_LISTED_SIZE 16u

/*
 * Checks a holdings file, and lists its entries. Accepted: the count is the entries, the place is `used`; bytes of the
 * list past the entries stay as they were. Last of all refusals comes HESSIAN_ROOM for a list that is too short: the
 * count is the entries. Bytes of the list beyond a multiple of HESSIAN_LISTED_SIZE are no entry. A file of 0 bytes is
 * HESSIAN_WRONG_MARK.
 */
hessian_answer hessian_holdings_list(const uint8_t *file, size_t file_len, uint64_t used, uint64_t *rows,
                                     size_t rows_len, uint8_t *bytes, size_t bytes_len, uint8_t *list,
                                     size_t list_len);

/*
 * Adds a record to a holdings file. The record is a message in any spelling; its shortest message is looked for in the
 * file, and appended where it is not there. Accepted: the count is the number of the entry that has it, the place the
 * used length afterwards, which is `used` where it was found. Where `used` is 0 a new file is begun.
 *
 * After the file the record is checked: HESSIAN_LENGTH to HESSIAN_AFTER are its refusals, with their places in the
 * record, as of hessian_read. Last comes HESSIAN_ROOM, for a record that has to be appended: the count is the file_len
 * needed. It is at most `used` and 4 and record_len, and 5 more for a new file. A refusal leaves the file as it was;
 * bytes before `used`, and past the used length afterwards, always stay.
 */
hessian_answer hessian_holdings_add(uint8_t *file, size_t file_len, uint64_t used, const uint8_t *record,
                                    size_t record_len, uint64_t *rows, size_t rows_len, uint8_t *bytes,
                                    size_t bytes_len);

/*
 * Adds many records, and checks the file once. `records` has them laid out as entries: a length in four bytes, the
 * highest first, and a message in any spelling. Each is added as by hessian_holdings_add, up to the first that is
 * refused. The number is that of its refusal, or 0 where all were added. The count is how many were added, which is
 * also which one was refused; the place is the used length afterwards, since those before it stay added. numbers[i] is
 * the number of the entry of record i, of as many as were added and numbers_len counts; the others stay as they were.
 *
 * Where `records` ends inside of a record, that is HESSIAN_CUT_ENTRY. Where in a record the fault is, says hessian_read
 * of it; what room it needs, hessian_holdings_add of it. Working memory that is too small, and a fault of the file, are
 * answered as by hessian_holdings_add, and nothing is changed: HESSIAN_CUT_ENTRY is about the file where its place is
 * below `used`, and else about a record.
 */
hessian_answer hessian_holdings_add_all(uint8_t *file, size_t file_len, uint64_t used, const uint8_t *records,
                                        size_t records_len, uint64_t *rows, size_t rows_len, uint8_t *bytes,
                                        size_t bytes_len, uint64_t *numbers, size_t numbers_len);

/* ---- rows, lists, and refusals in words */

typedef struct {
    uint64_t kind; /* enum hessian_kind */
    uint64_t place;
    uint64_t first;
    uint64_t second;
    uint64_t after;
} hessian_row;

/* The eight bytes at p as a number. */
static inline uint64_t hessian_number_at(const uint8_t *p)
{
    return (uint64_t)p[0] << 56 | (uint64_t)p[1] << 48 | (uint64_t)p[2] << 40 | (uint64_t)p[3] << 32 |
           (uint64_t)p[4] << 24 | (uint64_t)p[5] << 16 | (uint64_t)p[6] << 8 | (uint64_t)p[7];
}

/* Row `index` of a table, which must have so many rows. */
static inline hessian_row hessian_row_at(const uint8_t *table, size_t index)
{
    const uint8_t *p = table + index * HESSIAN_ROW_SIZE;
    hessian_row row;

    row.kind = hessian_number_at(p);
    row.place = hessian_number_at(p + 8);
    row.first = hessian_number_at(p + 16);
    row.second = hessian_number_at(p + 24);
    row.after = hessian_number_at(p + 32);
    return row;
}

typedef struct {
    uint64_t place;
    uint64_t length;
} hessian_listed;

/* Entry `index` of a list, which must have so many. */
static inline hessian_listed hessian_listed_at(const uint8_t *list, size_t index)
{
    const uint8_t *p = list + index * HESSIAN_LISTED_SIZE;
    hessian_listed listed;

    listed.place = hessian_number_at(p);
    listed.length = hessian_number_at(p + 8);
    return listed;
}

/* Why an answer's number refuses. */
static inline const char *hessian_refusal_text(uint64_t number)
{
    switch (number) {
    case HESSIAN_ACCEPTED:
        return "accepted";
    case HESSIAN_LENGTH:
        return "the message is empty or too long";
    case HESSIAN_CUT:
        return "the message is cut off";
    case HESSIAN_BYTE:
        return "this byte cannot stand here";
    case HESSIAN_UTF8:
        return "a character is not UTF-8, is half a pair, or does not fit its chunk";
    case HESSIAN_NEGATIVE:
        return "a count is negative";
    case HESSIAN_UNGIVEN:
        return "no such class, type or reference has been given";
    case HESSIAN_CEILING:
        return "more than 32 containers are open, or more than 256 classes, types or fields";
    case HESSIAN_AFTER:
        return "bytes follow the record";
    case HESSIAN_ROOM:
        return "too little room was lent";
    case HESSIAN_NO_RECORD:
        return "the rows are no record";
    case HESSIAN_WRONG_MARK:
        return "the file does not begin with SWP";
    case HESSIAN_UNKNOWN_VERSION:
        return "the file's version is not known";
    case HESSIAN_CUT_ENTRY:
        return "the entry is cut off";
    case HESSIAN_REFUSED_ENTRY:
        return "the entry is no record";
    case HESSIAN_NOT_SHORTEST:
        return "the entry is not in its shortest form";
    case HESSIAN_REPEATED_ENTRY:
        return "the entry is the same as an earlier one";
    default:
        return "no known refusal";
    }
}

#ifdef __cplusplus
}
#endif

#endif
