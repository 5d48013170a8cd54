/*
 * A plain C reader and writer of Hessian 2.0 messages, the length of what is written, a copier of their texts and byte
 * strings, and holdings files, independent of the library: to measure its speed and check its answers.
 */
#ifndef BASELINE_H
#define BASELINE_H

#include <stddef.h>
#include <stdint.h>

/*
 * Reads a message into a table of rows. A row is 40 bytes: kind, place, first, second and after, eight big-endian bytes
 * each. Rows are numbered from 0, and after is the number of the row just after what this row opens. The answer is
 * number * 2^48 + count * 2^24 + place:
 *   accepted:            number 0, count the rows stored, place the message's length
 *   refused 1 to 8:      count 0, place that of the fault
 *   refused 9:           the table is too small; count the rows needed, place 0
 * A refusal leaves the table as it was; so do bytes past the rows stored.
 */
uint64_t baseline_read(const uint8_t *message, size_t message_len, uint8_t *table, size_t table_len);

/* The same where 5f and four bytes are a count of thousandths: m times the double nearest to 0.001, rounded once. */
uint64_t baseline_read_thousandths(const uint8_t *message, size_t message_len, uint8_t *table, size_t table_len);

/*
 * Writes the shortest message of the first `rows` rows of a table, whose texts and bytes lie in the source. The answer:
 *   accepted:            number 0, count the bytes written, place 0
 *   refused 1:           the source, or the shortest message, is too long; count and place 0
 *   refused 10:          the rows are no record, or an after is wrong; count and place 0
 *   refused 9:           the output is too small; count the bytes needed, place 0
 * A refusal leaves the output as it was; so do bytes past those written.
 */
uint64_t baseline_write(const uint8_t *source, size_t source_len, const uint8_t *table, size_t table_len, uint64_t rows,
                        uint8_t *output, size_t output_len);

/*
 * The length of the shortest message of the record that a message holds, also where it is more than a message may have;
 * 0 where baseline_read, with rows enough, refuses the message.
 */
uint64_t baseline_shortest_length(const uint8_t *message, size_t message_len);

/* The same of what baseline_read_thousandths reads, written by the main rule. */
uint64_t baseline_shortest_length_thousandths(const uint8_t *message, size_t message_len);

struct baseline_answer {
    uint64_t number, count, place;
};

/*
 * Copies the content of the text (kinds 7, 16, 17, 18) or byte string (kind 8) that opens at this place of the source,
 * its chunks joined, and each pair of halves as its character. The answer's place is 0:
 *   accepted:            number 0, count the bytes copied
 *   refused 10:          no complete string of this kind opens there, or the kind is another one; count 0
 *   refused 9:           the output is too small; count the bytes needed
 * A refusal leaves the output as it was; so do bytes past those copied.
 */
struct baseline_answer baseline_content(const uint8_t *source, size_t source_len, uint64_t kind, uint64_t place,
                                        uint8_t *output, size_t output_len);

/*
 * Holdings files: SWP, a version in two bytes, 1, and entries, each a length in four bytes and a shortest message. The
 * first `used` bytes of a buffer are the file. Lent are at least five numbers and one byte for each byte that a message
 * may have; numbers beyond serve as an index. The answers, the first that holds:
 *   9, count 0, place 0     too little is lent
 *   22 at 0                 `used` is more than the buffer has
 *   20 at 0, 21 at 0        another mark; another version
 *   22, 23, 24, 25          the first entry that is cut off, refused, not shortest or repeated; place its first byte
 * Listing: 9 with the entries, where the list, of 16 bytes an entry, is too short; else 0, the entries, `used`.
 * Adding, where a `used` of 0 is a new file: the record's refusal 1 to 8, with its place in the record; 9 with the
 * bytes that the file needs; else 0, the entry's number, the used length afterwards. Adding many, which are laid out as
 * entries: the number of the first refusal, or 22 for one that is cut off; how many were added; the used length.
 * A refusal leaves the list, and the file but for records added before it, as they were.
 */
struct baseline_answer baseline_holdings_list(const uint8_t *file, size_t file_len, uint64_t used, uint64_t *rows,
                                              size_t rows_len, uint8_t *bytes, size_t bytes_len, uint8_t *list,
                                              size_t list_len);

struct baseline_answer baseline_holdings_add(uint8_t *file, size_t file_len, uint64_t used, const uint8_t *record,
                                             size_t record_len, uint64_t *rows, size_t rows_len, uint8_t *bytes,
                                             size_t bytes_len);

struct baseline_answer baseline_holdings_add_all(uint8_t *file, size_t file_len, uint64_t used, const uint8_t *records,
                                                 size_t records_len, uint64_t *rows, size_t rows_len, uint8_t *bytes,
                                                 size_t bytes_len, uint64_t *numbers, size_t numbers_len);

#endif
