/* Texts and names of files, shown so that any byte can be told. */
#ifndef QUOTE_H
#define QUOTE_H

#include <stddef.h>
#include <stdint.h>
#include <stdio.h>

/* The length of the well-formed UTF-8 character at p, and its code point; 0 if there is none. */
size_t character_at(const uint8_t *p, size_t left, uint32_t *code);

/*
 * In double quotes: \" \\ \n \r \t, \u{HEX} for other characters that are not to be seen as they are, \xHH for a byte
 * that is not UTF-8.
 */
void put_quoted(FILE *out, const uint8_t *bytes, size_t len);

/* A name: as it is, or quoted where it is empty or has spaces, quotes, backslashes or what put_quoted escapes. */
void put_name(FILE *out, const char *name);

/*
 * A JSON string. What is not to be seen is escaped there too, and a byte b that is not UTF-8 is shown as \udcHH, HH
 * being b (Python's surrogateescape).
 */
void put_json_bytes(FILE *out, const uint8_t *bytes, size_t len);

void put_json(FILE *out, const char *text);

/* A field of CSV as RFC 4180 has it: as it is, or quoted where it has commas, line ends or quotes, which are doubled. */
void put_csv(FILE *out, const char *text);

#endif
