/* Single values as a person reads them, and in JSON. */
#ifndef VALUES_H
#define VALUES_H

#include <stddef.h>
#include <stdint.h>
#include <stdio.h>

/* The shortest decimal that stands for these bits; infinity; NaN with its bits. */
void put_double(FILE *out, uint64_t bits);

/* The same with a point or an exponent, so that it is read as a double; "Infinity", "-Infinity", "NaN" in quotes. */
void put_json_double(FILE *out, uint64_t bits);

/* ISO 8601 in UTC, with milliseconds; a year outside 0000 to 9999 has its sign and at least six figures. */
void put_date(FILE *out, int64_t milliseconds);

/* Two hexadecimal digits a byte, a space between. */
void put_hex(FILE *out, const uint8_t *bytes, size_t len);

/* Base64, as RFC 4648 has it, with padding. */
void put_base64(FILE *out, const uint8_t *bytes, size_t len);

#endif
