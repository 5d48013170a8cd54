#include "values.h"

#include <inttypes.h>
#include <stdbool.h>
#include <stdlib.h>
#include <string.h>

/* ---- doubles */

/* Room for 17 figures, a point, two signs and an exponent. */
enum { DECIMAL_SIZE = 40 };

/* The shortest decimal of a finite number. */
static void shortest_decimal(char *text, uint64_t bits)
{
    int figures = 1;
    double value;

    memcpy(&value, &bits, sizeof value);
    do
        snprintf(text, DECIMAL_SIZE, "%.*g", figures, value);
    while (strtod(text, NULL) != value && figures++ < 17);
}

static bool is_finite(uint64_t bits)
{
    return (bits >> 52 & 0x7ff) != 0x7ff;
}

static bool is_nan(uint64_t bits)
{
    return !is_finite(bits) && (bits & UINT64_C(0xfffffffffffff)) != 0;
}

void put_double(FILE *out, uint64_t bits)
{
    char text[DECIMAL_SIZE];

    if (is_nan(bits)) {
        fprintf(out, "NaN with bits %016" PRIx64, bits);
    } else if (!is_finite(bits)) {
        fputs(bits >> 63 ? "-infinity" : "infinity", out);
    } else {
        shortest_decimal(text, bits);
        fputs(text, out);
    }
}

void put_json_double(FILE *out, uint64_t bits)
{
    char text[DECIMAL_SIZE];

    if (is_nan(bits)) {
        fputs("\"NaN\"", out);
    } else if (!is_finite(bits)) {
        fputs(bits >> 63 ? "\"-Infinity\"" : "\"Infinity\"", out);
    } else {
        shortest_decimal(text, bits);
        fprintf(out, "%s%s", text, strpbrk(text, ".e") == NULL ? ".0" : "");
    }
}

/* ---- dates */

static int64_t floor_div(int64_t a, int64_t b)
{
    return a / b - (a % b < 0);
}

/*
 * Year, month and day of a day counted from 1970-01-01, in the Gregorian calendar continued both ways. Years begin in
 * March here, so that a leap day is the last, and 400 of them have 146,097 days.
 */
static void civil(int64_t day, int64_t *year, int *month, int *date)
{
    int64_t since = day + 719468, era = floor_div(since, 146097);
    int64_t in_era = since - era * 146097;
    int64_t y = (in_era - in_era / 1460 + in_era / 36524 - in_era / 146096) / 365;
    int64_t in_year = in_era - (365 * y + y / 4 - y / 100);
    int64_t m = (5 * in_year + 2) / 153;

    *date = (int)(in_year - (153 * m + 2) / 5 + 1);
    *month = (int)(m < 10 ? m + 3 : m - 9);
    *year = y + era * 400 + (*month <= 2);
}

void put_date(FILE *out, int64_t milliseconds)
{
    int64_t day = floor_div(milliseconds, 86400000), year;
    int64_t rest = milliseconds % 86400000;
    int month, date, left = (int)(rest < 0 ? rest + 86400000 : rest);

    civil(day, &year, &month, &date);
    if (year >= 0 && year <= 9999)
        fprintf(out, "%04" PRId64, year);
    else
        fprintf(out, "%+07" PRId64, year);
    fprintf(out, "-%02d-%02dT%02d:%02d:%02d.%03dZ", month, date, left / 3600000, left / 60000 % 60, left / 1000 % 60,
            left % 1000);
}

/* ---- bytes */

void put_hex(FILE *out, const uint8_t *bytes, size_t len)
{
    size_t i;

    for (i = 0; i < len; i++)
        fprintf(out, i == 0 ? "%02x" : " %02x", bytes[i]);
}

/* Three bytes are four digits of 64; what the last group lacks is padded. */
void put_base64(FILE *out, const uint8_t *bytes, size_t len)
{
    static const char digits[] = "ABCDEFGHIJKLMNOPQRSTUVWXYZabcdefghijklmnopqrstuvwxyz0123456789+/";
    size_t i, k;

    for (i = 0; i < len; i += 3) {
        size_t left = len - i;
        uint32_t group = (uint32_t)bytes[i] << 16 | (left > 1 ? (uint32_t)bytes[i + 1] << 8 : 0) |
                         (left > 2 ? bytes[i + 2] : 0u);

        for (k = 0; k < 4; k++)
            putc(k <= left ? digits[group >> (18 - 6 * k) & 63] : '=', out);
    }
}
