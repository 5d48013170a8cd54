#include "quote.h"

#include <stdbool.h>
#include <string.h>

/* ---- UTF-8 */

/* The length that a lead byte promises, and its bits of the code point. */
static size_t lead(uint8_t byte, uint32_t *bits)
{
    if (byte < 0x80) {
        *bits = byte;
        return 1;
    }
    if (byte >= 0xc2 && byte <= 0xdf) {
        *bits = byte & 0x1fu;
        return 2;
    }
    if (byte >= 0xe0 && byte <= 0xef) {
        *bits = byte & 0x0fu;
        return 3;
    }
    if (byte >= 0xf0 && byte <= 0xf4) {
        *bits = byte & 0x07u;
        return 4;
    }
    return 0;
}

size_t character_at(const uint8_t *p, size_t left, uint32_t *code)
{
    static const uint32_t least[] = {0, 0, 0x80, 0x800, 0x10000};
    size_t length = left > 0 ? lead(p[0], code) : 0, i;

    if (length == 0 || length > left)
        return 0;
    for (i = 1; i < length; i++) {
        if ((p[i] & 0xc0) != 0x80)
            return 0;
        *code = *code << 6 | (p[i] & 0x3fu);
    }
    if (*code < least[length] || *code > 0x10ffff || (*code >= 0xd800 && *code <= 0xdfff))
        return 0;
    return length;
}

/*
 * Characters that are not to be seen as they are: controls and formats (the categories Cc and Cf), breaks of lines and
 * paragraphs (Zl, Zp), spaces that look like U+0020 (Zs), what is drawn as nothing (Default_Ignorable_Code_Point:
 * fillers, variation selectors, tags), and the empty braille cell U+2800. check_show holds them to Python's tables.
 */
static const struct {
    uint32_t from, to;
} unseen_ranges[] = {
    {0x0, 0x1f},        {0x7f, 0xa0},       {0xad, 0xad},       {0x34f, 0x34f},     {0x600, 0x605},
    {0x61c, 0x61c},     {0x6dd, 0x6dd},     {0x70f, 0x70f},     {0x890, 0x891},     {0x8e2, 0x8e2},
    {0x115f, 0x1160},   {0x1680, 0x1680},   {0x17b4, 0x17b5},   {0x180b, 0x180f},   {0x2000, 0x200f},
    {0x2028, 0x202f},   {0x205f, 0x206f},   {0x2800, 0x2800},   {0x3000, 0x3000},   {0x3164, 0x3164},
    {0xfe00, 0xfe0f},   {0xfeff, 0xfeff},   {0xffa0, 0xffa0},   {0xfff0, 0xfffb},   {0x110bd, 0x110bd},
    {0x110cd, 0x110cd}, {0x13430, 0x1343f}, {0x1bca0, 0x1bca3}, {0x1d173, 0x1d17a}, {0xe0000, 0xe0fff}
};

enum { UNSEEN_RANGES = sizeof unseen_ranges / sizeof unseen_ranges[0] };

static bool unseen(uint32_t c)
{
    int i = 0;

    /* most characters of most texts */
    if (c >= 0x20 && c < 0x7f)
        return false;
    while (i < UNSEEN_RANGES && c > unseen_ranges[i].to)
        i++;
    return i < UNSEEN_RANGES && c >= unseen_ranges[i].from;
}

/* ---- quoted */

static void put_character(FILE *out, const uint8_t *p, size_t length, uint32_t code)
{
    if (code == '"' || code == '\\')
        fprintf(out, "\\%c", (int)code);
    else if (code == '\n')
        fputs("\\n", out);
    else if (code == '\r')
        fputs("\\r", out);
    else if (code == '\t')
        fputs("\\t", out);
    else if (unseen(code))
        fprintf(out, "\\u{%x}", (unsigned)code);
    else
        fwrite(p, 1, length, out);
}

void put_quoted(FILE *out, const uint8_t *bytes, size_t len)
{
    size_t i, length;
    uint32_t code;

    putc('"', out);
    for (i = 0; i < len; i += length) {
        length = character_at(bytes + i, len - i, &code);
        if (length > 0) {
            put_character(out, bytes + i, length, code);
        } else {
            fprintf(out, "\\x%02x", bytes[i]);
            length = 1;
        }
    }
    putc('"', out);
}

static bool plain(const uint8_t *bytes, size_t len)
{
    size_t i, length;
    uint32_t code;

    for (i = 0; i < len; i += length) {
        length = character_at(bytes + i, len - i, &code);
        if (length == 0 || code == ' ' || code == '"' || code == '\\' || unseen(code))
            return false;
    }
    return len > 0;
}

void put_name(FILE *out, const char *name)
{
    size_t len = strlen(name);

    if (plain((const uint8_t *)name, len))
        fwrite(name, 1, len, out);
    else
        put_quoted(out, (const uint8_t *)name, len);
}

/* ---- JSON */

/* \uHHHH, beyond the 16-bit range as a pair. */
static void put_json_escape(FILE *out, uint32_t code)
{
    if (code >= 0x10000)
        fprintf(out, "\\u%04x\\u%04x", (unsigned)(0xd800 + ((code - 0x10000) >> 10)),
                (unsigned)(0xdc00 + (code & 0x3ff)));
    else
        fprintf(out, "\\u%04x", (unsigned)code);
}

void put_json_bytes(FILE *out, const uint8_t *bytes, size_t len)
{
    size_t i, length;
    uint32_t code;

    putc('"', out);
    for (i = 0; i < len; i += length) {
        length = character_at(bytes + i, len - i, &code);
        if (length == 0) {
            put_json_escape(out, 0xdc00u + bytes[i]);
            length = 1;
        } else if (unseen(code)) {
            put_json_escape(out, code);
        } else {
            if (code == '"' || code == '\\')
                putc('\\', out);
            fwrite(bytes + i, 1, length, out);
        }
    }
    putc('"', out);
}

void put_json(FILE *out, const char *text)
{
    put_json_bytes(out, (const uint8_t *)text, strlen(text));
}

/* ---- CSV */

void put_csv(FILE *out, const char *text)
{
    if (strpbrk(text, ",\"\r\n") == NULL) {
        fputs(text, out);
        return;
    }
    putc('"', out);
    for (; *text != '\0'; text++) {
        if (*text == '"')
            putc('"', out);
        putc(*text, out);
    }
    putc('"', out);
}
