#include "support.h"

#include <stdio.h>
#include <stdlib.h>
#include <string.h>

enum { GUARD = 64 };

void give_up(const char *why, const char *about)
{
    fprintf(stderr, "%s: %s %.60s\n", check_name, why, about);
    exit(2);
}

void *allocate(size_t size)
{
    void *p = malloc(size > 0 ? size : 1);

    if (p == NULL)
        give_up("no memory", "");
    return p;
}

/* ---- answers */

unsigned number_of(uint64_t answer)
{
    return (unsigned)(answer >> 48);
}

size_t count_of(uint64_t answer)
{
    return (size_t)(answer >> 24 & 0xffffff);
}

size_t place_of(uint64_t answer)
{
    return (size_t)(answer & 0xffffff);
}

/* ---- lent bytes */

static uint8_t guard_byte(size_t i)
{
    return (uint8_t)(0xa5 ^ i);
}

static size_t block_size(const struct lent *l)
{
    return l->before + l->len + GUARD;
}

struct lent new_lent(size_t len, size_t shift, uint8_t (*fill)(size_t i))
{
    struct lent l = {NULL, GUARD + shift, len, fill};
    size_t i;

    l.block = allocate(block_size(&l));
    for (i = 0; i < l.before; i++)
        l.block[i] = guard_byte(i);
    for (i = 0; i < len; i++)
        l.block[l.before + i] = fill(i);
    for (i = l.before + len; i < block_size(&l); i++)
        l.block[i] = guard_byte(i);
    return l;
}

uint8_t *lent_bytes(const struct lent *l)
{
    return l->block + l->before;
}

bool kept(const struct lent *l, size_t stored)
{
    size_t i;

    for (i = 0; i < l->before; i++)
        if (l->block[i] != guard_byte(i))
            return false;
    for (i = stored; i < l->len; i++)
        if (l->block[l->before + i] != l->fill(i))
            return false;
    for (i = l->before + l->len; i < block_size(l); i++)
        if (l->block[i] != guard_byte(i))
            return false;
    return true;
}

bool alike(const struct lent *l, const struct lent *m)
{
    return block_size(l) == block_size(m) && memcmp(l->block, m->block, block_size(l)) == 0;
}

/* ---- files of cases */

char *read_file(const char *name)
{
    FILE *file = fopen(name, "rb");
    char *text = NULL;
    size_t len = 0, room = 0;

    if (file == NULL)
        give_up("cannot open", name);
    do {
        if (len + 1 >= room) {
            char *more = allocate(room = 2 * room + 65536);

            if (text != NULL)
                memcpy(more, text, len);
            free(text);
            text = more;
        }
        len += fread(text + len, 1, room - 1 - len, file);
    } while (!feof(file) && !ferror(file));
    fclose(file);
    text[len] = '\0';
    return text;
}

char *next_line(char **rest)
{
    char *line = *rest, *end;

    if (*line == '\0')
        return NULL;
    end = strchr(line, '\n');
    if (end != NULL) {
        *end = '\0';
        *rest = end + 1;
    } else {
        *rest = line + strlen(line);
    }
    return line;
}

static int digit(char c)
{
    if (c >= '0' && c <= '9')
        return c - '0';
    if (c >= 'a' && c <= 'f')
        return c - 'a' + 10;
    return -1;
}

bool decimal(const char **text, uint64_t most, uint64_t *value)
{
    const char *p = *text;

    for (*value = 0; *p >= '0' && *p <= '9'; p++) {
        unsigned figure = (unsigned)(*p - '0');

        if (*value > (most - figure) / 10)
            return false;
        *value = *value * 10 + figure;
    }
    if (p == *text)
        return false;
    *text = p;
    return true;
}

bool groups(const char **text, uint8_t *bytes, size_t *len)
{
    const char *p = *text;

    *len = 0;
    while (*p != '\0' && !(p[0] == ' ' && p[1] == ';')) {
        size_t start = *len, width, i;
        uint64_t times = 1;

        if (*p++ != ' ')
            return false;
        for (; digit(p[0]) >= 0; p += 2) {
            if (digit(p[1]) < 0 || *len == MOST_MESSAGE)
                return false;
            bytes[(*len)++] = (uint8_t)(digit(p[0]) * 16 + digit(p[1]));
        }
        width = *len - start;
        if (*p == '*') {
            p++;
            if (!decimal(&p, MOST_MESSAGE, &times))
                return false;
        }
        if (width == 0 || times == 0 || width * times > MOST_MESSAGE - start)
            return false;
        for (i = width; i < width * times; i++)
            bytes[start + i] = bytes[start + i - width];
        *len = start + width * times;
    }
    *text = p;
    return true;
}

void each_message(const char *name, void (*use)(const uint8_t *message, size_t len))
{
    char *text = read_file(name), *rest = text, *line;
    uint8_t *message = allocate(MOST_MESSAGE);
    size_t len;

    while ((line = next_line(&rest)) != NULL) {
        const char *end = line;
        uint64_t lent;

        if (!decimal(&end, UINT64_MAX, &lent) || !groups(&end, message, &len) || *end != '\0')
            give_up("no case:", line);
        use(message, len);
    }
    free(text);
    free(message);
}
