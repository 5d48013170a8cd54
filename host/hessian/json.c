#include "json.h"

#include <inttypes.h>

#include "quote.h"

void json_next(struct json *j)
{
    if (j->begun)
        putc(',', j->out);
    j->begun = true;
}

void json_key(struct json *j, const char *key)
{
    json_next(j);
    fprintf(j->out, "\"%s\":", key);
}

void json_open(struct json *j, char bracket)
{
    putc(bracket, j->out);
    j->begun = false;
}

void json_close(struct json *j, char bracket)
{
    putc(bracket, j->out);
    j->begun = true;
}

void json_number(struct json *j, const char *key, uint64_t n)
{
    json_key(j, key);
    fprintf(j->out, "%" PRIu64, n);
}

void json_signed(struct json *j, const char *key, int64_t n)
{
    json_key(j, key);
    fprintf(j->out, "%" PRId64, n);
}

void json_truth(struct json *j, const char *key, bool truth)
{
    json_key(j, key);
    fputs(truth ? "true" : "false", j->out);
}

void json_text(struct json *j, const char *key, const char *text)
{
    json_key(j, key);
    put_json(j->out, text);
}
