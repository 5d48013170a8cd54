/* JSON, written as it comes: commas stand where they are due. */
#ifndef JSON_H
#define JSON_H

#include <stdbool.h>
#include <stddef.h>
#include <stdint.h>
#include <stdio.h>

struct json {
    FILE *out;
    bool begun; /* something stands before in the innermost object or array */
};

/* A comma, where something stands before. To be called before each element of an array. */
void json_next(struct json *j);

/* The key of the next value. */
void json_key(struct json *j, const char *key);

/* An object or array, by its brackets. */
void json_open(struct json *j, char bracket);
void json_close(struct json *j, char bracket);

/* A key and its value: a number, one that may be below 0, true or false, a text. */
void json_number(struct json *j, const char *key, uint64_t n);
void json_signed(struct json *j, const char *key, int64_t n);
void json_truth(struct json *j, const char *key, bool truth);
void json_text(struct json *j, const char *key, const char *text);

#endif
