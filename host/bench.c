#ifndef _POSIX_C_SOURCE
#define _POSIX_C_SOURCE 199309L /* clock_gettime */
#endif

#include "bench.h"

#include <stdio.h>
#include <stdlib.h>
#include <string.h>
#include <time.h>

enum {
    CHUNK = 4096,
    ROUNDS = 25
};

static const double ROUND_SECONDS = 0.02;

/* ---- building messages */

uint8_t message[ROOM];
size_t message_len;

static void put(unsigned byte)
{
    if (message_len == ROOM) {
        fprintf(stderr, "%s: an input is too long\n", bench_name);
        exit(2);
    }
    message[message_len++] = (uint8_t)byte;
}

/* The low `size` bytes of a number. */
static void put_number(uint64_t number, unsigned size)
{
    while (size-- > 0)
        put((unsigned)(number >> 8 * size) & 0xff);
}

/* An int in its shortest form. */
static void put_int(int64_t n)
{
    if (n >= -16 && n <= 47) {
        put_number((uint64_t)(0x90 + n), 1);
    } else if (n >= -2048 && n <= 2047) {
        put_number((uint64_t)(0xc800 + n), 2);
    } else if (n >= -262144 && n <= 262143) {
        put_number((uint64_t)(0xd40000 + n), 3);
    } else {
        put(0x49);
        put_number((uint64_t)n, 4);
    }
}

/* A text of plain characters, up to 1,023. */
static void put_text(const char *text)
{
    size_t len = strlen(text);

    if (len > 31)
        put((unsigned)(0x30 + len / 256));
    put((unsigned)(len % 256));
    while (*text != '\0')
        put((uint8_t)*text++);
}

static void put_date(int64_t milliseconds)
{
    put(0x4a);
    put_number((uint64_t)milliseconds, 8);
}

static void put_double(double value)
{
    uint64_t bits;

    memcpy(&bits, &value, sizeof bits);
    put(0x44);
    put_number(bits, 8);
}

static void put_float(float value)
{
    uint32_t bits;

    memcpy(&bits, &value, sizeof bits);
    put(0x5f);
    put_number(bits, 4);
}

/* ---- the inputs */

/* Content in chunks, by the codes of a chunk and of the last one. */
static void put_chunks(size_t len, unsigned part, unsigned last)
{
    size_t i, n;

    for (; len > 0; len -= n) {
        n = len < CHUNK ? len : CHUNK;
        put(len > n ? part : last);
        put_number(n, 2);
        for (i = 0; i < n; i++)
            put((unsigned)(0x20 + i % 95));
    }
}

static void build_text(void)
{
    put_chunks(50000, 0x52, 0x53);
}

static void build_bytes(void)
{
    put_chunks(50000, 0x41, 0x42);
}

/* Signals of three sizes in turn, so that ints of one, two and three bytes occur. */
static void build_ints(void)
{
    static const int64_t steps[] = {0, 3, 200};
    int i;

    put(0x57);
    for (i = 0; i < 50000; i++)
        put_int(i % 32 + steps[i / 1000 % 3] * (i % 1000 - 500));
    put(0x5a);
}

static void build_objects(void)
{
    static const char *const fields[] = {"time", "speed", "gear", "lane", "valid"};
    size_t i;

    put(0x57);
    put(0x43);
    put_text("drive.Sample");
    put_int(5);
    for (i = 0; i < 5; i++)
        put_text(fields[i]);
    for (i = 0; i < 3000; i++) {
        put(0x60);
        put_date(INT64_C(894621091000) + 20 * (int64_t)i);
        put_float(13.5f + (float)(i % 64) / 8);
        put_int((int64_t)(i / 500 % 6));
        put_text(i / 100 % 2 ? "left" : "right");
        put(i % 50 ? 0x54 : 0x46);
    }
    put(0x5a);
}

/* A value of the mixed input, number i, of one of twelve kinds. */
static void put_mixed(unsigned kind, unsigned i)
{
    static const char street[] = "Stra\xc3\x9f" "e 5 \xe2\x82\xac \xf0\x9f\x9a\x97";
    unsigned j;

    switch (kind) {
    case 0:
        put(0x4e);
        break;
    case 1:
        put_int((int64_t)i * 7 - 5000);
        break;
    case 2:
        put(0x4c);
        put_number(UINT64_C(0x100000000) * i, 8);
        break;
    case 3:
        put_double(48.1 + i / 1e4);
        break;
    case 4:
        put_date(INT64_C(894621091000) + i);
        break;
    case 5:
        put_text("the quick brown fox jumps over the lazy dog");
        break;
    case 6: /* 13 units: characters of one to four bytes */
        put(13);
        for (j = 0; street[j] != '\0'; j++)
            put((uint8_t)street[j]);
        break;
    case 7:
        put(0x34);
        put(64);
        for (j = 0; j < 64; j++)
            put((i + j) % 256);
        break;
    case 8: /* a list of type 0 */
        put(0x73);
        put_int(0);
        for (j = 0; j < 3; j++)
            put_float((float)(i + j) / 4);
        break;
    case 9:
        put(0x48);
        put_text("id");
        put_int(i);
        put_text("next");
        put(0x51);
        put_int(i % 2);
        put(0x5a);
        break;
    case 10: /* an object of class 0 */
        put(0x60);
        put_int(i % 40);
        put(0x54);
        break;
    default:
        put(0x58);
        put_int(9);
        for (j = 0; j < 9; j++)
            put_int((int64_t)(i % 9) - j);
    }
}

static void build_mixed(void)
{
    unsigned seed = 1, i;

    put(0x57);
    put(0x43);
    put_text("drive.Mark");
    put_int(2);
    put_text("lane");
    put_text("valid");
    put(0x70);
    put_text("[double");
    for (i = 0; i < 3000; i++) {
        seed = seed * 1103515245u + 12345u;
        put_mixed((seed >> 16) % 12, i);
    }
    put(0x5a);
}

/* The sample of 50,000 plain characters. */
static void build_plain(void)
{
    FILE *sample = fopen(SAMPLE, "rb");
    int byte;

    if (sample == NULL) {
        perror(SAMPLE);
        exit(2);
    }
    while ((byte = getc(sample)) != EOF)
        put((unsigned)byte);
    fclose(sample);
}

/* 3,000 names of so many plain characters, up to 31. */
static void put_names(unsigned len)
{
    unsigned i, j;

    put(0x57);
    for (i = 0; i < 3000; i++) {
        put(len);
        for (j = 0; j < len; j++)
            put('a' + (i + j) % 26);
    }
    put(0x5a);
}

static void build_names_3(void)
{
    put_names(3);
}

static void build_names_8(void)
{
    put_names(8);
}

static void build_names_16(void)
{
    put_names(16);
}

static void build_names_31(void)
{
    put_names(31);
}

/* A text of many sentences, each of so many units, in one chunk each. */
static void put_sentences(const char *sentence, unsigned units, unsigned times)
{
    size_t i;

    for (; times > 0; times--) {
        put(times > 1 ? 0x52 : 0x53);
        put_number(units, 2);
        for (i = 0; sentence[i] != '\0'; i++)
            put((uint8_t)sentence[i]);
    }
}

static void build_german(void)
{
    put_sentences("Die Pr\xc3\xbc" "ffahrt auf der nassen Stra\xc3\x9f" "e endet sp\xc3\xa4t am Abend; der Wagen fuhr "
                  "ohne St\xc3\xb6rung. ", 86, 580);
}

static void build_cjk(void)
{
    put_sentences("\xe8\xa9\xa6\xe9\xa8\x93\xe8\xb5\xb0\xe8\xa1\x8c\xe3\x81\xaf\xe5\xa4\x9c\xe3\x81\xab"
                  "\xe7\xb5\x82\xe3\x82\x8f\xe3\x81\xa3\xe3\x81\x9f\xe3\x80\x82", 12, 4200);
}

static const struct {
    const char *name;
    void (*build)(void);
} inputs[INPUTS] = {
    {"text", build_text},         /* 50,000 plain characters, one text in chunks */
    {"plain", build_plain},       /* the stored sample: as many in one chunk */
    {"names 3", build_names_3},   /* 3,000 short texts */
    {"names 8", build_names_8},
    {"names 16", build_names_16},
    {"names 31", build_names_31},
    {"german", build_german},     /* a text of 50,000 characters, one in 22 of two bytes */
    {"cjk", build_cjk},           /* a text of 50,400 characters of three bytes */
    {"bytes", build_bytes},       /* 50,000 bytes, in chunks */
    {"ints", build_ints},         /* 50,000 ints in an open list */
    {"objects", build_objects},   /* 3,000 objects of one class */
    {"mixed", build_mixed}        /* 3,000 values of all kinds */
};

const char *input_name(size_t number)
{
    return inputs[number].name;
}

void build_input(size_t number)
{
    message_len = 0;
    inputs[number].build();
}

/* ---- timing */

/* Processor time, so that other programs disturb less. */
static double now(void)
{
    struct timespec t;

    clock_gettime(CLOCK_PROCESS_CPUTIME_ID, &t);
    return (double)t.tv_sec + (double)t.tv_nsec * 1e-9;
}

/* The seconds that so many calls take. */
static double time_calls(call *c, long times)
{
    double start = now();
    volatile uint64_t answer;

    for (; times > 0; times--)
        answer = c();
    (void)answer;
    return now() - start;
}

/* So many calls that a round takes long enough. */
static long calls_of_a_round(call *c)
{
    long times = 1;

    while (time_calls(c, times) < ROUND_SECONDS)
        times *= 2;
    return times;
}

void measure(call *const calls[2], double best[2])
{
    long times[2];
    int round, i;

    for (i = 0; i < 2; i++) {
        times[i] = calls_of_a_round(calls[i]);
        best[i] = 1e18;
    }
    for (round = 0; round < ROUNDS; round++)
        for (i = 0; i < 2; i++) {
            double ns = time_calls(calls[i], times[i]) / (double)times[i] * 1e9;

            if (ns < best[i])
                best[i] = ns;
        }
}

uint8_t *allocate_zeros(size_t size)
{
    uint8_t *p = calloc(size, 1);

    if (p == NULL) {
        fprintf(stderr, "%s: no memory\n", bench_name);
        exit(2);
    }
    return p;
}
