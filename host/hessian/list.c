#include "list.h"

#include <errno.h>
#include <poll.h>
#include <stdlib.h>
#include <string.h>
#include <sys/types.h>
#include <unistd.h>

#include "interrupt.h"
#include "memory.h"

enum { PART = 1 << 16 };

/* What was read and not yet taken. */
struct list {
    char *text;
    size_t len, room;
};

/* A name of so many bytes, a zero byte after it. */
static void take_name(const struct filter *filter, const struct visitor *v, const char *name, size_t len)
{
    if (strlen(name) == len)
        each_file(name, filter, v);
    else
        v->fail(v->context, name, "a zero byte follows this in its line on standard input; -0 takes such lists");
}

static void take_complete_names(struct list *l, int end, const struct filter *filter, const struct visitor *v)
{
    size_t at = 0;
    char *stop;

    while (!v->stopped(v->context) && (stop = memchr(l->text + at, end, l->len - at)) != NULL) {
        *stop = '\0';
        take_name(filter, v, l->text + at, (size_t)(stop - l->text) - at);
        at = (size_t)(stop - l->text) + 1;
    }
    memmove(l->text, l->text + at, l->len - at);
    l->len -= at;
}

/* Whether a read would not have to wait. */
static bool ready(void)
{
    struct pollfd input = {STDIN_FILENO, POLLIN, 0};

    return poll(&input, 1, 0) == 1;
}

/* The bytes read; 0 at the end, -1 where it fails. */
static ssize_t read_part(struct list *l, const struct visitor *v)
{
    ssize_t n;

    l->text = grown(l->text, &l->room, l->len + PART + 1, 1);
    do {
        if (!ready())
            v->wait(v->context);
        if (v->stopped(v->context) || !wait_for_input(STDIN_FILENO))
            return 0;
        n = read(STDIN_FILENO, l->text + l->len, PART);
    } while (n < 0 && (errno == EINTR || errno == EAGAIN));
    return n;
}

static void each_listed(int end, const struct filter *filter, const struct visitor *v)
{
    struct list l = {NULL, 0, 0};
    ssize_t n;

    while (!v->stopped(v->context) && (n = read_part(&l, v)) != 0) {
        if (n < 0) {
            v->fail(v->context, "-", "the names on standard input cannot be read");
            break;
        }
        l.len += (size_t)n;
        take_complete_names(&l, end, filter, v);
    }
    if (l.len > 0 && !v->stopped(v->context)) {
        l.text[l.len] = '\0';
        take_name(filter, v, l.text, l.len);
    }
    free(l.text);
}

void each_named(char *const *names, int end, const struct filter *filter, const struct visitor *v)
{
    for (; *names != NULL && !v->stopped(v->context); names++)
        if (strcmp(*names, "-") == 0)
            each_listed(end, filter, v);
        else
            each_file(*names, filter, v);
}
