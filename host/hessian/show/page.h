/* A record as indented lines. */
#ifndef PAGE_H
#define PAGE_H

#include "input.h"
#include "manner.h"
#include "view.h"

/* The page of a record that was accepted. */
void put_page(FILE *out, const struct input *in, const struct manner *how, const struct view *v);

/* Why one was refused, with the bytes around the place. */
void put_refused_page(FILE *out, const struct input *in, const struct manner *how);

#endif
