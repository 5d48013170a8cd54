/* A record as a JSON document, which is one line. */
#ifndef DOCUMENT_H
#define DOCUMENT_H

#include "input.h"
#include "manner.h"
#include "view.h"

/* The document of a record that was accepted. */
void put_document(FILE *out, const struct input *in, const struct manner *how, const struct view *v);

/* That of one that was refused. */
void put_refused_document(FILE *out, const struct input *in, const struct manner *how);

#endif
