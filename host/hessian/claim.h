/*
 * A file that several programs may want to replace at once, each by what it makes of the one that is there: who has the
 * claim to it is alone with it, and reads and replaces it.
 *
 * The claim is an empty file in the same folder, .NAME.hessian-new, that its owner keeps locked, fills and gives the
 * name. Whoever finds it there tries to lock it too, and waits as long as its owner lives. An owner that was killed
 * leaves a claim that no one has locked: who comes next removes it. So a claim is owned by who has the lock of the file
 * that has this name, which is looked at once more when the lock is there.
 */
#ifndef CLAIM_H
#define CLAIM_H

#include <stddef.h>
#include <stdint.h>
#include <sys/types.h>

struct claim {
    char *path;     /* of the file itself, where its name is a link */
    char *beside;   /* of the claim */
    int descriptor; /* of the claim while it is owned; else -1 */
};

/*
 * Which file is meant. NULL, or why it cannot be replaced: it is no regular file, may not be written, or is a link that
 * leads nowhere. One that is not there is meant to be made.
 */
const char *name_claim(struct claim *c, const char *name);

void free_claim(struct claim *c);

/* Waits for the claim; `waits` is called once, where that takes longer. NULL, or why there is none; told_to_end too. */
const char *take_claim(struct claim *c, void (*waits)(const char *path));

/* Makes these bytes the content of the file, as replace_file does, and gives the claim up. NULL, or why not. */
const char *replace_claimed(struct claim *c, const uint8_t *bytes, size_t len);

/* Gives the claim up; the file is as it was. */
void drop_claim(struct claim *c);

#endif
