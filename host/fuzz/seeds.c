/*
 * Seeds for libFuzzer from records: each as it is, as a source and rows for the writer, and as an entry of a holdings
 * file to which it is added.
 *
 *     fuzz_seeds FOLDER RECORD...
 */
#include <stdio.h>
#include <stdlib.h>
#include <string.h>

#include "../hessian/record.h"
#include "holdings.h"
#include "packed.h"

enum { MOST = 60000 };

static bool write_seed(const char *folder, const char *name, const char *ending, const uint8_t *data, size_t size)
{
    const char *base = strrchr(name, '/');
    char path[4096];
    FILE *file;
    bool good;

    snprintf(path, sizeof path, "%s/%s%s", folder, base == NULL ? name : base + 1, ending);
    file = fopen(path, "wb");
    good = file != NULL && fwrite(data, 1, size, file) == size;
    if (file == NULL || fclose(file) != 0 || !good) {
        fprintf(stderr, "fuzz_seeds: cannot write %s\n", path);
        return false;
    }
    return true;
}

/* What a record comes to beside itself. */
static bool write_more(const char *folder, const char *name, const struct record *r)
{
    static uint8_t packed[MOST], entries[MOST], records[MOST];
    struct held h = {HELD_TIDY, entries, put_entry(entries, 0, MOST, r->shortest, r->shortest_len), records, 0};

    h.records_len = put_entry(records, 0, MOST, r->message, r->len);
    h.records_len = put_entry(records, h.records_len, MOST, (const uint8_t *)"\x90", 1);
    return write_seed(folder, name, ".rows", packed, pack(r->message, r->len, r->table, r->rows, packed, MOST)) &&
           write_seed(folder, name, ".entries", packed, pack_held(&h, packed, MOST));
}

int main(int argc, char **argv)
{
    struct record r;
    int i;

    if (argc < 3 || !new_record(&r)) {
        fputs("usage: fuzz_seeds FOLDER RECORD...\n", stderr);
        return 2;
    }
    for (i = 2; i < argc; i++) {
        const char *why = load_file(&r, argv[i]);

        if (why != NULL) {
            fprintf(stderr, "fuzz_seeds: cannot read %s: %s\n", argv[i], why);
            return 2;
        }
        rewrite(&r);
        if (!write_seed(argv[1], argv[i], "", r.message, r.len))
            return 2;
        if (r.number == 0 && !write_more(argv[1], argv[i], &r))
            return 2;
    }
    free_record(&r);
    return 0;
}
