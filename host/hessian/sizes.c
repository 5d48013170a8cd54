#include "sizes.h"

#include <inttypes.h>
#include <stdio.h>

void print_size(const char *what, int64_t bytes)
{
    static const char units[] = "KMGTPE";
    double n = (double)bytes / 1024;
    unsigned unit = 0;

    printf("%s: %" PRId64, what, bytes);
    for (; n >= 1023.95 || n <= -1023.95; n /= 1024)
        unit++;
    if (bytes >= 1024 || bytes <= -1024)
        printf(" (%.1f %ciB)", n, units[unit]);
    putchar('\n');
}
