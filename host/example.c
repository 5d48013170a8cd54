/* Reads the message 57 90 91 5a and prints its rows, a line for each. */
#include <inttypes.h>
#include <stdio.h>

#include "hessian.h"

int main(void)
{
    const uint8_t message[] = {0x57, 0x90, 0x91, 0x5a};
    uint8_t table[10 * HESSIAN_ROW_SIZE];
    uint64_t answer = hessian_read(message, sizeof message, table, sizeof table), number = 0;

    if (HESSIAN_NUMBER(answer) != HESSIAN_ACCEPTED)
        return 1;
    for (size_t i = 0; i < HESSIAN_COUNT(answer) * HESSIAN_ROW_SIZE; i++) {
        number = number << 8 | table[i]; /* after eight bytes the ones before them are gone */
        if (i % 8 == 7)
            printf("%" PRIu64 "%c", number, i % HESSIAN_ROW_SIZE == HESSIAN_ROW_SIZE - 1 ? '\n' : ' ');
    }
    return 0;
}
