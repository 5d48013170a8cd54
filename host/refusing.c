/* A writer that refuses everything, which the library's cannot: for check_copies. */
#include <stddef.h>
#include <stdint.h>

#include "hessian.h"

uint64_t refusing_write(const uint8_t *source, size_t source_len, const uint8_t *table, size_t table_len, uint64_t rows,
                        uint8_t *output, size_t output_len);

uint64_t refusing_write(const uint8_t *source, size_t source_len, const uint8_t *table, size_t table_len, uint64_t rows,
                        uint8_t *output, size_t output_len)
{
    (void)source, (void)source_len, (void)table, (void)table_len, (void)rows, (void)output, (void)output_len;
    return (uint64_t)HESSIAN_NO_RECORD << 48;
}
