#include "rows.h"

uint64_t get_number(const uint8_t *table, size_t row, enum column which)
{
    const uint8_t *p = table + row * ROW_SIZE + which * NUMBER_SIZE;
    uint64_t n = 0;
    unsigned i;

    for (i = 0; i < NUMBER_SIZE; i++)
        n = n << 8 | p[i];
    return n;
}

void set_number(uint8_t *table, size_t row, enum column which, uint64_t n)
{
    uint8_t *p = table + row * ROW_SIZE + which * NUMBER_SIZE;
    unsigned i;

    for (i = NUMBER_SIZE; i-- > 0; n >>= 8)
        p[i] = (uint8_t)n;
}

bool is_holder(uint64_t kind)
{
    return kind >= HESSIAN_LIST && kind <= HESSIAN_OBJECT;
}

bool is_typed(uint64_t kind)
{
    return kind == HESSIAN_TYPED_LIST || kind == HESSIAN_TYPED_MAP;
}

bool is_map(uint64_t kind)
{
    return kind == HESSIAN_MAP || kind == HESSIAN_TYPED_MAP;
}
