/* The target of libFuzzer: what differs is a crash, and so kept. */
#include <stdlib.h>

#include "compare.h"

int LLVMFuzzerTestOneInput(const uint8_t *data, size_t size);

int LLVMFuzzerTestOneInput(const uint8_t *data, size_t size)
{
    if (!compare(data, size))
        abort();
    return 0;
}
