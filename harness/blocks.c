#include "blocks.h"

void mend_check(uint8_t block[BLOCK_SIZE])
{
    uint32_t check = 0;
    for (uint32_t i = 0; i < BLOCK_CHECK; i++)
        check += block[i] * (i + 1);
    for (uint32_t i = 0; i < 4; i++)
        block[BLOCK_CHECK + i] = (uint8_t)(check >> 8 * i);
}
