/* Blocks of images, for programs that make images of their own. */
#ifndef BLOCKS_H
#define BLOCKS_H

#include <stdint.h>

enum { BLOCK_SIZE = 512, BLOCK_HEAD = 4, BLOCK_PAYLOAD = 504, BLOCK_CHECK = 508 };

/* Gives a block the check of its other bytes. */
void mend_check(uint8_t block[BLOCK_SIZE]);

#endif
