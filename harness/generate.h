/* Texts made at random: mostly descriptions that are accepted, the others with a fault of some kind built in or damaged afterwards. */
#ifndef GENERATE_H
#define GENERATE_H

#include <stdbool.h>
#include <stddef.h>
#include <stdint.h>

enum { GENERATED_ROOM = 65536, GENERATED_WORDS = 16384 };

typedef struct {
    uint8_t bytes[GENERATED_ROOM];
    size_t len;
    uint8_t word_lengths[GENERATED_WORDS]; /* in bits, as long as nothing was damaged */
    unsigned word_count;
} Generated;

void set_seed(uint64_t seed);
uint64_t random_bits(void);
unsigned below(unsigned bound);  /* 0 to bound - 1 */
bool chance(unsigned in_hundred);

void generate(Generated *text);

/* A description of few steps whose members mostly store, without a fault built in, so that a search over all orders comes to its end. */
void generate_small(Generated *text);

/* Names that the text made last declares, as long as nothing was damaged: of some body, of some storage carrier, of anything. */
const char *name_of_body(void);
const char *name_of_storage(void);
const char *name_of_anything(void);

#endif
