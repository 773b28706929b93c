/* A typical description, and texts that are as hard as the limits allow: as deep, as long or as wide as they can be made. */
#ifndef TEXTS_H
#define TEXTS_H

#include <stddef.h>
#include <stdint.h>

#include "../include/isps.h"

extern const char typical_text[];

/* Writes the text of this number, counted from 0, and gives its name, or NULL if there is none. */
const char *hard_text(unsigned number, uint8_t text[ISPS_LONGEST_TEXT], size_t *len);

/* The same of the three that are the largest in names: declared ones, labels, and bodies that are activated. */
const char *largest_text(unsigned number, uint8_t text[ISPS_LONGEST_TEXT], size_t *len);

typedef struct {
    const uint8_t *bytes;
    size_t len;
} Word;

/* Names to ask for in these texts: that behind the first MAIN, and that before the first `<`, which is a carrier's. Empty where there is none. */
Word name_of_main(const uint8_t *text, size_t len);
Word name_of_carrier(const uint8_t *text, size_t len);

#endif
