/* Texts that are refused with 53 and 51, for which Why has more to say than Check: a typical one, and those for which it takes longest to find. */
#ifndef REFUSED_H
#define REFUSED_H

#include <stddef.h>
#include <stdint.h>

#include "../include/isps.h"

/* Writes the text of this number, counted from 0, and gives its name, or NULL if there is none. */
const char *refused_text(unsigned number, uint8_t text[ISPS_LONGEST_TEXT], size_t *len);

#endif
