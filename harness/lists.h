/* Lists of stores, as Trace takes them, and what mistakes make of them. */
#ifndef LISTS_H
#define LISTS_H

#include <stddef.h>
#include <stdint.h>

#include "../include/isps.h"

enum { LIST_ROOM = ISPS_ENTRY_SIZE * (ISPS_MOST_ENTRIES + 2) };

typedef struct {
    uint8_t bytes[LIST_ROOM];
    size_t len;
} List;

void set_entry(List *list, size_t number, uint32_t place, uint32_t word, uint64_t value);
void append_entry(List *list, uint32_t place, uint32_t word, uint64_t value);

/* By chance: an entry is changed, dropped, doubled or put elsewhere, two are swapped, the list is cut, or is not in whole entries. */
void damage_list(List *list);

#endif
