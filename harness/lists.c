#include "lists.h"

#include <stdbool.h>
#include <string.h>

#include "generate.h"

static uint8_t *entry_of(List *list, size_t number)
{
    return list->bytes + ISPS_ENTRY_SIZE * number;
}

_Static_assert(sizeof(isps_entry) == ISPS_ENTRY_SIZE, "an entry has no gaps");

void set_entry(List *list, size_t number, uint32_t place, uint32_t word, uint64_t value)
{
    isps_entry entry = {place, word, value};
    memcpy(entry_of(list, number), &entry, sizeof entry);
}

void append_entry(List *list, uint32_t place, uint32_t word, uint64_t value)
{
    list->len += ISPS_ENTRY_SIZE;
    set_entry(list, list->len / ISPS_ENTRY_SIZE - 1, place, word, value);
}

static unsigned count_of(const List *list)
{
    return (unsigned)(list->len / ISPS_ENTRY_SIZE);
}

static void drop_entry(List *list, unsigned number)
{
    memmove(entry_of(list, number), entry_of(list, number + 1), ISPS_ENTRY_SIZE * (size_t)(count_of(list) - number - 1));
    list->len -= ISPS_ENTRY_SIZE;
}

static void insert_entry(List *list, unsigned number, const uint8_t entry[ISPS_ENTRY_SIZE])
{
    if (list->len + ISPS_ENTRY_SIZE > sizeof list->bytes)
        return;
    memmove(entry_of(list, number + 1), entry_of(list, number), ISPS_ENTRY_SIZE * (size_t)(count_of(list) - number));
    memcpy(entry_of(list, number), entry, ISPS_ENTRY_SIZE);
    list->len += ISPS_ENTRY_SIZE;
}

static void swap_entries(List *list, unsigned one, unsigned other)
{
    uint8_t kept[ISPS_ENTRY_SIZE];
    memcpy(kept, entry_of(list, one), ISPS_ENTRY_SIZE);
    memmove(entry_of(list, one), entry_of(list, other), ISPS_ENTRY_SIZE);
    memcpy(entry_of(list, other), kept, ISPS_ENTRY_SIZE);
}

/* One of its three numbers: that of another entry, a bit of it, mostly a low one, or anything. */
static void change_entry(List *list, unsigned number)
{
    static const struct {
        unsigned at, size;
    } parts[] = {{0, 4}, {4, 4}, {8, 8}};
    unsigned part = below(3), at = parts[part].at, size = parts[part].size;
    uint8_t *bytes = entry_of(list, number) + at;
    if (chance(40))
        memmove(bytes, entry_of(list, below(count_of(list))) + at, size);
    else if (chance(80)) {
        unsigned byte = chance(80) ? 0 : below(size);
        bytes[byte] ^= (uint8_t)(1u << (chance(60) ? below(3) : below(8)));
    } else {
        uint64_t bits = random_bits();
        memcpy(bytes, &bits, size);
    }
}

/* Near by, where the entries that may stand in either order are. */
static unsigned number_near(const List *list, unsigned number)
{
    unsigned count = count_of(list), near = number + below(3);
    return chance(70) && near < count ? near : below(count);
}

void damage_list(List *list)
{
    uint8_t kept[ISPS_ENTRY_SIZE];
    if (chance(2)) {
        list->len += list->len < sizeof list->bytes - ISPS_ENTRY_SIZE ? 1 + below(ISPS_ENTRY_SIZE) : 0;
        return;
    }
    if (count_of(list) == 0) {
        unsigned place = below(300), word = below(4), value = below(4);
        append_entry(list, place, word, value);
        return;
    }
    unsigned number = below(count_of(list)), other = number_near(list, number);
    memcpy(kept, entry_of(list, number), sizeof kept);
    switch (below(7)) {
    case 0: case 1: change_entry(list, number); break;
    case 2: swap_entries(list, number, other); break;
    case 3: drop_entry(list, number); break;
    case 4: insert_entry(list, other, kept); break;
    case 5:
        drop_entry(list, number);
        insert_entry(list, below(count_of(list) + 1), kept);
        break;
    default: list->len = ISPS_ENTRY_SIZE * (size_t)number;
    }
}
