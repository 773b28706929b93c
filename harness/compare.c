/* compare [SEED [COUNT [ORDERS]]]: makes COUNT texts, carriers and budgets at random and compares the library with the reference: all numbers of
 * all calls, reasons, carriers and work memory. What ends Done or Stopped is also run in ORDERS orders of single steps, each of which must agree; what
 * faults or pauses must not end Done or Stopped in any of them. Profiles are asked for PROFILES pairs of names for each text and must also agree with a search
 * over all paths; where that is given up, it may not have found a transfer that is lower. The carriers are stored and, from an image that is sound or damaged,
 * loaded. Where a text has a bound, a run with that budget and ORDERS orders of it are not Paused. Traces are asked for LISTS lists for each text: the stores of orders, as
 * they are or damaged; they must also agree with a search over all orders, and where that is given up, it may not have found an order that makes more of the list.
 * compare SEED COUNT trace, compare SEED COUNT profile: only that call, on small texts. Shows the first difference and ends with 1 if there is one. */
#include <stdio.h>
#include <stdlib.h>
#include <string.h>

#include "../include/isps.h"
#include "../reference/reference.h"
#include "blocks.h"
#include "generate.h"
#include "lent.h"
#include "lists.h"

enum { MOST_WORDS = 4096, ROOM = 8 * MOST_WORDS + 16, PROFILES = 4, MOST_SPOTS = 20000, LONGEST_ASKED = 40, IMAGE_ROOM = 68 * BLOCK_SIZE,
       LISTS = 4, MOST_EFFORT = 20000 };

typedef struct {
    uint8_t bytes[LONGEST_ASKED + 1];
    size_t len;
} Asked; /* a name to ask for */

static Generated text;
static uint8_t start[ROOM], expected[ROOM], got[ROOM];
static uint8_t image[IMAGE_ROOM], expected_image[IMAGE_ROOM], got_image[IMAGE_ROOM];
static size_t carriers_len, image_len;
static uint32_t budget;
static Asked test, output;
static List list;
static unsigned differences, orders_run, paths_searched, searches_given_up, bounds_by_ending[6], runs_in_bound;
static unsigned races_by_writers[4], chains_by_count[18]; /* 0: no race, no chain */
static unsigned checks_by_number[100], runs_by_number[100], runs_by_ending[5], profiles_by_number[100], stores_by_number[100], loads_by_number[100];
static unsigned traces_by_number[120], traces_so, traces_not_so, traces_too_short, traces_unended, orders_searched, order_searches_given_up;

static void print_numbers(const char *who, const uint32_t *numbers, int count)
{
    printf("%s:", who);
    for (int i = 0; i < count; i++)
        printf(" %u", numbers[i]);
    printf("\n");
}

static void print_bytes(const char *what, const uint8_t *bytes, size_t len)
{
    printf("%s:", what);
    for (size_t i = 0; i < len; i++)
        printf("%s%02x", i % 8 == 0 ? " " : "", bytes[i]);
    printf("\n");
}

static void differ(const char *what, const uint32_t wanted[8], const uint32_t answer[8])
{
    if (differences++ > 0)
        return;
    printf("FIRST DIFFERENCE: %s, budget %u, %u bytes of carriers\n", what, budget, (unsigned)carriers_len);
    print_numbers("reference", wanted, 8);
    print_numbers("got", answer, 8);
    print_bytes("carriers at the start", start, carriers_len);
    print_bytes("image at the start", image, image_len);
    print_bytes("name of the test", test.bytes, test.len);
    print_bytes("name of the output", output.bytes, output.len);
    print_bytes("list of stores", list.bytes, list.len);
    printf("text of %u bytes:\n", (unsigned)text.len);
    fwrite(text.bytes, 1, text.len, stdout);
    printf("\n");
}

static void differ_in_reason(const uint32_t wanted[24], const uint32_t reason[24], const uint32_t answer[8])
{
    if (differences == 0) {
        print_numbers("reason of the reference", wanted, 24);
        print_numbers("reason", reason, 24);
    }
    differ("reasons", answer, answer);
}

static uint32_t some_budget(void)
{
    unsigned pick = below(10);
    return pick == 0 ? 0 : pick < 3 ? below(12) : pick < 8 ? below(400) : pick < 9 ? 5000 : 20000;
}

/* Mostly lawful: the lengths are those of the generator where it still knows them, else one bit. */
static void make_carriers(unsigned words)
{
    bool lengths_known = words == text.word_count, all_zero = chance(25);
    carriers_len = 8 * (size_t)words;
    memset(start, 0, sizeof start);
    for (unsigned i = 0; i < words && !all_zero; i++) {
        unsigned length = lengths_known ? text.word_lengths[i] : 1;
        uint64_t value = random_bits() >> (64 - length);
        for (int byte = 0; byte < 8; byte++)
            start[8 * (size_t)i + (size_t)byte] = (uint8_t)(value >> 8 * byte);
    }
    if (words > 0 && chance(5))
        for (unsigned bits = 1 + below(3); bits > 0; bits--) {
            unsigned at = below(8 * words);
            start[at] |= (uint8_t)(1u << below(8));
        }
    if (chance(3))
        carriers_len += 1 + below(8);
    else if (carriers_len > 0 && chance(3))
        carriers_len -= 1 + below(8);
}

static void compare_check(uint32_t wanted[8])
{
    uint32_t answer[8];
    const char *broken;
    reference_check(text.bytes, text.len, wanted);
    lent_check(text.bytes, text.len, answer, &broken);
    checks_by_number[wanted[ISPS_NUMBER]]++;
    if (memcmp(wanted, answer, sizeof answer) != 0)
        differ("answers of Check", wanted, answer);
    else if (broken != NULL)
        differ(broken, wanted, answer);
}

/* The answer is Check's, the reason that of the reference. */
static void compare_why(const uint32_t checked[8])
{
    uint32_t wanted[24], wanted_answer[8], reason[24], answer[8];
    const char *broken;
    reference_why(text.bytes, text.len, wanted, wanted_answer);
    lent_why(text.bytes, text.len, reason, answer, &broken);
    races_by_writers[wanted[ISPS_REASON] == ISPS_RACING ? wanted[ISPS_WRITERS] : 0]++;
    chains_by_count[wanted[ISPS_REASON] == ISPS_CHAINED ? wanted[ISPS_BODIES] : 0]++;
    if (memcmp(checked, answer, sizeof answer) != 0)
        differ("answers of Why", checked, answer);
    else if (memcmp(wanted, reason, sizeof reason) != 0)
        differ_in_reason(wanted, reason, answer);
    else if (broken != NULL)
        differ(broken, checked, answer);
}

static void compare_run(uint32_t wanted[8])
{
    uint32_t answer[8];
    const char *broken;
    memcpy(expected, start, carriers_len);
    memcpy(got, start, carriers_len);
    reference_run(text.bytes, text.len, expected, carriers_len, budget, wanted);
    lent_run(text.bytes, text.len, got, carriers_len, budget, answer, &broken);
    runs_by_number[wanted[ISPS_NUMBER]]++;
    runs_by_ending[wanted[ISPS_ENDING]]++;
    if (memcmp(wanted, answer, sizeof answer) != 0)
        differ("answers of Run", wanted, answer);
    else if (memcmp(expected, got, carriers_len) != 0)
        differ("carriers after Run", wanted, answer);
    else if (broken != NULL)
        differ(broken, wanted, answer);
}

static void compare_order(const uint32_t wanted[8], uint64_t seed)
{
    uint32_t answer[8];
    memcpy(got, start, carriers_len);
    reference_run_order(text.bytes, text.len, got, carriers_len, budget, seed, answer);
    orders_run++;
    bool ends_well = wanted[ISPS_ENDING] == ISPS_DONE || wanted[ISPS_ENDING] == ISPS_STOPPED;
    if (ends_well && memcmp(wanted, answer, sizeof answer) != 0)
        differ("answers of another order", wanted, answer);
    else if (ends_well && memcmp(expected, got, carriers_len) != 0)
        differ("carriers after another order", wanted, answer);
    else if (!ends_well && (answer[ISPS_ENDING] == ISPS_DONE || answer[ISPS_ENDING] == ISPS_STOPPED))
        differ("another order ends well", wanted, answer);
}

static void ask_for(Asked *asked, const char *name)
{
    asked->len = strlen(name) < LONGEST_ASKED ? strlen(name) : LONGEST_ASKED;
    memcpy(asked->bytes, name, asked->len);
}

static void change_case(Asked *asked)
{
    unsigned lower = below(3) * 50;
    for (size_t i = 0; i < asked->len; i++)
        if (asked->bytes[i] >= 'A' && asked->bytes[i] <= 'Z' && chance(lower))
            asked->bytes[i] = (uint8_t)(asked->bytes[i] - 'A' + 'a');
}

/* No longer the name that it was, or hardly ever: one byte more, less or other, or nothing but bytes by chance. */
static void spoil(Asked *asked)
{
    unsigned pick = below(4), at = below((unsigned)asked->len + 1);
    switch (pick) {
    case 0: asked->bytes[asked->len++] = (uint8_t)(chance(50) ? '0' : below(256)); break;
    case 1: asked->len -= asked->len > 0; break;
    case 2: asked->bytes[at] ^= (uint8_t)(1u << below(8)); break;
    default:
        asked->len = below(LONGEST_ASKED + 1);
        for (size_t i = 0; i < asked->len; i++)
            asked->bytes[i] = (uint8_t)below(256);
    }
}

static void make_name(Asked *asked, const char *fitting)
{
    ask_for(asked, chance(94) ? fitting : chance(60) ? name_of_anything() : chance(50) ? "OUTER" : chance(50) ? "L0" : "MAIN");
    change_case(asked);
    if (chance(4))
        spoil(asked);
}

static bool agrees_with_search(const uint32_t wanted[8], const uint32_t found[8], bool is_whole)
{
    bool may_miss = !is_whole && wanted[ISPS_NUMBER] == ISPS_TOO_EARLY;
    if (may_miss && (found[ISPS_NUMBER] == 0 || found[ISPS_PLACE] > wanted[ISPS_PLACE]))
        return true;
    return memcmp(wanted, found, 8 * sizeof *wanted) == 0;
}

static void compare_profile(void)
{
    uint32_t wanted[8], answer[8];
    const char *broken;
    make_name(&test, name_of_body());
    make_name(&output, name_of_storage());
    reference_profile(text.bytes, text.len, test.bytes, test.len, output.bytes, output.len, wanted);
    lent_profile(text.bytes, text.len, test.bytes, test.len, output.bytes, output.len, answer, &broken);
    profiles_by_number[wanted[ISPS_NUMBER]]++;
    if (memcmp(wanted, answer, sizeof answer) != 0)
        differ("answers of Profile", wanted, answer);
    else if (broken != NULL)
        differ(broken, wanted, answer);
    if (wanted[ISPS_NUMBER] != 0 && wanted[ISPS_NUMBER] != ISPS_TOO_EARLY)
        return;
    bool is_whole = reference_profile_search(text.bytes, text.len, test.bytes, test.len, output.bytes, output.len, MOST_SPOTS, answer);
    paths_searched++;
    searches_given_up += !is_whole;
    if (!agrees_with_search(wanted, answer, is_whole))
        differ("the search over all paths", wanted, answer);
}

static void fill_by_chance(uint8_t *bytes, size_t len)
{
    for (size_t i = 0; i < len; i++)
        bytes[i] = (uint8_t)below(256);
}

/* As long as the carriers need, mostly. */
static void choose_image_len(void)
{
    image_len = (carriers_len + BLOCK_PAYLOAD - 1) / BLOCK_PAYLOAD * BLOCK_SIZE;
    if (chance(4))
        image_len += chance(50) ? 1 : BLOCK_SIZE;
    else if (image_len > 0 && chance(4))
        image_len -= chance(50) ? 1 : BLOCK_SIZE;
}

static void compare_store(void)
{
    uint32_t wanted[8], answer[8];
    const char *broken;
    choose_image_len();
    fill_by_chance(image, image_len);
    memcpy(expected_image, image, image_len);
    memcpy(got_image, image, image_len);
    reference_store(text.bytes, text.len, start, carriers_len, expected_image, image_len, wanted);
    lent_store(text.bytes, text.len, start, carriers_len, got_image, image_len, answer, &broken);
    stores_by_number[wanted[ISPS_NUMBER]]++;
    if (memcmp(wanted, answer, sizeof answer) != 0)
        differ("answers of Store", wanted, answer);
    else if (memcmp(expected_image, got_image, image_len) != 0)
        differ("image after Store", wanted, answer);
    else if (broken != NULL)
        differ(broken, wanted, answer);
}

/* Some byte of the block, its head, its payload or the check; what is left of it is mended at times, so that the check does not hide it. */
static void damage_block(uint8_t *block)
{
    unsigned at = chance(40) ? below(BLOCK_HEAD) : below(BLOCK_SIZE);
    block[at] = (uint8_t)(chance(50) ? block[at] ^ 1u << below(8) : below(256));
    if (chance(60))
        mend_check(block);
}

static void damage_image(void)
{
    unsigned blocks = (unsigned)(image_len / BLOCK_SIZE);
    if (blocks == 0 || chance(40))
        return;
    if (blocks > 1 && chance(15)) {
        uint8_t kept[BLOCK_SIZE], *one = image + BLOCK_SIZE * below(blocks), *other = image + BLOCK_SIZE * below(blocks);
        memcpy(kept, one, BLOCK_SIZE);
        memmove(one, other, BLOCK_SIZE);
        memcpy(other, kept, BLOCK_SIZE);
        return;
    }
    for (unsigned count = 1 + below(3); count > 0; count--)
        damage_block(image + BLOCK_SIZE * below(blocks));
}

/* From what the reference stored, if it did, into carriers that hold anything. */
static void compare_load(void)
{
    uint32_t wanted[8], answer[8];
    const char *broken;
    memcpy(image, expected_image, image_len);
    damage_image();
    if (chance(10))
        choose_image_len();
    fill_by_chance(expected, carriers_len);
    memcpy(got, expected, carriers_len);
    reference_load(text.bytes, text.len, image, image_len, expected, carriers_len, wanted);
    lent_load(text.bytes, text.len, image, image_len, got, carriers_len, answer, &broken);
    loads_by_number[wanted[ISPS_NUMBER]]++;
    if (memcmp(wanted, answer, sizeof answer) != 0)
        differ("answers of Load", wanted, answer);
    else if (memcmp(expected, got, carriers_len) != 0)
        differ("carriers after Load", wanted, answer);
    else if (broken != NULL)
        differ(broken, wanted, answer);
}

static void must_not_pause(const char *what, const uint32_t bound[8], const uint32_t answer[8])
{
    runs_in_bound += answer[ISPS_ENDING] != ISPS_REFUSED;
    if (answer[ISPS_ENDING] == ISPS_PAUSED || answer[ISPS_STEPS] > bound[ISPS_STEPS])
        differ(what, bound, answer);
}

static void compare_bound(unsigned long orders)
{
    uint32_t wanted[8], answer[8];
    const char *broken;
    reference_bound(text.bytes, text.len, wanted);
    lent_bound(text.bytes, text.len, answer, &broken);
    bounds_by_ending[wanted[ISPS_ENDING]]++;
    if (memcmp(wanted, answer, sizeof answer) != 0)
        differ("answers of Bound", wanted, answer);
    else if (broken != NULL)
        differ(broken, wanted, answer);
    if (wanted[ISPS_ENDING] != ISPS_DONE)
        return;
    memcpy(got, start, carriers_len);
    lent_run(text.bytes, text.len, got, carriers_len, wanted[ISPS_STEPS], answer, &broken);
    must_not_pause("a run within its bound", wanted, answer);
    for (unsigned long order = 0; order < orders; order++) {
        memcpy(got, start, carriers_len);
        reference_run_order(text.bytes, text.len, got, carriers_len, wanted[ISPS_STEPS], order == 0 ? 0 : random_bits() | 1, answer);
        must_not_pause("an order within its bound", wanted, answer);
    }
}

/* The stores of some order, mostly with few steps besides the budget of the runs, and mostly damaged. */
static void make_list(unsigned number)
{
    list.len = reference_stores(text.bytes, text.len, start, carriers_len, budget, number == 0 ? 0 : random_bits() | 1, list.bytes, sizeof list.bytes);
    for (unsigned damages = number < 2 ? 0 : 1 + (chance(20) ? below(3) : 0); damages > 0; damages--)
        damage_list(&list);
}

static void count_trace(const uint32_t wanted[8])
{
    bool has_ended = wanted[ISPS_ENDING] == ISPS_DONE || wanted[ISPS_ENDING] == ISPS_STOPPED;
    traces_by_number[wanted[ISPS_NUMBER]]++;
    if (has_ended && wanted[ISPS_YES] == 1)
        traces_so++;
    else if (has_ended && wanted[ISPS_FIRST_BAD] == list.len / ISPS_ENTRY_SIZE)
        traces_too_short++;
    else if (has_ended)
        traces_not_so++;
    else if (wanted[ISPS_ENDING] != ISPS_REFUSED)
        traces_unended++;
}

/* A search that is given up has found some orders: none of them makes more of the list than the answer says. */
static bool agrees_with_orders(const uint32_t wanted[8], const uint32_t found[8], bool is_whole)
{
    if (!is_whole && found[ISPS_YES] == 0 && (wanted[ISPS_YES] == 1 || found[ISPS_FIRST_BAD] <= wanted[ISPS_FIRST_BAD]))
        return true;
    return memcmp(wanted, found, 8 * sizeof *wanted) == 0;
}

static void compare_trace(unsigned number)
{
    uint32_t wanted[8], answer[8];
    const char *broken;
    make_list(number);
    reference_trace(text.bytes, text.len, start, carriers_len, budget, list.bytes, list.len, wanted);
    lent_trace(text.bytes, text.len, start, carriers_len, budget, list.bytes, list.len, answer, &broken);
    count_trace(wanted);
    if (memcmp(wanted, answer, sizeof answer) != 0)
        differ("answers of Trace", wanted, answer);
    else if (broken != NULL)
        differ(broken, wanted, answer);
    if (wanted[ISPS_ENDING] == ISPS_REFUSED)
        return;
    bool is_whole = reference_trace_search(text.bytes, text.len, start, carriers_len, budget, list.bytes, list.len, MOST_EFFORT, answer);
    orders_searched++;
    order_searches_given_up += !is_whole;
    if (!agrees_with_orders(wanted, answer, is_whole))
        differ("the search over all orders", wanted, answer);
}

static void print_counts(const char *what, const unsigned *counts, unsigned size)
{
    printf("%s:", what);
    for (unsigned i = 0; i < size; i++)
        if (counts[i] != 0)
            printf(" %u (%u)", i, counts[i]);
    printf("\n");
}

static void compare_profiles(void)
{
    for (unsigned pair = 0; pair < PROFILES; pair++)
        compare_profile();
}

static void compare_traces(void)
{
    for (unsigned number = 0; number < LISTS; number++)
        compare_trace(number);
}

static void compare_all(unsigned long orders)
{
    uint32_t wanted[8];
    generate(&text);
    compare_check(wanted);
    compare_why(wanted);
    make_carriers(wanted[ISPS_WORDS]);
    budget = some_budget();
    compare_run(wanted);
    for (unsigned long order = 0; order < orders && wanted[ISPS_ENDING] != ISPS_REFUSED; order++)
        compare_order(wanted, order == 0 ? 0 : random_bits() | 1);
    compare_profiles();
    compare_store();
    compare_load();
    compare_bound(orders);
    compare_traces();
}

/* Mostly with steps enough. */
static void compare_small(void (*compare)(void))
{
    uint32_t checked[8];
    generate_small(&text);
    reference_check(text.bytes, text.len, checked);
    make_carriers(checked[ISPS_WORDS]);
    budget = chance(10) ? some_budget() : 60;
    compare();
}

static void print_profiles(void)
{
    print_counts("Profile, by number", profiles_by_number, 100);
    printf("Profile, searched: %u, of which given up %u\n", paths_searched, searches_given_up);
}

static void print_traces(void)
{
    print_counts("Trace, by number", traces_by_number, 120);
    printf("Trace: so %u, not so %u, too short %u, not ended %u; searched %u, of which given up %u\n", traces_so, traces_not_so, traces_too_short, traces_unended,
           orders_searched, order_searches_given_up);
}

static void print_all(void)
{
    print_counts("Check, by number (0 is accepted)", checks_by_number, 100);
    print_counts("Why, races by who writes (1 the earlier, 2 the later, 3 both; 0 is no race)", races_by_writers, 4);
    print_counts("Why, chains by the bodies listed (0 is no chain)", chains_by_count, 18);
    print_counts("Run, by number", runs_by_number, 100);
    printf("Run, by ending: done %u, stopped %u, paused %u, fault %u, refused %u\n", runs_by_ending[ISPS_DONE], runs_by_ending[ISPS_STOPPED],
           runs_by_ending[ISPS_PAUSED], runs_by_ending[ISPS_FAULT], runs_by_ending[ISPS_REFUSED]);
    print_profiles();
    print_counts("Store, by number", stores_by_number, 100);
    print_counts("Load, by number", loads_by_number, 100);
    printf("Bound: some %u, none %u, refused %u; runs and orders with that budget %u\n", bounds_by_ending[ISPS_DONE], bounds_by_ending[ISPS_NO_BOUND],
           bounds_by_ending[ISPS_REFUSED], runs_in_bound);
    print_traces();
}

int main(int count, char **arguments)
{
    unsigned long seed = count > 1 ? strtoul(arguments[1], NULL, 10) : 1;
    unsigned long texts = count > 2 ? strtoul(arguments[2], NULL, 10) : 2000;
    const char *rest = count > 3 ? arguments[3] : "4";
    for (unsigned long i = 0; i < texts; i++) {
        set_seed(seed * 1000003 + i);
        if (strcmp(rest, "trace") == 0)
            compare_small(compare_traces);
        else if (strcmp(rest, "profile") == 0)
            compare_small(compare_profiles);
        else
            compare_all(strtoul(rest, NULL, 10));
    }
    if (strcmp(rest, "trace") == 0)
        print_traces();
    else if (strcmp(rest, "profile") == 0)
        print_profiles();
    else
        print_all();
    printf("%lu texts, %u orders, %u differences\n", texts, orders_run, differences);
    return differences == 0 ? 0 : 1;
}
