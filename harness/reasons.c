/* reasons [SEED [COUNT]]: makes COUNT small texts at random, most of which race or have a chain of activations that is too long, and compares Why with the
 * reference, and its answer with that of Check. Shows the first difference and ends with 1 if there is one. */
#include <stdio.h>
#include <stdlib.h>
#include <string.h>

#include "../include/isps.h"
#include "../reference/reference.h"
#include "generate.h"
#include "lent.h"

enum { ROOM = ISPS_LONGEST_TEXT, MOST_BODIES = 24, MOST_CARRIERS = 5, DEEPEST = 3 };

static char text[ROOM];
static size_t len;
static unsigned bodies, carriers;
static bool only_later; /* whether a body activates only those declared behind it */
static unsigned differences, by_kind[3], by_writers[4], by_bodies[18];

static void add(const char *format, unsigned number)
{
    len += (size_t)snprintf(text + len, sizeof text - len, format, number);
}

static void add_access(void)
{
    if (chance(20))
        add("K[C%u]", below(carriers));
    else {
        const char *format = chance(20) ? "M%u" : "C%u";
        add(format, below(carriers));
    }
}

static void add_action(unsigned body, unsigned depth);

static void add_block(unsigned body, unsigned depth)
{
    add("BEGIN ", 0);
    for (unsigned more = 1 + below(3); more > 0; more--) {
        add_action(body, depth);
        if (more > 1)
            add(chance(50) ? "; " : " NEXT ", 0);
    }
    add(" END", 0);
}

static void add_activation(unsigned body)
{
    unsigned first = only_later ? body + 1 : 0;
    unsigned range = only_later && chance(80) ? 1 : bodies - first;
    if (first < bodies)
        add("P%u()", first + below(range));
    else
        add("NO.OP()", 0);
}

static void add_action(unsigned body, unsigned depth)
{
    switch (depth == 0 ? below(3) : below(7)) {
    case 0: case 6: add_activation(body); break;
    case 1: add_access(); add(" = %u", below(4)); break;
    case 2: add_access(); add(" = ", 0); add_access(); break;
    case 3: add("IF ", 0); add_access(); add(" => ", 0); add_action(body, depth - 1); break;
    case 4: add("DECODE C0 => BEGIN ", 0); add_action(body, depth - 1); add(", ", 0); add_action(body, depth - 1); add(" END", 0); break;
    default: add_block(body, depth - 1);
    }
}

static void make_text(void)
{
    bodies = 1 + below(chance(50) ? 4 : MOST_BODIES);
    carriers = 1 + below(MOST_CARRIERS);
    only_later = chance(60);
    len = 0;
    add("N := BEGIN K[0:3]<3:0>, ", 0);
    for (unsigned i = 0; i < carriers; i++) {
        add("C%u<3:0>, ", i);
        add("M%u<1:0> := ", i);
        add("C%u<2:1>, ", i);
    }
    for (unsigned i = 0; i < bodies; i++) {
        add(i + 1 == bodies ? "MAIN P%u := " : "P%u := ", i);
        add_block(i, DEEPEST);
        add(i + 1 == bodies ? " END" : ", ", 0);
    }
}

static void print_numbers(const char *who, const uint32_t *numbers, unsigned count)
{
    printf("%s:", who);
    for (unsigned i = 0; i < count; i++)
        printf(" %u", numbers[i]);
    printf("\n");
}

static void compare(void)
{
    uint32_t checked[8], wanted[24], wanted_answer[8], reason[24], answer[8];
    const char *check_broken, *broken;
    reference_why((const uint8_t *)text, len, wanted, wanted_answer);
    lent_check((const uint8_t *)text, len, checked, &check_broken);
    lent_why((const uint8_t *)text, len, reason, answer, &broken);
    by_kind[wanted[ISPS_REASON]]++;
    by_writers[wanted[ISPS_REASON] == ISPS_RACING ? wanted[ISPS_WRITERS] : 0]++;
    by_bodies[wanted[ISPS_REASON] == ISPS_CHAINED ? wanted[ISPS_BODIES] : 0]++;
    bool agree = memcmp(wanted_answer, answer, sizeof answer) == 0 && memcmp(checked, answer, sizeof answer) == 0
                 && memcmp(wanted, reason, sizeof reason) == 0;
    if ((agree && broken == NULL) || differences++ > 0)
        return;
    printf("FIRST DIFFERENCE%s%s\n", broken != NULL ? ": " : "", broken != NULL ? broken : "");
    print_numbers("answer of the reference", wanted_answer, 8);
    print_numbers("answer of Check", checked, 8);
    print_numbers("answer", answer, 8);
    print_numbers("reason of the reference", wanted, 24);
    print_numbers("reason", reason, 24);
    printf("%s\n", text);
}

int main(int count, char **arguments)
{
    unsigned long seed = count > 1 ? strtoul(arguments[1], NULL, 10) : 1;
    unsigned long texts = count > 2 ? strtoul(arguments[2], NULL, 10) : 10000;
    for (unsigned long i = 0; i < texts; i++) {
        set_seed(seed * 1000003 + i);
        make_text();
        compare();
    }
    printf("no more to say %u, races %u, chains %u\n", by_kind[ISPS_NO_REASON], by_kind[ISPS_RACING], by_kind[ISPS_CHAINED]);
    print_numbers("races, by who writes (the earlier, the later, both)", by_writers + 1, 3);
    print_numbers("chains, by the bodies listed (from 1 to 17)", by_bodies + 1, 17);
    printf("%lu texts, %u differences\n", texts, differences);
    return differences == 0 ? 0 : 1;
}
