#include "refused.h"

#include <stdio.h>
#include <string.h>

#include "texts.h"

static uint8_t *bytes;
static size_t used;

/* Adds a piece, which may have a number in it. */
static void add(const char *format, unsigned number)
{
    char piece[128];
    size_t size = (size_t)snprintf(piece, sizeof piece, format, number);
    memcpy(bytes + used, piece, size);
    used += size;
}

static void add_times(unsigned count, const char *format)
{
    for (unsigned i = 0; i < count; i++)
        add(format, i);
}

/* ---- Races ---- */

/* The last group of the typical text gets a second member. */
static void typical_race(void)
{
    static const char last_group[] = "        SERVE()\n    END\n";
    used = (size_t)(strstr(typical_text, last_group) - typical_text);
    memcpy(bytes, typical_text, used);
    add("        SERVE(); LEVEL = 0\n    END\nEND\n", 0);
}

enum { WIDE = 2000 }; /* members of a wide group */

static void race_of_ends(void)
{
    add("N:=BEGIN A<3:0>,MAIN P:=BEGIN A=1;", 0);
    add_times(WIDE, "NO.OP();");
    add("A=2 END END", 0);
}

static void race_of_last_two(void)
{
    add("N:=BEGIN A<3:0>,MAIN P:=BEGIN ", 0);
    add_times(WIDE, "NO.OP();");
    add("A=1;A=2 END END", 0);
}

/* All members but the last two activate the same body, which only reads. */
static void race_behind_activations(void)
{
    add("N:=BEGIN A<3:0>,B<3:0>,M<1:0>:=B<1:0>,R:=BEGIN IF M=>NO.OP() END,MAIN P:=BEGIN ", 0);
    add_times(WIDE, "R();");
    add("A=1;A=2 END END", 0);
}

/* Groups of two in a row, of which only the last races. */
static void race_of_the_last_group(void)
{
    add("N:=BEGIN A<3:0>,B<3:0>,MAIN P:=BEGIN ", 0);
    add_times(WIDE / 2, "A=1;B=2 NEXT ");
    add("A=B;B=A END END", 0);
}

/* Declared last, and the only one of 250 that is shared. */
static void race_on_the_last_carrier(void)
{
    add("N:=BEGIN ", 0);
    add_times(250, "A%u<3:0>,");
    add("B<3:0>,MAIN P:=BEGIN B=0", 0);
    add_times(250, "+A%u AND 15");
    add(";B=1", 0);
    add_times(250, "+A%u AND 15");
    add(" END END", 0);
}

/* ---- Chains ---- */

enum { BODIES = 250 };

/* Each activates the next one. */
static void chain_of_all(void)
{
    add("N:=BEGIN ", 0);
    for (unsigned i = 1; i < BODIES; i++) {
        add("P%u:=BEGIN ", i - 1);
        add("P%u() END,", i);
    }
    add("MAIN P%u:=BEGIN NO.OP() END END", BODIES - 1);
}

/* The same the other way round, so that the last one declared is the first to begin a chain that is too long. */
static void chain_from_the_last(void)
{
    add("N:=BEGIN P0:=BEGIN NO.OP() END,", 0);
    for (unsigned i = 1; i <= 16; i++) {
        add(i == 16 ? "MAIN P%u:=BEGIN " : "P%u:=BEGIN ", i);
        for (unsigned j = 0; j < 100; j++)
            add("P%u();", i - 1);
        add(i == 16 ? "NO.OP() END END" : "NO.OP() END,", 0);
    }
}

/* A body that activates itself behind all others. */
static void closing_at_the_end(void)
{
    add("N:=BEGIN ", 0);
    add_times(BODIES, "P%u:=BEGIN NO.OP() END,");
    add("MAIN P:=BEGIN ", 0);
    for (unsigned i = 0; i < 1500; i++)
        add("P%u();", i % BODIES);
    add("P() END END", 0);
}

/* A ring of all bodies, each of which first activates many that lead nowhere. */
static void ring_of_all(void)
{
    add("N:=BEGIN NOWHERE:=BEGIN NO.OP() END,", 0);
    for (unsigned i = 0; i < 100; i++) {
        add(i == 0 ? "MAIN P%u:=BEGIN " : "P%u:=BEGIN ", i);
        add_times(15, "NOWHERE();");
        add(i == 99 ? "P%u() END END" : "P%u() END,", (i + 1) % 100);
    }
}

const char *refused_text(unsigned number, uint8_t text[ISPS_LONGEST_TEXT], size_t *len)
{
    static const struct {
        const char *name;
        void (*build)(void);
    } all[] = {
        {"53, typical", typical_race},
        {"53, the ends of a wide group", race_of_ends},
        {"53, the last two of a wide group", race_of_last_two},
        {"53, behind 2,000 activations", race_behind_activations},
        {"53, the last of 1,000 groups", race_of_the_last_group},
        {"53, on the last of 251 carriers", race_on_the_last_carrier},
        {"51, 250 bodies in a row", chain_of_all},
        {"51, from the last body on", chain_from_the_last},
        {"51, a body that activates itself", closing_at_the_end},
        {"51, a ring of 100 bodies", ring_of_all},
    };
    if (number >= sizeof all / sizeof all[0])
        return NULL;
    bytes = text;
    used = 0;
    all[number].build();
    *len = used;
    return all[number].name;
}
