#include "texts.h"

#include <stdbool.h>
#include <stdio.h>
#include <string.h>

/* A resume takes about 40 steps. */
const char typical_text[] =
    "! The resume of a random number module: wake the source, fill the pool, decide from the health counters, serve one request.\n"
    "RNG := BEGIN\n"
    "\n"
    "** REGISTERS **\n"
    "    CONTROL<7:0>,\n"
    "    ENABLED<>       := CONTROL<7>,\n"
    "    MODE<1:0>       := CONTROL<6:5>,\n"
    "    DIVIDER<3:0>    := CONTROL<3:0>,\n"
    "    STATUS<7:0>,\n"
    "    READY<>         := STATUS<0>,\n"
    "    FAILED<>        := STATUS<1>,\n"
    "    COMMAND<7:0>,\n"
    "    OPCODE<2:0>     := COMMAND<7:5>,\n"
    "    OPERAND<4:0>    := COMMAND<4:0>,\n"
    "\n"
    "** POOL **\n"
    "    POOL[0:7]<15:0>,\n"
    "    HEAD<2:0>,\n"
    "    LEVEL<3:0>,\n"
    "    NOISE<15:0>,\n"
    "    OUT<15:0>,\n"
    "\n"
    "** HEALTH **\n"
    "    REPEATS<5:0>,\n"
    "    ONES<9:0>,\n"
    "    LAST<>,\n"
    "\n"
    "** SEQUENCE **\n"
    "    SAMPLE := BEGIN                             ! one turn of the feedback register\n"
    "        NOISE = NOISE<14:0> @ (NOISE<15> XOR NOISE<13> XOR NOISE<12> EQV NOISE<10>)\n"
    "    END,\n"
    "\n"
    "    WATCH := BEGIN                              ! repetition count and proportion of ones\n"
    "        IF NOISE<0> EQL LAST => REPEATS = REPEATS + 1;\n"
    "        IF NOISE<0> => ONES = ONES + 1 NEXT\n"
    "        IF NOISE<0> NEQ LAST => REPEATS = 0 NEXT\n"
    "        LAST = NOISE<0> NEXT\n"
    "        IF (REPEATS GTR 20) OR (ONES GTR 600) => FAILED = 1\n"
    "    END,\n"
    "\n"
    "    PUSH := BEGIN\n"
    "        IF LEVEL LSS 8 => BEGIN\n"
    "            POOL[(HEAD + LEVEL<2:0>) AND '111] = NOISE NEXT\n"
    "            LEVEL = LEVEL + 1\n"
    "        END\n"
    "    END,\n"
    "\n"
    "    SERVE := BEGIN\n"
    "        DECODE OPCODE => BEGIN\n"
    "            0         := NO.OP(),\n"
    "            '001      := BEGIN OUT = POOL[HEAD] NEXT HEAD = HEAD + 1; LEVEL = LEVEL - 1 END,\n"
    "            ['010, 3] := BEGIN MODE = OPERAND<1:0>; OUT = 0 END,\n"
    "            '10?      := DIVIDER = OPERAND<3:0>,\n"
    "            OTHERWISE := BEGIN FAILED = 1 NEXT LEAVE SERVE END\n"
    "        END NEXT\n"
    "        READY = LEVEL GTR 0\n"
    "    END,\n"
    "\n"
    "    MAIN RESUME := BEGIN\n"
    "        CONTROL = \"A4; NOISE = \"1D0F; LEVEL = 0; COMMAND = '00100000 NEXT\n"
    "        FILL := REPEAT BEGIN\n"
    "            SAMPLE() NEXT\n"
    "            WATCH() NEXT\n"
    "            IF FAILED => LEAVE RESUME NEXT\n"
    "            PUSH() NEXT\n"
    "            IF LEVEL GEQ 2 => LEAVE FILL\n"
    "        END NEXT\n"
    "        SERVE()\n"
    "    END\n"
    "END\n";

/* ---- Writing texts up to the limits ---- */

enum { MOST_TOKENS = 8192 };

static uint8_t *bytes;
static size_t used;
static unsigned tokens;

static void add(const char *piece, unsigned token_count)
{
    size_t size = strlen(piece);
    if (used + size <= ISPS_LONGEST_TEXT) {
        memcpy(bytes + used, piece, size);
        used += size;
        tokens += token_count;
    }
}

static void add_times(unsigned count, const char *piece, unsigned token_count)
{
    for (unsigned i = 0; i < count; i++)
        add(piece, token_count);
}

/* Adds a piece with a number in it. */
static void add_with(const char *format, unsigned number, unsigned token_count)
{
    char piece[128];
    snprintf(piece, sizeof piece, format, number);
    add(piece, token_count);
}

static bool has_room(unsigned more_tokens, size_t more_bytes)
{
    return tokens + more_tokens <= MOST_TOKENS && used + more_bytes <= ISPS_LONGEST_TEXT;
}

enum { RESERVE = 40 }; /* tokens and bytes that are kept for the end of a text */

static bool has_room_to_go_on(void)
{
    return has_room(RESERVE, 3 * RESERVE);
}

static void start(void)
{
    add("N:=BEGIN A<3:0>,B<3:0>,M[0:3]<3:0>,MAIN P:=BEGIN ", 32);
}

static void finish(void)
{
    add("NO.OP() END END", 5);
}

static void add_until_full(const char *piece, unsigned token_count)
{
    while (has_room_to_go_on())
        add(piece, token_count);
}

/* ---- Prefixes ---- */

static void repeats(void)
{
    start();
    add_until_full("REPEAT ", 1);
    finish();
}

static void nots(void)
{
    start();
    add("A=", 2);
    add_until_full("NOT ", 1);
    add("A END END", 3);
}

static void ifs(void)
{
    start();
    add_until_full("IF A=>", 3);
    finish();
}

static void true_ifs(void)
{
    start();
    add_until_full("IF 1=>", 3);
    finish();
}

static void labels_in_a_row(void)
{
    start();
    for (unsigned i = 0; has_room_to_go_on(); i++)
        add_with("L%x:=", i, 2);
    finish();
}

static void labelled_repeats(void)
{
    start();
    for (unsigned i = 0; has_room_to_go_on(); i++)
        add_with("L%x:=REPEAT ", i, 3);
    finish();
}

/* ---- Nesting ---- */

enum { NESTED = 30 }; /* besides the two BEGIN of the description and its body */

static void nested_blocks(void)
{
    start();
    while (has_room(3 * NESTED, 12 * NESTED)) {
        add_times(NESTED, "BEGIN ", 1);
        add("A=A ", 3);
        add_times(NESTED, "END ", 1);
        add("NEXT ", 1);
    }
    finish();
}

static void nested_rounds(void)
{
    start();
    while (has_room(3 * NESTED, 5 * NESTED)) {
        add("A=", 2);
        add_times(NESTED, "(", 1);
        add("A", 1);
        add_times(NESTED, ")", 1);
        add(" NEXT ", 1);
    }
    finish();
}

static void nested_operators(void)
{
    start();
    while (has_room(5 * NESTED, 9 * NESTED)) {
        add("A=", 2);
        add_times(NESTED, "A EQL(", 3);
        add("A", 1);
        add_times(NESTED, ")", 1);
        add(" NEXT ", 1);
    }
    finish();
}

static void nested_subscripts(void)
{
    start();
    while (has_room(4 * NESTED, 6 * NESTED)) {
        add("A=", 2);
        add_times(NESTED, "M[", 2);
        add("0", 1);
        add_times(NESTED, "]", 1);
        add(" NEXT ", 1);
    }
    finish();
}

static void operators_in_a_row(void)
{
    start();
    add("A=A ", 3);
    add_until_full("EQL A ", 2);
    add("END END", 2);
}

static void rounds_in_a_row(void)
{
    start();
    add("A=(A)", 5);
    add_until_full("EQL(A)", 4);
    add(" END END", 2);
}

static void nested_groups(void)
{
    start();
    while (has_room(8 * NESTED, 24 * NESTED)) {
        add_times(NESTED, "BEGIN A=A;", 5);
        add("A=A ", 3);
        add_times(NESTED, "END ", 1);
        add("NEXT ", 1);
    }
    finish();
}

static void nested_quiet_groups(void)
{
    start();
    while (has_room(8 * NESTED, 24 * NESTED)) {
        add_times(NESTED - 1, "BEGIN NO.OP();", 5);
        add("NO.OP() ", 3);
        add_times(NESTED - 1, "END ", 1);
        add("NEXT ", 1);
    }
    finish();
}

static void wide_group(void)
{
    start();
    add_until_full("NO.OP();", 4);
    finish();
}

/* ---- Activations ---- */

enum { CHAIN = 16 };

static void chain_of_bodies(void)
{
    add("N:=BEGIN A<>,P0:=BEGIN NO.OP() END,", 14);
    for (unsigned i = 1; i < CHAIN; i++) {
        add(i == CHAIN - 1 ? "MAIN " : "", i == CHAIN - 1);
        add_with("P%u:=BEGIN ", i, 3);
        for (unsigned j = 0; j < 100; j++)
            add_with("P%u() NEXT ", i - 1, 4);
        add(i == CHAIN - 1 ? "NO.OP() END END" : "NO.OP() END,", 5);
    }
}

static void wide_activations(void)
{
    add("N:=BEGIN A<>,", 7);
    for (unsigned i = 0; i < 240; i++) {
        add(i == 239 ? "MAIN " : "", i == 239);
        add_with("P%u:=BEGIN ", i, 3);
        for (unsigned j = 0; j < 6 && i >= CHAIN; j++)
            add_with("P%u();", i / CHAIN * CHAIN - CHAIN + (i + j) % CHAIN, 4);
        add(i == 239 ? "NO.OP() END END" : "NO.OP() END,", 5);
    }
}

/* ---- Names ---- */

static void long_names(void)
{
    add("N:=BEGIN ", 3);
    for (unsigned i = 0; i < 255; i++)
        add_with("HEALTH.COUNTER.OF.THE.SOURCE.%03u<>,", i, 4);
    add("MAIN P:=BEGIN ", 4);
    while (has_room(RESERVE, 300))
        add_with("HEALTH.COUNTER.OF.THE.SOURCE.%03u=HEALTH.COUNTER.OF.THE.SOURCE.254 NEXT ", 254, 4);
    finish();
}

static void short_names(void)
{
    add("N:=BEGIN ", 3);
    for (unsigned i = 0; i < 255; i++)
        add_with("X%02x<>,", i, 4);
    add("MAIN P:=BEGIN ", 4);
    add_until_full("XFE=XFE NEXT ", 4);
    finish();
}

/* As many names as may be declared, of the greatest length and alike but for their last letters, each of them used in turn. */
static void all_names_used(void)
{
    add("N:=BEGIN ", 3);
    for (unsigned i = 0; i < 255; i++)
        add_with("HEALTH.COUNTER.OF.THE.SOURCE.%03u<>,", i, 4);
    add("MAIN P:=BEGIN ", 4);
    for (unsigned i = 0; has_room(RESERVE, 300); i++) {
        add_with("HEALTH.COUNTER.OF.THE.SOURCE.%03u=", i % 255, 2);
        add_with("HEALTH.COUNTER.OF.THE.SOURCE.%03u NEXT ", (i + 128) % 255, 2);
    }
    finish();
}

static void one_name(void)
{
    start();
    add("A=A", 3);
    add_until_full(" OR A", 2);
    add(" END END", 2);
}

/* The head that the library's search for a word starts from: 33 times the number so far and a letter, of which 256 numbers are told apart. */
static unsigned head_of(const char *word)
{
    unsigned head = 0;
    for (; *word != '\0'; word++)
        head = (head * 33 + (unsigned char)*word) % 256;
    return head;
}

/* Labels that all start from one head. */
static void labels_with_one_head(void)
{
    char label[16];
    start();
    for (unsigned i = 0; has_room_to_go_on(); i++) {
        snprintf(label, sizeof label, "L%X", i);
        if (head_of(label) == 0) {
            add(label, 1);
            add(":=", 1);
        }
    }
    finish();
}

static void mappings(void)
{
    add("N:=BEGIN ", 3);
    for (unsigned i = 0; i < 127; i++)
        add_with("X%02x<1:0>,", i, 7);
    for (unsigned i = 0; i < 128; i++)
        add_with("Y%02x<0>:=X7E<1>,", i, 10);
    add("MAIN P:=BEGIN ", 4);
    add_until_full("Y7F=Y7F NEXT ", 4);
    finish();
}

static void joined_destinations(void)
{
    add("N:=BEGIN ", 3);
    for (unsigned i = 0; i < 64; i++)
        add_with("X%02x<>,", i, 4);
    add("MAIN P:=BEGIN ", 4);
    while (has_room(200, 400)) {
        for (unsigned i = 0; i < 63; i++)
            add_with("X%02x@", i, 2);
        add("X3F=0 NEXT ", 4);
    }
    finish();
}

static void labels_side_by_side(void)
{
    start();
    for (unsigned i = 0; has_room_to_go_on(); i++)
        add_with("L%x:=NO.OP() NEXT ", i, 6);
    finish();
}

static void long_labels(void)
{
    start();
    while (has_room(RESERVE, 3 * RESERVE))
        add_with("LABEL.OF.A.STEP.OF.THE.SEQ.%05u:=", tokens, 2);
    finish();
}

/* Labels up to half of all tokens. */
static void labels_to_the_half(unsigned first)
{
    for (unsigned i = first; tokens < MOST_TOKENS / 2; i++)
        add_with("L%x:=", i, 2);
}

/* A block of LEAVEs below them, and the ends around it. */
static void leaves(const char *leave, unsigned count)
{
    add("BEGIN ", 1);
    add_until_full(leave, count);
    add("NO.OP() END END END", 6);
}

static void leaves_below_labels(void)
{
    start();
    labels_to_the_half(0);
    leaves("LEAVE L0 NEXT ", 3);
}

static void leaves_in_a_member(void)
{
    start();
    add("NO.OP();", 4);
    labels_to_the_half(0);
    leaves("LEAVE L0 NEXT ", 3);
}

/* Each of them is reached. */
static void leaves_behind_tests(void)
{
    start();
    labels_to_the_half(0);
    leaves("IF A=>LEAVE L0 NEXT ", 6);
}

/* The label that they leave is around the member: each is a fault, and the first counts. */
static void leaves_out_of_a_member(void)
{
    start();
    add("L0:=BEGIN NO.OP();", 7);
    labels_to_the_half(1);
    leaves("LEAVE L0 NEXT ", 3);
    add(" END", 1);
}

/* ---- Selectors ---- */

enum { ALTERNATIVES = 64 };

static void start_choice(void)
{
    add("N:=BEGIN A<15:0>,MAIN P:=BEGIN DECODE A=>BEGIN ", 18);
}

/* As many alternatives as are allowed, each with as many items as have room; an item is written from its number. */
static void choice(const char *item_format, unsigned item_tokens, unsigned items, const char *last_item)
{
    start_choice();
    for (unsigned i = 0; i < ALTERNATIVES; i++) {
        add(i == 0 ? "[" : ",[", i == 0 ? 1 : 2);
        for (unsigned j = 0; j < items; j++) {
            add(j == 0 ? "" : ",", j != 0);
            if (i == ALTERNATIVES - 1 && j == items - 1 && last_item != NULL)
                add(last_item, 1);
            else
                add_with(item_format, i * items + j, item_tokens);
        }
        add("]:=NO.OP()", 5);
    }
    add(" END END END", 3);
}

static void singles(void)
{
    choice("\"%x", 1, 60, NULL);
}

static void overlapping_singles(void)
{
    choice("\"%x", 1, 60, "0");
}

static void ranges(void)
{
    start_choice();
    for (unsigned i = 0; i < ALTERNATIVES; i++) {
        add(i == 0 ? "[" : ",[", i == 0 ? 1 : 2);
        for (unsigned j = 0; j < 28; j++) {
            unsigned low = (i * 28 + j) * 8;
            add(j == 0 ? "" : ",", j != 0);
            add_with("\"%x:", low, 2);
            add_with("\"%x", low + 5, 1);
        }
        add("]:=NO.OP()", 5);
    }
    add(" END END END", 3);
}

/* Binary constants whose open digits lie above a closed one against ranges that they just miss. */
static void open_digits_against_ranges(void)
{
    start_choice();
    for (unsigned i = 0; i < ALTERNATIVES; i++) {
        add(i == 0 ? "[" : ",[", i == 0 ? 1 : 2);
        for (unsigned j = 0; j < 28; j++) {
            unsigned number = i * 28 + j;
            add(j == 0 ? "" : ",", j != 0);
            if (i < ALTERNATIVES / 2) {
                add_with("\"?%03x", number * 2 + 1, 1);
            } else {
                add_with("\"%x:", number * 16 + 8192, 2);
                add_with("\"%x", number * 16 + 8192, 1);
            }
        }
        add("]:=NO.OP()", 5);
    }
    add(" END END END", 3);
}

/* ---- Little to read ---- */

static void comment(void)
{
    add(typical_text, 0);
    add("!", 0);
    while (used < ISPS_LONGEST_TEXT)
        add("c", 0);
}

static void blank(void)
{
    add(typical_text, 0);
    while (used < ISPS_LONGEST_TEXT)
        add(" ", 0);
}

static void marks_only(void)
{
    while (tokens < MOST_TOKENS)
        add(";", 1);
}

typedef struct {
    const char *name;
    void (*build)(void);
} Hard;

static const Hard hard[] = {
    {"REPEATs in a row", repeats},
    {"NOTs in a row", nots},
    {"IFs in a row", ifs},
    {"IFs in a row that act", true_ifs},
    {"labels in a row", labels_in_a_row},
    {"labelled REPEATs in a row", labelled_repeats},
    {"BEGIN nested 32 deep", nested_blocks},
    {"( nested 32 deep", nested_rounds},
    {"operators nested 32 deep", nested_operators},
    {"[ nested 32 deep", nested_subscripts},
    {"operators in a row", operators_in_a_row},
    {"( ) with operators in a row", rounds_in_a_row},
    {"groups of two nested, racing", nested_groups},
    {"groups of two nested", nested_quiet_groups},
    {"one wide group", wide_group},
    {"16 bodies, 100 activations each", chain_of_bodies},
    {"240 bodies, 6 activations each", wide_activations},
    {"long names", long_names},
    {"255 long names, each in turn", all_names_used},
    {"one name", one_name},
    {"short names", short_names},
    {"mappings", mappings},
    {"joined destinations", joined_destinations},
    {"labels side by side", labels_side_by_side},
    {"long labels", long_labels},
    {"labels that start from one head", labels_with_one_head},
    {"LEAVEs below many labels", leaves_below_labels},
    {"LEAVEs in a member", leaves_in_a_member},
    {"LEAVEs behind tests", leaves_behind_tests},
    {"LEAVEs out of a member", leaves_out_of_a_member},
    {"64 lists of constants", singles},
    {"64 lists, the last item overlaps", overlapping_singles},
    {"64 lists of ranges", ranges},
    {"64 lists, open digits and ranges", open_digits_against_ranges},
    {"a long comment", comment},
    {"many blanks", blank},
    {"8,192 semicolons", marks_only},
};

static const Hard largest[] = {
    {"255 long names, each in turn", all_names_used},
    {"labels in a row", labels_in_a_row},
    {"240 bodies, 6 activations each", wide_activations},
};

/* Builds the text of this number in a list. */
static const char *text_of(const Hard *list, size_t count, unsigned number, uint8_t text[ISPS_LONGEST_TEXT], size_t *len)
{
    if (number >= count)
        return NULL;
    bytes = text;
    used = tokens = 0;
    list[number].build();
    *len = used;
    return list[number].name;
}

const char *hard_text(unsigned number, uint8_t text[ISPS_LONGEST_TEXT], size_t *len)
{
    return text_of(hard, sizeof hard / sizeof hard[0], number, text, len);
}

const char *largest_text(unsigned number, uint8_t text[ISPS_LONGEST_TEXT], size_t *len)
{
    return text_of(largest, sizeof largest / sizeof largest[0], number, text, len);
}

static bool is_in_name(uint8_t byte)
{
    return (byte >= 'A' && byte <= 'Z') || (byte >= 'a' && byte <= 'z') || (byte >= '0' && byte <= '9') || byte == '.';
}

Word name_of_main(const uint8_t *text, size_t len)
{
    static const char keyword[] = "MAIN ";
    size_t at = 0, size = strlen(keyword);
    while (at + size < len && memcmp(text + at, keyword, size) != 0)
        at++;
    while (at + size < len && is_in_name(text[at + size]))
        size++;
    return at + size < len ? (Word){text + at + strlen(keyword), size - strlen(keyword)} : (Word){NULL, 0};
}

Word name_of_carrier(const uint8_t *text, size_t len)
{
    size_t end = 0, size = 0;
    while (end < len && text[end] != '<')
        end++;
    while (size < end && is_in_name(text[end - size - 1]))
        size++;
    return (Word){text + end - size, size};
}
