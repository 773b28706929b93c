/* The edges of the calls: lengths off by one, every byte value, each carrier bit, reasons of races and chains, names of every kind, paths past a test,
 * images of every shape, lists of stores of every length and with every number wrong, bounds around the most steps. Prints what fails, and `N passed, M failed`. */
#include <stdbool.h>
#include <stdio.h>
#include <string.h>

#include "../include/isps.h"
#include "blocks.h"
#include "lent.h"
#include "lists.h"

static unsigned passed, failed;
static uint8_t blanks[ISPS_LONGEST_TEXT + 1];
static const char accepted[] = "N := BEGIN A<3:0>, MAIN P := BEGIN A = A + 1 END END";

/* The position of an offset by counting the ends of lines before it. */
static void position_of(const uint8_t *text, uint32_t place, uint32_t *line, uint32_t *column)
{
    *line = *column = 1;
    for (uint32_t i = 0; i < place; i++) {
        *column = text[i] == 10 ? 1 : *column + 1;
        *line += text[i] == 10;
    }
}

static void judge_position(const char *what, unsigned detail, const uint32_t answer[8], uint32_t line, uint32_t column)
{
    if (answer[ISPS_LINE] == line && answer[ISPS_COLUMN] == column) {
        passed++;
        return;
    }
    failed++;
    printf("%s, %u: line %u, column %u; expected %u, %u\n", what, detail, answer[ISPS_LINE], answer[ISPS_COLUMN], line, column);
}

static void judge(const char *what, unsigned detail, const uint32_t answer[8], uint32_t ending, uint32_t number, uint32_t place, uint32_t steps,
                  const char *broken)
{
    if (broken == NULL && answer[ISPS_ENDING] == ending && answer[ISPS_NUMBER] == number && answer[ISPS_PLACE] == place && answer[ISPS_STEPS] == steps) {
        passed++;
        return;
    }
    failed++;
    printf("%s, %u: ending %u, number %u, place %u, steps %u; expected %u, %u, %u, %u%s%s\n", what, detail, answer[ISPS_ENDING], answer[ISPS_NUMBER],
           answer[ISPS_PLACE], answer[ISPS_STEPS], ending, number, place, steps, broken != NULL ? "; " : "", broken != NULL ? broken : "");
}

static const Lengths published = {{ISPS_WORK_SIZE, ISPS_WORK_SIZE, ISPS_WORK_SIZE, ISPS_WORK_SIZE}, ISPS_ANSWER_SIZE};

static uint32_t place_in(const char *text, const char *part)
{
    return (uint32_t)(strstr(text, part) - text);
}

/* A refusal at a place of the text, with its line and column. */
static void judge_refusal(const char *what, unsigned detail, const uint32_t answer[8], const uint8_t *text, uint32_t number, uint32_t place, const char *broken)
{
    uint32_t line, column;
    position_of(text, place, &line, &column);
    judge(what, detail, answer, ISPS_REFUSED, number, place, 0, broken);
    judge_position(what, detail, answer, line, column);
}

/* A refusal at a place in no text: line and column are 1. */
static void judge_elsewhere(const char *what, unsigned detail, const uint32_t answer[8], uint32_t number, uint32_t place, const char *broken)
{
    judge(what, detail, answer, ISPS_REFUSED, number, place, 0, broken);
    judge_position(what, detail, answer, 1, 1);
}

static const uint32_t nothing_more[24];

static void judge_reason(const char *what, unsigned detail, const uint32_t reason[24], const uint32_t expected[24])
{
    if (memcmp(reason, expected, 24 * sizeof *reason) == 0) {
        passed++;
        return;
    }
    failed++;
    printf("%s, %u: reason and what was expected:\n", what, detail);
    for (int i = 0; i < 24; i++)
        printf(" %u", reason[i]);
    printf("\n");
    for (int i = 0; i < 24; i++)
        printf(" %u", expected[i]);
    printf("\n");
}

/* The image of one word that holds 15. */
static void make_image_of_15(uint8_t image[BLOCK_SIZE])
{
    memset(image, 0, BLOCK_SIZE);
    image[1] = 1;
    image[2] = 8;
    image[4] = 15;
    image[BLOCK_CHECK] = 1 * 2 + 8 * 3 + 15 * 5;
}

/* All calls on a text, with lengths of one's own. */
static void all_refuse(const char *what, unsigned detail, const Lengths *lengths, const uint8_t *text, size_t len, uint32_t number, uint32_t place)
{
    uint32_t answer[8], reason[24];
    const char *broken;
    uint8_t carriers[8] = {0}, image[BLOCK_SIZE];
    make_image_of_15(image);
    lent_check_with(lengths, text, len, answer, &broken);
    judge_refusal(what, detail, answer, text, number, place, broken);
    lent_why_with(lengths, ISPS_REASON_SIZE, text, len, reason, answer, &broken);
    judge_refusal(what, detail, answer, text, number, place, broken);
    judge_reason(what, detail, reason, nothing_more);
    lent_run_with(lengths, text, len, carriers, sizeof carriers, 5, answer, &broken);
    judge_refusal(what, detail, answer, text, number, place, broken);
    lent_profile_with(lengths, text, len, (const uint8_t *)"P", 1, (const uint8_t *)"A", 1, answer, &broken);
    judge_refusal(what, detail, answer, text, number, place, broken);
    lent_store_with(lengths, text, len, carriers, sizeof carriers, image, sizeof image, answer, &broken);
    judge_refusal(what, detail, answer, text, number, place, broken);
    lent_load_with(lengths, text, len, image, sizeof image, carriers, sizeof carriers, answer, &broken);
    judge_refusal(what, detail, answer, text, number, place, broken);
    lent_bound_with(lengths, text, len, answer, &broken);
    judge_refusal(what, detail, answer, text, number, place, broken);
    lent_trace_with(lengths, text, len, carriers, sizeof carriers, 5, NULL, 0, answer, &broken);
    judge_refusal(what, detail, answer, text, number, place, broken);
}

static void all_accept(const char *what, unsigned detail, const Lengths *lengths)
{
    uint32_t answer[8], reason[24];
    const char *broken;
    const uint8_t *text = (const uint8_t *)accepted;
    uint8_t carriers[8] = {15}, fifteen[8] = {15}, image[BLOCK_SIZE] = {0}, image_of_15[BLOCK_SIZE];
    make_image_of_15(image_of_15);
    lent_check_with(lengths, text, strlen(accepted), answer, &broken);
    judge(what, detail, answer, ISPS_DONE, 0, 0, 0, broken);
    lent_why_with(lengths, ISPS_REASON_SIZE, text, strlen(accepted), reason, answer, &broken);
    judge(what, detail, answer, ISPS_DONE, 0, 0, 0, broken);
    judge_reason(what, detail, reason, nothing_more);
    lent_run_with(lengths, text, strlen(accepted), carriers, sizeof carriers, 5, answer, &broken);
    judge(what, detail, answer, ISPS_DONE, 0, 0, 1, carriers[0] != 0 ? "wrong carriers" : broken);
    lent_profile_with(lengths, text, strlen(accepted), (const uint8_t *)"P", 1, (const uint8_t *)"A", 1, answer, &broken);
    judge_refusal(what, detail, answer, text, 92, place_in(accepted, "A = A"), broken);
    lent_store_with(lengths, text, strlen(accepted), fifteen, sizeof fifteen, image, sizeof image, answer, &broken);
    judge(what, detail, answer, ISPS_DONE, 0, 0, 0, memcmp(image, image_of_15, BLOCK_SIZE) != 0 ? "wrong image" : broken);
    lent_load_with(lengths, text, strlen(accepted), image, sizeof image, carriers, sizeof carriers, answer, &broken);
    judge(what, detail, answer, ISPS_DONE, 0, 0, 0, memcmp(carriers, fifteen, 8) != 0 ? "wrong carriers" : broken);
    lent_bound_with(lengths, text, strlen(accepted), answer, &broken);
    judge(what, detail, answer, ISPS_DONE, 0, 0, 1, broken);
    lent_trace_with(lengths, text, strlen(accepted), carriers, sizeof carriers, 5, NULL, 0, answer, &broken);
    judge(what, detail, answer, ISPS_DONE, 0, 0, 1, broken);
}

static size_t *length_number(Lengths *lengths, unsigned number)
{
    return number < 3 ? &lengths->work[number] : &lengths->answer;
}

static void try_short_buffers(void)
{
    for (unsigned i = 0; i < 4; i++) {
        Lengths lengths = published;
        *length_number(&lengths, i) -= 1;
        all_refuse("buffer one byte short", i, &lengths, (const uint8_t *)accepted, strlen(accepted), 1, 0);
        all_refuse("buffer one byte short and text too long", i, &lengths, blanks, ISPS_LONGEST_TEXT + 1, 1, 0);
        *length_number(&lengths, i) = 0;
        all_refuse("empty buffer", i, &lengths, (const uint8_t *)accepted, strlen(accepted), 1, 0);
    }
}

static void try_long_buffers(void)
{
    all_accept("published lengths", 0, &published);
    for (unsigned i = 0; i < 4; i++) {
        Lengths lengths = published;
        *length_number(&lengths, i) += 1;
        all_accept("buffer one byte longer", i, &lengths);
        all_refuse("buffer one byte longer, refused text", i, &lengths, blanks, 7, 20, 7);
        *length_number(&lengths, i) = LONGEST_LENT;
        all_accept("much longer buffer", i, &lengths);
    }
}

static void try_lengths_of_text(void)
{
    all_refuse("empty text", 0, &published, blanks, 0, 20, 0);
    all_refuse("longest text", 0, &published, blanks, ISPS_LONGEST_TEXT, 20, ISPS_LONGEST_TEXT);
    all_refuse("text too long", 0, &published, blanks, ISPS_LONGEST_TEXT + 1, 2, 0);
}

/* Texts of blanks are refused at their end: of one line, of empty lines, and with bytes 9 and 13, which end none. */
static void try_lines(void)
{
    static uint8_t lines[ISPS_LONGEST_TEXT];
    static const uint8_t kinds[] = {9, 10, 13, 32};
    for (unsigned kind = 0; kind < 4; kind++) {
        memset(lines, kinds[kind], sizeof lines);
        for (uint32_t len = 0; len < 4; len++)
            all_refuse("few equal blanks", 10 * kinds[kind] + len, &published, lines, len, 20, len);
        all_refuse("as many equal blanks as fit", kinds[kind], &published, lines, sizeof lines, 20, sizeof lines);
        lines[sizeof lines - 1] = 10;
        all_refuse("a line end last", kinds[kind], &published, lines, sizeof lines, 20, sizeof lines);
        lines[sizeof lines - 1] = '$';
        all_refuse("a bad byte last", kinds[kind], &published, lines, sizeof lines, 10, sizeof lines - 1);
        lines[20000] = 10;
        all_refuse("a bad byte last, and a line end before it", kinds[kind], &published, lines, sizeof lines, 10, sizeof lines - 1);
    }
}

static int is_allowed(unsigned byte)
{
    return byte == 9 || byte == 10 || byte == 13 || (byte >= 32 && byte <= 126);
}

/* What a text of this one byte is refused with. */
static void expect_single(unsigned byte, uint32_t *number, uint32_t *place)
{
    int is_letter = (byte >= 'A' && byte <= 'Z') || (byte >= 'a' && byte <= 'z');
    *number = 20;
    *place = 0;
    if (is_letter || byte == 9 || byte == 10 || byte == 13 || byte == 32 || byte == '!')
        *place = 1;
    else if (byte == '\'' || byte == '#' || byte == '"')
        *number = 12;
    else if (!is_allowed(byte) || memchr("$%&/\\^_{|}~`*.?", (int)byte, 15) != NULL)
        *number = 10;
}

/* What a byte between two letters makes of them: one name, two tokens, or nothing that is allowed. */
static void expect_between(unsigned byte, uint32_t *number, uint32_t *place)
{
    expect_single(byte, number, place);
    int is_digit = byte >= '0' && byte <= '9', is_blank = byte == 9 || byte == 10 || byte == 13 || byte == 32;
    if (byte == '"' || byte == '.' || is_digit)
        *number = 20;
    *place = is_blank ? 2 : *place == 1 || byte == '.' || is_digit ? 3 : 1;
}

static void try_every_byte(void)
{
    for (unsigned byte = 0; byte < 256; byte++) {
        uint32_t number, place;
        uint8_t single[1] = {(uint8_t)byte}, comment[2] = {'!', (uint8_t)byte}, between[3] = {'A', (uint8_t)byte, 'B'};
        expect_single(byte, &number, &place);
        all_refuse("text of one byte", byte, &published, single, 1, number, place);
        expect_between(byte, &number, &place);
        all_refuse("byte between two letters", byte, &published, between, 3, number, place);
        all_refuse("byte in a comment", byte, &published, comment, 2, is_allowed(byte) ? 20 : 10, is_allowed(byte) ? 2 : 1);
    }
}

static void run_and_judge(const char *what, unsigned detail, const char *text, const uint8_t *start, size_t len, uint32_t budget, uint32_t ending,
                          uint32_t number, uint32_t place, uint32_t steps)
{
    static uint8_t carriers[LONGEST_LENT];
    uint32_t answer[8];
    const char *broken;
    if (len > 0)
        memcpy(carriers, start, len);
    lent_run(text == NULL ? blanks : (const uint8_t *)text, text == NULL ? 1 : strlen(text), carriers, len, budget, answer, &broken);
    judge(what, detail, answer, ending, number, place, steps, broken);
    if (number == 60 || number == 61)
        judge_position(what, detail, answer, 1, 1);
}

static void try_lengths_of_carriers(void)
{
    uint8_t start[17] = {0};
    start[1] = 1;
    for (unsigned len = 0; len <= 17; len++)
        if (len != 8)
            run_and_judge("wrong length of carriers, and a bit too many", len, accepted, start, len, 5, ISPS_REFUSED, 60, 0, 0);
    run_and_judge("right length of carriers, and a bit too many", 8, accepted, start, 8, 5, ISPS_REFUSED, 61, 0, 0);
    run_and_judge("refused text and wrong length of carriers", 7, NULL, start, 7, 5, ISPS_REFUSED, 20, 1, 0);
    start[1] = 0;
    run_and_judge("budget 0", 0, accepted, start, 8, 0, ISPS_PAUSED, 0, 0, 0);
    run_and_judge("budget 1", 1, accepted, start, 8, 1, ISPS_DONE, 0, 0, 1);
    run_and_judge("largest budget", 2, accepted, start, 8, 4294967295u, ISPS_DONE, 0, 0, 1);
}

/* A carrier of each length from 1 to 64, so that word n holds n + 1 bits. */
static const char *text_of_all_lengths(void)
{
    static char text[2048];
    size_t len = (size_t)snprintf(text, sizeof text, "N := BEGIN ");
    for (unsigned i = 0; i < 64; i++)
        len += (size_t)snprintf(text + len, sizeof text - len, "A%u<%u:0>, ", i, i);
    snprintf(text + len, sizeof text - len, "MAIN P := BEGIN NO.OP() END END");
    return text;
}

static void try_every_carrier_bit(void)
{
    const char *text = text_of_all_lengths();
    uint8_t start[8 * 64] = {0};
    for (unsigned word = 0; word < 64; word++) {
        for (unsigned bit = 0; bit < 64; bit++) {
            uint8_t *byte = &start[8 * word + bit / 8];
            *byte = (uint8_t)(1u << bit % 8);
            if (bit <= word)
                run_and_judge("carrier bit within its length", 64 * word + bit, text, start, sizeof start, 1, ISPS_DONE, 0, 0, 1);
            else
                run_and_judge("carrier bit above its length", 64 * word + bit, text, start, sizeof start, 1, ISPS_REFUSED, 61, 8 * word, 0);
            *byte = 0;
        }
    }
    start[8 * 9 + 7] = start[8 * 40 + 7] = 255;
    run_and_judge("two words with bits too many", 9, text, start, sizeof start, 1, ISPS_REFUSED, 61, 8 * 9, 0);
}

/* ---- Names of a profile ---- */

/* Carriers, a mapping, bodies with and without bits; the name of the test is as long as a name may be. The first transfer to A is too early, that to B is not. */
static const char profiled[] =
    "N := BEGIN\n"
    "** S ** A<3:0>, B<3:0>, M<1:0> := B<1:0>,\n"
    "T.9 := BEGIN L := NO.OP() END, Q<3:0> := BEGIN NO.OP() END,\n"
    "TEST.OF.THE.SOURCE.AT.ITS.WAKING := BEGIN NO.OP() END,\n"
    "MAIN P := BEGIN\n"
    "  A = 1 NEXT\n"
    "  T.9() NEXT\n"
    "  TEST.OF.THE.SOURCE.AT.ITS.WAKING() NEXT\n"
    "  M = A\n"
    "END END";

static void profile_and_judge(const char *what, unsigned detail, const uint8_t *test, size_t test_len, const uint8_t *output, size_t output_len,
                              uint32_t number, uint32_t place)
{
    uint32_t answer[8];
    const char *broken;
    lent_profile((const uint8_t *)profiled, strlen(profiled), test, test_len, output, output_len, answer, &broken);
    if (number == 0)
        judge(what, detail, answer, ISPS_DONE, 0, 0, 0, broken);
    else
        judge_refusal(what, detail, answer, (const uint8_t *)profiled, number, place, broken);
}

static void profile_names(const char *test, const char *output, uint32_t number, uint32_t place)
{
    profile_and_judge("names of a profile", number, (const uint8_t *)test, strlen(test), (const uint8_t *)output, strlen(output), number, place);
}

static void try_sorts_of_names(void)
{
    static const char *const no_bodies[] = {"", "N", "S", "L", "A", "M", "MAIN", "BEGIN", " P", "P ", "P.", "T", "T.", "T.90", "U.9", "P()", "P;"};
    static const char *const no_storage[] = {"", "N", "S", "L", "M", "P", "T.9", "MAIN", "A.", "A<3:0>", "A ", " A", "AA"};
    for (size_t i = 0; i < sizeof no_bodies / sizeof no_bodies[0]; i++) {
        profile_names(no_bodies[i], "B", 90, 0);
        profile_names(no_bodies[i], "NONE", 90, 0);
    }
    for (size_t i = 0; i < sizeof no_storage / sizeof no_storage[0]; i++)
        profile_names("T.9", no_storage[i], 91, 0);
    profile_names("T.9", "A", 92, place_in(profiled, "A = 1"));
    profile_names("T.9", "B", 0, 0);
    profile_names("T.9", "Q", 0, 0);
    profile_names("t.9", "b", 0, 0);
    profile_names("q", "b", 92, place_in(profiled, "M = A"));
    profile_names("P", "B", 92, place_in(profiled, "M = A"));
    profile_names("TEST.OF.THE.SOURCE.AT.ITS.WAKING", "B", 0, 0);
    profile_names("Test.of.the.Source.at.its.waking", "b", 0, 0);
    profile_names("TEST.OF.THE.SOURCE.AT.ITS.WAKIN", "B", 90, 0);
    profile_names("TEST.OF.THE.SOURCE.AT.ITS.WAKING.", "B", 90, 0);
}

/* Each byte value at each position of a name: only the two cases of a letter are the same. */
static void try_bytes_of_names(void)
{
    for (unsigned byte = 0; byte < 256; byte++) {
        for (unsigned i = 0; i < 3; i++) {
            uint8_t test[3] = {'T', '.', '9'};
            bool is_same = byte == test[i] || (i == 0 && byte == 't');
            test[i] = (uint8_t)byte;
            profile_and_judge("byte in a test's name", 256 * i + byte, test, 3, (const uint8_t *)"B", 1, is_same ? 0 : 90, 0);
        }
        uint8_t output[1] = {(uint8_t)byte};
        bool is_early = byte == 'A' || byte == 'a', is_other = byte == 'B' || byte == 'b' || byte == 'Q' || byte == 'q';
        profile_and_judge("byte as an output's name", byte, (const uint8_t *)"T.9", 3, output, 1, is_early ? 92 : is_other ? 0 : 91,
                          is_early ? place_in(profiled, "A = 1") : 0);
    }
}

static void try_lengths_of_names(void)
{
    static uint8_t name[LONGEST_LENT];
    static const unsigned lengths[] = {2, 31, 32, 33, 255, 256, 257, 32768, 65535, 65536, 65537, LONGEST_LENT};
    for (size_t i = 0; i < sizeof lengths / sizeof lengths[0]; i++) {
        memset(name, 'P', lengths[i]);
        profile_and_judge("long test's name", lengths[i], name, lengths[i], (const uint8_t *)"B", 1, 90, 0);
        name[0] = 'B';
        memset(name + 1, 0, lengths[i] - 1);
        profile_and_judge("long output's name", lengths[i], (const uint8_t *)"T.9", 3, name, lengths[i], 91, 0);
    }
}

/* MAIN with this block, behind a test T, bodies that activate it, write A, never end or are left, and TR, which two members may have at the same time. The transfer that is
 * too early begins with the given words; none is where they are NULL. */
static void profile_of_block(const char *test, const char *block, const char *early)
{
    static char text[1024];
    uint32_t answer[8];
    const char *broken;
    snprintf(text, sizeof text,
             "N := BEGIN A<3:0>, B<3:0>, M<1:0> := A<1:0>,\nOPEN := BEGIN A = 7 END, CLOSED := BEGIN REPEAT NO.OP() END, LEFT := BEGIN LEAVE LEFT NEXT CLOSED() END,\n"
             "T := BEGIN NO.OP() NEXT IF B => LEAVE T NEXT B = 1 END, TR := BEGIN NO.OP() END, BOTH := BEGIN T() END,\nMAIN P := %s END",
             block);
    lent_profile((const uint8_t *)text, strlen(text), (const uint8_t *)test, strlen(test), (const uint8_t *)"A", 1, answer, &broken);
    if (early == NULL)
        judge(block, 0, answer, ISPS_DONE, 0, 0, 0, broken);
    else
        judge_refusal(block, 0, answer, (const uint8_t *)text, 92, place_in(text, early), broken);
}

static void try_paths(void)
{
    profile_of_block("T", "BEGIN T() NEXT A = 1 END", NULL);
    profile_of_block("T", "BEGIN B = A NEXT T() NEXT A = 1 NEXT T() END", NULL);
    profile_of_block("T", "BEGIN BOTH() NEXT OPEN() END", NULL);
    profile_of_block("T", "BEGIN IF B => BEGIN T() NEXT A = 1 END END", NULL);
    profile_of_block("T", "BEGIN DECODE B => BEGIN T(), BOTH() END NEXT A = 1 END", NULL);
    profile_of_block("T", "BEGIN DECODE B => BEGIN STOP(), T(), LEAVE P END NEXT A = 1 END", NULL);
    profile_of_block("T", "BEGIN REPEAT BEGIN T() NEXT A = 1 END END", NULL);
    profile_of_block("T", "BEGIN L := REPEAT BEGIN T() NEXT LEAVE L END NEXT A = 1 END", NULL);
    profile_of_block("T", "BEGIN L := REPEAT BEGIN T() NEXT A = 2 NEXT LEAVE L END; BEGIN NO.OP() END END", NULL);
    profile_of_block("T", "BEGIN L := BEGIN IF B => RESTART L NEXT T() END NEXT A = 1 END", NULL);
    profile_of_block("T", "BEGIN REPEAT NO.OP() NEXT A = 1 END", NULL);
    profile_of_block("T", "BEGIN CLOSED() NEXT A = 1 END", NULL);
    profile_of_block("T", "BEGIN RESTART P NEXT A = 1 END", NULL);
    profile_of_block("T", "BEGIN LEAVE P NEXT A = 1 END", NULL);
    profile_of_block("T", "BEGIN STOP() NEXT A = 1 END", NULL);
    profile_of_block("T", "BEGIN T(); NO.OP() NEXT A = 1 END", NULL);
    profile_of_block("T", "BEGIN NO.OP(); BEGIN T() NEXT A = 1 END END", NULL);
    profile_of_block("TR", "BEGIN TR(); BEGIN TR() NEXT A = 1 END END", NULL);
    profile_of_block("T", "BEGIN A = 1 NEXT T() END", "A = 1");
    profile_of_block("T", "BEGIN L := A = 1 NEXT T() END", "A = 1");
    profile_of_block("T", "BEGIN A = 1 NEXT OPEN() NEXT T() END", "A = 7");
    profile_of_block("T", "BEGIN IF B => A = 2 NEXT A = 1 NEXT T() END", "A = 2");
    profile_of_block("T", "BEGIN M<0> = 1 NEXT T() END", "M<0> = 1");
    profile_of_block("T", "BEGIN B @ M = 1 NEXT T() END", "B @ M");
    profile_of_block("T", "BEGIN T(); A = 1 END", "A = 1");
    profile_of_block("T", "BEGIN A = 1; T() END", "A = 1");
    profile_of_block("T", "BEGIN T(); BEGIN NO.OP() NEXT A = 1 END END", "A = 1");
    profile_of_block("T", "BEGIN IF B => T() NEXT A = 1 END", "A = 1");
    profile_of_block("T", "BEGIN DECODE B => BEGIN T(), NO.OP() END NEXT A = 1 END", "A = 1");
    profile_of_block("T", "BEGIN IF B => STOP() NEXT A = 1 END", "A = 1");
    profile_of_block("T", "BEGIN L := BEGIN IF B => LEAVE L NEXT T() END NEXT A = 1 END", "A = 1");
    profile_of_block("T", "BEGIN L := REPEAT BEGIN IF B => LEAVE L NEXT T() END NEXT A = 1 END", "A = 1");
    profile_of_block("T", "BEGIN LEFT() NEXT A = 1 END", "A = 1");
    profile_of_block("OPEN", "BEGIN OPEN() END", "A = 7");
    profile_of_block("OPEN", "BEGIN OPEN() NEXT A = 1 END", "A = 7");
    profile_of_block("CLOSED", "BEGIN CLOSED() NEXT A = 1 END", NULL);
    profile_of_block("P", "BEGIN T() NEXT A = 1 END", "A = 1");
    profile_of_block("BOTH", "BEGIN T() NEXT A = 1 NEXT BOTH() END", "A = 1");
}

static void try_names(void)
{
    uint32_t answer[8];
    const char *broken;
    try_sorts_of_names();
    try_bytes_of_names();
    try_lengths_of_names();
    lent_profile(blanks, 7, NULL, 0, NULL, 0, answer, &broken);
    judge_refusal("refused text and names of nothing", 0, answer, blanks, 20, 7, broken);
}

/* ---- Reasons ---- */

static const char racing[] = "N := BEGIN A<3:0>, MAIN P := BEGIN A = 1; A = 2 END END";

/* Why, with a reason of this length, on a text that has a reason, one that is accepted and one that is too long. */
static void why_with_length(size_t reason_len, const Lengths *lengths, uint32_t number)
{
    uint32_t answer[8], reason[24], of_race[24] = {ISPS_RACING, place_in(racing, "A = 1"), place_in(racing, "A = 2"), 0, place_in(racing, "A<"), 3};
    const char *broken;
    bool is_short = number == ISPS_WORK_TOO_SHORT;
    unsigned detail = (unsigned)reason_len;
    lent_why_with(lengths, reason_len, (const uint8_t *)racing, strlen(racing), reason, answer, &broken);
    judge_refusal("length of the reason", detail, answer, (const uint8_t *)racing, is_short ? 1 : 53, is_short ? 0 : of_race[ISPS_LATER_MEMBER], broken);
    judge_reason("length of the reason", detail, reason, is_short ? nothing_more : of_race);
    lent_why_with(lengths, reason_len, (const uint8_t *)accepted, strlen(accepted), reason, answer, &broken);
    judge("length of the reason, accepted text", detail, answer, is_short ? ISPS_REFUSED : ISPS_DONE, is_short ? 1 : 0, 0, 0, broken);
    lent_why_with(lengths, reason_len, blanks, ISPS_LONGEST_TEXT + 1, reason, answer, &broken);
    judge_refusal("length of the reason, text too long", detail, answer, blanks, is_short ? 1 : 2, 0, broken);
}

static void try_lengths_of_reasons(void)
{
    for (size_t len = 0; len < ISPS_REASON_SIZE; len++)
        why_with_length(len, &published, ISPS_WORK_TOO_SHORT);
    why_with_length(ISPS_REASON_SIZE, &published, 0);
    why_with_length(ISPS_REASON_SIZE + 1, &published, 0);
    why_with_length(LONGEST_LENT, &published, 0);
    for (unsigned i = 0; i < 4; i++) {
        Lengths lengths = published;
        *length_number(&lengths, i) -= 1;
        why_with_length(ISPS_REASON_SIZE, &lengths, ISPS_WORK_TOO_SHORT);
        *length_number(&lengths, i) += 2;
        why_with_length(ISPS_REASON_SIZE + 1, &lengths, 0);
        why_with_length(ISPS_REASON_SIZE - 1, &lengths, ISPS_WORK_TOO_SHORT);
    }
}

/* A text that is refused with 53 or 51, and its reason. */
static void why_and_judge(const char *text, uint32_t number, uint32_t place, const uint32_t expected[24])
{
    uint32_t answer[8], reason[24];
    const char *broken;
    lent_why((const uint8_t *)text, strlen(text), reason, answer, &broken);
    judge_refusal(text, number, answer, (const uint8_t *)text, number, place, broken);
    judge_reason(text, number, reason, expected);
}

/* MAIN with this block, whose first group has the two members, over carriers, a mapping, a body with bits and bodies that read and write. */
static void race_of_block(const char *block, const char *earlier, const char *later, uint32_t number, const char *carrier, uint32_t writers)
{
    static char text[1024];
    snprintf(text, sizeof text,
             "N := BEGIN A<3:0>, M<1:0> := B<1:0>, B<3:0>, K[0:3]<3:0>, F<3:0> := BEGIN F = A END, W := BEGIN B = 1 END, D := BEGIN W() END, MAIN P := %s END",
             block);
    uint32_t expected[24] = {ISPS_RACING, place_in(text, earlier), place_in(text, later), number, place_in(text, carrier), writers};
    why_and_judge(text, ISPS_RACE, expected[ISPS_LATER_MEMBER], expected);
}

static void try_races(void)
{
    enum { EARLIER = 1, LATER = 2, BOTH = 3 };
    race_of_block("BEGIN A = 1; A = 2 END", "A = 1", "A = 2", 0, "A<", BOTH);
    race_of_block("BEGIN A = 1; K[0] = A END", "A = 1", "K[0] =", 0, "A<", EARLIER);
    race_of_block("BEGIN K[A] = 0; A = 2 END", "K[A] =", "A = 2", 0, "A<", LATER);
    race_of_block("BEGIN A = B; B = A END", "A = B", "B = A", 0, "A<", EARLIER);
    race_of_block("BEGIN B = A; A = B END", "B = A", "A = B", 0, "A<", LATER);
    race_of_block("BEGIN B @ A = 7; A @ B = 9 END", "B @ A", "A @ B", 0, "A<", BOTH);
    race_of_block("BEGIN B = 5; M = 2 END", "B = 5", "M = 2", 2, "B<3", BOTH);
    race_of_block("BEGIN IF M => NO.OP(); W() END", "IF M", "W() END END", 2, "B<3", LATER);
    race_of_block("BEGIN D(); IF M => NO.OP() END", "D(); ", "IF M", 2, "B<3", EARLIER);
    race_of_block("BEGIN D(); W() END", "D(); ", "W() END END", 2, "B<3", BOTH);
    race_of_block("BEGIN K[1] = 1; K[2] = 2 END", "K[1] =", "K[2] =", 3, "K[0", BOTH);
    race_of_block("BEGIN A = F; F() END", "A = F;", "F() END END", 0, "A<", EARLIER);
    race_of_block("BEGIN B = F; F() END", "B = F;", "F() END END", 4, "F<", LATER);
    race_of_block("BEGIN A = 1; B = 2; K[0] = 3; B = 4 END", "B = 2", "B = 4", 2, "B<3", BOTH);
    race_of_block("BEGIN K[0] = A; B = A; A = 1; K[0] = A END", "K[0] = A;", "A = 1", 0, "A<", LATER);
    race_of_block("BEGIN A = 1; L := BEGIN NO.OP() NEXT B = 2; B = 3 END END", "B = 2", "B = 3", 2, "B<3", BOTH);
    race_of_block("BEGIN NO.OP() NEXT DECODE A => BEGIN NO.OP(), BEGIN A = 3; A = 4 END END END", "A = 3", "A = 4", 0, "A<", BOTH);
}

/* Bodies P0, P1 and so on, of which each activates the next one; the last one does `last`. MAIN is a body of its own. */
static const char *text_of_chain(unsigned bodies, const char *last)
{
    static char text[1024];
    size_t len = (size_t)snprintf(text, sizeof text, "N := BEGIN MAIN GO := BEGIN NO.OP() END, ");
    for (unsigned i = 0; i + 1 < bodies; i++)
        len += (size_t)snprintf(text + len, sizeof text - len, "P%u := BEGIN P%u() END, ", i, i + 1);
    snprintf(text + len, sizeof text - len, "P%u := BEGIN %s END END", bodies - 1, last);
    return text;
}

static uint32_t place_of_body(const char *text, unsigned body)
{
    char head[16];
    snprintf(head, sizeof head, "P%u :=", body);
    return place_in(text, head);
}

/* The chain goes from the first body on; of those listed the last one is the body `closing`, or just the last of 17. */
static void try_chain(unsigned bodies, const char *last, unsigned listed, unsigned closing)
{
    const char *text = text_of_chain(bodies, last);
    uint32_t expected[24] = {ISPS_CHAINED, listed};
    for (unsigned i = 0; i < listed; i++)
        expected[ISPS_FIRST_BODY + i] = place_of_body(text, i + 1 < listed ? i : closing);
    why_and_judge(text, ISPS_LONG_CHAIN, place_of_body(text, 0), expected);
}

static void try_chains(void)
{
    try_chain(1, "P0()", 2, 0);
    try_chain(2, "P0()", 3, 0);
    try_chain(2, "P1()", 3, 1);
    try_chain(15, "P0()", 16, 0);
    try_chain(16, "P0()", 17, 0);
    try_chain(16, "P15()", 17, 15);
    try_chain(17, "P0()", 17, 16);
    try_chain(17, "NO.OP()", 17, 16);
    try_chain(18, "NO.OP()", 17, 16);
    try_chain(30, "P29()", 17, 16);
    try_chain(3, "GO(); P1(); P0()", 4, 1);
    try_chain(3, "IF 1 => P0() NEXT P1()", 4, 0);
}

/* ---- Images ---- */

enum { MOST_WORDS = 4096, MOST_BLOCKS = 66 };

static uint8_t kept[8 * MOST_WORDS + 8], image[MOST_BLOCKS * BLOCK_SIZE + 1], loaded[8 * MOST_WORDS + 8];

static const char *text_of_words(unsigned words)
{
    static char text[128];
    if (words == 0)
        return "N := BEGIN MAIN P := BEGIN NO.OP() END END";
    snprintf(text, sizeof text, "N := BEGIN\nM[0:%u]<59:0>,\nMAIN P := BEGIN NO.OP() END END", words - 1);
    return text;
}

static void store_and_judge(const char *what, unsigned detail, const char *text, size_t carriers_len, size_t image_len, uint32_t number, uint32_t place)
{
    uint32_t answer[8];
    const char *broken;
    lent_store((const uint8_t *)text, strlen(text), kept, carriers_len, image, image_len, answer, &broken);
    if (number == 0)
        judge(what, detail, answer, ISPS_DONE, 0, 0, 0, broken);
    else
        judge_elsewhere(what, detail, answer, number, place, broken);
}

static void load_and_judge(const char *what, unsigned detail, const char *text, size_t image_len, size_t carriers_len, uint32_t number, uint32_t place)
{
    uint32_t answer[8];
    const char *broken;
    memset(loaded, 0xEE, sizeof loaded);
    lent_load((const uint8_t *)text, strlen(text), image, image_len, loaded, carriers_len, answer, &broken);
    if (number == 0)
        judge(what, detail, answer, ISPS_DONE, 0, 0, 0, memcmp(loaded, kept, carriers_len) != 0 ? "wrong carriers" : broken);
    else
        judge_elsewhere(what, detail, answer, number, place, broken);
}

/* Words of 60 bits that differ from each other, all bits in use. */
static void fill_words(unsigned words)
{
    memset(kept, 0, sizeof kept);
    for (unsigned i = 0; i < 8 * words; i++)
        kept[i] = (uint8_t)(i * 37 + i / 256 + 1);
    for (unsigned word = 0; word < words; word++)
        kept[8 * word + 7] = 15;
}

/* Numbers of words around those that fill their last block, the most, and none, each with every other length of carriers and image nearby. */
static void try_numbers_of_words(void)
{
    static const unsigned numbers[] = {0, 1, 2, 62, 63, 64, 125, 126, 127, 4095, 4096};
    for (size_t i = 0; i < sizeof numbers / sizeof numbers[0]; i++) {
        unsigned words = numbers[i];
        const char *text = text_of_words(words);
        size_t size = 8 * (size_t)words, blocks = ISPS_IMAGE_SIZE(words);
        fill_words(words);
        memset(image, 0xEE, sizeof image);
        store_and_judge("words stored", words, text, size, blocks, 0, 0);
        load_and_judge("words loaded", words, text, blocks, size, 0, 0);
        store_and_judge("carriers one byte longer", words, text, size + 1, blocks, 60, 0);
        load_and_judge("carriers one byte longer", words, text, blocks, size + 1, 60, 0);
        store_and_judge("image one byte longer", words, text, size, blocks + 1, 62, 0);
        load_and_judge("image one byte longer", words, text, blocks + 1, size, 62, 0);
        load_and_judge("both one byte longer", words, text, blocks + 1, size + 1, 60, 0);
        if (words == 0)
            continue;
        store_and_judge("carriers one byte shorter", words, text, size - 1, blocks, 60, 0);
        load_and_judge("carriers one byte shorter", words, text, blocks, size - 1, 60, 0);
        store_and_judge("carriers one word shorter", words, text, size - 8, blocks, 60, 0);
        load_and_judge("carriers one word shorter", words, text, blocks, size - 8, 60, 0);
        store_and_judge("image one byte shorter", words, text, size, blocks - 1, 62, 0);
        load_and_judge("image one byte shorter", words, text, blocks - 1, size, 62, 0);
        store_and_judge("image one block shorter", words, text, size, blocks - BLOCK_SIZE, 62, 0);
        load_and_judge("image one block shorter", words, text, blocks - BLOCK_SIZE, size, 62, 0);
        kept[size - 1] = 16;
        store_and_judge("a bit too many in the last word", words, text, size, blocks, 61, (uint32_t)size - 8);
        store_and_judge("that and an image of no length", words, text, size, 0, 61, (uint32_t)size - 8);
        store_and_judge("that and carriers one byte longer", words, text, size + 1, 0, 60, 0);
    }
}

/* What a block of the image of 64 words is refused with if a byte of it differs and its check is right: its head and padding are 64, a payload of more bits
 * than the word has is 61, and other payload is as good as what was there. */
static void try_mended_byte(const char *text, unsigned block, unsigned at)
{
    unsigned used = block == 0 ? BLOCK_PAYLOAD : 8, payload_at = at - BLOCK_HEAD, word = 63 * block + payload_at / 8;
    uint8_t *bytes = image + BLOCK_SIZE * block, before[BLOCK_SIZE];
    memcpy(before, bytes, BLOCK_SIZE);
    bytes[at] ^= 64;
    mend_check(bytes);
    if (at < BLOCK_HEAD || payload_at >= used) {
        load_and_judge("a byte of head or padding, mended", BLOCK_SIZE * block + at, text, 2 * BLOCK_SIZE, 8 * 64, 64, BLOCK_SIZE * block);
    } else if (payload_at % 8 == 7) {
        load_and_judge("a payload byte with bits too many, mended", BLOCK_SIZE * block + at, text, 2 * BLOCK_SIZE, 8 * 64, 61, 8 * word);
    } else {
        kept[8 * word + payload_at % 8] ^= 64;
        load_and_judge("a payload byte, mended", BLOCK_SIZE * block + at, text, 2 * BLOCK_SIZE, 8 * 64, 0, 0);
        kept[8 * word + payload_at % 8] ^= 64;
    }
    memcpy(bytes, before, BLOCK_SIZE);
}

static void try_every_byte_of_an_image(void)
{
    const char *text = text_of_words(64);
    fill_words(64);
    store_and_judge("64 words", 64, text, 8 * 64, 2 * BLOCK_SIZE, 0, 0);
    for (unsigned at = 0; at < 2 * BLOCK_SIZE; at++) {
        static const uint8_t changes[] = {1, 128, 255};
        for (size_t i = 0; i < sizeof changes; i++) {
            image[at] ^= changes[i];
            load_and_judge("one byte changed", at, text, 2 * BLOCK_SIZE, 8 * 64, 63, at / BLOCK_SIZE * BLOCK_SIZE);
            image[at] ^= changes[i];
        }
        if (at % BLOCK_SIZE < BLOCK_CHECK)
            try_mended_byte(text, at / BLOCK_SIZE, at % BLOCK_SIZE);
    }
    load_and_judge("nothing changed", 64, text, 2 * BLOCK_SIZE, 8 * 64, 0, 0);
}

/* The lowest block first, then the lowest number; 61 behind them all. */
static void try_order_of_blocks(void)
{
    const char *text = text_of_words(64);
    uint8_t *second = image + BLOCK_SIZE;
    fill_words(64);
    store_and_judge("64 words", 64, text, 8 * 64, 2 * BLOCK_SIZE, 0, 0);
    second[0] = 2;
    load_and_judge("number and check of the second block", 0, text, 2 * BLOCK_SIZE, 8 * 64, 63, BLOCK_SIZE);
    mend_check(second);
    load_and_judge("number of the second block", 0, text, 2 * BLOCK_SIZE, 8 * 64, 64, BLOCK_SIZE);
    image[BLOCK_HEAD + 7] |= 128;
    mend_check(image);
    load_and_judge("that, and a bit too many in the first", 0, text, 2 * BLOCK_SIZE, 8 * 64, 64, BLOCK_SIZE);
    image[1] = 2;
    mend_check(image);
    second[BLOCK_CHECK] ^= 1;
    load_and_judge("edition of the first, check of the second", 0, text, 2 * BLOCK_SIZE, 8 * 64, 64, 0);
    image[BLOCK_CHECK] ^= 1;
    load_and_judge("edition and check of the first", 0, text, 2 * BLOCK_SIZE, 8 * 64, 63, 0);
    load_and_judge("that and carriers too long", 0, text, 2 * BLOCK_SIZE, 8 * 64 + 8, 60, 0);
    load_and_judge("that and an image too short", 0, text, BLOCK_SIZE, 8 * 64, 62, 0);
}

/* ---- Traces ---- */

enum { ONLY_MORE = 100000 }; /* stands for the number of all entries */

static const char traced[] =
    "N := BEGIN A<3:0>, B<3:0>, C<3:0>, MAIN P := BEGIN A = 1; L := B @ C = \"23 NEXT A = A + 1; IF B => NO.OP() END END";
static const char counts_to_4096[] =
    "N := BEGIN A<12:0>, MAIN P := BEGIN L := REPEAT BEGIN A = A + 1 NEXT IF A EQL 4096 => LEAVE L END END END";
static uint8_t start[8 * 3 + 1];
static List list;

static void judge_list(const char *what, unsigned detail, const char *text, size_t carriers_len, uint32_t budget, uint32_t ending, uint32_t steps, uint32_t yes,
                       uint32_t first_bad)
{
    uint32_t answer[8];
    const char *broken;
    lent_trace((const uint8_t *)text, strlen(text), start, carriers_len, budget, list.bytes, list.len, answer, &broken);
    if (first_bad == ONLY_MORE)
        first_bad = (uint32_t)(list.len / ISPS_ENTRY_SIZE);
    if (answer[ISPS_YES] != yes || answer[ISPS_FIRST_BAD] != first_bad) {
        printf("%s, %u: said %u %u; expected %u %u\n", what, detail, answer[ISPS_YES], answer[ISPS_FIRST_BAD], yes, first_bad);
        broken = "wrong verdict";
    }
    judge(what, detail, answer, ending, 0, 0, steps, broken);
}

static void judge_refused_list(const char *what, unsigned detail, const char *text, size_t carriers_len, uint32_t number, uint32_t place)
{
    uint32_t answer[8];
    const char *broken;
    lent_trace((const uint8_t *)text, strlen(text), start, carriers_len, 1000, list.bytes, list.len, answer, &broken);
    judge_elsewhere(what, detail, answer, number, place, broken);
}

/* The stores of `traced`, left to right, and in another order where `other` says so. */
static void list_stores(bool other)
{
    uint32_t first = place_in(traced, "A = 1"), joined = place_in(traced, "B @"), last = place_in(traced, "A = A");
    list.len = 0;
    if (!other)
        append_entry(&list, first, 0, 1);
    append_entry(&list, joined, 1, 2);
    append_entry(&list, joined, 2, 3);
    if (other)
        append_entry(&list, first, 0, 1);
    append_entry(&list, last, 0, 2);
}

static void judge_traced(const char *what, unsigned detail, uint32_t yes, uint32_t first_bad)
{
    judge_list(what, detail, traced, 24, 1000, ISPS_DONE, 5, yes, first_bad);
}

static void try_orders_of_entries(void)
{
    uint32_t first = place_in(traced, "A = 1"), joined = place_in(traced, "B @"), last = place_in(traced, "A = A");
    list_stores(false);
    judge_traced("left to right", 0, 1, 0);
    list_stores(true);
    judge_traced("another order", 0, 1, 0);
    set_entry(&list, 1, first, 0, 1);
    set_entry(&list, 2, joined, 2, 3);
    judge_traced("a store between the parts of a transfer", 0, 0, 1);
    list_stores(false);
    set_entry(&list, 1, joined, 2, 3);
    set_entry(&list, 2, joined, 1, 2);
    judge_traced("parts from right to left", 0, 0, 1);
    list_stores(false);
    set_entry(&list, 0, last, 0, 2);
    set_entry(&list, 3, first, 0, 1);
    judge_traced("what comes behind NEXT before it", 0, 0, 0);
    list_stores(true);
    set_entry(&list, 2, last, 0, 2);
    judge_traced("what comes behind NEXT with a store missing before it", 0, 0, 2);
    list_stores(false);
    append_entry(&list, last, 0, 2);
    judge_traced("an entry more", 0, 0, 4);
    for (unsigned count = 0; count < 4; count++) {
        list_stores(false);
        list.len = ISPS_ENTRY_SIZE * (size_t)count;
        judge_traced("a list that is cut", count, 0, ONLY_MORE);
    }
}

/* Of each entry each of its three numbers. Places at which something else stands, words that there are not, values that are longer than the word. */
static void try_numbers_of_entries(void)
{
    static const uint32_t words[] = {3, 4095, 4096, 65536, 4294967295u};
    static const uint64_t values[] = {0, 4, 16, 17, 18, 19, 256, 4294967296u, (uint64_t)1 << 63, UINT64_MAX};
    const uint32_t stored[] = {place_in(traced, "A = 1"), place_in(traced, "B @"), place_in(traced, "B @"), place_in(traced, "A = A")};
    const uint32_t places[] = {0, place_in(traced, "A<3"), place_in(traced, "MAIN"), place_in(traced, "= 1"), place_in(traced, "L :="), place_in(traced, "C = "),
                               place_in(traced, "IF"), (uint32_t)strlen(traced), 8192, 32767, 32768, 65536, 4294967295u};
    const uint64_t values_stored[] = {1, 2, 3, 2};
    for (unsigned entry = 0; entry < 4; entry++) {
        uint32_t word = entry == 3 ? 0 : entry;
        for (unsigned i = 0; i < sizeof places / sizeof places[0]; i++) {
            list_stores(false);
            set_entry(&list, entry, places[i], word, values_stored[entry]);
            judge_traced("place of an entry", 100 * entry + i, 0, entry);
        }
        for (unsigned i = 0; i < sizeof words / sizeof words[0]; i++) {
            list_stores(false);
            set_entry(&list, entry, stored[entry], words[i], values_stored[entry]);
            judge_traced("word of an entry", 100 * entry + i, 0, entry);
        }
        for (unsigned i = 0; i < sizeof values / sizeof values[0]; i++) {
            list_stores(false);
            set_entry(&list, entry, stored[entry], word, values[i]);
            judge_traced("value of an entry", 100 * entry + i, 0, entry);
        }
    }
}

/* Whole entries, up to the most; each number of bytes around them. */
static void try_lengths_of_lists(void)
{
    memset(list.bytes, 0, sizeof list.bytes);
    for (unsigned len = 0; len <= 33; len++) {
        list.len = len;
        if (len % ISPS_ENTRY_SIZE == 0)
            judge_traced("bytes of a list", len, 0, 0);
        else
            judge_refused_list("bytes of a list", len, traced, 24, ISPS_BAD_LIST, 0);
    }
    list.len = ISPS_ENTRY_SIZE * ISPS_MOST_ENTRIES;
    judge_traced("the most entries", 0, 0, 0);
    for (unsigned more = 1; more <= ISPS_ENTRY_SIZE; more++) {
        list.len = ISPS_ENTRY_SIZE * ISPS_MOST_ENTRIES + more;
        judge_refused_list("more than the most entries", more, traced, 24, ISPS_BAD_LIST, 0);
    }
    list.len = ISPS_ENTRY_SIZE * ISPS_MOST_ENTRIES - 1;
    judge_refused_list("a byte fewer than the most entries", 0, traced, 24, ISPS_BAD_LIST, 0);
}

/* The store is entry by entry the same one: 4,096 of them, one fewer and one more. */
static void try_most_stores(void)
{
    uint32_t place = place_in(counts_to_4096, "A = A");
    list.len = 0;
    for (unsigned i = 1; i <= ISPS_MOST_ENTRIES; i++)
        append_entry(&list, place, 0, i);
    judge_list("4,096 stores", 0, counts_to_4096, 8, 12289, ISPS_DONE, 12289, 1, 0);
    judge_list("4,096 stores and a step too few", 0, counts_to_4096, 8, 12288, ISPS_PAUSED, 12288, 0, 0);
    set_entry(&list, 4000, place, 0, 4000);
    judge_list("4,096 stores, one of them wrong", 0, counts_to_4096, 8, 12289, ISPS_DONE, 12289, 0, 4000);
    set_entry(&list, 4000, place, 0, 4001);
    list.len -= ISPS_ENTRY_SIZE;
    judge_list("one entry fewer", 0, counts_to_4096, 8, 12289, ISPS_DONE, 12289, 0, ONLY_MORE);
    start[0] = 1;
    judge_list("one store fewer", 0, counts_to_4096, 8, 12289, ISPS_DONE, 12286, 0, 0);
    start[0] = 0;
}

static void try_budgets_of_traces(void)
{
    list_stores(false);
    for (uint32_t budget = 0; budget < 5; budget++)
        judge_list("too few steps", budget, traced, 24, budget, ISPS_PAUSED, budget, 0, 0);
    judge_list("just enough steps", 5, traced, 24, 5, ISPS_DONE, 5, 1, 0);
    judge_list("the most steps", 0, traced, 24, 4294967295u, ISPS_DONE, 5, 1, 0);
}

static void try_endings_of_traces(void)
{
    static const char stops[] = "N := BEGIN A<3:0>, MAIN P := BEGIN A = 1 NEXT STOP() NEXT A = 2 END END";
    static const char faults[] = "N := BEGIN M[0:1]<3:0>,\n MAIN P := BEGIN M[0] = 1 NEXT M[2] = 1 END END";
    static const char stores_nothing[] = "N := BEGIN MAIN P := BEGIN NO.OP() END END";
    uint32_t answer[8];
    const char *broken;
    list.len = 0;
    judge_list("no stores and no entries", 0, stores_nothing, 0, 5, ISPS_DONE, 1, 1, 0);
    append_entry(&list, place_in(stops, "A = 1"), 0, 1);
    judge_list("no stores and an entry", 0, stores_nothing, 0, 5, ISPS_DONE, 1, 0, 0);
    judge_list("STOP()", 0, stops, 8, 5, ISPS_STOPPED, 2, 1, 0);
    append_entry(&list, place_in(stops, "A = 2"), 0, 2);
    judge_list("a store behind STOP()", 0, stops, 8, 5, ISPS_STOPPED, 2, 0, 1);
    lent_trace((const uint8_t *)faults, strlen(faults), start, 16, 5, list.bytes, list.len, answer, &broken);
    judge("a fault", 0, answer, ISPS_FAULT, ISPS_NO_SUCH_WORD, place_in(faults, "M[2]"), 1,
          answer[ISPS_YES] != 0 || answer[ISPS_FIRST_BAD] != 0 ? "a verdict after a fault" : broken);
    judge_position("a fault", 0, answer, 2, 32);
}

/* The text's own refusal comes first, then 60, 61 and 110. */
static void try_order_of_refusals(void)
{
    static const char races[] = "N := BEGIN A<3:0>, MAIN P := BEGIN A = 1; A = 2 END END";
    uint32_t answer[8];
    const char *broken;
    list.len = 17;
    lent_trace((const uint8_t *)races, strlen(races), start, 1, 5, list.bytes, list.len, answer, &broken);
    judge_refusal("a race, carriers and a list that are wrong", 0, answer, (const uint8_t *)races, ISPS_RACE, place_in(races, "A = 2"), broken);
    start[8] = 16;
    judge_refused_list("carriers too long, a bit too many, and a bad list", 0, traced, 25, ISPS_CARRIERS_LENGTH, 0);
    judge_refused_list("carriers too short, and a bad list", 0, traced, 16, ISPS_CARRIERS_LENGTH, 0);
    judge_refused_list("no carriers, and a bad list", 0, traced, 0, ISPS_CARRIERS_LENGTH, 0);
    judge_refused_list("a bit too many, and a bad list", 0, traced, 24, ISPS_CARRIER_BITS, 8);
    list.len = 0;
    judge_refused_list("a bit too many", 0, traced, 24, ISPS_CARRIER_BITS, 8);
    start[8] = 0;
}

static void trace_with_fourth_buffer(size_t len, uint32_t ending, uint32_t number, uint32_t steps)
{
    Lengths lengths = published;
    uint32_t answer[8];
    const char *broken;
    lengths.work[3] = len;
    list_stores(false);
    lent_trace_with(&lengths, (const uint8_t *)traced, strlen(traced), start, 24, 5, list.bytes, list.len, answer, &broken);
    judge("length of the fourth work buffer", (unsigned)len, answer, ending, number, 0, steps, broken);
}

static void try_fourth_buffer(void)
{
    trace_with_fourth_buffer(0, ISPS_REFUSED, ISPS_WORK_TOO_SHORT, 0);
    trace_with_fourth_buffer(ISPS_WORK_SIZE - 1, ISPS_REFUSED, ISPS_WORK_TOO_SHORT, 0);
    trace_with_fourth_buffer(ISPS_WORK_SIZE, ISPS_DONE, 0, 5);
    trace_with_fourth_buffer(ISPS_WORK_SIZE + 1, ISPS_DONE, 0, 5);
    trace_with_fourth_buffer(LONGEST_LENT, ISPS_DONE, 0, 5);
}

static void try_traces(void)
{
    try_orders_of_entries();
    try_numbers_of_entries();
    try_lengths_of_lists();
    try_most_stores();
    try_budgets_of_traces();
    try_endings_of_traces();
    try_order_of_refusals();
    try_fourth_buffer();
}

/* ---- Bounds ---- */

enum { NO_BOUND = 0 }; /* no text has a bound of 0 */

static void bound_and_judge(const char *what, unsigned detail, const char *text, uint32_t bound)
{
    uint32_t answer[8];
    const char *broken;
    lent_bound((const uint8_t *)text, strlen(text), answer, &broken);
    judge(what, detail, answer, bound == NO_BOUND ? ISPS_NO_BOUND : ISPS_DONE, 0, 0, bound, broken);
}

/* MAIN with this block, behind bodies of 3 and of 10 steps, one with a REPEAT, one with a RESTART, and one that only activates such a body. */
static void bound_of_block(const char *block, uint32_t bound)
{
    static char text[1024];
    snprintf(text, sizeof text,
             "N := BEGIN A<3:0>, B<3:0>, P3 := BEGIN A = 1; B = 2 NEXT NO.OP() END, P10 := BEGIN P3() NEXT P3() NEXT A = B; NO.OP() END, "
             "TURNS := BEGIN L := REPEAT LEAVE L END, AGAIN := BEGIN IF A => RESTART AGAIN END, BELOW := BEGIN TURNS() END, MAIN P := %s END",
             block);
    bound_and_judge(block, bound, text, bound);
}

static void try_kinds_of_steps(void)
{
    bound_of_block("BEGIN NO.OP() END", 1);
    bound_of_block("BEGIN STOP() END", 1);
    bound_of_block("BEGIN LEAVE P END", 1);
    bound_of_block("BEGIN A = B END", 1);
    bound_of_block("BEGIN A @ B = A EQL (B AND (A + B)) END", 1);
    bound_of_block("BEGIN L := BEGIN BEGIN K := NO.OP() END END END", 1);
    bound_of_block("BEGIN P3() END", 4);
    bound_of_block("BEGIN P10() END", 11);
    bound_of_block("BEGIN IF A => A = 1 END", 2);
    bound_of_block("BEGIN IF A => IF B => P3() END", 6);
    bound_of_block("BEGIN DECODE A => BEGIN NO.OP(), P10(), P3() END END", 12);
    bound_of_block("BEGIN DECODE A => BEGIN P10(), NO.OP(), P10() END NEXT DECODE A => BEGIN OTHERWISE := P3() END END", 17);
    bound_of_block("BEGIN DECODE A => BEGIN DECODE B => BEGIN P3(), P10() END, BEGIN P10() NEXT A = 1 END END END", 13);
    bound_of_block("BEGIN DECODE A => BEGIN DECODE B => BEGIN P10(), P3() END, P10() END; NO.OP() END", 14);
    bound_of_block("BEGIN A = 1; B = 2; NO.OP() NEXT A = 2 NEXT B = 3 END", 5);
    bound_of_block("BEGIN L := BEGIN LEAVE L NEXT P10() END NEXT STOP() NEXT P3() END", 17);
    bound_of_block("BEGIN TURNS() END", NO_BOUND);
    bound_of_block("BEGIN AGAIN() END", NO_BOUND);
    bound_of_block("BEGIN BELOW() END", NO_BOUND);
    bound_of_block("BEGIN STOP() NEXT BELOW() END", NO_BOUND);
    bound_of_block("BEGIN IF 0 => AGAIN() END", NO_BOUND);
    bound_of_block("BEGIN DECODE A => BEGIN NO.OP(), REPEAT STOP(), P10() END END", NO_BOUND);
    bound_of_block("BEGIN NO.OP(); L := BEGIN A = 1 NEXT RESTART L END END", NO_BOUND);
    bound_of_block("BEGIN LEAVE P NEXT REPEAT NO.OP() END", NO_BOUND);
}

/* As many bodies as a chain may have, MAIN last. Each activates the one before it so many times and has two steps fewer of its own, at least one: the n-th then
 * has times^n - 2 steps. MAIN has `besides` of its own, which makes times^16 - times + besides. */
static const char *text_of_powers(unsigned times, unsigned besides)
{
    enum { BODIES = 16 };
    static char text[8192];
    size_t len = (size_t)snprintf(text, sizeof text, "N := BEGIN ");
    for (unsigned body = 0; body < BODIES; body++) {
        bool is_main = body + 1 == BODIES;
        len += (size_t)snprintf(text + len, sizeof text - len, "%s P%u := BEGIN ", is_main ? "MAIN" : "", body);
        for (unsigned i = 0; body > 0 && i < times; i++)
            len += (size_t)snprintf(text + len, sizeof text - len, "P%u(); ", body - 1);
        for (unsigned i = is_main ? besides : times - 2; i > 1; i--)
            len += (size_t)snprintf(text + len, sizeof text - len, "NO.OP(); ");
        len += (size_t)snprintf(text + len, sizeof text - len, "NO.OP() END%s", is_main ? " END" : ", ");
    }
    return text;
}

/* 4^16 is one more than the most steps. 16^16 has 65 bits: who counts with 64 of them, or 32, gets small numbers around it. */
static void try_large_bounds(void)
{
    bound_and_judge("one step fewer than the most", 2, text_of_powers(4, 2), 4294967294u);
    bound_and_judge("the most steps", 3, text_of_powers(4, 3), 4294967295u);
    bound_and_judge("one step more than the most", 4, text_of_powers(4, 4), NO_BOUND);
    bound_and_judge("one activation more", 5, text_of_powers(5, 3), NO_BOUND);
    for (unsigned besides = 14; besides < 20; besides++)
        bound_and_judge("around 2 to the 64", besides, text_of_powers(16, besides), NO_BOUND);
}

int main(void)
{
    memset(blanks, ' ', sizeof blanks);
    try_short_buffers();
    try_long_buffers();
    try_lengths_of_text();
    try_lines();
    try_every_byte();
    try_lengths_of_carriers();
    try_every_carrier_bit();
    try_lengths_of_reasons();
    try_races();
    try_chains();
    try_names();
    try_paths();
    try_numbers_of_words();
    try_every_byte_of_an_image();
    try_order_of_blocks();
    try_traces();
    try_kinds_of_steps();
    try_large_bounds();
    printf("%u passed, %u failed\n", passed, failed);
    return failed == 0 ? 0 : 1;
}
