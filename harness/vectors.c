/* vectors: reads texts from standard input, each after its length in 4 little-endian bytes, and writes for each one line:
 *     check NUMBER PLACE DECLARATIONS WORDS run FIRST-LINE carriers HASH
 * The run has zero carriers and a budget of 1000; the hash is FNV-1a, 64 bits, of the carriers left, of none after a refusal.
 * vectors position: reads a text, carriers, each after its length, and a budget in 4 bytes, over and over, and writes for each one line, with all numbers:
 *     check EIGHT run EIGHT carriers HASH
 * where the hash is that of the carriers, whatever the ending.
 * vectors why: reads texts, each after its length, and writes for each one line: EIGHT reason TWENTY-FOUR
 * vectors profile: reads a text, the name of a test and that of an output, each after its length, over and over, and writes for each its eight numbers.
 * vectors image: reads a text, 0 for Store or 1 for Load in 4 bytes, carriers and an image, each after its length, over and over, and writes for each one line:
 *     store EIGHT image HASH, or load EIGHT carriers HASH
 * where the hash is that of the buffer that the call may write.
 * vectors bound: reads texts, each after its length, and writes for each its eight numbers.
 * vectors trace: reads a text, carriers, each after its length, a budget in 4 bytes and a list of entries after its length, over and over, and writes for each its eight
 * numbers. Ends with 1 if a call did with its buffers what it may not do. */
#include <stdbool.h>
#include <stdio.h>
#include <string.h>

#include "../include/isps.h"
#include "lent.h"

enum { BUDGET = 1000, MOST_WORDS = 4096, STORE = 0 };

static uint8_t text[LONGEST_LENT];
static uint8_t carriers[8 * MOST_WORDS + 16];
static uint8_t image[LONGEST_LENT];
static uint8_t test[LONGEST_LENT], output[LONGEST_LENT]; /* the names of a profile */
static uint8_t entries[LONGEST_LENT];
static bool all_good = true;

static bool read_number(uint32_t *number)
{
    uint8_t head[4];
    if (fread(head, 1, 4, stdin) != 4)
        return false;
    *number = (uint32_t)head[0] | (uint32_t)head[1] << 8 | (uint32_t)head[2] << 16 | (uint32_t)head[3] << 24;
    return true;
}

static bool read_bytes(uint8_t *bytes, size_t room, size_t *len)
{
    uint32_t number;
    if (!read_number(&number) || number > room)
        return false;
    *len = number;
    return fread(bytes, 1, *len, stdin) == *len;
}

static unsigned long long hash(const uint8_t *bytes, size_t len)
{
    uint64_t h = 0xcbf29ce484222325u;
    for (size_t i = 0; i < len; i++)
        h = (h ^ bytes[i]) * 0x100000001b3u;
    return h;
}

static void report(const char *broken)
{
    if (broken != NULL) {
        printf("BROKEN: %s\n", broken);
        all_good = false;
    }
}

static void print_run(const uint32_t answer[8], size_t carriers_len)
{
    static const char *const words[] = {"done", "stopped", "paused"};
    if (answer[ISPS_ENDING] == ISPS_REFUSED)
        printf("refused %u %u", answer[ISPS_NUMBER], answer[ISPS_PLACE]);
    else if (answer[ISPS_ENDING] == ISPS_FAULT)
        printf("fault %u %u %u", answer[ISPS_NUMBER], answer[ISPS_PLACE], answer[ISPS_STEPS]);
    else
        printf("%s %u", words[answer[ISPS_ENDING]], answer[ISPS_STEPS]);
    printf(" carriers %016llx\n", hash(carriers, answer[ISPS_ENDING] == ISPS_REFUSED ? 0 : carriers_len));
}

static void print_all(const uint32_t *numbers, int count)
{
    for (int i = 0; i < count; i++)
        printf(i == 0 ? "%u" : " %u", numbers[i]);
}

static void print_eight(const uint32_t answer[8])
{
    print_all(answer, 8);
}

static void print_numbers(const char *who, const uint32_t answer[8])
{
    printf("%s ", who);
    print_eight(answer);
}

static void answer_positions(void)
{
    size_t len, carriers_len;
    uint32_t budget;
    while (read_bytes(text, sizeof text, &len) && read_bytes(carriers, sizeof carriers, &carriers_len) && read_number(&budget)) {
        uint32_t answer[8];
        const char *broken;
        lent_check(text, len, answer, &broken);
        report(broken);
        print_numbers("check", answer);
        lent_run(text, len, carriers, carriers_len, budget, answer, &broken);
        print_numbers(" run", answer);
        printf(" carriers %016llx\n", hash(carriers, carriers_len));
        report(broken);
    }
}

static void answer_whys(void)
{
    size_t len;
    while (read_bytes(text, sizeof text, &len)) {
        uint32_t answer[8], reason[24];
        const char *broken;
        lent_why(text, len, reason, answer, &broken);
        print_eight(answer);
        printf(" reason ");
        print_all(reason, 24);
        printf("\n");
        report(broken);
    }
}

static void answer_profiles(void)
{
    size_t len, test_len, output_len;
    while (read_bytes(text, sizeof text, &len) && read_bytes(test, sizeof test, &test_len) && read_bytes(output, sizeof output, &output_len)) {
        uint32_t answer[8];
        const char *broken;
        lent_profile(text, len, test, test_len, output, output_len, answer, &broken);
        print_eight(answer);
        printf("\n");
        report(broken);
    }
}

static void answer_images(void)
{
    size_t len, carriers_len, image_len;
    uint32_t which;
    while (read_bytes(text, sizeof text, &len) && read_number(&which) && read_bytes(carriers, sizeof carriers, &carriers_len)
           && read_bytes(image, sizeof image, &image_len)) {
        uint32_t answer[8];
        const char *broken;
        if (which == STORE) {
            lent_store(text, len, carriers, carriers_len, image, image_len, answer, &broken);
            print_numbers("store", answer);
            printf(" image %016llx\n", hash(image, image_len));
        } else {
            lent_load(text, len, image, image_len, carriers, carriers_len, answer, &broken);
            print_numbers("load", answer);
            printf(" carriers %016llx\n", hash(carriers, carriers_len));
        }
        report(broken);
    }
}

static void answer_bounds(void)
{
    size_t len;
    while (read_bytes(text, sizeof text, &len)) {
        uint32_t answer[8];
        const char *broken;
        lent_bound(text, len, answer, &broken);
        print_eight(answer);
        printf("\n");
        report(broken);
    }
}

static void answer_traces(void)
{
    size_t len, carriers_len, entries_len;
    uint32_t budget;
    while (read_bytes(text, sizeof text, &len) && read_bytes(carriers, sizeof carriers, &carriers_len) && read_number(&budget)
           && read_bytes(entries, sizeof entries, &entries_len)) {
        uint32_t answer[8];
        const char *broken;
        lent_trace(text, len, carriers, carriers_len, budget, entries, entries_len, answer, &broken);
        print_eight(answer);
        printf("\n");
        report(broken);
    }
}

static void answer_texts(void)
{
    size_t len;
    while (read_bytes(text, sizeof text, &len)) {
        uint32_t answer[8];
        const char *broken;
        lent_check(text, len, answer, &broken);
        report(broken);
        printf("check %u %u %u %u run ", answer[ISPS_NUMBER], answer[ISPS_PLACE], answer[ISPS_DECLARATIONS], answer[ISPS_WORDS]);
        size_t carriers_len = 8 * (size_t)answer[ISPS_WORDS];
        memset(carriers, 0, carriers_len);
        lent_run(text, len, carriers, carriers_len, BUDGET, answer, &broken);
        print_run(answer, carriers_len);
        report(broken);
    }
}

int main(int count, char **arguments)
{
    const char *set = count > 1 ? arguments[1] : "base";
    if (strcmp(set, "position") == 0)
        answer_positions();
    else if (strcmp(set, "why") == 0)
        answer_whys();
    else if (strcmp(set, "profile") == 0)
        answer_profiles();
    else if (strcmp(set, "image") == 0)
        answer_images();
    else if (strcmp(set, "bound") == 0)
        answer_bounds();
    else if (strcmp(set, "trace") == 0)
        answer_traces();
    else
        answer_texts();
    return all_good ? 0 : 1;
}
