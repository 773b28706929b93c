/* Measures the stack that a call takes: a wide stretch of it is painted, and afterwards the paint is looked at from the far end.
 * Prints for each text the bytes that each call took, and the most of all. */
#include <stdio.h>
#include <string.h>

#include "../include/isps.h"
#include "refused.h"
#include "texts.h"

enum { PAINTED = 4 << 20, PAINT = 0x5A, MOST_WORDS = 4096, BUDGET = 20000 };

static uint8_t text[ISPS_LONGEST_TEXT], carriers[8 * MOST_WORDS], image[ISPS_IMAGE_SIZE(MOST_WORDS)], work[4][ISPS_WORK_SIZE], answer[ISPS_ANSWER_SIZE];
static uint8_t reason[ISPS_REASON_SIZE];
static uint8_t entries[ISPS_ENTRY_SIZE * ISPS_MOST_ENTRIES];
static size_t text_len, carriers_len;
static uintptr_t far_end; /* of the painted stretch */

static void call_check(void)
{
    isps_check(text, text_len, work[0], ISPS_WORK_SIZE, work[1], ISPS_WORK_SIZE, work[2], ISPS_WORK_SIZE, answer, ISPS_ANSWER_SIZE);
}

static void call_why(void)
{
    isps_why(text, text_len, work[0], ISPS_WORK_SIZE, work[1], ISPS_WORK_SIZE, work[2], ISPS_WORK_SIZE, reason, ISPS_REASON_SIZE, answer, ISPS_ANSWER_SIZE);
}

static void call_run(void)
{
    isps_run(text, text_len, carriers, carriers_len, BUDGET, work[0], ISPS_WORK_SIZE, work[1], ISPS_WORK_SIZE, work[2], ISPS_WORK_SIZE, answer,
             ISPS_ANSWER_SIZE);
}

static void call_profile(void)
{
    Word test = name_of_main(text, text_len), output = name_of_carrier(text, text_len);
    isps_profile(text, text_len, test.bytes, test.len, output.bytes, output.len, work[0], ISPS_WORK_SIZE, work[1], ISPS_WORK_SIZE, work[2], ISPS_WORK_SIZE,
                 answer, ISPS_ANSWER_SIZE);
}

static void call_store(void)
{
    isps_store(text, text_len, carriers, carriers_len, image, ISPS_IMAGE_SIZE(carriers_len / 8), work[0], ISPS_WORK_SIZE, work[1], ISPS_WORK_SIZE, work[2],
               ISPS_WORK_SIZE, answer, ISPS_ANSWER_SIZE);
}

static void call_load(void)
{
    isps_load(text, text_len, image, ISPS_IMAGE_SIZE(carriers_len / 8), carriers, carriers_len, work[0], ISPS_WORK_SIZE, work[1], ISPS_WORK_SIZE, work[2],
              ISPS_WORK_SIZE, answer, ISPS_ANSWER_SIZE);
}

static void call_bound(void)
{
    isps_bound(text, text_len, work[0], ISPS_WORK_SIZE, work[1], ISPS_WORK_SIZE, work[2], ISPS_WORK_SIZE, answer, ISPS_ANSWER_SIZE);
}

static void call_trace(void)
{
    isps_trace(text, text_len, carriers, carriers_len, BUDGET, entries, sizeof entries, work[0], ISPS_WORK_SIZE, work[1], ISPS_WORK_SIZE, work[2], ISPS_WORK_SIZE,
               work[3], ISPS_WORK_SIZE, answer, ISPS_ANSWER_SIZE);
}

/* Check comes first, since it says how many words the carriers of the others have. Load has the image that Store left. */
static const struct {
    const char *name;
    void (*call)(void);
} calls[] = {{"Check", call_check}, {"Why", call_why}, {"Run", call_run}, {"Profile", call_profile}, {"Store", call_store}, {"Load", call_load}, {"Bound", call_bound},
             {"Trace", call_trace}};

enum { CALLS = sizeof calls / sizeof calls[0] };

__attribute__((noinline)) static void paint(void)
{
    volatile uint8_t stretch[PAINTED];
    for (size_t i = 0; i < PAINTED; i++)
        stretch[i] = PAINT;
    far_end = (uintptr_t)stretch;
}

/* The stack grows downwards, so the painted bytes up to the first changed one were not used. */
__attribute__((noinline)) static size_t stack_of(void (*call)(void))
{
    volatile uint8_t *near_end = __builtin_frame_address(0);
    paint();
    call();
    volatile uint8_t *first = (volatile uint8_t *)far_end;
    while (first < near_end && *first == PAINT)
        first++;
    return (size_t)(near_end - first);
}

static uint32_t number_in_answer(unsigned index)
{
    const uint8_t *bytes = answer + 4 * index;
    return (uint32_t)bytes[0] | (uint32_t)bytes[1] << 8 | (uint32_t)bytes[2] << 16 | (uint32_t)bytes[3] << 24;
}

static size_t measure(const char *name)
{
    size_t most = 0;
    printf("%-36s", name);
    for (unsigned i = 0; i < CALLS; i++) {
        size_t used = stack_of(calls[i].call);
        if (calls[i].call == call_check)
            carriers_len = 8 * (size_t)number_in_answer(ISPS_WORDS);
        memset(carriers, 0, sizeof carriers);
        printf(" %8u", (unsigned)used);
        most = used > most ? used : most;
    }
    printf("\n");
    return most;
}

int main(void)
{
    printf("%-36s", "bytes of stack");
    for (unsigned i = 0; i < CALLS; i++)
        printf(" %8s", calls[i].name);
    printf("\n");
    text_len = strlen(typical_text);
    memcpy(text, typical_text, text_len);
    call_check();
    size_t most = measure("typical");
    const char *name;
    for (unsigned i = 0; (name = hard_text(i, text, &text_len)) != NULL; i++) {
        size_t used = measure(name);
        most = used > most ? used : most;
    }
    for (unsigned i = 0; (name = refused_text(i, text, &text_len)) != NULL; i++) {
        size_t used = measure(name);
        most = used > most ? used : most;
    }
    printf("at most %u bytes\n", (unsigned)most);
    return 0;
}
