/* speed [MILLISECONDS]: times the library against the reference, which is built at -O2 for the same target, side by side in one run.
 * Check of the three texts with the most names: microseconds.
 * Why on refused texts: nanoseconds for a byte of text, and the ratio to Check.
 * Check, Profile, Bound and Trace, which here takes no step: nanoseconds for a byte of text, the ratio of the two, and the library's time relative to its time for a typical text.
 * Run and Trace: million steps a second, and the ratio; for a short run, which reading dominates, thousand runs a second. */
#define _POSIX_C_SOURCE 200809L

#include <stdio.h>
#include <stdlib.h>
#include <string.h>
#include <time.h>

#include "../include/isps.h"
#include "../reference/reference.h"
#include "refused.h"
#include "texts.h"

enum { MOST_WORDS = 4096, TRIES = 8, LONG_RUN = 200000 };

static uint8_t text[ISPS_LONGEST_TEXT], carriers[8 * MOST_WORDS], work[4][ISPS_WORK_SIZE], answer[ISPS_ANSWER_SIZE];
static uint8_t reason[ISPS_REASON_SIZE];
static uint8_t entries[ISPS_ENTRY_SIZE * ISPS_MOST_ENTRIES];
static size_t text_len, carriers_len, entries_len;
static uint32_t budget, numbers[8];
static double least_time; /* in nanoseconds, for each figure */

static void library_check(void)
{
    isps_check(text, text_len, work[0], ISPS_WORK_SIZE, work[1], ISPS_WORK_SIZE, work[2], ISPS_WORK_SIZE, answer, ISPS_ANSWER_SIZE);
}

static void library_why(void)
{
    isps_why(text, text_len, work[0], ISPS_WORK_SIZE, work[1], ISPS_WORK_SIZE, work[2], ISPS_WORK_SIZE, reason, ISPS_REASON_SIZE, answer, ISPS_ANSWER_SIZE);
}

static void library_run(void)
{
    memset(carriers, 0, carriers_len);
    isps_run(text, text_len, carriers, carriers_len, budget, work[0], ISPS_WORK_SIZE, work[1], ISPS_WORK_SIZE, work[2], ISPS_WORK_SIZE, answer,
             ISPS_ANSWER_SIZE);
}

static void reference_check_once(void)
{
    reference_check(text, text_len, numbers);
}

static void reference_run_once(void)
{
    memset(carriers, 0, carriers_len);
    reference_run(text, text_len, carriers, carriers_len, budget, numbers);
}

static void library_profile(void)
{
    Word test = name_of_main(text, text_len), output = name_of_carrier(text, text_len);
    isps_profile(text, text_len, test.bytes, test.len, output.bytes, output.len, work[0], ISPS_WORK_SIZE, work[1], ISPS_WORK_SIZE, work[2], ISPS_WORK_SIZE,
                 answer, ISPS_ANSWER_SIZE);
}

static void reference_profile_once(void)
{
    Word test = name_of_main(text, text_len), output = name_of_carrier(text, text_len);
    reference_profile(text, text_len, test.bytes, test.len, output.bytes, output.len, numbers);
}

static void library_bound(void)
{
    isps_bound(text, text_len, work[0], ISPS_WORK_SIZE, work[1], ISPS_WORK_SIZE, work[2], ISPS_WORK_SIZE, answer, ISPS_ANSWER_SIZE);
}

static void reference_bound_once(void)
{
    reference_bound(text, text_len, numbers);
}

static void library_trace(void)
{
    isps_trace(text, text_len, carriers, carriers_len, budget, entries, entries_len, work[0], ISPS_WORK_SIZE, work[1], ISPS_WORK_SIZE, work[2], ISPS_WORK_SIZE, work[3],
               ISPS_WORK_SIZE, answer, ISPS_ANSWER_SIZE);
}

static void reference_trace_once(void)
{
    reference_trace(text, text_len, carriers, carriers_len, budget, entries, entries_len, numbers);
}

/* Time of the processor in nanoseconds, so that other work on the machine counts little. */
static double now(void)
{
    struct timespec time;
    clock_gettime(CLOCK_PROCESS_CPUTIME_ID, &time);
    return (double)time.tv_sec * 1e9 + (double)time.tv_nsec;
}

static double time_of_calls(void (*call)(void), unsigned count)
{
    double start = now();
    for (unsigned i = 0; i < count; i++)
        call();
    return (now() - start) / count;
}

static unsigned calls_for_a_try(void (*call)(void))
{
    call();
    return (unsigned)(least_time / TRIES / time_of_calls(call, 1)) + 1;
}

typedef struct {
    double library, reference; /* nanoseconds of a call */
} Times;

/* Both take turns, and the least of several tries counts, since whatever disturbs a try only makes it longer. */
static Times time_both(void (*library)(void), void (*reference)(void))
{
    unsigned library_calls = calls_for_a_try(library), reference_calls = calls_for_a_try(reference);
    Times best = {0, 0};
    for (int i = 0; i < TRIES; i++) {
        double one = time_of_calls(library, library_calls), other = time_of_calls(reference, reference_calls);
        best.library = i == 0 || one < best.library ? one : best.library;
        best.reference = i == 0 || other < best.reference ? other : best.reference;
    }
    return best;
}

static void set_text(const char *source)
{
    text_len = strlen(source);
    memcpy(text, source, text_len);
}

static void prepare_carriers(void)
{
    reference_check(text, text_len, numbers);
    carriers_len = 8 * (size_t)numbers[ISPS_WORDS];
    memset(carriers, 0, carriers_len);
}

/* On the typical text and on all hard ones. */
static void time_by_byte(const char *what, void (*library_call)(void), void (*reference_call)(void))
{
    const char *name = "typical";
    double typical = 0;
    printf("%-36s %6s %9s %9s %7s %7s\n", what, "bytes", "library", "reference", "ratio", "typical");
    set_text(typical_text);
    for (unsigned i = 0; name != NULL; name = hard_text(i++, text, &text_len)) {
        prepare_carriers();
        Times times = time_both(library_call, reference_call);
        double library = times.library / (double)text_len, reference = times.reference / (double)text_len;
        typical = typical == 0 ? library : typical;
        printf("%-36s %6u %9.1f %9.1f %7.2f %7.2f\n", name, (unsigned)text_len, library, reference, library / reference, library / typical);
    }
    printf("\n");
}

/* On the texts with the most names. */
static void time_largest(void)
{
    const char *name;
    printf("%-36s %6s %9s %9s %7s\n", "Check, microseconds a text", "bytes", "library", "reference", "ratio");
    for (unsigned i = 0; (name = largest_text(i, text, &text_len)) != NULL; i++) {
        Times times = time_both(library_check, reference_check_once);
        printf("%-36s %6u %9.1f %9.1f %7.2f\n", name, (unsigned)text_len, times.library / 1e3, times.reference / 1e3, times.library / times.reference);
    }
    printf("\n");
}

/* On the refused texts, of which it says more than Check does. */
static void time_why(void)
{
    const char *name;
    printf("%-36s %6s %9s %9s %7s\n", "Why, nanoseconds a byte", "bytes", "Why", "Check", "ratio");
    for (unsigned i = 0; (name = refused_text(i, text, &text_len)) != NULL; i++) {
        Times times = time_both(library_why, library_check);
        double why = times.library / (double)text_len, check = times.reference / (double)text_len;
        printf("%-36s %6u %9.1f %9.1f %7.2f\n", name, (unsigned)text_len, why, check, why / check);
    }
    printf("\n");
}

static void prepare_run(const char *source)
{
    set_text(source);
    prepare_carriers();
    budget = LONG_RUN;
}

/* Leaves the steps of the run in `numbers`. */
static Times time_run(const char *source)
{
    prepare_run(source);
    return time_both(library_run, reference_run_once);
}

/* With the first stores of the run, as many as a list may have, in the order that is the least like left to right. */
static Times time_trace(const char *source)
{
    prepare_run(source);
    entries_len = reference_stores(text, text_len, carriers, carriers_len, budget, 0, entries, sizeof entries);
    return time_both(library_trace, reference_trace_once);
}

static void print_steps(const char *name, Times times)
{
    printf("%-36s %6u %9.2f %9.2f %7.2f\n", name, numbers[ISPS_STEPS], numbers[ISPS_STEPS] * 1e3 / times.library,
           numbers[ISPS_STEPS] * 1e3 / times.reference, times.reference / times.library);
}

static void time_short_run(const char *name, const char *source)
{
    Times times = time_run(source);
    printf("%-36s %6u %9.2f %9.2f %7.2f\n", name, numbers[ISPS_STEPS], 1e6 / times.library, 1e6 / times.reference, times.reference / times.library);
}

static const char transfers_and_tests[] =
    "N := BEGIN A<7:0>, B<15:0>, C<7:0>, MAIN P := BEGIN REPEAT BEGIN A = A + 1; B = B<14:0> @ B<15> NEXT C = A XOR B<7:0> NEXT "
    "IF C EQL A => B = B + 1 NEXT IF NOT A<0> => C = 0 END END END";

static const char choices[] =
    "N := BEGIN A<7:0>, OP<2:0> := A<7:5>, B<7:0>, MAIN P := BEGIN REPEAT BEGIN A = A + 37 NEXT DECODE OP => BEGIN "
    "0 := B = B + 1, 1 := B = B - 1, '01? := B = NOT B, [4, 5] := B = B XOR A, 6 := NO.OP(), OTHERWISE := B = 0 END END END END";

static const char activations[] =
    "N := BEGIN A<7:0>, P0 := BEGIN A = A + 1 END, P1 := BEGIN P0() NEXT P0() END, P2 := BEGIN P1() NEXT P1() END, "
    "MAIN P := BEGIN REPEAT P2() END END";

static const char jumps[] =
    "N := BEGIN A<7:0>, MAIN P := BEGIN REPEAT L := BEGIN A = A + 1 NEXT IF A<1> => LEAVE L NEXT IF A<0> => RESTART L NEXT NO.OP() END END END";

static const char arrays[] =
    "N := BEGIN M[0:15]<15:0>, I<3:0>, MAIN P := BEGIN REPEAT BEGIN M[I] = M[I] + M[(I + 1) AND '1111] NEXT I = I + 1 END END END";

static const char turns_of_members[] =
    "N := BEGIN A<11:0>, B<11:0>, C<3:0>, MAIN P := BEGIN K := REPEAT BEGIN A = A + 1 NEXT IF A EQL 1000 => LEAVE K END; "
    "L := REPEAT BEGIN B = B + 1 NEXT IF B EQL 1000 => LEAVE L END; C = 1 END END";

/* Runs that go on until the budget is used up, but for the last. */
static void time_by_step(const char *what, Times (*time)(const char *source))
{
    printf("%-36s %6s %9s %9s %7s\n", what, "steps", "library", "reference", "ratio");
    print_steps("transfers and tests", time(transfers_and_tests));
    print_steps("DECODE", time(choices));
    print_steps("activations", time(activations));
    print_steps("LEAVE and RESTART", time(jumps));
    print_steps("arrays", time(arrays));
    print_steps("turns of members", time(turns_of_members));
    printf("\n");
}

int main(int count, char **arguments)
{
    least_time = (count > 1 ? (double)strtoul(arguments[1], NULL, 10) : 50) * 1e6;
    time_by_byte("Check, nanoseconds a byte", library_check, reference_check_once);
    time_largest();
    time_why();
    time_by_byte("Profile, nanoseconds a byte", library_profile, reference_profile_once);
    time_by_byte("Bound, nanoseconds a byte", library_bound, reference_bound_once);
    time_by_byte("Trace, nanoseconds a byte", library_trace, reference_trace_once);
    time_by_step("Run, million steps a second", time_run);
    time_by_step("Trace, million steps a second", time_trace);
    printf("%-36s %6s %9s %9s %7s\n", "Run, thousand runs a second", "steps", "library", "reference", "ratio");
    time_short_run("a resume", typical_text);
    return 0;
}
