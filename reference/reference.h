/* An independent implementation of the reader and the runner: plain C, shares nothing with the proved one, and is compared with it.
 * It has no work memory, so refusal 1 does not concern it. `answer` takes eight numbers in the order that include/isps.h lists. */
#ifndef REFERENCE_H
#define REFERENCE_H

#include <stdbool.h>
#include <stddef.h>
#include <stdint.h>

uint32_t reference_check(const uint8_t *text, size_t text_len, uint32_t answer[8]);

/* The answer of Check, and the reason of a refusal as the 24 numbers that include/isps.h lists. */
uint32_t reference_why(const uint8_t *text, size_t text_len, uint32_t reason[24], uint32_t answer[8]);

/* Left to right, each member to its end. */
uint32_t reference_run(const uint8_t *text, size_t text_len, uint8_t *carriers, size_t carriers_len, uint32_t budget, uint32_t answer[8]);

/* At each step some member that has not ended, at every level and through activations, takes the next step. The seed decides which;
 * seed 0 always takes the last one. */
uint32_t reference_run_order(const uint8_t *text, size_t text_len, uint8_t *carriers, size_t carriers_len, uint32_t budget, uint64_t seed,
                             uint32_t answer[8]);

/* The image of carriers, and the carriers of an image. A refusal changes neither buffer. */
uint32_t reference_store(const uint8_t *text, size_t text_len, const uint8_t *carriers, size_t carriers_len, uint8_t *image, size_t image_len,
                         uint32_t answer[8]);
uint32_t reference_load(const uint8_t *text, size_t text_len, const uint8_t *image, size_t image_len, uint8_t *carriers, size_t carriers_len,
                        uint32_t answer[8]);

/* The resume profile, judged on the tree. */
uint32_t reference_profile(const uint8_t *text, size_t text_len, const uint8_t *test, size_t test_len, const uint8_t *output, size_t output_len,
                           uint32_t answer[8]);

/* The same by a search over all paths, which is given up once it has met `most_spots` spots. True if it came to its end. Given up, the answer is that of
 * the paths that were met: a transfer that it names is reached too early, and there may be a lower one. */
bool reference_profile_search(const uint8_t *text, size_t text_len, const uint8_t *test, size_t test_len, const uint8_t *output, size_t output_len,
                              uint32_t most_spots, uint32_t answer[8]);

/* The bound on the steps of a run. */
uint32_t reference_bound(const uint8_t *text, size_t text_len, uint32_t answer[8]);

/* A designer's list of stores, left to right: each store of the run is looked for in the list. */
uint32_t reference_trace(const uint8_t *text, size_t text_len, const uint8_t *carriers, size_t carriers_len, uint32_t budget, const uint8_t *entries,
                         size_t entries_len, uint32_t answer[8]);

/* The same by a search over all orders of single steps, which is given up once it has come to about `most_effort` standings. True if it came to its end. Given
 * up, the answer is that of the orders that were met: there may be one that makes more of the list. */
bool reference_trace_search(const uint8_t *text, size_t text_len, const uint8_t *carriers, size_t carriers_len, uint32_t budget, const uint8_t *entries,
                            size_t entries_len, uint32_t most_effort, uint32_t answer[8]);

/* The stores of the order that the seed decides, as reference_run_order has it, as a list in `entries`; those that have no room there are left out. Gives its length
 * in bytes. */
size_t reference_stores(const uint8_t *text, size_t text_len, const uint8_t *carriers, size_t carriers_len, uint32_t budget, uint64_t seed, uint8_t *entries,
                        size_t room);

#endif
