/* Calls of the library with lent buffers that are watched: whatever a call may not do to them is found here. */
#ifndef LENT_H
#define LENT_H

#include <stddef.h>
#include <stdint.h>

enum { LONGEST_LENT = 98304 }; /* bytes that a lent buffer may have here */

/* They copy `text` into a buffer with marked bytes around it, and whatever else the call takes, lend work memory that is full of rubbish, and read the
 * answer into eight numbers. A buffer of length 0 is lent as NULL. They return the number that the call returned, and set `broken` to what the call did wrong
 * with its buffers, or to NULL. */
uint32_t lent_check(const uint8_t *text, size_t text_len, uint32_t answer[8], const char **broken);
uint32_t lent_why(const uint8_t *text, size_t text_len, uint32_t reason[24], uint32_t answer[8], const char **broken); /* all 0 if no reason is written */
uint32_t lent_run(const uint8_t *text, size_t text_len, uint8_t *carriers, size_t carriers_len, uint32_t budget, uint32_t answer[8],
                  const char **broken);
uint32_t lent_profile(const uint8_t *text, size_t text_len, const uint8_t *test, size_t test_len, const uint8_t *output, size_t output_len,
                      uint32_t answer[8], const char **broken);
uint32_t lent_store(const uint8_t *text, size_t text_len, const uint8_t *carriers, size_t carriers_len, uint8_t *image, size_t image_len,
                    uint32_t answer[8], const char **broken);
uint32_t lent_load(const uint8_t *text, size_t text_len, const uint8_t *image, size_t image_len, uint8_t *carriers, size_t carriers_len,
                   uint32_t answer[8], const char **broken);
uint32_t lent_bound(const uint8_t *text, size_t text_len, uint32_t answer[8], const char **broken);
uint32_t lent_trace(const uint8_t *text, size_t text_len, const uint8_t *carriers, size_t carriers_len, uint32_t budget, const uint8_t *entries,
                    size_t entries_len, uint32_t answer[8], const char **broken);

/* The same with lengths of the work buffers and of `answer` of one's own. */
typedef struct {
    size_t work[4]; /* the last one for Trace only */
    size_t answer;
} Lengths;

uint32_t lent_check_with(const Lengths *lengths, const uint8_t *text, size_t text_len, uint32_t answer[8], const char **broken);
uint32_t lent_why_with(const Lengths *lengths, size_t reason_len, const uint8_t *text, size_t text_len, uint32_t reason[24], uint32_t answer[8],
                       const char **broken);
uint32_t lent_run_with(const Lengths *lengths, const uint8_t *text, size_t text_len, uint8_t *carriers, size_t carriers_len, uint32_t budget,
                       uint32_t answer[8], const char **broken);
uint32_t lent_profile_with(const Lengths *lengths, const uint8_t *text, size_t text_len, const uint8_t *test, size_t test_len, const uint8_t *output,
                           size_t output_len, uint32_t answer[8], const char **broken);
uint32_t lent_store_with(const Lengths *lengths, const uint8_t *text, size_t text_len, const uint8_t *carriers, size_t carriers_len, uint8_t *image,
                         size_t image_len, uint32_t answer[8], const char **broken);
uint32_t lent_load_with(const Lengths *lengths, const uint8_t *text, size_t text_len, const uint8_t *image, size_t image_len, uint8_t *carriers,
                        size_t carriers_len, uint32_t answer[8], const char **broken);
uint32_t lent_bound_with(const Lengths *lengths, const uint8_t *text, size_t text_len, uint32_t answer[8], const char **broken);
uint32_t lent_trace_with(const Lengths *lengths, const uint8_t *text, size_t text_len, const uint8_t *carriers, size_t carriers_len, uint32_t budget,
                         const uint8_t *entries, size_t entries_len, uint32_t answer[8], const char **broken);

#endif
