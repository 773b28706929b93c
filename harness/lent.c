#include "lent.h"

#include <stdbool.h>
#include <string.h>

#include "../include/isps.h"

enum { GUARD = 64, CANARY = 0xC5, RUBBISH = 0xA7 };

typedef struct {
    uint8_t room[GUARD + LONGEST_LENT + GUARD];
    size_t len;
    const uint8_t *before; /* what was lent; of rubbish nothing is kept */
} Buffer;

static Buffer lent_text, lent_read[2], lent_written, lent_reason, lent_work[4], lent_answer;

static uint8_t *bytes_of(Buffer *buffer)
{
    return buffer->room + GUARD;
}

/* What a caller has for an empty buffer: often nothing. */
static uint8_t *pointer_to(Buffer *buffer)
{
    return buffer->len == 0 ? NULL : bytes_of(buffer);
}

static void set_guards(Buffer *buffer, size_t len)
{
    buffer->len = len;
    memset(buffer->room, CANARY, GUARD);
    memset(bytes_of(buffer) + len, CANARY, GUARD);
}

static void lend_copy(Buffer *buffer, const uint8_t *bytes, size_t len)
{
    set_guards(buffer, len);
    buffer->before = bytes;
    if (len > 0)
        memcpy(bytes_of(buffer), bytes, len);
}

static void lend_rubbish(Buffer *buffer, size_t len)
{
    set_guards(buffer, len);
    memset(bytes_of(buffer), RUBBISH, len);
}

static bool guards_stand(const Buffer *buffer)
{
    for (size_t i = 0; i < GUARD; i++)
        if (buffer->room[i] != CANARY || buffer->room[GUARD + buffer->len + i] != CANARY)
            return false;
    return true;
}

static bool is_unchanged(const Buffer *buffer)
{
    return buffer->len == 0 || memcmp(buffer->room + GUARD, buffer->before, buffer->len) == 0;
}

/* Bytes are all the same if the first one is that byte and each equals the one before it. */
static bool are_all(const uint8_t *bytes, size_t len, uint8_t byte)
{
    return len == 0 || (bytes[0] == byte && memcmp(bytes, bytes + 1, len - 1) == 0);
}

static bool is_full_of(const Buffer *buffer, uint8_t byte)
{
    return are_all(buffer->room + GUARD, buffer->len, byte);
}

static void read_numbers(Buffer *buffer, size_t count, uint32_t *numbers)
{
    const uint8_t *bytes = bytes_of(buffer);
    for (size_t i = 0; i < count; i++)
        numbers[i] = (uint32_t)bytes[4 * i] | (uint32_t)bytes[4 * i + 1] << 8 | (uint32_t)bytes[4 * i + 2] << 16 | (uint32_t)bytes[4 * i + 3] << 24;
}

static void read_answer(uint32_t returned, uint32_t answer[8])
{
    memset(answer, 0, 8 * sizeof *answer);
    if (returned == ISPS_WORK_TOO_SHORT || returned == ISPS_TEXT_TOO_LONG) {
        answer[ISPS_ENDING] = ISPS_REFUSED;
        answer[ISPS_NUMBER] = returned;
        answer[ISPS_LINE] = answer[ISPS_COLUMN] = 1;
        return;
    }
    read_numbers(&lent_answer, 8, answer);
}

static const char *fault_of_work_memory(bool untouched)
{
    for (int i = 0; i < 4; i++) {
        if (!guards_stand(&lent_work[i]))
            return "wrote outside work memory";
        if (untouched && !is_full_of(&lent_work[i], RUBBISH))
            return "changed work memory after 1 or 2";
        if (!untouched && !is_full_of(&lent_work[i], 0))
            return "left work memory that is not zero";
    }
    return NULL;
}

static bool has_right_position(const uint32_t answer[8])
{
    bool has_place = answer[ISPS_ENDING] == ISPS_REFUSED || answer[ISPS_ENDING] == ISPS_FAULT;
    return has_place ? answer[ISPS_LINE] >= 1 && answer[ISPS_COLUMN] >= 1 : answer[ISPS_LINE] == 0 && answer[ISPS_COLUMN] == 0;
}

static bool is_left_alone(const Buffer *buffer)
{
    return guards_stand(buffer) && is_unchanged(buffer);
}

static const char *fault_of_call(uint32_t returned, const uint32_t answer[8])
{
    bool untouched = returned == ISPS_WORK_TOO_SHORT || returned == ISPS_TEXT_TOO_LONG;
    if (!is_left_alone(&lent_text))
        return "changed the text or the bytes around it";
    if (!is_left_alone(&lent_read[0]) || !is_left_alone(&lent_read[1]))
        return "changed a buffer that it may only read, or the bytes around it";
    if (!guards_stand(&lent_written))
        return "wrote outside the buffer that it may write";
    if (!guards_stand(&lent_answer))
        return "wrote outside the answer";
    if (untouched && !is_full_of(&lent_answer, RUBBISH))
        return "wrote an answer after 1 or 2";
    if (answer[ISPS_ENDING] == ISPS_REFUSED && !is_unchanged(&lent_written))
        return "changed a buffer and refused";
    if (answer[ISPS_NUMBER] != returned)
        return "returned another number than its answer has";
    if (!has_right_position(answer))
        return "gave no line and column to a refusal or fault, or gave them to something else";
    return fault_of_work_memory(untouched);
}

/* Lends what every call takes. The other buffers, the fourth of work memory too, are empty until a call lends them. */
static void lend(const Lengths *lengths, const uint8_t *text, size_t text_len)
{
    lend_copy(&lent_text, text, text_len);
    lend_copy(&lent_read[0], NULL, 0);
    lend_copy(&lent_read[1], NULL, 0);
    lend_copy(&lent_written, NULL, 0);
    for (int i = 0; i < 3; i++)
        lend_rubbish(&lent_work[i], lengths->work[i]);
    lend_rubbish(&lent_work[3], 0);
    lend_rubbish(&lent_answer, lengths->answer);
}

static uint32_t look_after(uint32_t returned, uint32_t answer[8], const char **broken)
{
    read_answer(returned, answer);
    *broken = fault_of_call(returned, answer);
    return returned;
}

static void take_back(uint8_t *bytes)
{
    if (lent_written.len > 0)
        memcpy(bytes, bytes_of(&lent_written), lent_written.len);
}

#define LENT(buffer) pointer_to(&(buffer)), (buffer).len
#define LENT_WORK_AND_ANSWER LENT(lent_work[0]), LENT(lent_work[1]), LENT(lent_work[2]), LENT(lent_answer)

uint32_t lent_check_with(const Lengths *lengths, const uint8_t *text, size_t text_len, uint32_t answer[8], const char **broken)
{
    lend(lengths, text, text_len);
    return look_after(isps_check(LENT(lent_text), LENT_WORK_AND_ANSWER), answer, broken);
}

/* A reason is written with every answer, into the first bytes of its buffer. */
static const char *fault_of_reason(bool untouched)
{
    size_t written = untouched ? 0 : ISPS_REASON_SIZE;
    if (!guards_stand(&lent_reason))
        return "wrote outside the reason";
    if (!are_all(bytes_of(&lent_reason) + written, lent_reason.len - written, RUBBISH))
        return untouched ? "wrote a reason after 1 or 2" : "changed bytes behind the reason";
    return NULL;
}

uint32_t lent_why_with(const Lengths *lengths, size_t reason_len, const uint8_t *text, size_t text_len, uint32_t reason[24], uint32_t answer[8],
                       const char **broken)
{
    lend(lengths, text, text_len);
    lend_rubbish(&lent_reason, reason_len);
    uint32_t returned = look_after(isps_why(LENT(lent_text), LENT(lent_work[0]), LENT(lent_work[1]), LENT(lent_work[2]), LENT(lent_reason), LENT(lent_answer)),
                                   answer, broken);
    bool untouched = returned == ISPS_WORK_TOO_SHORT || returned == ISPS_TEXT_TOO_LONG;
    if (*broken == NULL)
        *broken = fault_of_reason(untouched);
    memset(reason, 0, 24 * sizeof *reason);
    if (!untouched)
        read_numbers(&lent_reason, 24, reason);
    return returned;
}

uint32_t lent_run_with(const Lengths *lengths, const uint8_t *text, size_t text_len, uint8_t *carriers, size_t carriers_len, uint32_t budget,
                       uint32_t answer[8], const char **broken)
{
    lend(lengths, text, text_len);
    lend_copy(&lent_written, carriers, carriers_len);
    uint32_t returned = look_after(isps_run(LENT(lent_text), LENT(lent_written), budget, LENT_WORK_AND_ANSWER), answer, broken);
    take_back(carriers);
    return returned;
}

uint32_t lent_profile_with(const Lengths *lengths, const uint8_t *text, size_t text_len, const uint8_t *test, size_t test_len, const uint8_t *output,
                           size_t output_len, uint32_t answer[8], const char **broken)
{
    lend(lengths, text, text_len);
    lend_copy(&lent_read[0], test, test_len);
    lend_copy(&lent_read[1], output, output_len);
    return look_after(isps_profile(LENT(lent_text), LENT(lent_read[0]), LENT(lent_read[1]), LENT_WORK_AND_ANSWER), answer, broken);
}

uint32_t lent_store_with(const Lengths *lengths, const uint8_t *text, size_t text_len, const uint8_t *carriers, size_t carriers_len, uint8_t *image,
                         size_t image_len, uint32_t answer[8], const char **broken)
{
    lend(lengths, text, text_len);
    lend_copy(&lent_read[0], carriers, carriers_len);
    lend_copy(&lent_written, image, image_len);
    uint32_t returned = look_after(isps_store(LENT(lent_text), LENT(lent_read[0]), LENT(lent_written), LENT_WORK_AND_ANSWER), answer, broken);
    take_back(image);
    return returned;
}

uint32_t lent_load_with(const Lengths *lengths, const uint8_t *text, size_t text_len, const uint8_t *image, size_t image_len, uint8_t *carriers,
                        size_t carriers_len, uint32_t answer[8], const char **broken)
{
    lend(lengths, text, text_len);
    lend_copy(&lent_read[0], image, image_len);
    lend_copy(&lent_written, carriers, carriers_len);
    uint32_t returned = look_after(isps_load(LENT(lent_text), LENT(lent_read[0]), LENT(lent_written), LENT_WORK_AND_ANSWER), answer, broken);
    take_back(carriers);
    return returned;
}

uint32_t lent_bound_with(const Lengths *lengths, const uint8_t *text, size_t text_len, uint32_t answer[8], const char **broken)
{
    lend(lengths, text, text_len);
    return look_after(isps_bound(LENT(lent_text), LENT_WORK_AND_ANSWER), answer, broken);
}

uint32_t lent_trace_with(const Lengths *lengths, const uint8_t *text, size_t text_len, const uint8_t *carriers, size_t carriers_len, uint32_t budget,
                         const uint8_t *entries, size_t entries_len, uint32_t answer[8], const char **broken)
{
    lend(lengths, text, text_len);
    lend_copy(&lent_read[0], carriers, carriers_len);
    lend_copy(&lent_read[1], entries, entries_len);
    lend_rubbish(&lent_work[3], lengths->work[3]);
    return look_after(isps_trace(LENT(lent_text), LENT(lent_read[0]), budget, LENT(lent_read[1]), LENT(lent_work[0]), LENT(lent_work[1]), LENT(lent_work[2]),
                                 LENT(lent_work[3]), LENT(lent_answer)),
                      answer, broken);
}

static const Lengths published = {{ISPS_WORK_SIZE, ISPS_WORK_SIZE, ISPS_WORK_SIZE, ISPS_WORK_SIZE}, ISPS_ANSWER_SIZE};

uint32_t lent_check(const uint8_t *text, size_t text_len, uint32_t answer[8], const char **broken)
{
    return lent_check_with(&published, text, text_len, answer, broken);
}

uint32_t lent_why(const uint8_t *text, size_t text_len, uint32_t reason[24], uint32_t answer[8], const char **broken)
{
    return lent_why_with(&published, ISPS_REASON_SIZE, text, text_len, reason, answer, broken);
}

uint32_t lent_run(const uint8_t *text, size_t text_len, uint8_t *carriers, size_t carriers_len, uint32_t budget, uint32_t answer[8],
                  const char **broken)
{
    return lent_run_with(&published, text, text_len, carriers, carriers_len, budget, answer, broken);
}

uint32_t lent_profile(const uint8_t *text, size_t text_len, const uint8_t *test, size_t test_len, const uint8_t *output, size_t output_len,
                      uint32_t answer[8], const char **broken)
{
    return lent_profile_with(&published, text, text_len, test, test_len, output, output_len, answer, broken);
}

uint32_t lent_store(const uint8_t *text, size_t text_len, const uint8_t *carriers, size_t carriers_len, uint8_t *image, size_t image_len,
                    uint32_t answer[8], const char **broken)
{
    return lent_store_with(&published, text, text_len, carriers, carriers_len, image, image_len, answer, broken);
}

uint32_t lent_load(const uint8_t *text, size_t text_len, const uint8_t *image, size_t image_len, uint8_t *carriers, size_t carriers_len,
                   uint32_t answer[8], const char **broken)
{
    return lent_load_with(&published, text, text_len, image, image_len, carriers, carriers_len, answer, broken);
}

uint32_t lent_bound(const uint8_t *text, size_t text_len, uint32_t answer[8], const char **broken)
{
    return lent_bound_with(&published, text, text_len, answer, broken);
}

uint32_t lent_trace(const uint8_t *text, size_t text_len, const uint8_t *carriers, size_t carriers_len, uint32_t budget, const uint8_t *entries,
                    size_t entries_len, uint32_t answer[8], const char **broken)
{
    return lent_trace_with(&published, text, text_len, carriers, carriers_len, budget, entries, entries_len, answer, broken);
}
