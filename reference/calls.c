/* Run: carriers in, carriers out. */

static uint64_t load_word(const uint8_t *bytes)
{
    uint64_t value = 0;
    for (int i = 7; i >= 0; i--)
        value = value << 8 | bytes[i];
    return value;
}

static void save_word(uint8_t *bytes, uint64_t value)
{
    for (int i = 0; i < 8; i++)
        bytes[i] = (uint8_t)(value >> 8 * i);
}

static void load_carriers(Reader *r, uint64_t *words, const uint8_t *carriers, size_t carriers_len)
{
    if (carriers_len != (size_t)r->word_count * 8) {
        r->fault = (Fault){60, 0};
        return;
    }
    for (const Declaration *d = r->declarations; d != NULL; d = d->next) {
        for (uint32_t i = d->first_word; i < d->first_word + words_of(d); i++) {
            words[i] = load_word(carriers + (size_t)i * 8);
            if ((words[i] & ~ones(length_of_span(d->bits))) != 0)
                note_by_place(&r->fault, 61, i * 8);
        }
    }
}

static const uint32_t endings[] = {[ENDED] = DONE, [HAS_STOPPED] = STOPPED, [HAS_PAUSED] = PAUSED, [HAS_FAULTED] = FAULTED};

static uint32_t run(const uint8_t *text, size_t text_len, uint8_t *carriers, size_t carriers_len, uint32_t budget,
                    Outcome (*in_order)(Machine *, const Declaration *, uint64_t), uint64_t seed, uint32_t answer[8])
{
    uint64_t words[MOST_WORDS];
    Machine m = {.words = words, .budget = budget};
    Reader r;
    read_text(&r, text, text_len);
    if (r.fault.number == 0)
        load_carriers(&r, words, carriers, carriers_len);
    if (r.fault.number != 0) {
        give(answer, text, REFUSED, r.fault, 0);
    } else {
        Outcome outcome = in_order(&m, r.main, seed);
        for (uint32_t i = 0; i < r.word_count; i++)
            save_word(carriers + (size_t)i * 8, words[i]);
        give(answer, text, endings[outcome], m.fault, m.steps);
    }
    give_back_memory(r.memory);
    return answer[NUMBER];
}

uint32_t reference_run(const uint8_t *text, size_t text_len, uint8_t *carriers, size_t carriers_len, uint32_t budget, uint32_t answer[8])
{
    return run(text, text_len, carriers, carriers_len, budget, run_left_to_right, 0, answer);
}

uint32_t reference_run_order(const uint8_t *text, size_t text_len, uint8_t *carriers, size_t carriers_len, uint32_t budget, uint64_t seed,
                             uint32_t answer[8])
{
    return run(text, text_len, carriers, carriers_len, budget, run_in_some_order, seed, answer);
}
