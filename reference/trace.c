/* A designer's list of stores against the run left to right. Every order makes the same stores at each place, so each store of the run is the next entry of its
 * place, and it must lie behind the entries of all that is over before it in every order. */

enum { ENTRY_SIZE = 16 };

static const uint32_t no_entry = UINT32_MAX;

typedef struct {
    uint32_t place, word;
    uint64_t value;
} Entry;

typedef struct {
    Entry entries[MOST_ENTRIES];
    uint32_t count;
} List;

static bool load_list(List *list, const uint8_t *bytes, size_t len)
{
    if (len % ENTRY_SIZE != 0 || len / ENTRY_SIZE > MOST_ENTRIES)
        return false;
    list->count = (uint32_t)(len / ENTRY_SIZE);
    for (uint32_t i = 0; i < list->count; i++, bytes += ENTRY_SIZE) {
        uint64_t place_and_word = load_word(bytes);
        list->entries[i] = (Entry){(uint32_t)place_and_word, (uint32_t)(place_and_word >> 32), load_word(bytes + 8)};
    }
    return true;
}

static void save_entry(uint8_t *bytes, const Action *transfer, const Stored *part)
{
    save_word(bytes, (uint64_t)part->word << 32 | transfer->place);
    save_word(bytes + 8, part->value);
}

typedef struct {
    List list;
    uint64_t before[MOST_ENTRIES]; /* what the word of an entry held before it, as the list has it */
    bool is_taken[MOST_ENTRIES];
    uint32_t next_at[LONGEST_TEXT]; /* the first entry of a place that is not taken, or `no_entry` */
    uint32_t next[MOST_ENTRIES];    /* of the same place */
    uint32_t bad;                   /* the least entry found that cannot be, or `no_entry` */
    bool misses;                    /* a store has no entry */
    Machine *machine;
} Trace;

static void note_words_before(Trace *trace, const uint64_t *words, uint32_t word_count)
{
    uint64_t now[MOST_WORDS];
    memcpy(now, words, word_count * sizeof *now);
    for (uint32_t i = 0; i < trace->list.count; i++) {
        const Entry *entry = &trace->list.entries[i];
        if (entry->word < word_count) {
            trace->before[i] = now[entry->word];
            now[entry->word] = entry->value;
        }
    }
}

static void note_places(Trace *trace)
{
    for (uint32_t place = 0; place < LONGEST_TEXT; place++)
        trace->next_at[place] = no_entry;
    for (uint32_t i = trace->list.count; i-- > 0;) {
        uint32_t place = trace->list.entries[i].place;
        if (place < LONGEST_TEXT) {
            trace->next[i] = trace->next_at[place];
            trace->next_at[place] = i;
        }
    }
}

static void note_bad(Trace *trace, uint32_t number)
{
    if (number < trace->bad)
        trace->bad = number;
}

/* The bits that were stored are those of the run; the others are what the list has before it. */
static bool is_entry_of(const Trace *trace, uint32_t number, uint32_t place, const Stored *part)
{
    const Entry *entry = &trace->list.entries[number];
    return entry->place == place && entry->word == part->word && ((entry->value ^ part->value) & part->mask) == 0
           && ((entry->value ^ trace->before[number]) & ~part->mask) == 0;
}

static void take_entry(Trace *trace, uint32_t number)
{
    trace->is_taken[number] = true;
    trace->next_at[trace->list.entries[number].place] = trace->next[number];
}

/* The parts of a transfer lie together. Behind a store that has no entry nothing can be. */
static void take_entries(void *listener, const Action *transfer, const Stored *parts, uint32_t count)
{
    Trace *trace = listener;
    uint32_t at = trace->next_at[transfer->place];
    if (at == no_entry) {
        trace->misses = true;
        trace->machine->behind = no_entry;
        return;
    }
    if (at < trace->machine->behind)
        note_bad(trace, at);
    trace->machine->behind = at + count;
    for (uint32_t i = 0; i < count; i++, at++) {
        if (at == trace->list.count) {
            trace->misses = true;
            trace->machine->behind = no_entry;
            return;
        }
        if (!is_entry_of(trace, at, transfer->place, &parts[i])) {
            note_bad(trace, at);
            return;
        }
        take_entry(trace, at);
    }
}

static void say_of_list(uint32_t answer[8], bool is_so, uint32_t first_bad)
{
    answer[SAYS_YES] = is_so;
    answer[FIRST_BAD] = is_so ? 0 : first_bad;
}

static void trace_left_to_right(Trace *trace, Reader *r, uint64_t *words, uint32_t budget, uint32_t answer[8])
{
    Machine m = {.words = words, .budget = budget, .tell = take_entries, .listener = trace};
    trace->machine = &m;
    trace->bad = no_entry;
    trace->misses = false;
    memset(trace->is_taken, 0, sizeof trace->is_taken);
    note_words_before(trace, words, r->word_count);
    note_places(trace);
    Outcome outcome = run_left_to_right(&m, r->main, 0);
    give(answer, r->text, endings[outcome], m.fault, m.steps);
    if (outcome != ENDED && outcome != HAS_STOPPED)
        return;
    for (uint32_t i = 0; i < trace->list.count; i++)
        if (!trace->is_taken[i])
            note_bad(trace, i);
    say_of_list(answer, trace->bad == no_entry && !trace->misses, trace->bad != no_entry ? trace->bad : trace->list.count);
}

/* Reads the text, the carriers and the list; what may refuse them, in this order. */
static void read_for_trace(Reader *r, const uint8_t *text, size_t text_len, uint64_t *words, const uint8_t *carriers, size_t carriers_len, List *list,
                           const uint8_t *entries, size_t entries_len)
{
    read_text(r, text, text_len);
    if (r->fault.number == 0)
        load_carriers(r, words, carriers, carriers_len);
    if (r->fault.number == 0 && !load_list(list, entries, entries_len))
        r->fault = (Fault){110, 0};
}

static Trace trace_room;

uint32_t reference_trace(const uint8_t *text, size_t text_len, const uint8_t *carriers, size_t carriers_len, uint32_t budget, const uint8_t *entries,
                         size_t entries_len, uint32_t answer[8])
{
    uint64_t words[MOST_WORDS];
    Reader r;
    read_for_trace(&r, text, text_len, words, carriers, carriers_len, &trace_room.list, entries, entries_len);
    if (r.fault.number != 0)
        give(answer, text, REFUSED, r.fault, 0);
    else
        trace_left_to_right(&trace_room, &r, words, budget, answer);
    give_back_memory(r.memory);
    return answer[NUMBER];
}

/* ---- The stores of an order ---- */

typedef struct {
    uint8_t *entries;
    size_t len, room;
} Writing;

static void write_entries(void *listener, const Action *transfer, const Stored *parts, uint32_t count)
{
    Writing *writing = listener;
    for (uint32_t i = 0; i < count && writing->room - writing->len >= ENTRY_SIZE; i++) {
        save_entry(writing->entries + writing->len, transfer, &parts[i]);
        writing->len += ENTRY_SIZE;
    }
}

size_t reference_stores(const uint8_t *text, size_t text_len, const uint8_t *carriers, size_t carriers_len, uint32_t budget, uint64_t seed, uint8_t *entries,
                        size_t room)
{
    uint64_t words[MOST_WORDS];
    Writing writing = {.entries = entries, .room = room};
    Machine m = {.words = words, .budget = budget, .tell = write_entries, .listener = &writing};
    Reader r;
    read_text(&r, text, text_len);
    if (r.fault.number == 0)
        load_carriers(&r, words, carriers, carriers_len);
    if (r.fault.number == 0)
        run_in_some_order(&m, r.main, seed);
    give_back_memory(r.memory);
    return writing.len;
}
