/* A designer's list of stores once more, by search: all orders of single steps from the start of MAIN, each with how far the list has its stores. It knows nothing of
 * the matching left to right. */

/* Carriers that some order comes to. Equal ones are one and the same. */
typedef struct Contents {
    struct Contents *next_in_slot;
    uint64_t words[];
} Contents;

/* What an order of steps comes to: what is under way, with which carriers, after how many steps, and how many entries of the list it made first. Once it makes
 * something else, the list is no longer followed. */
typedef struct Standing {
    const Spot *spot;
    const Contents *contents;
    uint32_t steps, made;
    bool is_astray;
    struct Standing *next_in_slot, *next_to_do;
} Standing;

enum { STANDING_SLOTS = 16384, WORDS_AS_ONE = 64 /* that many words weigh as much as a standing */ };

typedef struct {
    Reader *reader;
    uint32_t budget, effort, most_effort; /* a search is given up where it would take too much time or memory */
    Spots spots;
    List list;
    Contents *contents_slots[STANDING_SLOTS];
    Standing *slots[STANDING_SLOTS], *to_do;
    const Standing *from;        /* whose steps are tried */
    Stored parts[LONGEST_VALUE]; /* of the transfer that was tried last */
    uint32_t part_count;
    uint32_t most_made;          /* by an order that ends Done or Stopped */
    bool ends_well, is_so;       /* there is such an order; one makes just the list */
} StoreSearch;

static uint32_t slot_of_hash(uint64_t hash)
{
    return (uint32_t)(hash * 0x9E3779B97F4A7C15u >> 32) % STANDING_SLOTS;
}

static const Contents *contents_of(StoreSearch *s, const uint64_t *words)
{
    size_t size = s->reader->word_count * sizeof *words;
    uint64_t hash = 0;
    for (uint32_t i = 0; i < s->reader->word_count; i++)
        hash = (hash ^ words[i]) * 0x100000001b3u;
    Contents **slot = &s->contents_slots[slot_of_hash(hash)];
    for (Contents *contents = *slot; contents != NULL; contents = contents->next_in_slot)
        if (memcmp(contents->words, words, size) == 0)
            return contents;
    Contents *contents = take_memory(&s->reader->memory, sizeof *contents + size);
    memcpy(contents->words, words, size);
    contents->next_in_slot = *slot;
    *slot = contents;
    s->effort += s->reader->word_count / WORDS_AS_ONE;
    return contents;
}

static void stand(StoreSearch *s, Standing wanted)
{
    uint64_t hash = (uintptr_t)wanted.spot >> 4 ^ (uint64_t)(uintptr_t)wanted.contents << 20 ^ (uint64_t)wanted.steps << 40 ^ (uint64_t)wanted.made << 8;
    Standing **slot = &s->slots[slot_of_hash(hash)];
    for (const Standing *at = *slot; at != NULL; at = at->next_in_slot)
        if (at->spot == wanted.spot && at->contents == wanted.contents && at->steps == wanted.steps && at->made == wanted.made
            && at->is_astray == wanted.is_astray)
            return;
    Standing *standing = NEW(s->reader, Standing);
    *standing = wanted;
    standing->next_in_slot = *slot;
    standing->next_to_do = s->to_do;
    *slot = s->to_do = standing;
    s->effort++;
}

static void hear(void *listener, const Action *transfer, const Stored *parts, uint32_t count)
{
    StoreSearch *s = listener;
    (void)transfer;
    memcpy(s->parts, parts, count * sizeof *parts);
    s->part_count = count;
}

/* Follows the list as far as it has the stores of the step. */
static void follow(const StoreSearch *s, Standing *standing, uint32_t place)
{
    for (uint32_t i = 0; i < s->part_count && !standing->is_astray; i++) {
        const Entry *entry = &s->list.entries[standing->made];
        if (standing->made < s->list.count && entry->place == place && entry->word == s->parts[i].word && entry->value == s->parts[i].value)
            standing->made++;
        else
            standing->is_astray = true;
    }
}

static void end_well(StoreSearch *s, const Standing *standing)
{
    s->ends_well = true;
    if (standing->made > s->most_made)
        s->most_made = standing->made;
    if (!standing->is_astray && standing->made == s->list.count)
        s->is_so = true;
}

/* What one step makes of what is under way; false where it cannot be taken. */
static bool take_one_step(StoreSearch *s, Machine *m, const Spot *spot, const Around *around, const Spot **then)
{
    const Action *action = spot->action, *begun = action->inner;
    uint64_t value = 1;
    switch (action->form) {
    case TRANSFER:
        if (!transfer(m, action))
            return false;
        break;
    case CONDITIONAL:
        if (!test(m, action, &value))
            return false;
        if (value == 0)
            begun = NULL;
        break;
    case CHOICE:
        begun = choose_alternative(m, action);
        if (begun == NULL)
            return false;
        break;
    default: break;
    }
    if (action->form == STOPPING)
        *then = NULL;
    else if (action->form == LEAVING || action->form == RESTARTING)
        *then = carry_jump(&s->spots, around, action, NULL);
    else if (begun == NULL)
        *then = carry_out(&s->spots, around, spot->beside, NULL);
    else
        *then = carry_into(&s->spots, around, spot, begun);
    return true;
}

static void try_step(void *search, const Spot *spot, const Around *around)
{
    StoreSearch *s = search;
    uint64_t words[MOST_WORDS];
    Machine m = {.words = words, .tell = hear, .listener = s};
    Standing standing = *s->from;
    memcpy(words, s->from->contents->words, s->reader->word_count * sizeof *words);
    s->part_count = 0;
    if (!take_one_step(s, &m, spot, around, &standing.spot))
        return;
    standing.steps++;
    follow(s, &standing, spot->action->place);
    standing.contents = s->part_count == 0 ? s->from->contents : contents_of(s, words);
    if (standing.spot == NULL)
        end_well(s, &standing);
    else
        stand(s, standing);
}

static StoreSearch store_search;

/* The ending and its steps are those of left to right. */
static bool trace_by_search(StoreSearch *s, uint64_t *words, uint32_t answer[8])
{
    Machine m = {.words = words, .budget = s->budget};
    empty_spots(&s->spots, &s->reader->memory);
    memset(s->contents_slots, 0, sizeof s->contents_slots);
    memset(s->slots, 0, sizeof s->slots);
    s->to_do = NULL;
    s->effort = s->most_made = 0;
    s->ends_well = s->is_so = false;
    stand(s, (Standing){.spot = begin_spot(&s->spots, s->reader->main->block, NULL), .contents = contents_of(s, words)});
    while (s->to_do != NULL && s->effort < s->most_effort) {
        s->from = s->to_do;
        s->to_do = s->to_do->next_to_do;
        if (s->from->steps < s->budget)
            each_next(s->from->spot, NULL, try_step, s);
    }
    Outcome outcome = run_left_to_right(&m, s->reader->main, 0);
    give(answer, s->reader->text, endings[outcome], m.fault, m.steps);
    if (s->ends_well)
        say_of_list(answer, s->is_so, s->most_made);
    return s->to_do == NULL;
}

bool reference_trace_search(const uint8_t *text, size_t text_len, const uint8_t *carriers, size_t carriers_len, uint32_t budget, const uint8_t *entries,
                            size_t entries_len, uint32_t most_effort, uint32_t answer[8])
{
    StoreSearch *s = &store_search;
    uint64_t words[MOST_WORDS];
    bool is_whole = true;
    Reader r;
    read_for_trace(&r, text, text_len, words, carriers, carriers_len, &s->list, entries, entries_len);
    s->reader = &r;
    s->budget = budget;
    s->most_effort = most_effort;
    if (r.fault.number != 0)
        give(answer, text, REFUSED, r.fault, 0);
    else
        is_whole = trace_by_search(s, words, answer);
    give_back_memory(r.memory);
    return is_whole;
}
