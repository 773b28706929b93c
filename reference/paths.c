/* The resume profile once more, by search: all that single steps in any order, with tests that go any way, come to from the start of MAIN before an
 * activation of the test has ended. It knows nothing of the judgement on the tree. */

typedef struct {
    Profile *profile;
    uint32_t most_spots;
    Spots spots;
    Spot *to_do;
} PathSearch;

/* What a step leads to; nothing that is early once the test has ended. */
static void meet(PathSearch *s, const Spot *met)
{
    Spot *spot = (Spot *)met;
    if (spot == NULL || spot->is_met)
        return;
    spot->is_met = true;
    spot->next_to_do = s->to_do;
    s->to_do = spot;
}

static bool is_at_bound(const PathSearch *s)
{
    return s->spots.count >= s->most_spots;
}

/* The next step of an action that has one to take, in every way that it may go. */
static void take_free_step(void *search, const Spot *spot, const Around *around)
{
    PathSearch *s = search;
    Spots *spots = &s->spots;
    const Action *action = spot->action;
    const Declaration *test = s->profile->test;
    if (is_at_bound(s))
        return;
    switch (action->form) {
    case CONDITIONAL:
        meet(s, carry_out(spots, around, spot->beside, test));
        meet(s, carry_into(spots, around, spot, action->inner));
        break;
    case CHOICE:
        for (const Alternative *a = action->alternatives; a != NULL; a = a->next)
            meet(s, carry_into(spots, around, spot, a->action));
        break;
    case LOOP: case ACTIVATION: meet(s, carry_into(spots, around, spot, action->inner)); break;
    case LEAVING: case RESTARTING: meet(s, carry_jump(spots, around, action, test)); break;
    case STOPPING: break;
    case TRANSFER:
        if (writes_output(action, s->profile->output))
            note_early(s->profile, action->place);
        meet(s, carry_out(spots, around, spot->beside, test));
        break;
    default: meet(s, carry_out(spots, around, spot->beside, test));
    }
}

static PathSearch path_search;

static void profile_by_search(Profile *profile)
{
    PathSearch *s = &path_search;
    s->profile = profile;
    s->to_do = NULL;
    empty_spots(&s->spots, &profile->reader->memory);
    meet(s, begin_spot(&s->spots, profile->reader->main->block, NULL));
    while (s->to_do != NULL && !is_at_bound(s)) {
        const Spot *spot = s->to_do;
        s->to_do = spot->next_to_do;
        each_next(spot, NULL, take_free_step, s);
    }
}

bool reference_profile_search(const uint8_t *text, size_t text_len, const uint8_t *test, size_t test_len, const uint8_t *output, size_t output_len,
                              uint32_t most_spots, uint32_t answer[8])
{
    path_search.spots.count = 0;
    path_search.most_spots = most_spots;
    profile(text, text_len, test, test_len, output, output_len, profile_by_search, answer);
    return !is_at_bound(&path_search);
}
