/* The resume profile, judged on the tree: which transfers to the output control comes to while no activation of the test has ended. */

typedef struct {
    Reader *reader;
    const Declaration *test, *output;
    bool found;
    uint32_t place; /* of the lowest transfer found */
    bool is_left[LONGEST_TEXT];          /* by the place of a LEAVE's target: control comes to such a LEAVE */
    bool is_judged[MOST_DECLARATIONS], comes_to_end[MOST_DECLARATIONS]; /* by the number of a body */
} Profile;

static bool writes_output(const Action *transfer, const Declaration *output)
{
    for (const Access *access = transfer->destination; access != NULL; access = access->next)
        if (access->storage == output)
            return true;
    return false;
}

static void note_early(Profile *profile, uint32_t place)
{
    if (!profile->found || place < profile->place)
        profile->place = place;
    profile->found = true;
}

static bool comes_through(Profile *profile, const Action *action);

static bool comes_through_body(Profile *profile, const Declaration *body)
{
    if (!profile->is_judged[body->number]) {
        profile->is_judged[body->number] = true;
        bool reaches_end = comes_through(profile, body->block);
        profile->comes_to_end[body->number] = reaches_end || profile->is_left[body->block->place];
    }
    return profile->comes_to_end[body->number];
}

/* A group is over when all its members are, and each of them is walked, whatever the ones before it do. */
static bool comes_through_block(Profile *profile, const Action *block)
{
    bool goes_on = true;
    for (const Group *group = block->groups; group != NULL && goes_on; group = group->next)
        for (const Action *member = group->members; member != NULL; member = member->next_member)
            goes_on = comes_through(profile, member) && goes_on;
    return goes_on;
}

static bool comes_through_choice(Profile *profile, const Action *choice)
{
    bool goes_on = false;
    for (const Alternative *a = choice->alternatives; a != NULL; a = a->next)
        goes_on = comes_through(profile, a->action) || goes_on;
    return goes_on;
}

/* Whether control that begins the action also comes behind it, with no test ended. What RESTART and the turns of a REPEAT lead to is walked anyway. */
static bool comes_through(Profile *profile, const Action *action)
{
    bool reaches_end;
    switch (action->form) {
    case BLOCK: return comes_through_block(profile, action);
    case CHOICE: return comes_through_choice(profile, action);
    case LABELLED:
        reaches_end = comes_through(profile, action->inner);
        return reaches_end || profile->is_left[action->place];
    case CONDITIONAL:
        comes_through(profile, action->inner);
        return true;
    case LOOP:
        comes_through(profile, action->inner);
        return false;
    case ACTIVATION:
        reaches_end = comes_through_body(profile, action->body);
        return reaches_end && action->body != profile->test;
    case LEAVING:
        profile->is_left[action->target->place] = true;
        return false;
    case RESTARTING: case STOPPING: return false;
    case TRANSFER:
        if (writes_output(action, profile->output))
            note_early(profile, action->place);
        return true;
    default: return true;
    }
}

static void profile_on_tree(Profile *profile)
{
    comes_through_body(profile, profile->reader->main);
}

static uint8_t fold_letter(uint8_t byte)
{
    return byte >= 'a' && byte <= 'z' ? (uint8_t)(byte - 'a' + 'A') : byte;
}

static bool is_called(const Name *name, const uint8_t *bytes, size_t len)
{
    bool same = name->size == len;
    for (size_t i = 0; same && i < len; i++)
        same = (uint8_t)name->letters[i] == fold_letter(bytes[i]);
    return same;
}

static const Declaration *declared(const Reader *r, const uint8_t *name, size_t len)
{
    const Declaration *d = r->declarations;
    while (d != NULL && !is_called(&r->names[d->name], name, len))
        d = d->next;
    return d;
}

static void judge_profile(Reader *r, const uint8_t *test, size_t test_len, const uint8_t *output, size_t output_len, void (*in_way)(Profile *))
{
    static Profile profile;
    memset(&profile, 0, sizeof profile);
    profile.reader = r;
    profile.test = declared(r, test, test_len);
    profile.output = declared(r, output, output_len);
    if (profile.test == NULL || profile.test->sort != BODY) {
        r->fault = (Fault){90, 0};
    } else if (profile.output == NULL || profile.output->sort == MAPPING || !profile.output->bits.given) {
        r->fault = (Fault){91, 0};
    } else {
        in_way(&profile);
        if (profile.found)
            r->fault = (Fault){92, profile.place};
    }
}

static uint32_t profile(const uint8_t *text, size_t text_len, const uint8_t *test, size_t test_len, const uint8_t *output, size_t output_len,
                        void (*in_way)(Profile *), uint32_t answer[8])
{
    Reader r;
    read_text(&r, text, text_len);
    if (r.fault.number == 0)
        judge_profile(&r, test, test_len, output, output_len, in_way);
    give(answer, text, r.fault.number == 0 ? DONE : REFUSED, r.fault, 0);
    give_back_memory(r.memory);
    return answer[NUMBER];
}

uint32_t reference_profile(const uint8_t *text, size_t text_len, const uint8_t *test, size_t test_len, const uint8_t *output, size_t output_len,
                           uint32_t answer[8])
{
    return profile(text, text_len, test, test_len, output, output_len, profile_on_tree, answer);
}
