/* Run in any order of single steps. */

/* An action under way. A block has the members of its current group that have not ended; another action has what it has begun inside,
 * or nothing while its own next step is still to come. */
typedef struct Live {
    const Action *action;
    struct Live *around, *inside;
    const Group *group;
    struct Live **members;
    uint32_t member_count;
} Live;

static Live *begin(const Action *action, Live *around);

static void begin_group(Live *block, const Group *group)
{
    block->group = group;
    block->members = must_have(malloc(group->count * sizeof *block->members));
    for (const Action *member = group->members; member != NULL; member = member->next_member)
        block->members[block->member_count++] = begin(member, block);
}

static void begin_content(Live *live)
{
    if (live->action->form == BLOCK)
        begin_group(live, live->action->groups);
    else
        live->inside = begin(live->action->inner, live);
}

static Live *begin(const Action *action, Live *around)
{
    Live *live = must_have(calloc(1, sizeof *live));
    live->action = action;
    live->around = around;
    if (action->form == BLOCK || action->form == LABELLED)
        begin_content(live);
    return live;
}

static void end(Live *live);

static void end_content(Live *live)
{
    for (uint32_t i = 0; i < live->member_count; i++)
        end(live->members[i]);
    free(live->members);
    if (live->inside != NULL)
        end(live->inside);
    live->members = NULL;
    live->member_count = 0;
    live->inside = NULL;
}

static void end(Live *live)
{
    end_content(live);
    free(live);
}

static void remove_member(Live *block, const Live *member)
{
    uint32_t i = 0;
    while (block->members[i] != member)
        i++;
    block->member_count--;
    for (; i < block->member_count; i++)
        block->members[i] = block->members[i + 1];
}

/* Ends an action and whatever ends with it. The outermost block is ended only by the caller: true says that it has come to its end. */
static bool finish(Live *live)
{
    for (;;) {
        Live *around = live->around;
        if (around == NULL)
            return true;
        if (around->action->form == BLOCK) {
            remove_member(around, live);
            end(live);
            if (around->member_count > 0)
                return false;
            end_content(around);
            if (around->group->next != NULL) {
                begin_group(around, around->group->next);
                return false;
            }
        } else {
            end_content(around);
            if (around->action->form == LOOP)
                return false;
        }
        live = around;
    }
}

static Live *target_of(Live *jump)
{
    Live *live = jump;
    while (live->action != jump->action->target)
        live = live->around;
    return live;
}

static uint64_t next_random(uint64_t *state)
{
    *state ^= *state << 13;
    *state ^= *state >> 7;
    *state ^= *state << 17;
    return *state;
}

static Live *choose_next(Live *live, uint64_t *random)
{
    for (;;) {
        if (live->action->form == BLOCK)
            live = live->members[*random == 0 ? live->member_count - 1 : next_random(random) % live->member_count];
        else if (live->inside != NULL)
            live = live->inside;
        else
            return live;
    }
}

/* Takes the next step of an action that has one to take. */
static Outcome step(Machine *m, Live *live)
{
    const Action *action = live->action, *begun = action->inner;
    uint64_t value = 1;
    switch (action->form) {
    case TRANSFER:
        if (!transfer(m, action))
            return HAS_FAULTED;
        break;
    case CONDITIONAL:
        if (!test(m, action, &value))
            return HAS_FAULTED;
        if (value == 0)
            begun = NULL;
        break;
    case CHOICE:
        begun = choose_alternative(m, action);
        if (begun == NULL)
            return HAS_FAULTED;
        break;
    default: break;
    }
    m->steps++;
    if (action->form == STOPPING)
        return HAS_STOPPED;
    if (action->form == LEAVING)
        return finish(target_of(live)) ? ENDED : GOES_ON;
    if (action->form == RESTARTING) {
        Live *target = target_of(live);
        end_content(target);
        begin_content(target);
        return GOES_ON;
    }
    if (begun == NULL)
        return finish(live) ? ENDED : GOES_ON;
    live->inside = begin(begun, live);
    return GOES_ON;
}

static Outcome run_in_some_order(Machine *m, const Declaration *main, uint64_t seed)
{
    Live *outermost = begin(main->block, NULL);
    Outcome outcome = GOES_ON;
    while (outcome == GOES_ON && m->steps < m->budget)
        outcome = step(m, choose_next(outermost, &seed));
    end(outermost);
    return outcome == GOES_ON ? HAS_PAUSED : outcome;
}
