/* Run left to right. */

typedef enum { ENDED, GOES_ON, LEFT, RESTARTED, HAS_STOPPED, HAS_PAUSED, HAS_FAULTED } Outcome;

static Outcome run_action(Machine *m, const Action *action);

/* Runs what a label or a body's name stands for. */
static Outcome run_target(Machine *m, const Action *target, const Action *content)
{
    Outcome outcome;
    do
        outcome = run_action(m, content);
    while (outcome == RESTARTED && m->target == target);
    return outcome == LEFT && m->target == target ? ENDED : outcome;
}

/* Each member begins with what lies behind its group; behind the group lies what lies behind any of them. */
static Outcome run_block(Machine *m, const Action *block)
{
    for (const Group *group = block->groups; group != NULL; group = group->next) {
        uint32_t before = m->behind;
        for (const Action *member = group->members; member != NULL; member = member->next_member) {
            uint32_t others = m->behind;
            m->behind = before;
            Outcome outcome = run_action(m, member);
            if (m->behind < others)
                m->behind = others;
            if (outcome != ENDED)
                return outcome;
        }
    }
    return ENDED;
}

static Outcome run_loop(Machine *m, const Action *loop)
{
    for (;;) {
        if (m->steps == m->budget)
            return HAS_PAUSED;
        m->steps++;
        Outcome outcome = run_action(m, loop->inner);
        if (outcome != ENDED)
            return outcome;
    }
}

static Outcome run_conditional(Machine *m, const Action *conditional)
{
    uint64_t value;
    if (!test(m, conditional, &value))
        return HAS_FAULTED;
    m->steps++;
    return value != 0 ? run_action(m, conditional->inner) : ENDED;
}

static Outcome run_choice(Machine *m, const Action *choice)
{
    const Action *chosen = choose_alternative(m, choice);
    if (chosen == NULL)
        return HAS_FAULTED;
    m->steps++;
    return run_action(m, chosen);
}

static Outcome run_action(Machine *m, const Action *action)
{
    switch (action->form) {
    case BLOCK: return run_block(m, action);
    case LABELLED: return run_target(m, action, action->inner);
    case LOOP: return run_loop(m, action);
    default: break;
    }
    if (m->steps == m->budget)
        return HAS_PAUSED;
    switch (action->form) {
    case CONDITIONAL: return run_conditional(m, action);
    case CHOICE: return run_choice(m, action);
    case TRANSFER:
        if (!transfer(m, action))
            return HAS_FAULTED;
        m->steps++;
        return ENDED;
    case ACTIVATION:
        m->steps++;
        return run_target(m, action->inner, action->inner);
    case LEAVING: case RESTARTING:
        m->steps++;
        m->target = action->target;
        return action->form == LEAVING ? LEFT : RESTARTED;
    default:
        m->steps++;
        return action->form == STOPPING ? HAS_STOPPED : ENDED;
    }
}

static Outcome run_left_to_right(Machine *m, const Declaration *main, uint64_t seed)
{
    (void)seed;
    return run_target(m, main->block, main->block);
}
