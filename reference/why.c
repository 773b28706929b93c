/* Why a text is refused: the race of a 53, the chain of a 51. */

enum { A_RACE = 1, A_CHAIN = 2 };
enum { BY_EARLIER = 1, BY_LATER = 2 }; /* who writes, added up */
enum { RACE_WRITERS = 5, CHAIN_COUNT = 1, CHAIN_FIRST = 2 };

/* The group that has a member at a place, found on the tree. Members begin at places of their own. */
static const Group *group_with(const Action *action, uint32_t place)
{
    const Group *found = NULL;
    switch (action->form) {
    case LABELLED: case CONDITIONAL: case LOOP: return group_with(action->inner, place);
    case CHOICE:
        for (const Alternative *a = action->alternatives; a != NULL && found == NULL; a = a->next)
            found = group_with(a->action, place);
        return found;
    case BLOCK:
        for (const Group *group = action->groups; group != NULL; group = group->next)
            for (const Action *member = group->members; member != NULL && found == NULL; member = member->next_member)
                found = group->count > 1 && member->place == place ? group : group_with(member, place);
        return found;
    default: return NULL;
    }
}

/* To judge a member once more notes no fault that was not noted. */
static Footprint footprint_of(Reader *r, const Action *member)
{
    Footprint footprint = {.stops = false};
    judge_members(r, member, member, &footprint);
    return footprint;
}

static bool is_in_conflict(const Footprint *a, const Footprint *b, uint32_t carrier)
{
    bool a_writes = is_in_set(&a->writes, carrier), b_writes = is_in_set(&b->writes, carrier);
    return (a_writes && (b_writes || is_in_set(&b->reads, carrier))) || (b_writes && is_in_set(&a->reads, carrier));
}

static void give_race(Reader *r, const Group *group, uint32_t reason[24])
{
    const Action *earlier = group->members, *later = earlier;
    while (later->place != r->fault.place)
        later = later->next_member;
    Footprint by_later = footprint_of(r, later), by_earlier = footprint_of(r, earlier);
    while (!race(&by_earlier, &by_later)) {
        earlier = earlier->next_member;
        by_earlier = footprint_of(r, earlier);
    }
    const Declaration *carrier = r->declarations;
    while (!is_in_conflict(&by_earlier, &by_later, carrier->number))
        carrier = carrier->next;
    const uint32_t given[] = {A_RACE, earlier->place, later->place, carrier->number, carrier->place};
    memcpy(reason, given, sizeof given);
    reason[RACE_WRITERS] = is_in_set(&by_earlier.writes, carrier->number) * BY_EARLIER + is_in_set(&by_later.writes, carrier->number) * BY_LATER;
}

static void explain_race(Reader *r, uint32_t reason[24])
{
    const Group *group = NULL;
    for (const Declaration *d = r->declarations; d != NULL && group == NULL; d = d->next)
        if (d->sort == BODY)
            group = group_with(d->block, r->fault.place);
    give_race(r, group, reason);
}

/* The body that the first activation in the text names, of those that begin a chain longer than this. */
static const Declaration *first_with_chain_over(const Action *action, uint32_t length)
{
    const Declaration *found = NULL;
    switch (action->form) {
    case ACTIVATION: return action->body->chain > length ? action->body : NULL;
    case LABELLED: case CONDITIONAL: case LOOP: return first_with_chain_over(action->inner, length);
    case CHOICE:
        for (const Alternative *a = action->alternatives; a != NULL && found == NULL; a = a->next)
            found = first_with_chain_over(a->action, length);
        return found;
    case BLOCK:
        for (const Group *group = action->groups; group != NULL; group = group->next)
            for (const Action *member = group->members; member != NULL && found == NULL; member = member->next_member)
                found = first_with_chain_over(member, length);
        return found;
    default: return NULL;
    }
}

/* It ends where a body is met again, or has passed the longest that is allowed. */
static void explain_chain(Reader *r, uint32_t reason[24])
{
    bool is_listed[MOST_DECLARATIONS] = {false}, is_closed = false;
    const Declaration *body = r->declarations;
    while (body->place != r->fault.place)
        body = body->next;
    uint32_t count = 0;
    reason[0] = A_CHAIN;
    while (count <= LONGEST_CHAIN && !is_closed) {
        reason[CHAIN_FIRST + count++] = body->place;
        is_closed = is_listed[body->number];
        is_listed[body->number] = true;
        if (count <= LONGEST_CHAIN)
            body = first_with_chain_over(body->block, LONGEST_CHAIN - count);
    }
    reason[CHAIN_COUNT] = count;
}

uint32_t reference_why(const uint8_t *text, size_t text_len, uint32_t reason[24], uint32_t answer[8])
{
    Reader r;
    read_text(&r, text, text_len);
    give_verdict(&r, answer);
    memset(reason, 0, 24 * sizeof *reason);
    if (r.fault.number == 53)
        explain_race(&r, reason);
    else if (r.fault.number == 51)
        explain_chain(&r, reason);
    give_back_memory(r.memory);
    return answer[NUMBER];
}
