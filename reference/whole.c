/* Judge the whole. */

static void judge_main(Reader *r)
{
    for (Declaration *d = r->declarations; d != NULL; d = d->next) {
        if (!d->is_main)
            continue;
        if (r->main != NULL)
            note_by_number(&r->fault, 50, d->main_place);
        else
            r->main = d;
    }
    if (r->main == NULL)
        note_by_number(&r->fault, 50, 0);
}

static uint32_t chain_from(Declaration *body);

static uint32_t longest_chain_below(const Action *action)
{
    uint32_t longest = 0, chain;
    switch (action->form) {
    case ACTIVATION: return chain_from(action->body);
    case LABELLED: case CONDITIONAL: case LOOP: return longest_chain_below(action->inner);
    case CHOICE:
        for (const Alternative *a = action->alternatives; a != NULL; a = a->next)
            longest = (chain = longest_chain_below(a->action)) > longest ? chain : longest;
        return longest;
    case BLOCK:
        for (const Group *group = action->groups; group != NULL; group = group->next)
            for (const Action *member = group->members; member != NULL; member = member->next_member)
                longest = (chain = longest_chain_below(member)) > longest ? chain : longest;
        return longest;
    default: return 0;
    }
}

/* A body that is met again while its own chain is under way stands on a cycle, which counts as too long. */
static uint32_t chain_from(Declaration *body)
{
    if (body->chain_state == UNDER_WAY)
        return LONGEST_CHAIN + 1;
    if (body->chain_state == UNSEEN) {
        body->chain_state = UNDER_WAY;
        body->chain = longest_chain_below(body->block) + 1;
        if (body->chain > LONGEST_CHAIN + 1)
            body->chain = LONGEST_CHAIN + 1;
        body->chain_state = SEEN;
    }
    return body->chain;
}

static void judge_chains(Reader *r)
{
    for (Declaration *d = r->declarations; d != NULL; d = d->next)
        if (d->sort == BODY && chain_from(d) > LONGEST_CHAIN)
            note_by_number(&r->fault, 51, d->place);
}

static bool sets_meet(const Set *a, const Set *b)
{
    bool meet = false;
    for (int i = 0; i < MOST_DECLARATIONS / 64; i++)
        meet = meet || (a->bits[i] & b->bits[i]) != 0;
    return meet;
}

static void join_sets(Set *into, const Set *from)
{
    for (int i = 0; i < MOST_DECLARATIONS / 64; i++)
        into->bits[i] |= from->bits[i];
}

static void join_footprints(Footprint *into, const Footprint *from)
{
    join_sets(&into->reads, &from->reads);
    join_sets(&into->writes, &from->writes);
    into->stops = into->stops || from->stops;
}

static bool race(const Footprint *a, const Footprint *b)
{
    return sets_meet(&a->writes, &b->reads) || sets_meet(&a->writes, &b->writes) || sets_meet(&a->reads, &b->writes);
}

static void add_reads(Set *reads, const Expression *e)
{
    for (; e != NULL; e = e->left) {
        if (e->access != NULL) {
            add_to_set(reads, e->access->storage->number);
            add_reads(reads, e->access->subscript);
        }
        add_reads(reads, e->right);
    }
}

static void judge_members(Reader *r, const Action *action, const Action *member_around, Footprint *footprint);

static void add_activated(Reader *r, Declaration *body, Footprint *footprint)
{
    if (body->footprint_state == UNSEEN) {
        body->footprint_state = SEEN;
        judge_members(r, body->block, NULL, &body->footprint);
    }
    join_footprints(footprint, &body->footprint);
}

static void judge_group(Reader *r, const Group *group, Footprint *footprint)
{
    Footprint earlier = {.stops = false};
    for (const Action *member = group->members; member != NULL; member = member->next_member) {
        Footprint own = {.stops = false};
        judge_members(r, member, member, &own);
        if (own.stops)
            note_by_number(&r->fault, 52, member->place);
        if (race(&earlier, &own))
            note_by_number(&r->fault, 53, member->place);
        join_footprints(&earlier, &own);
    }
    join_footprints(footprint, &earlier);
}

/* Gathers what the action reads and writes and whether it stops, and judges the groups inside. `member_around` is the innermost member of
 * a group of two or more that it lies in: what LEAVE and RESTART aim at begins before it exactly if it lies outside. */
static void judge_members(Reader *r, const Action *action, const Action *member_around, Footprint *footprint)
{
    if (action->expression != NULL)
        add_reads(&footprint->reads, action->expression);
    switch (action->form) {
    case BLOCK:
        for (const Group *group = action->groups; group != NULL; group = group->next) {
            if (group->count > 1)
                judge_group(r, group, footprint);
            else
                judge_members(r, group->members, member_around, footprint);
        }
        break;
    case LABELLED: case CONDITIONAL: case LOOP: judge_members(r, action->inner, member_around, footprint); break;
    case CHOICE:
        for (const Alternative *a = action->alternatives; a != NULL; a = a->next)
            judge_members(r, a->action, member_around, footprint);
        break;
    case LEAVING: case RESTARTING:
        if (member_around != NULL && action->target->place < member_around->place)
            note_by_number(&r->fault, 52, action->place);
        break;
    case ACTIVATION: add_activated(r, action->body, footprint); break;
    case STOPPING: footprint->stops = true; break;
    case NOTHING: break;
    case TRANSFER:
        for (const Access *access = action->destination; access != NULL; access = access->next) {
            add_to_set(&footprint->writes, access->storage->number);
            add_reads(&footprint->reads, access->subscript);
        }
        break;
    }
}

static void judge_whole(Reader *r)
{
    judge_main(r);
    if (r->fault.number == 0)
        judge_chains(r);
    if (r->fault.number != 0)
        return;
    Footprint all = {.stops = false};
    for (Declaration *d = r->declarations; d != NULL; d = d->next)
        if (d->sort == BODY)
            add_activated(r, d, &all);
}
