/* What is under way, for searches over orders of single steps. */

/* An action under way. Equal ones are one and the same, so that what has been met is known at a glance. */
typedef struct Spot {
    const Action *action;
    const Group *group;        /* of a block: the one that is under way */
    const struct Spot *inside; /* of a block: what is left of the group; else what it has begun, NULL while its own next step is still to come */
    const struct Spot *beside; /* the next member of the same group that has not ended */
    struct Spot *next_in_slot, *next_to_do;
    bool is_met;
} Spot;

enum { SPOT_SLOTS = 16384 };

typedef struct {
    Chunk **memory;
    uint32_t count;
    Spot *slots[SPOT_SLOTS];
} Spots;

/* What lies around an action under way: it is inside the spot, or among the members beside it. */
typedef struct Around {
    const Spot *spot;
    bool is_inside;
    const struct Around *around;
} Around;

static void empty_spots(Spots *spots, Chunk **memory)
{
    memset(spots, 0, sizeof *spots);
    spots->memory = memory;
}

static uint32_t slot_of(const Spot *spot)
{
    const uintptr_t parts[] = {(uintptr_t)spot->action, (uintptr_t)spot->group, (uintptr_t)spot->inside, (uintptr_t)spot->beside};
    uint64_t hash = 0;
    for (int i = 0; i < 4; i++)
        hash = (hash ^ parts[i] >> 4) * 0x9E3779B97F4A7C15u;
    return (uint32_t)(hash >> 32) % SPOT_SLOTS;
}

static Spot *spot_of(Spots *spots, const Action *action, const Group *group, const Spot *inside, const Spot *beside)
{
    Spot wanted = {.action = action, .group = group, .inside = inside, .beside = beside};
    Spot **slot = &spots->slots[slot_of(&wanted)];
    for (Spot *spot = *slot; spot != NULL; spot = spot->next_in_slot)
        if (spot->action == action && spot->group == group && spot->inside == inside && spot->beside == beside)
            return spot;
    Spot *spot = take_memory(spots->memory, sizeof *spot);
    wanted.next_in_slot = *slot;
    *spot = wanted;
    *slot = spot;
    spots->count++;
    return spot;
}

static Spot *begin_spot(Spots *spots, const Action *action, const Spot *beside);

static Spot *begin_members(Spots *spots, const Action *member)
{
    return member == NULL ? NULL : begin_spot(spots, member, begin_members(spots, member->next_member));
}

static Spot *begin_spot(Spots *spots, const Action *action, const Spot *beside)
{
    switch (action->form) {
    case BLOCK: return spot_of(spots, action, action->groups, begin_members(spots, action->groups->members), beside);
    case LABELLED: return spot_of(spots, action, NULL, begin_spot(spots, action->inner, NULL), beside);
    default: return spot_of(spots, action, NULL, NULL, beside);
    }
}

/* What becomes of a spot of which nothing inside is left. */
static const Spot *after_content(Spots *spots, const Spot *spot)
{
    if (spot->action->form == BLOCK && spot->group->next != NULL)
        return spot_of(spots, spot->action, spot->group->next, begin_members(spots, spot->group->next->members), spot->beside);
    if (spot->action->form == LOOP)
        return spot_of(spots, spot->action, NULL, NULL, spot->beside);
    return spot->beside;
}

/* Carries a step outwards: `rest` is what it leaves of the members at hand, NULL if none. Gives all that is then under way: nothing where all has ended, or
 * where an activation of the body `last` has, for who looks no further. */
static const Spot *carry_out(Spots *spots, const Around *around, const Spot *rest, const Declaration *last)
{
    for (; around != NULL; around = around->around) {
        const Spot *spot = around->spot;
        if (!around->is_inside)
            rest = spot_of(spots, spot->action, spot->group, spot->inside, rest);
        else if (rest != NULL)
            rest = spot_of(spots, spot->action, spot->group, rest, spot->beside);
        else if (spot->action->form == ACTIVATION && spot->action->body == last)
            return NULL;
        else
            rest = after_content(spots, spot);
    }
    return rest;
}

static const Spot *carry_jump(Spots *spots, const Around *around, const Action *jump, const Declaration *last)
{
    while (!around->is_inside || around->spot->action != jump->target)
        around = around->around;
    const Spot *target = around->spot;
    return carry_out(spots, around->around, jump->form == LEAVING ? target->beside : begin_spot(spots, target->action, target->beside), last);
}

static const Spot *carry_into(Spots *spots, const Around *around, const Spot *spot, const Action *begun)
{
    return carry_out(spots, around, spot_of(spots, spot->action, NULL, begin_spot(spots, begun, NULL), spot->beside), NULL);
}

/* Each action that has a step to take, one in every member. */
static void each_next(const Spot *spot, const Around *around, void (*each)(void *search, const Spot *spot, const Around *around), void *search)
{
    Around inside = {spot, true, around}, beside = {spot, false, around};
    if (spot->inside != NULL)
        each_next(spot->inside, &inside, each, search);
    else
        each(search, spot, around);
    if (spot->beside != NULL)
        each_next(spot->beside, &beside, each, search);
}
