/* Judge bodies. */

static uint32_t judge_expression(Reader *r, Expression *e);

/* How far to the right the last of these bits lies in the declared ones. */
static uint32_t shift_in(Span bits, Span declared)
{
    return (uint32_t)(declared.left >= declared.right ? bits.right - declared.right : declared.right - bits.right);
}

static void place_access(Access *access, const Declaration *d)
{
    access->storage = d;
    access->shift = 0;
    access->length = length_of_span(d->bits);
    if (access->bits.given) {
        access->shift = shift_in(access->bits, d->bits);
        access->length = length_of_span(access->bits);
    }
    if (d->sort == MAPPING) {
        access->storage = d->target;
        access->shift += shift_in(d->target_bits, d->target->bits);
    }
}

static uint32_t refusal_of_access(const Reader *r, const Access *access)
{
    const Name *name = &r->names[access->name];
    const Declaration *d = name->declaration;
    if (name->is_outer)
        return 41;
    if (d == NULL)
        return 40;
    if (!d->bits.given || (access->subscript != NULL) != d->words.given)
        return 41;
    return access->bits.given && !lies_in(access->bits, d->bits) ? 42 : 0;
}

/* Gives the length, or 0 where a fault lies in the access. */
static uint32_t judge_access(Reader *r, Access *access)
{
    uint32_t number = refusal_of_access(r, access);
    bool sound_subscript = access->subscript == NULL || judge_expression(r, access->subscript) != 0;
    if (number != 0) {
        note_by_place(&r->fault, number, access->place);
        return 0;
    }
    place_access(access, r->names[access->name].declaration);
    return sound_subscript ? access->length : 0;
}

static uint32_t length_of_result(Kind operator, uint32_t left, uint32_t right)
{
    uint32_t longer = left > right ? left : right;
    switch (level_of(operator)) {
    case JOIN_LEVEL: return left + right;
    case SUM_LEVEL: return longer + 1;
    case RELATION_LEVEL: return 1;
    default: return longer;
    }
}

static uint32_t judge_binary(Reader *r, Expression *e)
{
    uint32_t left = judge_expression(r, e->left);
    uint32_t right = judge_expression(r, e->right);
    if (left == 0 || right == 0)
        return 0;
    uint32_t length = length_of_result(e->kind, left, right);
    if (length <= LONGEST_VALUE)
        return length;
    note_by_place(&r->fault, 43, e->place);
    return 0;
}

/* Gives the length, or 0 where a fault lies in the expression. */
static uint32_t judge_expression(Reader *r, Expression *e)
{
    switch (e->kind) {
    case CONSTANT: break;
    case NAME: e->length = judge_access(r, e->access); break;
    case NOT: e->length = judge_expression(r, e->left); break;
    default: e->length = judge_binary(r, e);
    }
    return e->length;
}

static void add_to_set(Set *set, uint32_t number)
{
    set->bits[number / 64] |= (uint64_t)1 << number % 64;
}

static bool is_in_set(const Set *set, uint32_t number)
{
    return (set->bits[number / 64] >> number % 64 & 1) != 0;
}

static void judge_destination(Reader *r, Action *action)
{
    Set stored = {{0}};
    bool sound = true;
    uint32_t running = 0;
    for (Access *access = action->destination; access != NULL; access = access->next) {
        uint32_t length = judge_access(r, access);
        sound = sound && length != 0;
        running += length;
        if (sound && running > LONGEST_VALUE) {
            note_by_place(&r->fault, 43, access->join_place);
            sound = false;
        }
        if (access->storage == NULL)
            continue;
        if (is_in_set(&stored, access->storage->number))
            note_by_place(&r->fault, 46, access->place);
        add_to_set(&stored, access->storage->number);
    }
    action->length = running;
}

/* The least value of a single selector that is not below the bound, if there is one. */
static bool next_match(const Item *single, uint64_t bound, uint64_t *match)
{
    uint64_t followed = 0, raise_at = 0, raised_from = 0;
    for (uint64_t bit = (uint64_t)1 << 63; bit != 0; bit >>= 1) {
        bool is_free = (single->free_bits & bit) != 0, want = (bound & bit) != 0;
        bool has = is_free ? want : (single->low & bit) != 0;
        if (is_free && !want) {
            raise_at = bit;
            raised_from = followed;
        }
        if (has && !want) {
            *match = followed | (single->low & (bit | (bit - 1)));
            return true;
        }
        if (!has && want) {
            *match = raised_from | raise_at | (single->low & (raise_at - 1));
            return raise_at != 0;
        }
        if (has)
            followed |= bit;
    }
    *match = followed;
    return true;
}

static bool single_meets_range(const Item *single, const Item *range)
{
    uint64_t match;
    if (single->low > range->high || single->high < range->low)
        return false;
    return next_match(single, range->low, &match) && match <= range->high;
}

static bool items_overlap(const Item *a, const Item *b)
{
    if (a->is_range && b->is_range)
        return a->low <= b->high && b->low <= a->high;
    if (a->is_range)
        return single_meets_range(b, a);
    if (b->is_range)
        return single_meets_range(a, b);
    return ((a->low ^ b->low) & ~(a->free_bits | b->free_bits)) == 0;
}

static bool alternatives_overlap(const Alternative *a, const Alternative *b)
{
    for (const Item *x = a->items; x != NULL; x = x->next)
        for (const Item *y = b->items; y != NULL; y = y->next)
            if (items_overlap(x, y))
                return true;
    return false;
}

static bool overlaps_an_earlier(const Alternative *first, const Alternative *later)
{
    for (const Alternative *earlier = first; earlier != later; earlier = earlier->next)
        if (alternatives_overlap(earlier, later))
            return true;
    return false;
}

static bool passes_length(const Alternative *alternative, uint32_t length)
{
    for (const Item *item = alternative->items; item != NULL; item = item->next)
        if (item->high > ones(length))
            return true;
    return false;
}

/* The first alternative at fault is the one with the smallest place, so the search ends there. */
static void judge_selectors(Reader *r, const Action *choice)
{
    uint32_t count = 0, length = choice->expression->length;
    for (const Alternative *a = choice->alternatives; a != NULL; a = a->next) {
        if (++count > MOST_ALTERNATIVES || (length != 0 && passes_length(a, length)) || overlaps_an_earlier(choice->alternatives, a)) {
            note_by_place(&r->fault, 45, a->place);
            return;
        }
    }
}

static void judge_action(Reader *r, Action *action);

static void judge_label(Reader *r, Action *action)
{
    Name *label = &r->names[action->name];
    const Action *around = label->open_label;
    if (label->is_outer || label->declaration != NULL || label->label_body == r->body)
        note_by_place(&r->fault, 44, action->place);
    label->label_body = r->body;
    label->open_label = action;
    judge_action(r, action->inner);
    label->open_label = around;
}

static void judge_jump(Reader *r, Action *action)
{
    if (r->names[action->name].open_label != NULL)
        action->target = r->names[action->name].open_label;
    else if (action->name == r->body->name)
        action->target = r->body->block;
    else
        note_by_place(&r->fault, 44, action->place);
}

static void judge_activation(Reader *r, Action *action)
{
    const Name *name = &r->names[action->name];
    if (name->declaration == NULL && !name->is_outer) {
        note_by_place(&r->fault, 40, action->place);
    } else if (name->is_outer || name->declaration->sort != BODY) {
        note_by_place(&r->fault, 41, action->place);
    } else {
        action->body = name->declaration;
        action->inner = action->body->block;
    }
}

static void judge_action(Reader *r, Action *action)
{
    switch (action->form) {
    case BLOCK:
        for (Group *group = action->groups; group != NULL; group = group->next)
            for (Action *member = group->members; member != NULL; member = member->next_member)
                judge_action(r, member);
        break;
    case LABELLED: judge_label(r, action); break;
    case CONDITIONAL:
        judge_expression(r, action->expression);
        judge_action(r, action->inner);
        break;
    case CHOICE:
        judge_expression(r, action->expression);
        judge_selectors(r, action);
        for (Alternative *a = action->alternatives; a != NULL; a = a->next)
            judge_action(r, a->action);
        break;
    case LOOP: judge_action(r, action->inner); break;
    case LEAVING: case RESTARTING: judge_jump(r, action); break;
    case ACTIVATION: judge_activation(r, action); break;
    case STOPPING: case NOTHING: break;
    case TRANSFER:
        judge_destination(r, action);
        judge_expression(r, action->expression);
        break;
    }
}

static void judge_bodies(Reader *r)
{
    for (Declaration *d = r->declarations; d != NULL; d = d->next) {
        if (d->sort == BODY) {
            r->body = d;
            judge_action(r, d->block);
        }
    }
}
