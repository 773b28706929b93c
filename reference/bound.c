/* The longest run: a bound on steps, added up on the tree. */

typedef struct {
    bool is_known[MOST_DECLARATIONS];
    uint64_t of_body[MOST_DECLARATIONS]; /* by the number of a body */
} Bounds;

/* Stands for every number that passes the most steps of a run, and for what a REPEAT or RESTART adds. */
static const uint64_t no_bound = (uint64_t)1 << 32;

static uint64_t sum_of_bounds(uint64_t a, uint64_t b)
{
    return a + b < no_bound ? a + b : no_bound;
}

static uint64_t bound_of(Bounds *bounds, const Action *action);

static uint64_t bound_of_body(Bounds *bounds, const Declaration *body)
{
    if (!bounds->is_known[body->number]) {
        bounds->of_body[body->number] = bound_of(bounds, body->block);
        bounds->is_known[body->number] = true;
    }
    return bounds->of_body[body->number];
}

static uint64_t bound_of_block(Bounds *bounds, const Action *block)
{
    uint64_t sum = 0;
    for (const Group *group = block->groups; group != NULL; group = group->next)
        for (const Action *member = group->members; member != NULL; member = member->next_member)
            sum = sum_of_bounds(sum, bound_of(bounds, member));
    return sum;
}

static uint64_t bound_of_dearest(Bounds *bounds, const Action *choice)
{
    uint64_t dearest = 0, bound;
    for (const Alternative *a = choice->alternatives; a != NULL; a = a->next)
        dearest = (bound = bound_of(bounds, a->action)) > dearest ? bound : dearest;
    return dearest;
}

static uint64_t bound_of(Bounds *bounds, const Action *action)
{
    switch (action->form) {
    case BLOCK: return bound_of_block(bounds, action);
    case LABELLED: return bound_of(bounds, action->inner);
    case CONDITIONAL: return sum_of_bounds(1, bound_of(bounds, action->inner));
    case CHOICE: return sum_of_bounds(1, bound_of_dearest(bounds, action));
    case ACTIVATION: return sum_of_bounds(1, bound_of_body(bounds, action->body));
    case LOOP: case RESTARTING: return no_bound;
    default: return 1;
    }
}

uint32_t reference_bound(const uint8_t *text, size_t text_len, uint32_t answer[8])
{
    Bounds bounds = {{false}, {0}};
    Reader r;
    read_text(&r, text, text_len);
    if (r.fault.number != 0) {
        give(answer, text, REFUSED, r.fault, 0);
    } else {
        uint64_t bound = bound_of_body(&bounds, r.main);
        if (bound < no_bound)
            give(answer, text, DONE, r.fault, (uint32_t)bound);
        else
            give(answer, text, NO_BOUND, r.fault, 0);
    }
    give_back_memory(r.memory);
    return answer[NUMBER];
}
