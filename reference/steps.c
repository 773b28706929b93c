/* Single steps. */

/* A part of a destination: its word, the bits of it that were stored, and what the word held then. */
typedef struct {
    uint32_t word;
    uint64_t mask, value;
} Stored;

typedef struct {
    uint64_t *words;
    uint32_t budget, steps;
    Fault fault;
    const Action *target; /* of the LEAVE or RESTART under way */
    void (*tell)(void *listener, const Action *transfer, const Stored *parts, uint32_t count); /* of each transfer, unless NULL */
    void *listener;
    uint32_t behind; /* for a listener, left to right: a number that NEXT, turns, restarts and activations hand on, and members of a group do not */
} Machine;

static uint64_t evaluate(Machine *m, const Expression *e);

/* The number of the word that an access means. After the first fault the others no longer matter. */
static uint32_t word_of(Machine *m, const Access *access)
{
    const Declaration *d = access->storage;
    if (access->subscript == NULL)
        return d->first_word;
    uint64_t name = evaluate(m, access->subscript), left = d->words.left, right = d->words.right;
    if (left <= right && left <= name && name <= right)
        return d->first_word + (uint32_t)(name - left);
    if (left > right && left >= name && name >= right)
        return d->first_word + (uint32_t)(left - name);
    if (m->fault.number == 0)
        m->fault = (Fault){70, access->place};
    return d->first_word;
}

static uint64_t evaluate_binary(Machine *m, const Expression *e)
{
    uint64_t a = evaluate(m, e->left), b = evaluate(m, e->right);
    switch (e->kind) {
    case JOIN: return a << e->right->length | b;
    case PLUS: return a + b;
    case MINUS: return (a - b) & ones(e->length);
    case EQL: return a == b;
    case NEQ: return a != b;
    case LSS: return a < b;
    case LEQ: return a <= b;
    case GTR: return a > b;
    case GEQ: return a >= b;
    case AND: return a & b;
    case EQV: return ~(a ^ b) & ones(e->length);
    case OR: return a | b;
    default: return a ^ b;
    }
}

static uint64_t evaluate(Machine *m, const Expression *e)
{
    switch (e->kind) {
    case CONSTANT: return e->value;
    case NAME: return m->words[word_of(m, e->access)] >> e->access->shift & ones(e->access->length);
    case NOT: return ~evaluate(m, e->left) & ones(e->length);
    default: return evaluate_binary(m, e);
    }
}

static Stored store(Machine *m, const Access *access, uint32_t word, uint64_t value)
{
    uint64_t mask = ones(access->length) << access->shift;
    m->words[word] = (m->words[word] & ~mask) | (value << access->shift & mask);
    return (Stored){word, mask, m->words[word]};
}

/* Evaluates everything before the first store, so that a fault changes nothing and no store changes a later subscript. */
static bool transfer(Machine *m, const Action *action)
{
    Stored parts[LONGEST_VALUE];
    uint32_t count = 0, rest = action->length;
    uint64_t value = evaluate(m, action->expression);
    for (const Access *access = action->destination; access != NULL; access = access->next)
        parts[count++].word = word_of(m, access);
    if (m->fault.number != 0)
        return false;
    count = 0;
    for (const Access *access = action->destination; access != NULL; access = access->next) {
        rest -= access->length;
        parts[count] = store(m, access, parts[count].word, value >> rest);
        count++;
    }
    if (m->tell != NULL)
        m->tell(m->listener, action, parts, count);
    return true;
}

static bool test(Machine *m, const Action *action, uint64_t *value)
{
    *value = evaluate(m, action->expression);
    return m->fault.number == 0;
}

static bool item_matches(const Item *item, uint64_t value)
{
    return item->is_range ? item->low <= value && value <= item->high : (value & ~item->free_bits) == item->low;
}

static bool alternative_matches(const Alternative *alternative, uint64_t value)
{
    for (const Item *item = alternative->items; item != NULL; item = item->next)
        if (item_matches(item, value))
            return true;
    return alternative->is_otherwise;
}

/* NULL after a fault: OTHERWISE is the last one, so the first that matches is the one. */
static const Action *choose_alternative(Machine *m, const Action *choice)
{
    uint64_t value;
    if (!test(m, choice, &value))
        return NULL;
    for (const Alternative *a = choice->alternatives; a != NULL; a = a->next)
        if (alternative_matches(a, value))
            return a->action;
    m->fault = (Fault){71, choice->place};
    return NULL;
}
