/* Parse. */

/* After a fault every token looks like the end of text: what is under way then comes to its end by itself. */
static Kind peek(const Reader *r)
{
    return r->fault.number != 0 ? END_OF_TEXT : r->tokens[r->at].kind;
}

static uint32_t here(const Reader *r)
{
    return r->tokens[r->at].place;
}

static void cannot_go_on(Reader *r)
{
    if (r->fault.number == 0)
        r->fault = (Fault){20, here(r)};
}

static const Token *advance(Reader *r)
{
    const Token *token = &r->tokens[r->at];
    if (token->kind == BEGIN || token->kind == OPEN_ROUND || token->kind == OPEN_SQUARE) {
        if (r->depth == DEEPEST_NESTING) {
            r->fault = (Fault){21, token->place};
            return token;
        }
        r->depth++;
    }
    if (token->kind == END || token->kind == CLOSE_ROUND || token->kind == CLOSE_SQUARE)
        r->depth--;
    r->at++;
    return token;
}

static bool accept(Reader *r, Kind kind)
{
    if (peek(r) != kind)
        return false;
    advance(r);
    return r->fault.number == 0;
}

static const Token *expect(Reader *r, Kind kind)
{
    const Token *token = &r->tokens[r->at];
    if (peek(r) == kind)
        advance(r);
    else
        cannot_go_on(r);
    return token;
}

static const Token *expect_number(Reader *r)
{
    if (r->tokens[r->at].free_bits != 0)
        cannot_go_on(r);
    return expect(r, CONSTANT);
}

/* `n` or `n:n`, up to the closing angle. */
static Span parse_bit_names(Reader *r)
{
    Span span = {.given = true, .named = true};
    span.left = span.right = expect_number(r)->value;
    if (accept(r, COLON))
        span.right = expect_number(r)->value;
    expect(r, CLOSE_ANGLE);
    return span;
}

static Expression *parse_expression(Reader *r, int loosest);

enum { NO_OPERATOR, OR_LEVEL, AND_LEVEL, RELATION_LEVEL, SUM_LEVEL, JOIN_LEVEL };

static int level_of(Kind kind)
{
    switch (kind) {
    case OR: case XOR: return OR_LEVEL;
    case AND: case EQV: return AND_LEVEL;
    case EQL: case NEQ: case LSS: case LEQ: case GTR: case GEQ: return RELATION_LEVEL;
    case PLUS: case MINUS: return SUM_LEVEL;
    case JOIN: return JOIN_LEVEL;
    default: return NO_OPERATOR;
    }
}

static void parse_rest_of_access(Reader *r, Access *access)
{
    if (accept(r, OPEN_SQUARE)) {
        access->subscript = parse_expression(r, OR_LEVEL);
        expect(r, CLOSE_SQUARE);
    }
    if (accept(r, OPEN_ANGLE))
        access->bits = parse_bit_names(r);
}

static Access *new_access(Reader *r, const Token *name)
{
    Access *access = NEW(r, Access);
    access->place = name->place;
    access->name = name->name;
    return access;
}

static Expression *parse_operand(Reader *r)
{
    Expression *e = NEW(r, Expression);
    e->kind = peek(r);
    e->place = here(r);
    switch (e->kind) {
    case NAME:
        e->access = new_access(r, advance(r));
        parse_rest_of_access(r, e->access);
        return e;
    case CONSTANT: {
        const Token *constant = expect_number(r);
        e->value = constant->value;
        e->length = constant->length;
        return e;
    }
    case NOT:
        advance(r);
        e->left = parse_operand(r);
        return e;
    case OPEN_ROUND:
        advance(r);
        e = parse_expression(r, OR_LEVEL);
        expect(r, CLOSE_ROUND);
        return e;
    default:
        cannot_go_on(r);
        return e;
    }
}

static Expression *parse_expression(Reader *r, int loosest)
{
    Expression *left = parse_operand(r);
    for (;;) {
        int level = level_of(peek(r));
        if (level == NO_OPERATOR || level < loosest)
            return left;
        Expression *e = NEW(r, Expression);
        const Token *operator = advance(r);
        e->kind = operator->kind;
        e->place = operator->place;
        e->left = left;
        e->right = parse_expression(r, level + 1);
        left = e;
    }
}

static Action *parse_action(Reader *r);

static void parse_group(Reader *r, Group *group)
{
    Action **link = &group->members;
    do {
        *link = parse_action(r);
        link = &(*link)->next_member;
        group->count++;
    } while (accept(r, SEMICOLON));
}

static void parse_block(Reader *r, Action *block)
{
    Group **link = &block->groups;
    block->form = BLOCK;
    expect(r, BEGIN);
    do {
        *link = NEW(r, Group);
        parse_group(r, *link);
        link = &(*link)->next;
    } while (accept(r, NEXT));
    expect(r, END);
}

/* Bounds as the document has them: with 0 for each `?` the two are compared, then the upper one takes its highest digits. */
static void set_range(Item *item, const Token *left, const Token *right)
{
    const Token *low = left->value > right->value ? right : left;
    const Token *high = low == left ? right : left;
    item->is_range = true;
    item->low = low->value;
    item->high = high->value | high->free_bits;
}

static Item *parse_item(Reader *r)
{
    Item *item = NEW(r, Item);
    const Token *constant = expect(r, CONSTANT);
    item->low = constant->value;
    item->high = constant->value | constant->free_bits;
    item->free_bits = constant->free_bits;
    if (accept(r, COLON))
        set_range(item, constant, expect(r, CONSTANT));
    return item;
}

static Item *parse_list(Reader *r)
{
    Item *items, **link = &items;
    do {
        *link = parse_item(r);
        link = &(*link)->next;
    } while (accept(r, COMMA));
    expect(r, CLOSE_SQUARE);
    return items;
}

static void parse_selector(Reader *r, Alternative *alternative)
{
    if (accept(r, OTHERWISE))
        alternative->is_otherwise = true;
    else if (accept(r, OPEN_SQUARE))
        alternative->items = parse_list(r);
    else
        alternative->items = parse_item(r);
    expect(r, ASSIGN);
}

static void number_alternative(Reader *r, Alternative *alternative, uint64_t number)
{
    alternative->items = NEW(r, Item);
    alternative->items->low = alternative->items->high = number;
}

static void parse_alternatives(Reader *r, Action *choice)
{
    bool have_selectors = peek(r) == CONSTANT || peek(r) == OPEN_SQUARE || peek(r) == OTHERWISE;
    Alternative **link = &choice->alternatives, *last;
    uint64_t number = 0;
    do {
        last = *link = NEW(r, Alternative);
        link = &last->next;
        last->place = here(r);
        if (have_selectors)
            parse_selector(r, last);
        else
            number_alternative(r, last, number++);
        last->action = parse_action(r);
    } while (!last->is_otherwise && accept(r, COMMA));
}

static void parse_transfer(Reader *r, Action *action, const Token *first_name)
{
    Access *access = new_access(r, first_name);
    action->form = TRANSFER;
    action->destination = access;
    parse_rest_of_access(r, access);
    while (peek(r) == JOIN) {
        uint32_t join_place = advance(r)->place;
        access->next = new_access(r, expect(r, NAME));
        access = access->next;
        access->join_place = join_place;
        parse_rest_of_access(r, access);
    }
    expect(r, EQUALS);
    action->expression = parse_expression(r, OR_LEVEL);
}

static void parse_from_name(Reader *r, Action *action)
{
    const Token *name = advance(r);
    action->name = name->name;
    if (accept(r, ASSIGN)) {
        action->form = LABELLED;
        action->inner = parse_action(r);
    } else if (accept(r, OPEN_ROUND)) {
        action->form = ACTIVATION;
        expect(r, CLOSE_ROUND);
    } else {
        parse_transfer(r, action, name);
    }
}

static void parse_test(Reader *r, Action *action, Form form)
{
    advance(r);
    action->form = form;
    action->expression = parse_expression(r, OR_LEVEL);
    expect(r, ARROW);
}

static void parse_own_call(Reader *r, Action *action, Form form)
{
    advance(r);
    action->form = form;
    expect(r, OPEN_ROUND);
    expect(r, CLOSE_ROUND);
}

static void parse_jump(Reader *r, Action *action, Form form)
{
    advance(r);
    action->form = form;
    action->name = expect(r, NAME)->name;
}

static Action *parse_action(Reader *r)
{
    Action *action = NEW(r, Action);
    action->place = here(r);
    switch (peek(r)) {
    case BEGIN: parse_block(r, action); break;
    case NAME: parse_from_name(r, action); break;
    case LEAVE: parse_jump(r, action, LEAVING); break;
    case RESTART: parse_jump(r, action, RESTARTING); break;
    case STOP: parse_own_call(r, action, STOPPING); break;
    case NO_OP: parse_own_call(r, action, NOTHING); break;
    case IF:
        parse_test(r, action, CONDITIONAL);
        action->inner = parse_action(r);
        break;
    case DECODE:
        parse_test(r, action, CHOICE);
        expect(r, BEGIN);
        parse_alternatives(r, action);
        expect(r, END);
        break;
    case REPEAT:
        advance(r);
        action->form = LOOP;
        action->inner = parse_action(r);
        break;
    default: cannot_go_on(r);
    }
    return action;
}

static void parse_words(Reader *r, Declaration *d)
{
    d->words.given = true;
    d->words.left = expect_number(r)->value;
    expect(r, COLON);
    d->words.right = expect_number(r)->value;
    expect(r, CLOSE_SQUARE);
}

static void parse_declared_bits(Reader *r, Declaration *d)
{
    expect(r, OPEN_ANGLE);
    if (accept(r, CLOSE_ANGLE))
        d->bits.given = true;
    else
        d->bits = parse_bit_names(r);
}

static void parse_mapping_target(Reader *r, Declaration *d)
{
    d->sort = MAPPING;
    d->target_name = expect(r, NAME)->name;
    expect(r, OPEN_ANGLE);
    d->target_bits = parse_bit_names(r);
}

static void parse_body(Reader *r, Declaration *d)
{
    d->sort = BODY;
    d->block = NEW(r, Action);
    d->block->place = here(r);
    parse_block(r, d->block);
}

static Declaration *parse_declaration(Reader *r)
{
    Declaration *d = NEW(r, Declaration);
    if (accept(r, STARS)) {
        expect(r, NAME);
        expect(r, STARS);
    }
    d->main_place = here(r);
    d->is_main = accept(r, MAIN);
    const Token *name = expect(r, NAME);
    d->place = name->place;
    d->name = name->name;
    if (!d->is_main && accept(r, OPEN_SQUARE)) {
        parse_words(r, d);
        parse_declared_bits(r, d);
        return d;
    }
    if (peek(r) == OPEN_ANGLE)
        parse_declared_bits(r, d);
    if (accept(r, ASSIGN)) {
        if (d->bits.given && !d->is_main && peek(r) == NAME)
            parse_mapping_target(r, d);
        else
            parse_body(r, d);
    } else if (d->is_main || !d->bits.given) {
        cannot_go_on(r);
    }
    return d;
}

static void parse(Reader *r)
{
    Declaration **link = &r->declarations;
    uint32_t outer = expect(r, NAME)->name;
    expect(r, ASSIGN);
    expect(r, BEGIN);
    do {
        *link = parse_declaration(r);
        (*link)->number = r->declaration_count++;
        link = &(*link)->next;
    } while (accept(r, COMMA));
    expect(r, END);
    if (peek(r) != END_OF_TEXT)
        cannot_go_on(r);
    r->names[outer].is_outer = true;
}
