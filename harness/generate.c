#include "generate.h"

#include <stdio.h>
#include <string.h>

/* ---- Chance ---- */

static uint64_t state;

void set_seed(uint64_t seed)
{
    state = seed * 0x9E3779B97F4A7C15u + 0x1234567;
    for (int i = 0; i < 8; i++)
        random_bits();
}

uint64_t random_bits(void)
{
    if (state == 0)
        state = 1;
    state ^= state << 13;
    state ^= state >> 7;
    state ^= state << 17;
    return state * 0x2545F4914F6CDD1Du;
}

unsigned below(unsigned bound)
{
    return (unsigned)((random_bits() >> 33) % bound);
}

bool chance(unsigned in_hundred)
{
    return below(100) < in_hundred;
}

/* ---- Mischief: the faults, if any, that a text is to have ---- */

typedef enum {
    LONG_NAME, BAD_CONSTANT, MANY_TOKENS, DEEP_NESTING, NAME_TWICE, TOO_WIDE, TOO_MANY, BAD_MAPPING, UNKNOWN_NAME, WRONG_USE,
    BITS_OUTSIDE, LONG_RESULT, BAD_LABEL, BAD_SELECTOR, STORED_TWICE, MAINS, LONG_CHAIN, ESCAPE, BYTE_DAMAGE, TOKEN_DAMAGE,
    RACING_READ, RACING_WRITE, RACING_SUBSCRIPT, RACING_TEST, RACING_ACTIVATION, MISCHIEFS
} Mischief;

static bool planned[MISCHIEFS];
static bool many_arrays; /* so that accesses in subscripts of joined destinations occur often enough */
static bool is_small;    /* so that a search over all orders comes to its end: few steps, and members that mostly store */

/* A race is to be the only one in its text, so that a reader that misses its kind accepts the text: what stands often misbehaves seldom. */
static bool misbehave(Mischief kind)
{
    return planned[kind] && chance(kind == RACING_READ || kind == RACING_WRITE ? 5 : 30);
}

static void plan_mischief(void)
{
    memset(planned, 0, sizeof planned);
    if (chance(50))
        return;
    planned[chance(25) ? RACING_READ + below(MISCHIEFS - RACING_READ) : below(MISCHIEFS)] = true;
    if (chance(25))
        planned[below(MISCHIEFS)] = true;
}

/* ---- Tokens ---- */

enum { TOKEN_SIZE = 80, MOST = 12000, LONGEST_TEXT = 32768 };

typedef struct {
    char letters[MOST][TOKEN_SIZE];
    unsigned count;
} Tokens;

static Tokens bodies, whole; /* the bodies are made first, since a body's effect must be known where it is activated */
static Tokens *out;

static void emit(const char *token)
{
    if (out->count < MOST)
        snprintf(out->letters[out->count++], TOKEN_SIZE, "%s", token);
}

static void emit_number(unsigned long long number)
{
    char digits[TOKEN_SIZE];
    snprintf(digits, sizeof digits, "%llu", number);
    emit(digits);
}

static const char *one_of(const char *const *words, unsigned count)
{
    return words[below(count)];
}

#define ONE_OF(...) one_of((const char *const[]){__VA_ARGS__}, sizeof((const char *const[]){__VA_ARGS__}) / sizeof(char *))

/* ---- What is declared ---- */

enum { MOST_THINGS = 60 };

typedef enum { CARRIER, MAPPING, BODY } Sort;

typedef struct {
    char name[TOKEN_SIZE];
    Sort sort;
    bool has_words, has_bits, has_bit_names;
    unsigned first_word, last_word, left, right;
    unsigned storage; /* number of the thing that holds the bits */
    unsigned target_left, target_right;
    uint64_t reads, writes; /* of a body, as bits by storage */
    bool stops;
    unsigned chain;
    unsigned from, to; /* a body's tokens */
} Thing;

static Thing things[MOST_THINGS];
static unsigned thing_count, first_body;

static unsigned length_between(unsigned left, unsigned right)
{
    return (left > right ? left - right : right - left) + 1;
}

static unsigned length_of(const Thing *thing)
{
    return length_between(thing->left, thing->right);
}

static Thing *new_thing(Sort sort)
{
    Thing *thing = &things[thing_count];
    *thing = (Thing){.sort = sort, .storage = thing_count};
    snprintf(thing->name, sizeof thing->name, "%s%u", ONE_OF("A", "B", "CNT", "IR.", "OP", "M", "FIFO", "X.Y", "HEALTH.COUNTER.OF.THE.SOURCE"), thing_count);
    if (planned[NAME_TWICE] && thing_count > 0 && chance(20))
        memcpy(thing->name, things[below(thing_count)].name, TOKEN_SIZE);
    thing_count++;
    return thing;
}

static unsigned some_length(void)
{
    if (misbehave(TOO_WIDE))
        return 65;
    if (is_small)
        return 1 + below(3);
    if (planned[LONG_RESULT] && chance(50))
        return 30 + below(35);
    return chance(75) ? 1 + below(6) : chance(70) ? 1 + below(20) : 1 + below(64);
}

static void make_bits(Thing *thing)
{
    unsigned length = some_length(), low = chance(70) ? 0 : below(9);
    if (misbehave(TOO_WIDE))
        low = 4090 + below(10);
    thing->has_bits = true;
    thing->has_bit_names = length > 1 || chance(60);
    thing->right = thing->has_bit_names ? low : 0;
    thing->left = thing->right + length - 1;
    if (chance(30)) {
        unsigned left = thing->left;
        thing->left = thing->right;
        thing->right = left;
    }
}

static void make_carrier(void)
{
    Thing *thing = new_thing(CARRIER);
    make_bits(thing);
    thing->has_words = chance(many_arrays ? 75 : is_small ? 10 : 25);
    thing->first_word = chance(60) ? 0 : below(4);
    thing->last_word = is_small ? below(3) : chance(70) ? below(8) : below(40);
    if (planned[TOO_MANY] && chance(50)) {
        thing->has_words = true;
        thing->last_word = 2040 + below(20);
    }
    if (misbehave(TOO_WIDE))
        thing->last_word = 4090 + below(10);
}

static void spoil_mapping(Thing *thing)
{
    switch (below(4)) {
    case 0: thing->storage = below(thing_count); break;
    case 1: thing->target_left += 1 + below(3); break;
    case 2: thing->left += 1; break;
    default: {
        unsigned left = thing->target_left;
        thing->target_left = thing->target_right;
        thing->target_right = left;
    }
    }
}

/* On a part of some carrier without words. */
static void make_mapping(void)
{
    const Thing *target = &things[below(thing_count)];
    if (target->has_words || target->sort == MAPPING || !target->has_bit_names)
        return;
    Thing *thing = new_thing(MAPPING);
    unsigned length = 1 + below(length_of(target)), skipped = below(length_of(target) - length + 1), low = below(3);
    bool falls = target->left >= target->right;
    thing->storage = target->storage;
    thing->target_left = falls ? target->left - skipped : target->left + skipped;
    thing->target_right = falls ? thing->target_left - (length - 1) : thing->target_left + (length - 1);
    thing->has_bits = true;
    thing->has_bit_names = length > 1 || chance(50);
    thing->left = thing->has_bit_names ? low + length - 1 : 0;
    thing->right = thing->has_bit_names ? low : 0;
    if (misbehave(BAD_MAPPING))
        spoil_mapping(thing);
}

/* ---- Actions ---- */

/* What may stand here, so that members do not race and nothing aims outside its member. */
typedef struct {
    uint64_t may_read, may_write;
    bool may_stop, may_leave_body;
    unsigned depth;
    const char *labels[8];
    unsigned label_count;
    const Thing *body;
} Context;

typedef struct {
    uint64_t reads, writes;
    bool stops;
    unsigned chain;
} Effect;

static int tokens_left; /* for the body under way */
static unsigned next_label;

static unsigned emit_expression(const Context *context, Effect *effect, unsigned level, unsigned depth);

enum { LOOSEST = 0, OPERAND_LEVEL = 5 };

static Context with_reads(const Context *context, Mischief kind)
{
    Context inner = *context;
    if (misbehave(kind))
        inner.may_read = UINT64_MAX;
    return inner;
}

static unsigned emit_decimal(void)
{
    uint64_t power = (uint64_t)1 << (chance(30) ? 63 : below(64)), bits = random_bits();
    uint64_t value = chance(80) ? below(12) : chance(50) ? power - below(2) : bits >> below(64);
    unsigned length = 1;
    while (length < 64 && value >> length != 0)
        length++;
    emit_number(value);
    return length;
}

static unsigned emit_based(bool open_digits)
{
    static const char digits[] = "0123456789ABCDEF";
    unsigned bits_a_digit = chance(60) ? 1 : chance(50) ? 3 : 4, most = chance(90) ? 4 : 64 / bits_a_digit, count = 1 + below(most);
    char token[TOKEN_SIZE] = {bits_a_digit == 1 ? '\'' : bits_a_digit == 3 ? '#' : '"'};
    for (unsigned i = 0; i < count; i++)
        token[i + 1] = open_digits && chance(30) ? '?' : digits[below(1u << bits_a_digit)];
    emit(token);
    return count * bits_a_digit;
}

static unsigned emit_constant(void)
{
    return chance(40) ? emit_decimal() : emit_based(false);
}

static void emit_bit_names(unsigned left, unsigned right, bool is_single)
{
    emit("<");
    emit_number(left);
    if (!is_single || left != right) {
        emit(":");
        emit_number(right);
    }
    emit(">");
}

static void emit_subscript(const Context *context, Effect *effect, const Thing *thing)
{
    unsigned low = thing->first_word < thing->last_word ? thing->first_word : thing->last_word;
    Context inner = with_reads(context, RACING_SUBSCRIPT);
    emit("[");
    if (chance(many_arrays ? 20 : 70))
        emit_number(low + below(length_between(thing->first_word, thing->last_word)));
    else
        emit_expression(&inner, effect, LOOSEST, 1);
    emit("]");
}

/* Part of a thing's bits, or all of them; gives how many. */
static unsigned emit_part(const Thing *thing)
{
    if (!thing->has_bit_names || chance(70))
        return length_of(thing);
    unsigned length = 1 + below(length_of(thing)), skipped = below(length_of(thing) - length + 1);
    bool falls = thing->left >= thing->right;
    unsigned left = falls ? thing->left - skipped : thing->left + skipped, right = falls ? left - (length - 1) : left + (length - 1);
    if (misbehave(BITS_OUTSIDE))
        left += 1 + below(3);
    emit_bit_names(left, right, chance(80));
    return length;
}

static const Thing *some_storage(uint64_t allowed)
{
    for (int tries = 0; tries < 12; tries++) {
        const Thing *thing = &things[below(thing_count)];
        if (thing->has_bits && (allowed >> thing->storage & 1) != 0)
            return thing;
    }
    return NULL;
}

static unsigned emit_access(const Context *context, Effect *effect, const Thing *thing)
{
    emit(misbehave(UNKNOWN_NAME) ? "UNKNOWN" : thing->name);
    if (thing->has_words != misbehave(WRONG_USE))
        emit_subscript(context, effect, thing);
    return emit_part(thing);
}

static unsigned emit_operand(const Context *context, Effect *effect, unsigned depth)
{
    const Thing *thing = chance(65) ? some_storage(misbehave(RACING_READ) ? UINT64_MAX : context->may_read) : NULL;
    if (thing != NULL && depth > 0) {
        effect->reads |= (uint64_t)1 << thing->storage;
        return emit_access(context, effect, thing);
    }
    if (depth > 0 && chance(15)) {
        emit("NOT");
        return emit_operand(context, effect, depth);
    }
    if (depth > 0 && chance(25)) {
        unsigned count = misbehave(DEEP_NESTING) ? 34 : 1;
        for (unsigned i = 0; i < count; i++)
            emit("(");
        unsigned length = emit_expression(context, effect, LOOSEST, depth - 1);
        for (unsigned i = 0; i < count; i++)
            emit(")");
        return length;
    }
    return emit_constant();
}

static unsigned length_of_result(unsigned level, unsigned left, unsigned right)
{
    unsigned longer = left > right ? left : right;
    return level == 4 ? left + right : level == 3 ? longer + 1 : level == 2 ? 1 : longer;
}

static void emit_operator(unsigned level)
{
    switch (level) {
    case 0: emit(ONE_OF("OR", "XOR")); break;
    case 1: emit(ONE_OF("AND", "EQV")); break;
    case 2: emit(ONE_OF("EQL", "NEQ", "LSS", "LEQ", "GTR", "GEQ")); break;
    case 3: emit(ONE_OF("+", "-")); break;
    default: emit("@");
    }
}

/* Gives the length. An operation that would be too long is taken back. */
static unsigned emit_expression(const Context *context, Effect *effect, unsigned level, unsigned depth)
{
    if (level == OPERAND_LEVEL)
        return emit_operand(context, effect, depth);
    unsigned length = emit_expression(context, effect, level + 1, depth);
    while (depth > 0 && chance(14)) {
        unsigned count = out->count;
        Effect before = *effect;
        emit_operator(level);
        unsigned result = length_of_result(level, length, emit_expression(context, effect, level + 1, depth - 1));
        if (result > 64 && !planned[LONG_RESULT]) {
            out->count = count;
            *effect = before;
            return length;
        }
        length = result;
    }
    return length;
}

static Effect emit_action(const Context *context);

static void join_effects(Effect *into, Effect from)
{
    into->reads |= from.reads;
    into->writes |= from.writes;
    into->stops = into->stops || from.stops;
    into->chain = from.chain > into->chain ? from.chain : into->chain;
}

static Effect emit_no_op(void)
{
    emit("NO.OP");
    emit("(");
    emit(")");
    return (Effect){0};
}

static Effect emit_transfer(const Context *context)
{
    Effect effect = {0};
    uint64_t allowed = misbehave(RACING_WRITE) ? UINT64_MAX : context->may_write;
    unsigned length = 0, count = chance(many_arrays ? 40 : 80) ? 1 : 2 + below(3);
    for (unsigned i = 0; i < count; i++) {
        const Thing *thing = some_storage(misbehave(STORED_TWICE) ? context->may_write : allowed & ~effect.writes);
        if (thing == NULL || (length + length_of(thing) > 64 && !planned[LONG_RESULT]))
            continue;
        if (length > 0)
            emit("@");
        effect.writes |= (uint64_t)1 << thing->storage;
        length += emit_access(context, &effect, thing);
    }
    if (length == 0)
        return emit_no_op();
    emit("=");
    emit_expression(context, &effect, LOOSEST, 3);
    return effect;
}

static void emit_group(const Context *context, Effect *effect)
{
    unsigned count = chance(is_small ? 35 : 55) ? 1 : 2 + below(is_small ? 2 : 3);
    Context inner = *context;
    inner.depth++;
    if (count > 1 && !(planned[ESCAPE] && chance(20))) {
        inner.may_stop = inner.may_leave_body = false;
        inner.label_count = 0;
    }
    for (unsigned i = 0; i < count; i++) {
        if (i > 0)
            emit(";");
        Effect member = emit_action(&inner);
        join_effects(effect, member);
        inner.may_write &= ~(member.reads | member.writes);
        inner.may_read &= ~member.writes;
    }
}

static Effect emit_block(const Context *context)
{
    Effect effect = {0};
    emit("BEGIN");
    do {
        emit_group(context, &effect);
    } while (chance(55) && tokens_left > (int)out->count && (emit("NEXT"), true));
    emit("END");
    return effect;
}

static Effect emit_conditional(const Context *context)
{
    Effect effect = {0};
    Context inner = *context, test = with_reads(context, RACING_TEST);
    inner.depth++;
    emit("IF");
    emit_expression(&test, &effect, LOOSEST, 2);
    emit("=>");
    join_effects(&effect, emit_action(&inner));
    return effect;
}

/* Labels are few and unlike declared names, and each is used once in a body. */
static const char *new_label(void)
{
    static char labels[64][8];
    unsigned number = next_label++ % 64;
    snprintf(labels[number], sizeof labels[number], "L%u", misbehave(BAD_LABEL) ? below(3) : number);
    return labels[number];
}

static Context inside_label(const Context *context, const char *label)
{
    Context inner = *context;
    inner.depth += 2;
    if (inner.label_count < 8)
        inner.labels[inner.label_count++] = label;
    return inner;
}

static void emit_counting(const Thing *counter, const char *relation, const char *jump, const char *label)
{
    emit(counter->name);
    emit("=");
    emit(counter->name);
    emit("+");
    emit("1");
    emit("NEXT");
    emit("IF");
    emit(counter->name);
    emit(relation);
    emit_number(1 + below(is_small ? 1 + (length_of(counter) > 1) : length_of(counter) > 3 ? 7 : (1u << length_of(counter)) - 1));
    emit("=>");
    emit(jump);
    emit(label);
}

/* A loop that counts, so that most runs come to an end: REPEAT with LEAVE, or a block with RESTART. */
static Effect emit_counted_loop(const Context *context)
{
    const Thing *counter = some_storage(context->may_write & context->may_read);
    if (counter == NULL || counter->has_words || next_label >= 60)
        return emit_transfer(context);
    const char *label = new_label();
    bool repeats = chance(60);
    Context inner = inside_label(context, label);
    Effect effect = {.reads = (uint64_t)1 << counter->storage, .writes = (uint64_t)1 << counter->storage};
    inner.may_write &= ~effect.writes;
    emit(label);
    emit(":=");
    if (repeats)
        emit("REPEAT");
    emit("BEGIN");
    join_effects(&effect, emit_action(&inner));
    emit("NEXT");
    emit_counting(counter, repeats ? "GEQ" : "LSS", repeats ? "LEAVE" : "RESTART", label);
    emit("END");
    return effect;
}

static Effect emit_labelled(const Context *context)
{
    if (next_label >= 60)
        return emit_no_op();
    const char *label = new_label();
    Context inner = inside_label(context, label);
    emit(misbehave(BAD_LABEL) ? ONE_OF("OUTER", things[below(thing_count)].name) : label);
    emit(":=");
    if (chance(20))
        emit("REPEAT");
    return emit_action(&inner);
}

static Effect emit_jump(const Context *context)
{
    unsigned count = context->label_count + (context->may_leave_body ? 1 : 0);
    if (count == 0 && !misbehave(BAD_LABEL))
        return emit_no_op();
    unsigned number = count == 0 ? 0 : below(count);
    emit(chance(65) ? "LEAVE" : "RESTART");
    if (misbehave(BAD_LABEL))
        emit(ONE_OF("L0", "L1", "L2"));
    else
        emit(number < context->label_count ? context->labels[number] : context->body->name);
    return (Effect){0};
}

static bool may_activate(const Context *context, const Thing *body)
{
    if (body->to == 0 || body->chain >= 16) /* still being made, or too long a chain */
        return misbehave(LONG_CHAIN);
    if (body->stops && !context->may_stop && !misbehave(ESCAPE))
        return false;
    bool races = (body->writes & ~context->may_write) != 0 || (body->reads & ~context->may_read) != 0;
    return !races || misbehave(RACING_ACTIVATION);
}

static Effect emit_activation(const Context *context)
{
    const Thing *body = &things[first_body + below(thing_count - first_body)];
    if (!may_activate(context, body))
        return emit_no_op();
    emit(misbehave(WRONG_USE) ? things[below(thing_count)].name : body->name);
    emit("(");
    emit(")");
    return (Effect){body->reads, body->writes, body->stops, body->chain};
}

/* A binary constant with open digits where the mask has bits; the others hold the number, so that different numbers do not overlap. */
static void emit_open_selector(unsigned number, unsigned digits, unsigned mask)
{
    char token[TOKEN_SIZE] = "'";
    for (unsigned i = 0; i < digits; i++) {
        bool is_open = (mask >> i & 1) != 0;
        token[digits - i] = is_open ? '?' : (number & 1) != 0 ? '1' : '0';
        number = is_open ? number : number / 2;
    }
    emit(token);
}

/* The values are dealt out two by two, so that alternatives do not overlap. */
static void emit_dealt_selector(unsigned number)
{
    switch (below(3)) {
    case 0:
        emit("[");
        emit_number(2 * number);
        emit(",");
        emit_number(2 * number + 1);
        emit("]");
        break;
    case 1: emit_number(2 * number + below(2)); break;
    default:
        emit_number(2 * number + below(2));
        emit(":");
        emit_number(2 * number + below(2));
    }
}

/* The odd numbers, all but the last digit open; then even ones, as ranges that lie between them. */
static void emit_odd_or_even_selector(unsigned number, unsigned digits)
{
    if (number == 0) {
        emit_open_selector(1, digits, (1u << digits) - 2);
        return;
    }
    emit_number(2 * number);
    emit(":");
    emit_number(2 * number);
}

static void emit_bad_selector(void)
{
    emit_based(true);
    if (chance(40)) {
        emit(":");
        emit_based(true);
    }
}

typedef enum { DEALT, OPEN, ODD_OR_EVEN } Style;

static void emit_selector(Style style, unsigned number, unsigned digits, unsigned open_digit)
{
    if (misbehave(BAD_SELECTOR))
        emit_bad_selector();
    else if (style == OPEN)
        emit_open_selector(number, digits, 1u << open_digit);
    else if (style == ODD_OR_EVEN)
        emit_odd_or_even_selector(number, digits);
    else
        emit_dealt_selector(number);
    emit(":=");
}

/* How many alternatives: as many as the tested length has room for in the given way, and mostly few. */
static unsigned some_count(unsigned fitting)
{
    if (fitting >= 70 && chance(planned[BAD_SELECTOR] ? 30 : 3))
        return 63 + below(4);
    return 1 + below(fitting > 5 ? 5 : fitting);
}

static Effect emit_choice(const Context *context)
{
    Effect effect = {0};
    Context inner = *context, test = with_reads(context, RACING_TEST);
    inner.depth += 2;
    emit("DECODE");
    unsigned length = emit_expression(&test, &effect, LOOSEST, 1);
    unsigned digits = length > 8 ? 8 : length, values = 1u << digits, open_digit = below(digits);
    bool has_selectors = length > 1 && chance(70), is_whole = chance(60);
    Style style = (Style)below(3);
    unsigned count = some_count(has_selectors ? values / 2 : values);
    if (!has_selectors && is_whole && values <= 8)
        count = values;
    emit("=>");
    emit("BEGIN");
    for (unsigned i = 0; i < count; i++) {
        if (i > 0)
            emit(",");
        if (has_selectors)
            emit_selector(style, i, digits, open_digit);
        join_effects(&effect, i < 4 ? emit_action(&inner) : emit_no_op());
    }
    if (has_selectors && is_whole) {
        emit(",");
        emit("OTHERWISE");
        emit(":=");
        join_effects(&effect, emit_action(&inner));
    }
    emit("END");
    return effect;
}

static Effect emit_stop(const Context *context)
{
    if (!context->may_stop)
        return emit_no_op();
    emit("STOP");
    emit("(");
    emit(")");
    return (Effect){.stops = true};
}

static Effect emit_action(const Context *context)
{
    unsigned pick = is_small && chance(30) ? 0 : below(100);
    if (tokens_left < (int)out->count || context->depth > 14)
        return chance(80) ? emit_transfer(context) : emit_no_op();
    if (planned[BAD_SELECTOR] && chance(20))
        return emit_choice(context);
    if (planned[ESCAPE] && chance(20))
        return chance(50) ? emit_stop(context) : emit_jump(context);
    if (planned[RACING_ACTIVATION] && chance(20))
        return emit_activation(context);
    if (pick < 36)
        return emit_transfer(context);
    if (pick < 46)
        return emit_conditional(context);
    if (pick < 62)
        return emit_block(context);
    if (pick < 71)
        return emit_choice(context);
    if (pick < 79)
        return emit_counted_loop(context);
    if (pick < 83)
        return emit_labelled(context);
    if (pick < 88)
        return emit_jump(context);
    if (pick < 97)
        return emit_activation(context);
    return pick < 98 ? emit_stop(context) : emit_no_op();
}

/* In a chain each body begins with the activation of the one before it; so does MAIN at times, as after a test. */
static void make_body(unsigned size, bool in_chain)
{
    const Thing *before = thing_count > first_body ? &things[thing_count - 1] : NULL;
    Thing *body = new_thing(BODY);
    if (chance(20))
        make_bits(body);
    Context context = {.may_read = UINT64_MAX, .may_write = UINT64_MAX, .may_stop = true, .may_leave_body = true, .depth = 2, .body = body};
    Effect effect = {0};
    next_label = 0;
    body->from = out->count;
    tokens_left = (int)(out->count + size);
    emit("BEGIN");
    if (in_chain && before != NULL) {
        emit(before->name);
        emit("(");
        emit(")");
        emit("NEXT");
        join_effects(&effect, (Effect){before->reads, before->writes, before->stops, before->chain});
    }
    join_effects(&effect, emit_block(&context));
    emit("END");
    body->reads = effect.reads;
    body->writes = effect.writes;
    body->stops = effect.stops;
    body->chain = effect.chain + 1;
    body->to = out->count;
}

/* ---- The whole ---- */

static void emit_declared_bits(const Thing *thing)
{
    if (!thing->has_bits)
        return;
    if (thing->has_bit_names) {
        emit_bit_names(thing->left, thing->right, chance(70));
    } else {
        emit("<");
        emit(">");
    }
}

static void note_words(Generated *text, const Thing *thing)
{
    unsigned count = thing->sort == MAPPING || !thing->has_bits ? 0 : thing->has_words ? length_between(thing->first_word, thing->last_word) : 1;
    for (unsigned i = 0; i < count && text->word_count < GENERATED_WORDS; i++)
        text->word_lengths[text->word_count++] = (uint8_t)length_of(thing);
}

static void emit_declaration(Generated *text, const Thing *thing, bool is_main)
{
    if (chance(10)) {
        emit("**");
        emit(ONE_OF("STATE", "A1", "END.", "L0"));
        emit("**");
    }
    if (is_main)
        emit("MAIN");
    emit(thing->name);
    if (thing->has_words) {
        emit("[");
        emit_number(thing->first_word);
        emit(":");
        emit_number(thing->last_word);
        emit("]");
    }
    emit_declared_bits(thing);
    if (thing->sort != CARRIER)
        emit(":=");
    if (thing->sort == MAPPING) {
        emit(misbehave(BAD_MAPPING) ? ONE_OF("OUTER", "UNKNOWN") : things[thing->storage].name);
        emit_bit_names(thing->target_left, thing->target_right, chance(80));
    }
    for (unsigned i = thing->from; i < thing->to; i++)
        emit(bodies.letters[i]);
    note_words(text, thing);
}

static void emit_extra_carriers(Generated *text)
{
    unsigned count = 257 - thing_count - below(3);
    for (unsigned i = 0; i < count; i++) {
        char name[TOKEN_SIZE];
        snprintf(name, sizeof name, "E%u", i);
        emit(name);
        emit("<");
        emit(">");
        emit(",");
        if (text->word_count < GENERATED_WORDS)
            text->word_lengths[text->word_count++] = 1;
    }
}

static void emit_description(Generated *text)
{
    unsigned order[MOST_THINGS], last = thing_count - 1;
    for (unsigned i = 0; i < thing_count; i++) {
        unsigned j = chance(70) ? i : below(i + 1);
        order[i] = order[j];
        order[j] = i;
    }
    emit(planned[NAME_TWICE] && chance(40) ? things[below(thing_count)].name : "OUTER");
    emit(":=");
    emit("BEGIN");
    if (planned[TOO_MANY] && chance(50))
        emit_extra_carriers(text);
    for (unsigned i = 0; i < thing_count; i++) {
        if (i > 0)
            emit(",");
        emit_declaration(text, &things[order[i]], (order[i] == last) != misbehave(MAINS) && things[order[i]].sort == BODY);
    }
    emit("END");
}

static void make_storage(unsigned carriers, unsigned mappings)
{
    thing_count = 0;
    for (unsigned i = 0; i < carriers; i++)
        make_carrier();
    for (unsigned i = 0; i < mappings; i++)
        make_mapping();
}

static void make_bodies(unsigned count, unsigned size, bool in_chain)
{
    first_body = thing_count;
    out = &bodies;
    bodies.count = 0;
    for (unsigned i = 0; i < count; i++)
        make_body(size, in_chain || (i + 1 == count && chance(30)));
}

static void make_things(void)
{
    bool is_large = chance(3), in_chain = planned[LONG_CHAIN] || chance(2);
    unsigned carriers = 1 + below(is_large ? 20 : 7), mappings = below(5), count = in_chain ? 14 + below(4) : 1 + below(5);
    unsigned size = is_large ? 1500 : 15 + below(120);
    make_storage(carriers, mappings);
    make_bodies(count, in_chain ? 12 : size, in_chain);
}

static void make_few_things(void)
{
    /* each drawn in a statement of its own: the order of arguments is the compiler's */
    unsigned carriers = 2 + below(4), mappings = below(3), count = 1 + below(3), size = 8 + below(40);
    make_storage(carriers, mappings);
    make_bodies(count, size, false);
}

/* ---- Damage and writing out ---- */

static void change_token(char token[TOKEN_SIZE])
{
    if (chance(50))
        memmove(token, whole.letters[below(whole.count)], TOKEN_SIZE);
    else
        snprintf(token, TOKEN_SIZE, "%s",
                 ONE_OF("BEGIN", "END", "NEXT", "IF", "DECODE", "OTHERWISE", "REPEAT", "LEAVE", "MAIN", "STOP", "(", ")", "[", "]", "<", ">", ",", ";", ":",
                        ":=", "=", "=>", "@", "+", "-", "**", "'1?", "0", "4095", "\"FFFF", "OUTER", "UNKNOWN"));
}

static void damage_token(void)
{
    unsigned at = below(whole.count), rest = whole.count - at - 1;
    switch (below(4)) {
    case 0: change_token(whole.letters[at]); break;
    case 1:
        memmove(whole.letters[at], whole.letters[at + 1], (size_t)rest * TOKEN_SIZE);
        whole.count--;
        break;
    case 2:
        if (whole.count < MOST) {
            memmove(whole.letters[at + 1], whole.letters[at], (size_t)(rest + 1) * TOKEN_SIZE);
            whole.count++;
        }
        break;
    default:
        if (rest > 0) {
            char kept[TOKEN_SIZE];
            memcpy(kept, whole.letters[at], TOKEN_SIZE);
            memcpy(whole.letters[at], whole.letters[at + 1], TOKEN_SIZE);
            memcpy(whole.letters[at + 1], kept, TOKEN_SIZE);
        }
    }
}

static char *some_token(void)
{
    return whole.letters[below(whole.count)];
}

static void damage_tokens(void)
{
    if (planned[LONG_NAME])
        snprintf(some_token(), TOKEN_SIZE, "%s", ONE_OF("A23456789.123456789.123456789.12", "A23456789.123456789.123456789.123"));
    if (planned[BAD_CONSTANT])
        snprintf(some_token(), TOKEN_SIZE, "%s", ONE_OF("'12", "'", "#8", "1K", "\"1G", "12.", "1?", "18446744073709551616", "\"10000000000000000"));
    if (planned[MANY_TOKENS])
        for (unsigned most = 8190 + below(5); whole.count < most;)
            emit(";");
    if (planned[TOKEN_DAMAGE])
        for (unsigned count = 1 + below(2); count > 0 && whole.count > 0; count--)
            damage_token();
}

static bool is_wordlike(char c)
{
    return (c >= '0' && c <= '9') || (c >= 'A' && c <= 'Z') || c == '.' || c == '?' || c == '\'' || c == '"' || c == '#';
}

static void put(Generated *text, const char *letters, bool lower)
{
    for (; *letters != 0 && text->len < GENERATED_ROOM; letters++)
        text->bytes[text->len++] = (uint8_t)(lower && *letters >= 'A' && *letters <= 'Z' ? *letters - 'A' + 'a' : *letters);
}

static bool needs_gap(const char *before, const char *after)
{
    char last = before[strlen(before) - 1], first = after[0];
    bool is_mark = !is_wordlike(last) && !is_wordlike(first) && (last == ':' || last == '=' || last == '*');
    return is_mark || (is_wordlike(last) && is_wordlike(first));
}

static void write_out(Generated *text)
{
    bool lower = chance(30), airy = chance(30), commented = chance(10);
    for (unsigned i = 0; i < whole.count; i++) {
        if (i > 0 && (needs_gap(whole.letters[i - 1], whole.letters[i]) || (airy && chance(60))))
            put(text, airy ? ONE_OF(" ", "\n", "  ", "\t", "\r\n") : " ", false);
        if (commented && chance(4))
            put(text, ONE_OF("! a comment; END\n", "!\r NEXT\n"), false);
        put(text, whole.letters[i], lower && chance(80));
    }
}

/* Puts blanks into a text where it has some already: any of the four kinds, few or many. */
static void spread(Generated *text)
{
    static uint8_t tight[GENERATED_ROOM];
    size_t len = text->len;
    bool one_line = chance(20);
    memcpy(tight, text->bytes, len);
    text->len = 0;
    for (size_t i = 0; i < len && text->len < GENERATED_ROOM; i++) {
        unsigned count = tight[i] == ' ' && len + text->len < LONGEST_TEXT / 2 ? below(4) : 0;
        text->bytes[text->len++] = tight[i] == '\n' && one_line ? '\r' : tight[i];
        for (; count > 0 && text->len < GENERATED_ROOM; count--)
            text->bytes[text->len++] = (uint8_t)*(one_line ? ONE_OF("\t", "\r") : ONE_OF("\t", "\n", "\r", " "));
    }
}

/* Blanks in front and behind, up to the longest text. */
static void pad(Generated *text)
{
    if (text->len >= LONGEST_TEXT)
        return;
    size_t room = LONGEST_TEXT - text->len, front = chance(50) ? room : below((unsigned)room + 1);
    uint8_t blank = chance(50) ? '\t' : '\r';
    memmove(text->bytes + front, text->bytes, text->len);
    memset(text->bytes, blank, front);
    memset(text->bytes + front + text->len, blank, room - front);
    text->len = LONGEST_TEXT;
    if (front < room && chance(30))
        text->bytes[LONGEST_TEXT - 1] = '\n';
}

static void damage_byte(Generated *text)
{
    size_t at = below((unsigned)text->len), rest = text->len - at - 1;
    uint8_t *byte = &text->bytes[at];
    switch (below(4)) {
    case 0: *byte = chance(50) ? (uint8_t)below(256) : (uint8_t)(32 + below(95)); break;
    case 1:
        memmove(byte, byte + 1, rest);
        text->len--;
        break;
    case 2:
        if (text->len < GENERATED_ROOM) {
            memmove(byte + 1, byte, rest + 1);
            text->len++;
        }
        break;
    default:
        if (rest > 0) {
            uint8_t kept = byte[0];
            byte[0] = byte[1];
            byte[1] = kept;
        }
    }
}

static void empty(Generated *text)
{
    text->len = 0;
    text->word_count = 0;
}

static void describe(Generated *text)
{
    out = &whole;
    whole.count = 0;
    emit_description(text);
}

void generate_small(Generated *text)
{
    empty(text);
    memset(planned, 0, sizeof planned);
    is_small = true;
    many_arrays = chance(10);
    make_few_things();
    describe(text);
    write_out(text);
}

void generate(Generated *text)
{
    empty(text);
    plan_mischief();
    is_small = false;
    many_arrays = planned[RACING_SUBSCRIPT] || chance(10);
    make_things();
    describe(text);
    damage_tokens();
    write_out(text);
    if (chance(50))
        spread(text);
    if (chance(5))
        pad(text);
    if (planned[BYTE_DAMAGE])
        for (unsigned count = 1 + below(3); count > 0 && text->len > 0; count--)
            damage_byte(text);
}

/* ---- Names to ask for ---- */

const char *name_of_body(void)
{
    return things[first_body + below(thing_count - first_body)].name;
}

const char *name_of_storage(void)
{
    const Thing *thing = some_storage(UINT64_MAX);
    return thing != NULL ? things[thing->storage].name : name_of_anything();
}

const char *name_of_anything(void)
{
    return things[below(thing_count)].name;
}
