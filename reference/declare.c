/* Declare. */

static uint64_t distance(Span span)
{
    return span.left > span.right ? span.left - span.right : span.right - span.left;
}

/* Whether the inner bits are among the outer ones and run the same way. */
static bool lies_in(Span inner, Span outer)
{
    if (!outer.named)
        return false;
    if (outer.left >= outer.right)
        return outer.left >= inner.left && inner.left >= inner.right && inner.right >= outer.right;
    return outer.left <= inner.left && inner.left <= inner.right && inner.right <= outer.right;
}

static bool names_too_high(Span span)
{
    return span.left > HIGHEST_NAME_OF_BIT_OR_WORD || span.right > HIGHEST_NAME_OF_BIT_OR_WORD;
}

static uint32_t length_of_span(Span span)
{
    return (uint32_t)distance(span) + 1;
}

static uint32_t words_of(const Declaration *d)
{
    if (d->sort == MAPPING || !d->bits.given)
        return 0;
    return d->words.given ? length_of_span(d->words) : 1;
}

/* A name that is the outer one has no declaration here, even if it is declared again. */
static bool has_bad_target(const Reader *r, const Declaration *d)
{
    const Declaration *target = r->names[d->target_name].declaration;
    return target == NULL || target->words.given || target->sort == MAPPING || !target->bits.given || !lies_in(d->target_bits, target->bits)
        || distance(d->bits) != distance(d->target_bits);
}

static void declare_names(Reader *r)
{
    for (Declaration *d = r->declarations; d != NULL; d = d->next) {
        Name *name = &r->names[d->name];
        if (name->is_outer || name->declaration != NULL)
            note_by_place(&r->fault, 30, d->place);
        else
            name->declaration = d;
    }
}

static void declare_storage(Reader *r, Declaration *d)
{
    if (distance(d->bits) >= LONGEST_VALUE || names_too_high(d->bits) || names_too_high(d->words)) {
        note_by_place(&r->fault, 31, d->place);
        return;
    }
    d->first_word = r->word_count;
    r->word_count += words_of(d);
    if (d->number >= MOST_DECLARATIONS || r->word_count > MOST_WORDS)
        note_by_place(&r->fault, 32, d->place);
}

static void declare(Reader *r)
{
    declare_names(r);
    for (Declaration *d = r->declarations; d != NULL; d = d->next) {
        declare_storage(r, d);
        if (d->sort != MAPPING)
            continue;
        if (has_bad_target(r, d))
            note_by_place(&r->fault, 33, d->place);
        d->target = r->names[d->target_name].declaration;
    }
}
