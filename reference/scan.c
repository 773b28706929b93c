/* Scan. */

static bool is_allowed(uint8_t byte)
{
    return byte == 9 || byte == 10 || byte == 13 || (byte >= 32 && byte <= 126);
}

static bool is_blank(uint8_t byte)
{
    return byte == 9 || byte == 10 || byte == 13 || byte == 32;
}

static bool is_letter(char c)
{
    return c >= 'A' && c <= 'Z';
}

static bool is_digit(char c)
{
    return c >= '0' && c <= '9';
}

static bool goes_on_name(char c)
{
    return is_letter(c) || is_digit(c) || c == '.';
}

static uint32_t number_of_name(Reader *r, const char *letters, uint32_t size)
{
    uint32_t hash = 2166136261u;
    for (uint32_t i = 0; i < size; i++)
        hash = (hash ^ (uint8_t)letters[i]) * 16777619u;
    for (uint32_t slot = hash % NAME_SLOTS;; slot = (slot + 1) % NAME_SLOTS) {
        if (r->name_slots[slot] == 0) {
            r->names[r->name_count] = (Name){.letters = letters, .size = size, .hash = hash};
            r->name_slots[slot] = (uint16_t)(r->name_count + 1);
            return r->name_count++;
        }
        Name *name = &r->names[r->name_slots[slot] - 1];
        if (name->hash == hash && name->size == size && memcmp(name->letters, letters, size) == 0)
            return r->name_slots[slot] - 1u;
    }
}

/* 16 stands for what is no digit. */
static uint32_t digit_value(char c)
{
    if (is_digit(c))
        return (uint32_t)(c - '0');
    if (c >= 'A' && c <= 'F')
        return (uint32_t)(c - 'A' + 10);
    return 16;
}

static bool scan_decimal(Token *token, const char *digits, size_t count)
{
    for (size_t i = 0; i < count; i++) {
        if (!is_digit(digits[i]))
            return false;
        uint64_t digit = digit_value(digits[i]);
        if (token->value > (UINT64_MAX - digit) / 10)
            return false;
        token->value = token->value * 10 + digit;
    }
    token->length = 1;
    while (token->length < 64 && token->value >> token->length != 0)
        token->length++;
    return true;
}

static bool scan_based(Token *token, const char *digits, size_t count, uint32_t bits_a_digit)
{
    if (count == 0 || count * bits_a_digit > LONGEST_VALUE)
        return false;
    for (size_t i = 0; i < count; i++) {
        bool open = digits[i] == '?';
        uint64_t digit = open ? 0 : digit_value(digits[i]);
        if (digit >> bits_a_digit != 0)
            return false;
        token->value = token->value << bits_a_digit | digit;
        token->free_bits = token->free_bits << bits_a_digit | (open ? ones(bits_a_digit) : 0);
    }
    token->length = (uint32_t)count * bits_a_digit;
    return true;
}

/* All letters, digits, dots and `?` belong to the constant, so that whatever of them is no digit of it makes it malformed. */
static size_t scan_constant(Reader *r, Token *token, size_t at)
{
    char first = r->folded[at];
    size_t from = is_digit(first) ? at : at + 1, end = from;
    while (end < r->text_len && (goes_on_name(r->folded[end]) || r->folded[end] == '?'))
        end++;
    const char *digits = r->folded + from;
    bool good = first == '\'' ? scan_based(token, digits, end - from, 1)
              : first == '#'  ? scan_based(token, digits, end - from, 3)
              : first == '"'  ? scan_based(token, digits, end - from, 4)
                              : scan_decimal(token, digits, end - from);
    token->kind = CONSTANT;
    if (!good)
        r->fault = (Fault){12, token->place};
    return end;
}

static size_t scan_name(Reader *r, Token *token, size_t at)
{
    size_t end = at;
    while (end < r->text_len && goes_on_name(r->folded[end]))
        end++;
    if (end - at > LONGEST_NAME) {
        r->fault = (Fault){11, token->place};
        return end;
    }
    token->name = number_of_name(r, r->folded + at, (uint32_t)(end - at));
    token->kind = token->name < KEYWORDS ? (Kind)token->name : NAME;
    return end;
}

static size_t scan_mark(Reader *r, Token *token, size_t at)
{
    char second = at + 1 < r->text_len ? r->folded[at + 1] : 0;
    bool two = false;
    switch (r->folded[at]) {
    case '(': token->kind = OPEN_ROUND; break;
    case ')': token->kind = CLOSE_ROUND; break;
    case '[': token->kind = OPEN_SQUARE; break;
    case ']': token->kind = CLOSE_SQUARE; break;
    case '<': token->kind = OPEN_ANGLE; break;
    case '>': token->kind = CLOSE_ANGLE; break;
    case ',': token->kind = COMMA; break;
    case ';': token->kind = SEMICOLON; break;
    case '@': token->kind = JOIN; break;
    case '+': token->kind = PLUS; break;
    case '-': token->kind = MINUS; break;
    case ':': two = second == '='; token->kind = two ? ASSIGN : COLON; break;
    case '=': two = second == '>'; token->kind = two ? ARROW : EQUALS; break;
    case '*':
        two = second == '*';
        token->kind = STARS;
        if (!two)
            r->fault = (Fault){10, token->place};
        break;
    default: r->fault = (Fault){10, token->place};
    }
    return at + (two ? 2 : 1);
}

static size_t skip_comment(Reader *r, size_t at)
{
    while (at < r->text_len && r->text[at] != 10 && is_allowed(r->text[at]))
        at++;
    return at;
}

static size_t scan_token(Reader *r, size_t at)
{
    Token token = {.place = (uint32_t)at};
    char first = r->folded[at];
    if (is_letter(first))
        at = scan_name(r, &token, at);
    else if (is_digit(first) || first == '\'' || first == '#' || first == '"')
        at = scan_constant(r, &token, at);
    else
        at = scan_mark(r, &token, at);
    if (r->fault.number == 0 && r->token_count == MOST_TOKENS)
        r->fault = (Fault){13, token.place};
    if (r->fault.number == 0)
        r->tokens[r->token_count++] = token;
    return at;
}

static void fold(Reader *r)
{
    for (size_t i = 0; i < r->text_len; i++) {
        uint8_t byte = r->text[i];
        r->folded[i] = (char)(byte >= 'a' && byte <= 'z' ? byte - 'a' + 'A' : byte);
    }
}

static void scan(Reader *r)
{
    fold(r);
    memset(r->name_slots, 0, NAME_SLOTS * sizeof *r->name_slots);
    for (uint32_t i = 0; i < KEYWORDS; i++)
        number_of_name(r, keywords[i], (uint32_t)strlen(keywords[i]));
    size_t at = 0;
    while (at < r->text_len && r->fault.number == 0) {
        if (is_blank(r->text[at]))
            at++;
        else if (r->text[at] == '!')
            at = skip_comment(r, at);
        else
            at = scan_token(r, at);
    }
    r->tokens[r->token_count] = (Token){.kind = END_OF_TEXT, .place = (uint32_t)r->text_len};
}
