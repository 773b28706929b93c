/* Read: all stages of the text. */

/* Room for the longest text. */
static char folded_room[LONGEST_TEXT];
static Token token_room[MOST_TOKENS + 1];
static Name name_room[KEYWORDS + MOST_TOKENS + 1];
static uint16_t name_slot_room[NAME_SLOTS];

static void read_text(Reader *r, const uint8_t *text, size_t text_len)
{
    static void (*const stages[])(Reader *) = {scan, parse, declare, judge_bodies, judge_whole};
    *r = (Reader){.text = text, .text_len = text_len, .folded = folded_room, .tokens = token_room, .names = name_room, .name_slots = name_slot_room};
    if (text_len > LONGEST_TEXT)
        r->fault = (Fault){2, 0};
    for (size_t i = 0; i < sizeof stages / sizeof stages[0] && r->fault.number == 0; i++)
        stages[i](r);
}

/* The line is one more than the bytes 10 before the place; the column is counted back to the last of them. */
static void give_position(uint32_t answer[8], const uint8_t *text, Fault fault)
{
    bool is_in_text = fault.number >= 10 && fault.number / 10 != 6 && fault.number < 100;
    size_t place = is_in_text ? fault.place : 0, line_start = place;
    while (line_start > 0 && text[line_start - 1] != '\n')
        line_start--;
    answer[LINE] = 1;
    for (size_t i = 0; i < line_start; i++)
        answer[LINE] += text[i] == '\n';
    answer[COLUMN] = (uint32_t)(place - line_start) + 1;
}

static void give(uint32_t answer[8], const uint8_t *text, uint32_t ending, Fault fault, uint32_t steps)
{
    memset(answer, 0, 8 * sizeof *answer);
    answer[ENDING] = ending;
    answer[NUMBER] = fault.number;
    answer[PLACE] = fault.place;
    answer[STEPS] = steps;
    if (fault.number != 0)
        give_position(answer, text, fault);
}

/* What Check answers. */
static void give_verdict(const Reader *r, uint32_t answer[8])
{
    give(answer, r->text, r->fault.number == 0 ? DONE : REFUSED, r->fault, 0);
    if (r->fault.number == 0) {
        answer[DECLARATIONS] = r->declaration_count;
        answer[WORDS] = r->word_count;
    }
}

uint32_t reference_check(const uint8_t *text, size_t text_len, uint32_t answer[8])
{
    Reader r;
    read_text(&r, text, text_len);
    give_verdict(&r, answer);
    give_back_memory(r.memory);
    return answer[NUMBER];
}
