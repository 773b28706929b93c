/* What a description is made of. */

typedef enum {
    /* The keywords come first, since they are also the first names that a reader learns. */
    BEGIN, END, NEXT, IF, DECODE, OTHERWISE, REPEAT, LEAVE, RESTART, MAIN, STOP, NO_OP, NOT, AND, EQV, OR, XOR, EQL, NEQ, LSS, LEQ, GTR, GEQ,
    KEYWORDS,
    NAME = KEYWORDS, CONSTANT, OPEN_ROUND, CLOSE_ROUND, OPEN_SQUARE, CLOSE_SQUARE, OPEN_ANGLE, CLOSE_ANGLE, COMMA, SEMICOLON, COLON, ASSIGN,
    EQUALS, ARROW, JOIN, PLUS, MINUS, STARS, END_OF_TEXT
} Kind;

static const char *const keywords[KEYWORDS] = {
    "BEGIN", "END", "NEXT", "IF", "DECODE", "OTHERWISE", "REPEAT", "LEAVE", "RESTART", "MAIN", "STOP", "NO.OP", "NOT", "AND", "EQV", "OR", "XOR",
    "EQL", "NEQ", "LSS", "LEQ", "GTR", "GEQ"
};

typedef struct {
    Kind kind;
    uint32_t place;
    uint32_t name;      /* of a name: which one */
    uint32_t length;    /* of a constant, in bits */
    uint64_t value;     /* of a constant, with 0 for each `?` */
    uint64_t free_bits; /* of a constant: the bits that its `?` leave open */
} Token;

typedef struct Expression Expression;
typedef struct Action Action;
typedef struct Declaration Declaration;

/* Two names of bits or words, the left one first. */
typedef struct {
    bool given;
    bool named; /* false for `<>` */
    uint64_t left, right;
} Span;

typedef struct Access {
    uint32_t place, name;
    Expression *subscript;
    Span bits;
    struct Access *next; /* in a joined destination */
    uint32_t join_place; /* of the `@` before it */
    const Declaration *storage;
    uint32_t length, shift;
} Access;

struct Expression {
    Kind kind; /* CONSTANT, NAME for an access, NOT, or a binary operator */
    uint32_t place;
    uint32_t length; /* 0 while unknown, and for good where a fault lies inside */
    uint64_t value;
    Access *access;
    Expression *left, *right; /* NOT has only a left one */
};

typedef struct Item {
    bool is_range;
    uint64_t low, high;       /* the lowest and highest value that match */
    uint64_t free_bits;       /* of a single constant */
    struct Item *next;
} Item;

typedef struct Alternative {
    uint32_t place;
    bool is_otherwise;
    Item *items;
    Action *action;
    struct Alternative *next;
} Alternative;

typedef struct Group {
    Action *members;
    uint32_t count;
    struct Group *next;
} Group;

typedef enum {
    BLOCK, LABELLED, CONDITIONAL, CHOICE, LOOP, LEAVING, RESTARTING, ACTIVATION, STOPPING, NOTHING, TRANSFER
} Form;

struct Action {
    Form form;
    uint32_t place;
    uint32_t name;             /* a label, what LEAVE or RESTART aims at, or an activated body */
    Action *next_member;
    Group *groups;             /* of a block */
    Expression *expression;    /* a test, or a transfer's right side */
    Action *inner;             /* what is labelled, conditional or repeated; an activated body's block */
    Alternative *alternatives;
    Access *destination;
    uint32_t length;           /* of a destination, all accesses together */
    const Action *target;      /* of LEAVE and RESTART: the labelled action, or the body's block */
    Declaration *body;         /* of an activation */
};

typedef struct {
    uint64_t bits[MOST_DECLARATIONS / 64];
} Set;

typedef struct {
    Set reads, writes;
    bool stops;
} Footprint;

typedef enum { CARRIER, MAPPING, BODY } Sort;

struct Declaration {
    Sort sort;
    uint32_t place, name, number;
    Span words, bits;
    uint32_t target_name; /* of a mapping */
    Span target_bits;
    const Declaration *target;
    bool is_main;
    uint32_t main_place;
    Action *block;
    uint32_t first_word; /* where its storage begins in the carriers */
    uint32_t chain;      /* the longest chain of activations that begins here, as far as the limit */
    enum { UNSEEN, UNDER_WAY, SEEN } chain_state, footprint_state;
    Footprint footprint;
    Declaration *next;
};

typedef struct {
    const char *letters;
    uint32_t size;
    uint32_t hash;
    bool is_outer;
    Declaration *declaration;      /* the first of this name */
    const Declaration *label_body; /* the last body that has it as a label */
    const Action *open_label;      /* the labelled action around the place that is being judged */
} Name;

typedef struct {
    uint32_t number, place;
} Fault;

enum { NAME_SLOTS = 16384 };

typedef struct {
    const uint8_t *text;
    size_t text_len;
    Chunk *memory;
    Fault fault;
    char *folded; /* the text in upper case */
    Token *tokens;
    uint32_t token_count;
    uint32_t at, depth; /* of the parser */
    Name *names;
    uint32_t name_count;
    uint16_t *name_slots; /* number of a name plus one, found by hash */
    Declaration *declarations, *body;
    Declaration *main;
    uint32_t declaration_count, word_count;
} Reader;

#define NEW(reader, type) ((type *)take_memory(&(reader)->memory, sizeof(type)))

static void note_by_place(Fault *least, uint32_t number, uint32_t place)
{
    if (least->number == 0 || place < least->place || (place == least->place && number < least->number))
        *least = (Fault){number, place};
}

static void note_by_number(Fault *least, uint32_t number, uint32_t place)
{
    if (least->number == 0 || number < least->number || (number == least->number && place < least->place))
        *least = (Fault){number, place};
}

static uint64_t ones(uint32_t length)
{
    return length >= 64 ? UINT64_MAX : ((uint64_t)1 << length) - 1;
}
