/* The stages, in this order: scan (10s), parse (20s), declare (30s), judge bodies (40s), judge the whole (50s), run (60s and 70s).
 * Each stage keeps the least fault of its ten, and the next one starts only where there is none. A part of the program is a file; they are compiled
 * as one, so that the compiler sees as much of it as it does of the proved library. */
#include "reference.h"

#include <stdbool.h>
#include <stdlib.h>
#include <string.h>

enum {
    LONGEST_TEXT = 32768,
    LONGEST_NAME = 32,
    MOST_TOKENS = 8192,
    DEEPEST_NESTING = 32,
    LONGEST_VALUE = 64,
    HIGHEST_NAME_OF_BIT_OR_WORD = 4095,
    MOST_DECLARATIONS = 256,
    MOST_WORDS = 4096,
    MOST_ALTERNATIVES = 64,
    LONGEST_CHAIN = 16,
    MOST_ENTRIES = 4096
};

enum { ENDING, NUMBER, PLACE, STEPS, DECLARATIONS, WORDS, LINE, COLUMN, SAYS_YES = DECLARATIONS, FIRST_BAD = WORDS };
enum { DONE, STOPPED, PAUSED, FAULTED, REFUSED, NO_BOUND };

#include "memory.c"
#include "description.h"
#include "scan.c"
#include "parse.c"
#include "declare.c"
#include "bodies.c"
#include "whole.c"
#include "read.c"
#include "why.c"
#include "steps.c"
#include "runs.c"
#include "orders.c"
#include "calls.c"
#include "images.c"
#include "profile.c"
#include "spots.c"
#include "paths.c"
#include "bound.c"
#include "trace.c"
#include "stores.c"
