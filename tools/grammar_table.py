#!/usr/bin/env python3
"""Lays out the rows of crates/laws_grammar/specs/Cited/Rows.antt as one list of numbers, for the recogniser.

Writes crates/grammar/src/rows.rt (the numbers) and crates/grammar/specs/Places.antt (where each state's row begins).
To be run after a change of the rows or of the kinds' order. Nothing rests on it: the check of `grammar` compares the numbers with the rows.
"""
import re
from itertools import product

ROWS = 'crates/laws_grammar/specs/Cited/Rows.antt'
KINDS = 'crates/rules/specs/Text/Tokens.antt'
NAMES_NO_KIND = 63
PLACES = 2048


def constructors(text):
    """The constructors of each data type: its name -> [(constructor, the types of its arguments)]."""
    types = {}
    for name, body in re.findall(r'pub data (\S+) : Type 0 where\n((?:  .*\n)+)', text):
        types[name] = []
        for line in body.strip().split('\n'):
            made, shape = line.strip().split(' : ')
            types[name] += [(c, shape.split(' → ')[:-1]) for c in made.split()]
    return types


def values(types, name):
    """Every value of a data type, in the order of its constructors: a word, or a tuple of a word and its arguments."""
    for c, arguments in types[name]:
        for chosen in product(*[list(values(types, a)) for a in arguments]):
            yield (c, *chosen) if chosen else c


def parse(text):
    """An expression: a word, or a tuple whose first word is an operator or a function."""
    words = re.findall(r'[()]|[^\s()]+', text)

    def applied():
        parts = []
        while words and words[0] not in (')', '∷', '++', '⇒'):
            word = words.pop(0)
            parts.append(whole() if word == '(' else word)
            if word == '(':
                words.pop(0)
        return parts[0] if len(parts) == 1 else tuple(parts)

    def whole():
        left = applied()
        if words and words[0] == '⇒':
            words.pop(0)
            left = ('⇒', left, applied())
        if words and words[0] in ('∷', '++'):
            return words.pop(0), left, whole()
        return left

    return whole()


def clauses(text):
    """The rows' functions: name -> [(patterns, expression)]."""
    found = {}
    for name, body in re.findall(r'abbrev pub (row|\S+-row) : .*\n((?:.+\n)+)', text):
        for clause in re.sub(r'\n +', ' ', body).strip().split('\n'):
            left, right = clause.split(' = ', 1)
            head = parse(left)
            found.setdefault(name, []).append((head[1:] if isinstance(head, tuple) else (), parse(right)))
    return found


def matched(pattern, value, made, bound):
    if isinstance(pattern, str) and pattern not in made:
        bound[pattern] = value
        return True
    if isinstance(pattern, str) or isinstance(value, str):
        return pattern == value
    return len(pattern) == len(value) and all(matched(p, v, made, bound) for p, v in zip(pattern, value))


def evaluated(term, bound, functions, made):
    """A row is a list of pairs of a kind and a move."""
    if term == '[]':
        return []
    if isinstance(term, str) and term in bound:
        return bound[term]
    head, arguments = (term[0], term[1:]) if isinstance(term, tuple) else (term, ())
    values = [evaluated(a, bound, functions, made) for a in arguments]
    if head == '∷':
        return [values[0]] + values[1]
    if head == '++':
        return values[0] + values[1]
    if head == '⇒':
        return tuple(values)
    for patterns, right in functions.get(head, []):
        inner = {}
        if all(matched(p, v, made, inner) for p, v in zip(patterns, values)):
            return evaluated(right, inner, functions, made)
    return (head, *values) if values else head


def laid_out(rows, kind_no):
    """A place for each state: the widest rows first, each at the first place where it meets no other row's entries."""
    columns = {s: [kind_no[k] for k, _ in row] for s, row in rows.items()}
    taken, places = set(), {}
    for s in sorted(rows, key=lambda s: (min(columns[s]) - max(columns[s]), -len(columns[s]))):
        place = 1
        while place in places.values() or any(place + k in taken for k in columns[s]):
            place += 1
        places[s] = place
        taken |= {place + k for k in columns[s]}
    return places


def entries(rows, places, kind_no):
    numbers = [NAMES_NO_KIND] * (max(places.values()) + len(kind_no))
    for s, row in rows.items():
        for kind, move in row:
            states = move[1:] if isinstance(move, tuple) else ()
            to = sum(places[t] * PLACES ** j for j, t in enumerate(states))
            numbers[places[s] + kind_no[kind]] = kind_no[kind] + (NAMES_NO_KIND + 1) * to
    return numbers


def numbering(types, name, function):
    """The antt function that numbers the values of a type, in the order of `values`."""
    out, n = [f'abbrev {function[name]} : {name} → ℕ'], 0
    for c, arguments in types[name]:
        out.append(f'{function[name]} ({c} x) = {n} + {function[arguments[0]]} x' if arguments else f'{function[name]} {c} = {n}')
        n += len(list(values(types, arguments[0]))) if arguments else 1
    return '\n'.join(out)


def places_file(types, places):
    function = {'Site': 'siteNo', 'Use': 'useNo', 'Part': 'partNo', 'Owner': 'ownerNo'}
    names = [c for name in (*function, 'State') for c, _ in types[name]]
    out = ['-- Where the row of each state begins in the table of src/rows.rt. No row begins at 0.',
           '-- Written by tools/grammar_table.py.',
           'use mathlib.Core.List.{[], _∷_}',
           'use Prim.Native.Nat.{ℕ, _+_}',
           'use lib.ListN.{getD}',
           'use Rattle·laws_grammar.specs.Cited.Rows.{' + ', '.join((*function, 'State')) + '}']
    for i in range(0, len(names), 10):
        out.append('use Rattle·laws_grammar.specs.Cited.Rows.{' + ', '.join(names[i:i + 10]) + '}')
    for name in function:
        out += ['', numbering(types, name, function)]
    out += ['', 'abbrev pub place : State → ℕ']
    for c, arguments in types['State']:
        if arguments:
            among = [str(places[(c, x)]) for x in values(types, arguments[0])]
            out.append(f'place ({c} x) = getD ({" ∷ ".join(among)} ∷ []) ({function[arguments[0]]} x) 0')
        else:
            out.append(f'place {c} = {places[c]}')
    return '\n'.join(out) + '\n'


def table_file(numbers, title):
    lines = '\n'.join(f'    {x},' for x in numbers)
    return f'''// The rows of the grammar's recogniser, one list of numbers. Written by tools/grammar_table.py.

// The entry of a state's row for a kind stands at the state's place plus the kind's number, and names the kind: rows overlap, and an entry
// that names another kind is another row's. So a move is one load, and the table, which stands on the stack, takes {4 * len(numbers):,} bytes:
// a number for each of 220 states and 42 kinds would take 18,480.
pub type Entries = [u32; {len(numbers)}];

// An entry is k + 64 * (s + 2,048 * t): the kind's number, the place of the next state, and that of the state behind a bracket that opens.
// Where there is no such state its place is 0, and 63 is the number of no kind.
pub const TABLE: Entries = [
{lines}
];

// The place of the state that a description begins with.
pub const TITLE: usize = {title};
'''


def main():
    text = open(ROWS, encoding='utf8').read()
    types = constructors(text)
    made = {c for cs in types.values() for c, _ in cs}
    functions = clauses(text)
    kinds = re.search(r'\nkinds =\n((?:    .*\n)+)', open(KINDS, encoding='utf8').read()).group(1)
    kind_no = {k: i for i, k in enumerate(kinds.replace('∷', ' ').replace('[]', '').split())}
    rows = {s: evaluated(('row', s), {}, functions, made) for s in values(types, 'State')}
    places = laid_out(rows, kind_no)
    numbers = entries(rows, places, kind_no)
    assert max(places.values()) < PLACES and len(kind_no) <= NAMES_NO_KIND
    open('crates/grammar/specs/Places.antt', 'w', encoding='utf8').write(places_file(types, places))
    open('crates/grammar/src/rows.rt', 'w', encoding='utf8').write(table_file(numbers, places['title']))


if __name__ == '__main__':
    main()
