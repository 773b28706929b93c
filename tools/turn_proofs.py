#!/usr/bin/env python3
"""tools/turn_proofs.py CRATE..: turns the proofs of crates from the older form, a Proof.antt that answers all goals by position, to Invariants.antt and Answers.antt.

Run at the top of the repository, once the crates below are proved. `rattle check --generated --old-names` lists for each function its goals in their order, the places where they are
asked, and what each step is called. An answer that is `search rules` is left out, since the check tries that by itself. A file of another shape is left as it is, and named."""
import json
import os
import re
import shutil
import subprocess
import sys
import tempfile

SEARCH = re.compile(r"^\(?\s*λ c( κs)?\. search rules\s*\)?$")
# what a slice's length at a return was proved by
LONG = re.compile(r"\(\s*λ c\. (?:omega \(arith, c(?:\.before)*\.[^.\s]+\.auto(?:\.\d)+, c(?:\.before)*\.loop\d*\.invariant(?:\.\d)*\)|c(?:\.before)*\.loop\d*\.invariant(?:\.\d|\.long)*|\(c(?:\.before)*\.loop\d*\.invariant[^()]*\)(?:\.\w+)*\.long)\s*\)$")
NO_ANSWER = "(λ c. search rules )"
NAME = r"[^\s(){}\[\];,.@:]+"


def norm(name):
    return name.replace("-", "_")


def listed(root, crate):
    out = tempfile.mkdtemp()
    where = os.path.join(root, "crates", crate)
    said = subprocess.run(["rt", "check", "--generated", os.path.join(out, "names"), "--old-names"], cwd=where, stdout=subprocess.PIPE, stderr=subprocess.STDOUT, text=True)
    path = os.path.join(out, "names", "names.json")
    if not os.path.exists(path):
        print(said.stdout[-3000:])
        raise SystemExit(f"{crate}: no names")
    with open(path, encoding="utf-8") as f:
        found = json.load(f)
    shutil.rmtree(out)
    return found


BEGINS = re.compile(r"(?:pub |abbrev |unfoldable )*(?:(?:record|data|module|mutual|use|open|ruleset|infix[lr]?)\b|[^\s:(){}=]+(?: [^\s:(){}=]+)* :(?: |$))")


def items_of(text):
    """The top-level items of a file: each begins with a signature in the first column, and takes the comment above it along."""
    items, now, commented = [], [], False
    for line in text.split("\n"):
        is_comment = line.startswith("--")
        begins = BEGINS.match(line) is not None
        if (is_comment and not commented) or (begins and not commented):
            items.append("\n".join(now).rstrip())
            now = []
        if line.strip():
            commented = is_comment
        now.append(line)
    items.append("\n".join(now).rstrip())
    return [i for i in items if i.strip()]


def args_of(text):
    """The arguments of an application that begins the text: names, and terms in parentheses."""
    found, at, n = [], 0, len(text)
    while at < n:
        if text[at].isspace():
            at += 1
            continue
        if text[at] in "({[":
            depth, start = 0, at
            while at < n:
                if text[at] in "({[":
                    depth += 1
                elif text[at] in ")}]":
                    depth -= 1
                    if depth == 0:
                        break
                at += 1
            at += 1
            # a projection behind it belongs to it
            m = re.compile(r"(?:\.[\w'-]+)+").match(text, at)
            if m:
                at = m.end()
            found.append(text[start:at])
            continue
        m = re.compile(r"[^\s(){}\[\]]+").match(text, at)
        found.append(m[0])
        at = m.end()
    return found


class Names:
    """What the checker calls the goals and steps of one function."""

    def __init__(self, it):
        self.needs = it["needs"]
        self.asked = [a[0] for a in it["asked_at"]]
        self.places = {p[0]: p for p in it["places"]}
        self.loops = it["loops"]
        self.changed = it["changed"]
        self.new = {p[0]: n for p, n in zip(it["places"], it["places_by_name"])}
        self.arms = {p[0]: a for p, a in zip(it["places"], it["arms"]) if a}
        self.clauses = {p[0]: c["fields"] for p, c in zip(it["places"], it.get("clauses") or []) if c and c.get("fields")}
        self.required = (it.get("pre") or {}).get("fields") or []
        self.recursive = False
        self.it = it

    def path(self, place, befores, fields):
        """The path of today for `c` with so many `before`s and then fields, at a place."""
        chain = self.above(place)
        fields = [TODAY.get(f, f) for f in fields]
        if not fields:
            return "c" if befores == 0 else None
        if self.recursive and fields[0] == "requires":
            # the older form had the measure's equation in front
            if fields[1:2] == ["0"]:
                return ".".join(["c", "decreases"] + fields[2:])
            if fields[1:2] == ["1"]:
                return part_of("c.requires", self.required, fields[2:])
            return None
        if fields[0] == "requires":
            return part_of("c.requires", self.required, fields[1:])
        if fields[0] in AT_START:
            return ".".join(["c"] + fields)
        # the older form had steps that are gone: the nearest place that has a step of this name
        for away in range(len(chain) + befores + 1):
            for i in (befores - away, befores + away):
                if 0 <= i < len(chain):
                    found = self.step(chain[i], fields)
                    if found is not None:
                        return found
        numbered = re.fullmatch(r"(.*\D)-?\d+", fields[0])
        if numbered and any(self.step(at, [numbered[1]] + fields[1:]) for at in chain):
            return self.path(place, befores, [numbered[1]] + fields[1:])
        return ".".join(["c"] + fields) if befores < len(chain) else None

    def above(self, place):
        chain = []
        while place is not None:
            chain.append(place)
            here = self.places.get(place)
            place = here[1] if here is not None else None
        return chain

    def called(self):
        """The steps that are calls."""
        return {p[2][1] for p in self.places.values() if p[3]}

    def step(self, at, fields):
        here = self.places.get(at)
        first = fields[0]
        arm = self.arms.get(at)
        if arm is not None:
            for new, old, further in arm[2]:
                if norm(old) == norm(first) and fields[1:1 + len(further)] == further:
                    return ".".join(["c", arm[0], new] + fields[1 + len(further):])
        if here is not None and here[2][0] and norm(first) in (norm(here[2][0]), norm(here[2][1])):
            if fields[1:2] == ["ensures"] and at in self.clauses:
                return part_of(f"c.{here[2][1]}.ensures", self.clauses[at], fields[2:])
            return ".".join(["c", here[2][1]] + self.auto(here[3], fields[1:]))
        return None

    def auto(self, called, fields):
        """`auto` of a call by the name of its argument, where the older form had its position."""
        params = self.it["params"].get(called) if called else None
        if params is None or fields[:1] != ["auto"]:
            return fields
        ones = 0
        while fields[1 + ones:2 + ones] == ["1"]:
            ones += 1
        if ones < len(params) and fields[1 + ones:2 + ones] == ["0"]:
            return ["auto", params[ones]] + fields[2 + ones:]
        return fields


AT_START = ("args", "requires", "ranges")

TODAY = {"type-inv": "type_inv", "well-formed": "well_formed"}


def part_of(whole, names, digits):
    """A part of a product that has a name for each part today; the whole of it as a tuple."""
    if len(names) < 2 or digits and digits[0] in names:
        return ".".join([whole] + digits)
    at, digits = 0, list(digits)
    while at < len(names) - 1:
        if not digits or digits[0] not in ("0", "1"):
            left = [f"{whole}.{n}" for n in names[at:]]
            out = left.pop()
            while left:
                out = f"({left.pop()}, {out})"
            return out
        taken = digits.pop(0)
        if taken == "0":
            break
        at += 1
    return ".".join([f"{whole}.{names[at]}"] + digits)


def top_level(text, mark):
    """The parts of a text between marks that no bracket holds."""
    parts, depth, now = [], 0, ""
    for ch in text:
        if ch in "([{":
            depth += 1
        elif ch in ")]}":
            depth -= 1
        if ch == mark and depth == 0:
            parts.append(now)
            now = ""
        else:
            now += ch
    return parts + [now]


def named(body, names):
    """An answer to a goal that has a name for each of its clauses today."""
    if len(names) < 2 or re.match(r"(search|grind|omega|record|λ|elim|absurd)\b", body.strip()):
        return body
    leading = ""
    m = re.match(r"(?s)(.*\bin\s+)(\(.*\))\s*$", body)
    last = body.strip()
    if m and m[1].lstrip().startswith("let ") and balanced(m[2]):
        leading, last = m[1], m[2]
    if last.startswith("(") and balanced(last):
        parts = top_level(last[1:-1], ",")
        if not parts[-1].strip():
            parts.pop()
        while 1 < len(parts) < len(names) and parts[-1].strip().startswith("(") and balanced(parts[-1].strip()):
            more = top_level(parts[-1].strip()[1:-1], ",")
            if len(more) < 2:
                break
            parts[-1:] = more
        if len(parts) == len(names):
            return leading + "record { " + "; ".join(f"{n} = {p.strip()}" for n, p in zip(names, parts)) + " }"
    if leading or last.startswith("let "):
        return body
    paths = ["r" + ".1" * i + (".0" if i < len(names) - 1 else "") for i in range(len(names))]
    return f"let r = {last} in record {{ " + "; ".join(f"{n} = {p}" for n, p in zip(names, paths)) + " }"


def balanced(text):
    """Whether the bracket that begins a text is closed by the one that ends it."""
    depth = 0
    for i, ch in enumerate(text):
        if ch in "([{":
            depth += 1
        elif ch in ")]}":
            depth -= 1
            if depth == 0:
                return i == len(text) - 1
    return False


CITED = re.compile(r"(?<![\w'-])c((?:\.before)*)((?:\.[\w'₀-₉-]+)*)(?![\w'-])")


def without_aliases(body):
    """With no `let` that only names an earlier place, or a field there."""
    while True:
        m = re.search(r"let ([A-Za-z][\w'-]*) = (c(?:\.before)*(?:\.[\w'₀-₉-]+)*) in\s*", body)
        if not m:
            return body
        rest = body[m.end():]
        again = re.search(rf"let {re.escape(m[1])} = ", rest)
        upto = again.start() if again else len(rest)
        here = re.sub(rf"(?<![\w'.-]){re.escape(m[1])}(?![\w'-])", m[2], rest[:upto])
        body = body[:m.start()] + here + rest[upto:]


def turned(body, names, place, left):
    body = without_aliases(body)

    def put(m):
        befores = m[1].count(".before")
        fields = [f for f in m[2].split(".") if f]
        path = names.path(place, befores, fields)
        if path is None and not fields:
            return m[0]
        if path is None:
            left.append(f"{m[0]} at {place}")
            return m[0]
        return path

    return CITED.sub(put, body)


def arms(body, names):
    return body


def parts_of(text):
    """The comments and the `use` lines at the head of a proof file, and its other items."""
    items = items_of(text)
    uses = [i for i in items if re.match(r"(--[^\n]*\n)*use ", i)]
    head, used = [], []
    for i in uses:
        for line in i.split("\n"):
            if line.startswith("--"):
                head.append(line)
            elif line.strip():
                used.append(line)
    rest = [i for i in items if i not in uses]
    return head, used, rest


def turn(root, crate, path, function, names):
    with open(path, encoding="utf-8") as f:
        text = f.read()
    head, used, rest = parts_of(text)
    main = [i for i in rest if "tie.close" in i]
    if len(main) != 1:
        return "no single tie.close"
    main = main[0]
    rest.remove(main)
    comment = [l for l in main.split("\n") if l.startswith("--")]
    lines = [l for l in main.split("\n") if not l.startswith("--")]
    unfolding = [l for l in lines if l.startswith("unfolding ")]
    joined = "\n".join(l for l in lines if not l.startswith("unfolding "))
    m = re.search(r"=\s*tie\.close\s*", joined)
    if not m:
        return "no = tie.close"
    closing = args_of(joined[m.end():])
    if len(closing) < 1:
        return "tie.close without tie.spec"
    inner = closing[-1]
    measure = closing[:-1]
    inner = inner.strip()
    if inner.startswith("("):
        inner = inner[1:-1].strip()
    recursion = None
    m = re.match(r"λ t\.\s*", inner)
    if m:
        recursion = "t"
        inner = inner[m.end():]
        if inner.startswith("("):
            inner = inner[1:-1].strip()
    if not inner.startswith("tie.spec"):
        return f"no tie.spec: {inner[:40]}"
    if measure or recursion:
        return "a recursion"
    given = args_of(inner[len("tie.spec"):])
    left = []
    made = converted(given, rest, names, unfolding, left, "", "c")
    if isinstance(made, str):
        return made
    invariants, answers, taken = made
    rest, placed = at_places(rest, names, left)
    if placed:
        answers = [cited_at(a, placed) for a in answers]
        used = used + [f"use Rattle.{crate}.proofs.{function}.Goals.{{{', '.join(sorted(set(placed.values())))}}}"]
    helpers = [i for i in rest if i not in taken]
    helpers = [i for i in helpers if not re.match(r"^(?:--[^\n]*\n)*(?:pub |abbrev |unfoldable )*\S+ : tie\.(invariant|decreases|Need-same[-_]length)", i)]
    write(root, crate, path, function, head, used, helpers, invariants, answers, names.called())
    return ("left: " + "; ".join(left)) if left else None


def turn_cycle(root, crate, path, function, listed_names):
    """The same of a cycle: a measure and answers for each of its functions."""
    with open(path, encoding="utf-8") as f:
        text = f.read()
    text = re.sub(r"\{\n\s*([^{}\n]*?),?\n\}", r"{\1}", text)
    head, used, rest = parts_of(text)
    main = [i for i in rest if re.search(r"=\s*close\s", i)]
    if len(main) != 1:
        return "no single close"
    main = main[0]
    rest.remove(main)
    unfolding = [l for l in main.split("\n") if l.startswith("unfolding ")]
    joined = "\n".join(l for l in main.split("\n") if not l.startswith("unfolding ") and not l.startswith("--"))
    closing = joined[re.search(r"=\s*close\s*", joined).end():]
    parts, at = [], 0
    while at < len(closing):
        m = re.compile(r"\s*").match(closing, at)
        at = m.end()
        if at >= len(closing):
            break
        if closing[at] == "λ":
            parts.append("(" + closing[at:].rstrip() + ")")
            break
        one = args_of(closing[at:])[0]
        parts.append(one)
        at += len(one)
    measures, kept = {}, []
    for i in rest:
        m = re.search(r"(?m)^abbrev μ_(\S+) : Measures ", i)
        if m:
            body = re.search(rf"(?ms)^μ_{re.escape(m[1])} κs a =\s*(.*)", i)
            measures[m[1]] = (body[1].strip(), [l for l in i.split("\n") if l.startswith("--")])
            continue
        if re.search(r"(?m)^abbrev \S+_(at|below) : ℕ → In ", i):
            continue
        kept.append(i)
    rest = kept
    left, invariants, loops, answers, taken = [], [], [], [], []
    for part in parts:
        m = re.match(r"\(\s*λ t\.\s*\(?\s*(\S+)_lts\.spec", part)
        if not m:
            continue
        own = m[1]
        given = args_of(part[m.end():-1])[3:]
        key = [k for k in listed_names if norm(k.rsplit(".Lts-", 1)[-1]) == norm(own)]
        if len(key) != 1:
            return f"{own}: not listed"
        names = Names(listed_names[key[0]])
        names.recursive = True
        function_name = key[0].rsplit(".Lts-", 1)[-1]
        params = None
        for it in listed_names.values():
            for p, ps in it["params"].items():
                if p.split("::")[-1] == function_name:
                    params = ps
        value, comment = measures[own]

        def put(found):
            place = found[1].count(".1")
            name = params[place] if params and place < len(params) else f"parameter_{place}"
            return "l." + name

        value = re.sub(r"(?<![\w'.])a((?:\.1)*)\.0", put, value)
        invariants.append("".join(l + "\n" for l in comment) + f"abbrev pub decreases-{function_name} : goal.decreases-{function_name}\ndecreases-{function_name} l = {value}")
        mine = [re.sub(rf"(?<![\w'.]){re.escape(own)}_lts\.", "tie.", i) for i in rest]
        made = converted(given, mine, names, unfolding, left, names.it["stem"], "t c")
        if isinstance(made, str):
            return f"{own}: {made}"
        loops += made[0]
        answers += made[1]
        taken += [rest[k] for k, i in enumerate(mine) if i in made[2]]
    helpers = [i for i in rest if i not in taken and not re.search(r"(?m)^abbrev \S+ : \S+_lts\.", i)]
    used = [u for u in used if not re.search(r"borrow\.Fn\.(Kinds|PlainCycle)|\.(Reads|Kinds|Lts-\S+) as |\.Tie\.\{|\.\+[^.]*\.\{", u)]
    write(root, crate, path, function, head, used, helpers, invariants + loops, answers, set().union(*(Names(n).called() for n in listed_names.values())))
    return ("left: " + "; ".join(left)) if left else None


def converted(given, rest, names, unfolding, left, stem, params):
    """The invariants and the answers of one function, and the items that became some of them."""
    n_loops = len(names.loops)
    defs = {}
    for i in rest:
        m = re.search(rf"(?m)^(?:pub |abbrev |unfoldable )*({NAME}) : (tie\.[^\n]*)$", i)
        if m:
            defs[m[1]] = (i, m[2])
    leading = []
    for number, loop in enumerate(names.loops):
        for kind in ("invariant", "decreases"):
            if given and is_leading(given[0], kind, loop[0][1], loop[1], names.changed[number], defs):
                leading.append(given.pop(0))
    given = aligned(given, names, defs)
    if given is None:
        return "answers and goals do not fit"
    invariants, answers, taken = [], [], set()
    # invariants and measures
    if leading:
        at = 0
        for number, loop in enumerate(names.loops):
            (old, new), variables = loop
            changed = names.changed[number]
            for kind in ("invariant", "decreases"):
                if at >= len(leading):
                    break
                arg = leading[at]
                made = invariant_of(kind, stem + new, arg, variables, changed, defs)
                if made is None:
                    if kind == "decreases":
                        continue
                    return f"invariant {arg[:40]}"
                invariants.append(made)
                if arg in defs:
                    taken.add(arg)
                at += 1
        if at != len(leading):
            return f"{len(leading)} invariants and measures for {n_loops} loops"
    for number, arg in enumerate(given):
        if arg == NO_ANSWER or SEARCH.match(arg) and not unfolding:
            continue
        goal = names.needs[number][1]
        place = names.asked[number]
        arg = arg.strip()
        if arg in defs:
            item, _ = defs[arg]
            taken.add(arg)
            answers.append(renamed(item, arg, stem + goal, names, place, left, unfolding, names.it["asked"].get(names.needs[number][0], [])))
            continue
        m = re.match(r"\(\s*λ c((?: [^\s.]+)*)\.\s*", arg)
        if m and m[1].strip() in ("", "κs"):
            body = arg[m.end():-1].rstrip()
        elif m:
            body = f"λ{m[1]}. {arg[m.end():-1].rstrip()}"
        elif re.fullmatch(r"\((.*)\)", arg, re.S):
            body = f"{arg[1:-1]} c"
        else:
            body = f"{arg} c"
        body = named(turned(body, names, place, left), names.it["asked"].get(names.needs[number][0], []))
        answer = f"pub {stem}{goal} : goal.{stem}{goal}\n" + "".join(u + "\n" for u in unfolding)
        if "\n" in body:
            answer += f"{stem}{goal} {params} =\n    " + body
        else:
            answer += f"{stem}{goal} {params} = {body}"
        answers.append(answer)
    return invariants, answers, [defs[t][0] for t in taken]


def at_places(items, names, left):
    """Lemmas over the record of a place take today's record of that place."""
    out, placed = [], {}
    for item in items:
        m = re.search(r"\(c : (?:tie|lts)\.(After-[^\s()]+|[^\s()]+)(?: (?:[^\s()]+|\([^()]*\)))*\)", item)
        head = re.search(rf"(?m)^(?:pub |abbrev )*({NAME}) : ", item)
        if m and head:
            old = [p for p in names.new if norm(p) == norm(m[1])] or [p for p, n in names.new.items() if norm(n) == norm(m[1])]
            if old:
                placed[head[1]] = names.new[old[0]]
                item = item.replace(m[0], f"(c : {names.new[old[0]]})")
                item = turned(item, names, old[0], left)
        out.append(item)
    return out, placed


def cited_at(answer, placed):
    """An answer that cites such a lemma gives it the record of its own place."""
    goal = re.search(r"(?m)^pub (\S+) : goal\.", answer)
    for lemma, place in placed.items():
        answer = re.sub(rf"(?<![\w'.-]){re.escape(lemma)} c(?:\.before)*(?![\w'.-])", f"{lemma} (goal.at.{goal[1]} c).{place}", answer)
    return answer


def is_leading(arg, kind, new, variables, changed, defs):
    if arg in defs and not re.match(r"tie\.(invariant|decreases)", defs[arg][1]):
        return False
    if arg in defs and not re.match(rf"tie\.{kind}", defs[arg][1]):
        return False
    return invariant_of(kind, new, arg, variables, changed, defs) is not None


def sort_of(goal):
    """What a goal asks for, of those that both forms name alike."""
    m = re.match(r"(returns)(?:-|$)|.*-(init|preserved|smaller|requires)(?:-\d+)?$", norm(goal).replace("_", "-"))
    return m and (m[1] or m[2])


def aligned(given, names, defs):
    """One answer for each goal of today, in order: those that only searched may stand for goals that are settled by themselves now."""
    needs = names.needs
    n, m = len(given), len(needs)
    shaped = [j for j in range(m) if re.match(r"shape_of|enum_known|enum_told", norm(needs[j][1]))]
    if n == m and all(SEARCH.match(given[j]) for j in shaped):
        return given

    def cost(i, j):
        arg = given[i]
        goal = needs[j][0]
        asks = re.search(r"requires(-\d+)?$", goal) is not None
        binds = re.match(r"\(\s*λ c κs", arg) is not None
        plain = re.match(r"\(\s*λ c\.", arg) is not None
        if binds and not asks or plain and asks:
            return 1000
        if SEARCH.match(arg):
            return 0
        if j in shaped:
            # what a lent value is made of settles itself
            return 60
        if LONG.match(arg):
            return 4
        if re.match(r"(?:overflow|nonzero|bounds|slice_bounds)_|.*_smaller$", norm(needs[j][1])) and (not asks and re.match(r"\(\s*λ c [^.]", arg) or is_tuple(arg)):
            # an order is no function, and no tuple
            return 200
        if arg in defs:
            need = re.match(r"tie\.Need-(\S+)", defs[arg][1])
            if need and sort_of(need[1]) != sort_of(needs[j][1]):
                return 40
            if need and norm(need[1]) not in (norm(goal), norm(needs[j][1])):
                return 5
        left = []
        turned(arg, names, names.asked[j], left)
        lost = len(left)
        chain = names.above(names.asked[j])
        for c in CITED.finditer(without_aliases(arg)):
            befores = c[1].count(".before")
            fields = [f for f in c[2].split(".") if f]
            if not fields:
                continue
            if fields[0] in ("args", "ranges", "requires"):
                lost += 0.3 * abs(len(chain) - 1 - befores)
            elif fields[0] not in ("type_inv", "lifetimes", "auto", "well_formed"):
                away = [abs(k - befores) for k, at in enumerate(chain) if names.step(at, fields) is not None]
                lost += min(3, 0.3 * min(away)) if away else 3
        return lost

    def drops(arg):
        """What it costs to leave an answer out: nothing where today's check settles such goals by itself."""
        return 0.1 if SEARCH.match(arg) or arg in defs and re.match(r"tie\.Need-same[-_]length", defs[arg][1]) else 3 if LONG.match(arg) else 50

    skip = 2
    best = {(0, 0): (0, None)}
    for i in range(n + 1):
        for j in range(m + 1):
            if (i, j) not in best:
                continue
            here = best[(i, j)][0]
            moves = []
            if i < n and j < m:
                moves.append((i + 1, j + 1, cost(i, j)))
            if i < n:
                moves.append((i + 1, j, drops(given[i])))
            if j < m:
                moves.append((i, j + 1, skip))
            for a, b, extra in moves:
                if (a, b) not in best or best[(a, b)][0] > here + extra:
                    best[(a, b)] = (here + extra, (i, j))
    at, out = (n, m), []
    if best[at][0] >= 1000:
        return None
    while at != (0, 0):
        was = best[at][1]
        if was == (at[0] - 1, at[1] - 1):
            out.append(given[was[0]])
        elif was == (at[0], at[1] - 1):
            out.append(NO_ANSWER)
        elif not SEARCH.match(given[was[0]]):
            print(f"    an answer finds no goal: {given[was[0]][:100]}")
        at = was
    return out[::-1]


def is_tuple(arg):
    m = re.match(r"\(\s*λ c(?: κs)?\.\s*(?:let [^=]* = .* in\s*)?(\(.*\))\s*\)$", arg, re.S)
    return m is not None and balanced(m[1]) and len(top_level(m[1][1:-1], ",")) > 1


def invariant_of(kind, new, arg, variables, changed, defs):
    goal = f"{kind}-{new}"
    if arg in defs:
        item, _ = defs[arg]
        lines = [l for l in item.split("\n") if l.strip()]
        comment = [l for l in lines if l.startswith("--")]
        unfolding = [l for l in lines if l.startswith("unfolding")]
        body = [l for l in lines if not l.startswith("--") and not l.startswith("unfolding") and not re.match(rf"(?:pub |abbrev )*{re.escape(arg)} : ", l)]
        text = "\n".join(body)
        m = re.match(rf"{re.escape(arg)}((?: [^\s=]+)*) =(\s*)", text)
        if not m:
            return None
        params, value = m[1].split(), text[m.end():]
    else:
        m = re.match(r"\(\s*λ ([^.]*)\.\s*", arg)
        if not m:
            return None
        params, value = m[1].split(), arg[m.end():-1]
        comment, unfolding = [], []
    moved = [v for v, c in zip(variables, changed) if c]
    if len(params) != len(variables) + len(moved):
        return None
    meaning = {}
    for p, v, c in zip(params, variables, changed):
        meaning[p] = f"l.initial.{v}" if c else f"l.{v}"
    for p, v in zip(params[len(variables):], moved):
        meaning[p] = f"l.{v}"

    def put(m):
        name = m[0]
        return meaning.get(name, name)

    value = re.sub(r"(?<![\w'₀-₉.-])[A-Za-zα-ω][\w'₀-₉]*(?:-[\w'₀-₉]+)*(?![\w'₀-₉])", put, value)
    out = "".join(c + "\n" for c in comment)
    sep = "\n    " if "\n" in value else " "
    return f"{out}abbrev pub {goal} : goal.{goal}\n" + "".join(u + "\n" for u in unfolding) + f"{goal} l ={sep}{value.strip()}"


def renamed(item, old, goal, names, place, left, unfolding, fields):
    out = []
    has_unfolding = any(l.startswith("unfolding") for l in item.split("\n"))
    for line in item.split("\n"):
        m = re.match(rf"(?:pub |abbrev )*{re.escape(old)} : tie\.", line)
        if m:
            out.append(f"pub {goal} : goal.{goal}")
            if not has_unfolding:
                out.extend(unfolding)
            continue
        m = re.match(rf"{re.escape(old)} c((?: [^\s=()]+)*) =", line)
        if m:
            others = m[1].replace(" κs", "")
            line = f"{goal} c =" + (f" λ{others}." if others else "") + line[m.end():]
        out.append(line)
    text = turned("\n".join(out), names, place, left)
    m = re.search(rf"(?m)^{re.escape(goal)} c =\s*", text)
    if m and text[m.end():].strip():
        text = text[:m.end()] + named(text[m.end():].rstrip(), fields)
    return text


def words(text):
    return set(re.findall(r"[^\s(){}\[\];,.@:]+", text))


def write(root, crate, path, function, head, used, helpers, invariants, answers, called):
    folder = os.path.dirname(path)
    module = "Rattle." + crate + ".proofs." + function
    used = [u for u in used if not re.search(r"\.(Statement|Tie)\b", u)]
    used = [u for u in used if not re.search(r"\.(Goals|Given)$|\.(Goals|Given) as", u)]
    os.remove(path)
    shared = []
    if invariants:
        # a record or a definition that an invariant names stands with it
        wanted = set().union(*(words(i) for i in invariants))
        again = True
        while again:
            again = False
            for i in helpers:
                m = re.search(rf"(?m)^(?:pub |abbrev |unfoldable )*(?:record |data )?(?:pub )?({NAME})", "\n".join(l for l in i.split("\n") if not l.startswith("--")))
                if m and m[1] in wanted and i not in shared and m[1] != "module":
                    shared.append(i)
                    wanted |= words(i)
                    again = True
        text = "\n".join(head + used + [f"use {module}.Given as goal", ""])
        made = [published(i) for i in helpers if i in shared]
        text += "\n" + "\n\n".join(made + invariants) + "\n"
        with open(os.path.join(folder, "Invariants.antt"), "w", encoding="utf-8") as f:
            f.write(pruned(text))
    rest = [i for i in helpers if i not in shared]
    if answers:
        lines = head + used
        if shared:
            names = []
            for i in shared:
                m = re.search(rf"(?m)^(?:pub |abbrev |unfoldable )*(?:record |data )?(?:pub )?({NAME})", "\n".join(l for l in i.split("\n") if not l.startswith("--")))
                names.append(m[1])
            lines = lines + [f"use {module}.Invariants.{{{', '.join(names)}}}"]
        text = "\n".join(lines + [f"use {module}.Goals as goal", ""])
        text += "\n" + "\n\n".join(rest + answers) + "\n"
        text = negated(text, called)
        with open(os.path.join(folder, "Answers.antt"), "w", encoding="utf-8") as f:
            f.write(pruned(text))
    if not os.listdir(folder):
        os.removedirs(folder)


def negated(text, called):
    """The test of an `if !f(..)` says today what f answered, where the older form spoke of the negation."""
    found = set()

    def put(m):
        # the test of a variable or of a field still speaks of the negation
        tested = re.search(r"\.if-not-(.*)", m[1])[1]
        if not any(tested == f or tested.startswith(f + "-") or f.startswith(tested + "-") for f in called):
            return m[0]
        name = {"true": "not_from_false", "false": "not_from_true"}[m[2]]
        found.add(name)
        return f"({name} _ {m[1]}.{m[2]})"

    text = re.sub(r"(?<![\w'.-])(c(?:\.[\w'-]+)*\.if-not-[\w'-]+)\.(true|false)(?![\w'-])", put, text)
    if found:
        text = re.sub(r"(?m)^use ", f"use Rattle.std.proofs.lemmas.Bool.{{{', '.join(sorted(found))}}}\nuse ", text, count=1)
    return text


def published(item):
    item = re.sub(r"(?m)^(record|data) ", r"pub \1 ", re.sub(r"(?m)^(abbrev|unfoldable) (?!pub)", r"\1 pub ", item))
    if re.search(r"(?m)^pub record ", item):
        item = re.sub(rf"(?m)^  (?!pub )({NAME}(?: {NAME})* : )", r"  pub \1", item)
    return item


def moved(text):
    """With the paths of theorems that have moved from specs/ to proofs/."""

    def put(m):
        path = m[2].replace(".", "/") + ".antt"
        here = os.path.join("crates", m[1])
        if not os.path.exists(os.path.join(here, "specs", path)) and os.path.exists(os.path.join(here, "proofs", path)):
            return f"Rattle.{m[1]}.proofs.{m[2]}"
        return m[0]

    return re.sub(r"Rattle\.(\w+)\.specs\.([A-Za-z0-9_]+(?:\.[A-Z][A-Za-z0-9_]*)*)", put, text)


def pruned(text):
    """Without the names of `use` lines that nothing in the file cites."""
    text = moved(text)
    body = "\n".join(l for l in text.split("\n") if not l.startswith("use "))
    cited = words(re.sub(r"--[^\n]*", "", body)) | set(re.findall(r"[^\s(){}\[\];,@:]+", body))
    operators = re.findall(r"◌([^◌\s,{}]+)◌", text)
    out = []
    for line in text.split("\n"):
        m = re.match(r"use ([^\s{]+)\.\{([^}]*)\}$", line)
        if m:
            kept = []
            for item in m[2].split(","):
                item = item.strip()
                name = item.split(" as ")[-1]
                if "◌" in name:
                    pieces = [p for p in name.split("◌") if p]
                    if all(p in body for p in pieces):
                        kept.append(item)
                elif re.search(rf"(?<![\w'-]){re.escape(name)}(?![\w'-])", body):
                    kept.append(item)
            if kept:
                out.append(f"use {m[1]}.{{{', '.join(kept)}}}")
            continue
        m = re.match(r"use (\S+) as (\S+)$", line)
        if m and m[2] != "goal" and not re.search(rf"(?<![\w'-]){re.escape(m[2])}\.", body):
            continue
        out.append(line)
    return "\n".join(out)


def main(argv):
    root = os.getcwd()
    for crate in argv:
        names = listed(root, crate)
        base = os.path.join(root, "crates", crate, "proofs")
        for folder, dirs, files in os.walk(base):
            if "Proof.antt" not in files:
                continue
            function = ".".join(os.path.relpath(folder, base).split(os.sep))
            key = f"Rattle-{crate}-proofs.{function}.Lts"
            path = os.path.join(folder, "Proof.antt")
            ours = {k: n for k, n in names.items() if k.startswith(f"Rattle-{crate}-proofs.{function}.Lts-")}
            if ours:
                said = turn_cycle(root, crate, path, function, ours)
                if said:
                    print(f"{crate}: {function}: {said}")
                continue
            if key not in names:
                print(f"{crate}: {function}: by hand: not listed")
                continue
            said = turn(root, crate, path, function, Names(names[key]))
            if said:
                print(f"{crate}: {function}: {said}")


if __name__ == "__main__":
    main(sys.argv[1:])
