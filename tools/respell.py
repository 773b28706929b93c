#!/usr/bin/env python3
"""tools/respell.py [ROOT [TABLE]]: brings the repository's own definitions and lemmas to one spelling, snake case, in specs/, proofs/ and the clauses of src/.

Run once, behind the kit's own script, which respells only names that a library had too. Names of the libraries keep their spelling, as do types and facts, which begin with a
capital, and names that the checker makes of the source. Where a lemma and a definition would fall together, the lemma takes `_lem`. Prints each name that fell together, and writes all to TABLE."""
import os
import re
import sys

LETTER = "A-Za-zα-ωΑ-Ω"
IDENT = re.compile(rf"(?<![\w'#·◌«-])[{LETTER}][\w'₀-₉]*(?:-[\w'₀-₉]+)*(?![\w'·◌»-])")
USE = re.compile(r"(?m)^\s*(?:ghost )?(?:pub )?use ([^\s;{]+?)(?:\.\{([^}]*)\})?(?: as ([^\s;]+))?;?\s*$")
KEPT = re.compile(r"^(invariant|decreases|loop|returns|ghost)(-|$)")
KEBAB = re.compile(r"-")


def snake(name):
    pieces = []
    for piece in name.split("-"):
        piece = piece.replace("getD", "get_or")
        piece = re.sub(r"(?<=[a-z0-9₀-₉'])([A-Z]+)", lambda m: "_" + m[1].lower(), piece)
        pieces.append(piece)
    return "_".join(pieces)


def crates_of(root):
    with open(os.path.join(root, "crates.txt"), encoding="utf-8") as lines:
        return {l.split("#")[0].split(":")[0].split()[0] for l in lines if ":" in l.split("#")[0]}


def files_of(root, crates):
    for crate in sorted(crates):
        for folder, _, names in os.walk(os.path.join(root, "crates", crate)):
            if "/out" in folder or "/must-fail" in folder:
                continue
            for name in sorted(names):
                if name.endswith((".antt", ".rt")):
                    yield os.path.join(folder, name)


def code_spans(text, is_source):
    """The spans that are code: what is outside comments and strings."""
    comment = r"//[^\n]*" if is_source else r"--[^\n]*"
    at = 0
    for m in re.finditer(comment + r'|"(?:[^"\\\n]|\\.)*"', text):
        yield at, m.start(), True
        yield m.start(), m.end(), False
        at = m.end()
    yield at, len(text), True


class File:
    def __init__(self, path, own):
        self.path = path
        with open(path, encoding="utf-8") as f:
            self.text = f.read()
        self.is_source = path.endswith(".rt")
        self.library, self.own_modules = set(), set()
        for m in USE.finditer(self.text):
            where, names, other = m[1], m[2], m[3]
            parts = where.split(".")
            is_own = parts[0] == "Rattle" and len(parts) > 1 and parts[1] in own
            if names is not None:
                for item in names.split(","):
                    item = item.strip()
                    if item and not is_own:
                        item = item.split(" as ")[-1].strip()
                        self.library.add(item)
            elif is_own:
                self.own_modules.add(other or parts[-1])
        self.is_walk = "/proofs/" in path and os.path.basename(path) == "Proof.antt"

    def is_function(self, start, end):
        """Whether the source has a function or a path there: those are no words of a clause."""
        return self.is_source and (self.text[end:end + 1] == "(" or self.text[end:end + 2] == "::" or self.text[max(0, start - 2):start] == "::" or self.text[max(0, start - 3):start] == "fn ")

    def tokens(self):
        """Each name of the code with its span, and what stands in front of it if it follows a dot."""
        for start, end, is_code in code_spans(self.text, self.is_source):
            if not is_code:
                continue
            for m in IDENT.finditer(self.text, start, end):
                before = self.text[m.start() - 1] if m.start() else " "
                owner = None
                if before == ".":
                    back = re.search(rf"([{LETTER}][\w'₀-₉-]*|\)|\d)\.$", self.text[max(0, m.start() - 80):m.start()])
                    owner = back[1] if back else None
                yield m[0], m.start(), m.end(), owner


FIELD = re.compile(r"(?m)^\s+pub ([a-z][^\s:]*) :")
USED_FIELD = re.compile(r"(?m)^\s+([a-z][^\s:]*) :")


def main(root, table):
    own = crates_of(root)
    files = [File(p, own) for p in files_of(root, own)]
    fields, defined = set(), set()
    for f in files:
        if f.is_source:
            continue
        inside = False
        for line in f.text.split("\n"):
            if re.match(r"\s*(pub )?(record|data) ", line):
                inside = True
                indent = len(line) - len(line.lstrip())
            elif inside and line.strip() and len(line) - len(line.lstrip()) <= indent:
                inside = False
            m = re.match(r"\s*(?:(?:pub|abbrev|unfoldable) )*([^\s:(){}]+(?: [^\s:(){}]+)*) :(?: |$)", line)
            if m:
                for name in m[1].split():
                    defined.add(name)
                    if inside:
                        fields.add(name)
    wanted = {}

    def is_candidate(f, name, owner):
        if not name[0].islower() or name in f.library or KEPT.match(name) or snake(name) == name:
            return False
        if owner is not None and owner != ")" or owner == ")":
            return name in fields or owner in f.own_modules
        if f.is_source:
            return name in defined
        return True

    seen = {}
    for f in files:
        names = set()
        for name, start, end, owner in f.tokens():
            if is_candidate(f, name, owner):
                wanted[name] = snake(name)
                names.add(name)
            elif (owner is None or owner in f.own_modules) and not f.is_function(start, end):
                names.add(name)
        seen[f.path] = names | f.library
    # names that would fall together in one file
    fell = {}
    again = True
    while again:
        again = False
        for path, names in seen.items():
            by_new = {}
            for name in names:
                by_new.setdefault(wanted.get(name, name), set()).add(name)
            for new, olds in by_new.items():
                if len(olds) > 1:
                    for old in sorted(olds, key=lambda n: ("-" in n, n)):
                        if old in wanted and "-" in old and not wanted[old].endswith("_lem") and len([o for o in olds if o != old]) >= 1:
                            fell.setdefault(old, set()).update(o for o in olds if o != old)
                            wanted[old] = snake(old) + "_lem"
                            again = True
                            break
                    else:
                        for old in sorted(olds):
                            if old in wanted and not wanted[old].endswith("'") and wanted[old] != old:
                                fell.setdefault(old, set()).update(o for o in olds if o != old)
                                wanted[old] = wanted[old] + "_of"
                                again = True
                                break
                        else:
                            print("cannot part:", path, olds)
                    if again:
                        break
            if again:
                break
    for old in sorted(fell):
        print(f"fell together: {old} is {wanted[old]}, beside {', '.join(sorted(fell[old]))}")
    changed = 0
    for f in files:
        out, at = [], 0
        for name, start, end, owner in f.tokens():
            if is_candidate(f, name, owner):
                out.append(f.text[at:start])
                out.append(wanted[name])
                at = end
        out.append(f.text[at:])
        new = "".join(out)
        # in comments, names in camel case and what stands in backticks
        new = recommented(new, f.is_source, wanted, defined)
        if new != f.text:
            changed += 1
            with open(f.path, "w", encoding="utf-8") as it:
                it.write(new)
    print(f"{len(wanted)} names, {changed} files")
    if table:
        with open(table, "w", encoding="utf-8") as it:
            it.writelines(f"{old}\t{wanted[old]}\n" for old in sorted(wanted) if old in defined)


def recommented(text, is_source, wanted, defined):
    out = []
    for start, end, is_code in code_spans(text, is_source):
        part = text[start:end]
        if not is_code and part.startswith(("--", "//")):
            part = re.sub(rf"`([{LETTER}][\w'-]*)`", lambda m: "`" + (wanted[m[1]] if m[1] in wanted and m[1] in defined else m[1]) + "`", part)
            part = re.sub(r"(?<![\w'-])[a-z][a-z0-9]*(?:[A-Z][a-z0-9]*)+(?![\w'-])", lambda m: wanted[m[0]] if m[0] in wanted and m[0] in defined else m[0], part)
        out.append(part)
    return "".join(out)


if __name__ == "__main__":
    main(os.path.abspath(sys.argv[1] if len(sys.argv) > 1 else "."), sys.argv[2] if len(sys.argv) > 2 else None)
