#!/usr/bin/env python3
"""Brings the names of this repository's own definitions and lemmas to the spelling of today's Rattle: snake case, and facts in upper camel case.

usage: python3 tools/port_names.py [FOLDER]      run once, at the top, after the kit's port.py

A name that a file of specs/ or proofs/ declares, or takes from src/ under another spelling, is respelled wherever it stands: in .antt and .rt
files, in must-fail edits, and between backticks in comments and in pages. A dash becomes an underscore (`kind-of` is `kind_of`); in a fact,
which begins with a capital, it goes (`Demand-3-seen` is `Demand3Seen`). Names of src/, strings, inputs and outputs stay as they are, and so do
a library's names in files that import them. It says which names would fall together, and then changes nothing.
"""

import collections
import os
import re
import sys

ROOT = sys.argv[1] if len(sys.argv) > 1 else "."
WORD = re.compile(r"[^\s(){}\[\].,;:«»\"`|]+")
# Where two names would be one, the second form.
APART = {"Part-at": "IsPartAt", "Member-at": "IsMemberAt"}
# Names that a file takes under another spelling, or that stand in a pattern.
MORE = ["b-is", "o₃-is", "null-tree", "some-most", "refused-with"]


def texts(ends):
    for top in ("crates", "docs", "README.md"):
        path = os.path.join(ROOT, top)
        if os.path.isfile(path):
            yield path
        for folder, dirs, files in os.walk(path):
            dirs[:] = sorted(d for d in dirs if d != "out")
            for f in sorted(files):
                if f.endswith(ends):
                    yield os.path.join(folder, f)


def read(path):
    with open(path, encoding="utf-8") as f:
        return f.read()


DECLARED = re.compile(r"^\s*(?:abbrev |unfoldable )?(?:pub )?(?:data |record )?([A-Za-z][^\s(){}.:;,]*)(?:\s+(?:\([^)]*\)|\{[^}]*\}))*\s*:(?!:)")
FOREIGN = re.compile(r"^(?:ghost )?use (?!Rattle\.(?:layout|builders|edits|pointers|previews|flight|runs|values|console|jsonb|card)\.)[\w.']+\.\{([^}]*)\}", re.M)


def declared(path, text):
    for line in text.split("\n"):
        m = DECLARED.match(line)
        if m and "-" in m[1]:
            yield m[1]


def respelled(name):
    if name in APART:
        return APART[name]
    if name[0].isupper():
        first, *rest = name.split("-")
        return first + "".join(w[:1].upper() + w[1:] for w in rest)
    return name.replace("-", "_")


def main():
    if any(".Goals as goal" in read(path) for path in texts("Answers.antt")):
        print("it has run here already: the names of goals in Answers.antt have dashes of their own")
        return 1
    names = {}
    for path in texts(".antt"):
        if "/proofs/" in path and os.path.basename(path) == "Proof.antt":
            continue
        for n in declared(path, read(path)):
            names[n] = respelled(n)
    for n in MORE:
        names[n] = respelled(n)
    taken = collections.defaultdict(set)
    for old, new in names.items():
        taken[new].add(old)
    bad = False
    for new, olds in sorted(taken.items()):
        if len(olds) > 1:
            print("fall together:", new, sorted(olds))
            bad = True
    for path in texts(".antt"):
        for n in declared_any(read(path)):
            if n in taken:
                print("stands already:", n, "in", path, "beside", sorted(taken[n]))
                bad = True
    if bad and "--force" not in sys.argv:
        return 1
    stand = {respelled(n) for path in texts(".antt") for n in stands(read(path))}
    changed = 0
    for path in texts((".antt", ".rt", ".edit", ".md")):
        text = read(path)
        new = said(path, turn(path, text, names), stand)
        if new != text:
            with open(path, "w", encoding="utf-8") as f:
                f.write(new)
            changed += 1
    print(len(names), "names,", changed, "files")
    return 0


STANDS = re.compile(r"^\s*(?:abbrev |unfoldable )?(?:pub )?(?:data |record )?([A-Za-z][^\s(){}.:;,]*)(?:\s+(?:\([^)]*\)|\{[^}]*\}))*\s*:(?!:)")


def stands(text):
    """Every name that is declared, those that port.py has respelled among them."""
    for line in text.split("\n"):
        m = STANDS.match(line)
        if m:
            yield m[1]


def said(path, text, stand):
    """What a page, a comment or an edit still has under the spelling that port.py has left."""

    def one(m):
        new = respelled(m[0]) if re.match(r"[A-Za-z][\w-]*-[\w-]*$", m[0]) else m[0]
        return new if new in stand else m[0]

    if path.endswith(".md"):
        return re.sub(r"`[^`\n]+`", lambda m: WORD.sub(one, m[0]), text)
    if path.endswith(".edit"):
        return "\n".join(l if l.startswith(("#", "file:")) else WORD.sub(one, l) for l in text.split("\n"))
    mark = "//" if path.endswith(".rt") else "--"
    out = []
    for line in text.split("\n"):
        at = comment(line, mark)
        out.append(line if at < 0 else line[:at] + re.sub(r"`[^`]+`", lambda m: WORD.sub(one, m[0]), line[at:]))
    return "\n".join(out)


ANY = re.compile(r"^\s*(?:abbrev |unfoldable )?(?:pub )?(?:data |record )?([A-Za-z][^\s(){}.:;,]*)(?:\s+(?:\([^)]*\)|\{[^}]*\}))*\s*:(?!:)")


def declared_any(text):
    for line in text.split("\n"):
        m = ANY.match(line)
        if m and "_" in m[1]:
            yield m[1]


def foreign(text):
    out = set()
    for m in FOREIGN.finditer(text):
        for part in m[1].split(","):
            out.add(part.split(" as ")[-1].strip().strip("«»"))
    return out


def words(text, names, keep):
    def one(m):
        w = m[0]
        if w in names and w not in keep and text[max(0, m.start() - 4) : m.start()] not in (" tie.", "(tie.", "tie.") and not text[: m.start()].endswith(("tie.", "-lts.", "lts.")):
            return names[w]
        return w

    return WORD.sub(one, text)


def backticks(text, names):
    return re.sub(r"`[^`\n]+`", lambda m: words(m[0], names, ()), text)


def turn(path, text, names):
    if path.endswith(".md"):
        return backticks(text, names)
    keep = foreign(text)
    mark = "//" if path.endswith(".rt") else "--"
    out = []
    for line in text.split("\n"):
        at = comment(line, mark)
        code, rest = (line, "") if at < 0 else (line[:at], line[at:])
        if path.endswith(".rt"):
            code = clauses(code, names, keep)
        elif path.endswith(".edit"):
            if line.startswith("#"):
                code = line
            else:
                code = words(code, names, keep)
        else:
            code = words(code, names, keep)
        out.append(code + backticks(rest, names))
    text = "\n".join(out)
    return unquoted(text) if path.endswith(".rt") else text


def comment(line, mark):
    if mark == "--":
        m = re.search(r"(?:^|\s)--(?:\s|$)", line)
        return m.start() if m else -1
    return line.find("//")


def clauses(code, names, keep):
    """In a .rt file a dashed name stands between « and »."""
    return re.sub(r"«([^»]+)»", lambda m: "«" + names.get(m[1], m[1]) + "»", code)


CAMEL = re.compile(r"«([a-z][a-z0-9_']*)»(?: as (\w+))?")


def unquoted(text):
    """«kind_of» as kindOf is kind_of, and so is kindOf in the clauses."""
    other = {}

    def one(m):
        new, alias = m[1], m[2]
        if alias and alias != new:
            if alias == re.sub(r"_(\w)", lambda x: x[1].upper(), new):
                other[alias] = new
                return new
            return f"{new} as {alias}"
        return new

    out = []
    for line in text.split("\n"):
        if line.startswith("ghost use"):
            line = CAMEL.sub(one, line)
        out.append(line)
    text = "\n".join(out)
    for alias, new in other.items():
        text = re.sub(r"(?<![\w.])" + alias + r"(?!\w)", new, text)
    return text


sys.exit(main())
