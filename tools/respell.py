#!/usr/bin/env python3
"""Brings this repository's own names to the library's spelling, once, after port.py: words in snake case, types and modules in
camel case. A dash stays between two names, as in `fold-lt`, and is an underscore elsewhere.

usage: respell.py [--names]      at the top of the repository; --names prints the table and writes nothing
"""
import os
import re
import sys

NAME = r"[^\s(){}.;,@\"«»:`|\[\]]+"
DECLARED = re.compile(r"^ *((?:pub |abbrev |unfoldable |record |data )*)(" + NAME + r")(?: \{[^{}\n]*\})* :(?= |$)", re.M)
SEVERAL = re.compile(r"^ +((?:[a-z][\w'-]* )+[a-z][\w'-]*) : ", re.M)
MADE = re.compile(r"(invariant|decreases)-|the-|Need-|After-|In-|At-|Then-|Else-")

# Words of the library that a lemma's name joins by a dash.
LIBRARY = set(
    "add all and append cond cons div drop eq get_or le length lt map min mod mul nil or pow range replicate set sub suc sum take xor".split()
)

# What the rules would spell badly, or like another name.
BY_HAND = {
    "bit-and": "bit_of-and",
    "bit-xor": "bit_of-xor",
    "getD-lane": "get_or-lane",
    "getD-listed": "get_or-listed",
    "getD-woven": "get_or-woven",
}

# Values that had a capital letter, in the files below a folder alone.
VALUES = {
    "crates/example": {"J": "first_job", "K": "second_job", "T": "first_tapes", "T'": "second_tapes"},
    "crates/example_lines": {"J": "first_job", "K": "second_job", "T": "first_tapes", "T'": "second_tapes"},
    "tests/example": {},
}


def files(top, endings):
    for folder, dirs, names in os.walk(top):
        dirs[:] = sorted(d for d in dirs if d not in ("out", "target", ".git"))
        for n in sorted(names):
            if n.endswith(endings):
                yield os.path.join(folder, n)


def read(path):
    with open(path, encoding="utf-8") as f:
        return f.read()


def code(text):
    return re.sub(r"--[^\n]*", "", text)


def snake(word):
    word = re.sub(r"(?<=[a-z0-9])([A-Z])", lambda m: "_" + m[0].lower(), word)
    return re.sub(r"(?<=_[a-z])([A-Z])", lambda m: "_" + m[0].lower(), word)


def declared():
    """The names that the antt files declare, and those among them that are definitions."""
    names, definitions = set(), set()
    for path in files("crates", ".antt"):
        text = code(read(path))
        for kinds, name in DECLARED.findall(text):
            names.add(name)
            if "abbrev" in kinds or "unfoldable" in kinds or "record" in kinds or "data" in kinds:
                definitions.add(name)
        for several in SEVERAL.findall(text):
            names.update(several.split())
    return names, definitions


def spelled(name, definitions):
    if name in BY_HAND:
        return BY_HAND[name]
    if MADE.match(name) or not name[0].islower():
        return name
    parts = [snake(p) for p in name.split("-")]
    if name.endswith("-spec"):
        return "_".join(parts)
    known = LIBRARY | {snake(d) for d in definitions if "-" not in d}
    out = parts[0]
    for i, part in enumerate(parts[1:]):
        out += ("-" if parts[i] in known and part in known else "_") + part
    return out


def table():
    names, definitions = declared()
    rows = {n: spelled(n, definitions) for n in names}
    rows = {n: s for n, s in rows.items() if n != s}
    taken = {}
    for n in sorted(names):
        taken.setdefault(rows.get(n, n), []).append(n)
    # A lemma that would have its definition's name gets `_lem`, where one file has both.
    words = [set(re.findall(NAME, code(read(p)))) for p in files("crates", ".antt")]
    met = []
    for s, ns in taken.items():
        ns.sort(key=lambda n: (n not in definitions, "-" in n, n))
        for i, n in enumerate(ns[1:], 1):
            if any(n in ws and ws & set(ns[:i]) for ws in words):
                rows[n] = s + "_lem"
                met += [s] if s + "_lem" in taken or i > 1 else []
    return rows, met


def turned(text, rows, behind_dots=True):
    head = "" if behind_dots else r"(?<!\.)"
    return re.sub(head + NAME, lambda m: rows.get(m[0], m[0]), text)


def turned_rust(text, rows):
    """Clauses and ghost lines, where a name is one of ours only if it has a capital inside."""
    rows = {n: s for n, s in rows.items() if re.fullmatch(r"[a-z]\w*[A-Z]\w*'?", n)}
    return re.sub(r"(?<![\w])[A-Za-z_]\w*'?", lambda m: rows.get(m[0], m[0]), text)


def turned_prose(text, rows):
    def span(m):
        return m[1] + turned(m[2], rows) + m[3]

    return re.sub(r"(`)([^`\n]+)(`)", span, text)


def write(path, text):
    if text != read(path):
        with open(path, "w", encoding="utf-8") as f:
            f.write(text)


def main():
    rows, met = table()
    if "--names" in sys.argv:
        for n, s in sorted(rows.items()):
            print(n, s)
        print(*(f"met: {s}" for s in met), sep="\n")
        return
    if met:
        sys.exit(f"names that fall together: {met}")
    for path in files("crates", ".antt"):
        mine = dict(rows)
        for folder, values in VALUES.items():
            if path.startswith(folder + "/"):
                mine.update(values)
        named = "/Proof.antt" not in path
        plain = {n: s for n, s in mine.items() if "-" not in n and not s.endswith("_lem")}
        text = turned(read(path), mine, named)
        write(path, text if named else turned(text, plain))
    for path in files("crates", ".rt"):
        write(path, turned_rust(read(path), rows))
    for top in ("crates", "tests/leaks"):
        for path in files(top, ".edit"):
            write(path, turned(read(path), rows))
    for path in files(".", ".md"):
        write(path, turned_prose(read(path), rows))


main()
