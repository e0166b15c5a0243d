#!/usr/bin/env python3
"""Counts the places of docs/DESIGN-PASS.md: in crates/*/src/*.rt, for point 8 in crates/*/proofs.

usage: python3 tools/design_places.py [-v] [NAME..]      at the top of a checkout

Prints `NAME: COUNT` for each kind of place, or for the NAMEs given; with -v the places before it, as FILE:LINE: FUNCTION: TEXT.
It reads text alone: what it finds is where a reader has to look, and the page says what came of it.
"""
import difflib
import glob
import re
import sys

NUMBER = r"(?:u8|u16|u32|u64|usize|isize|i64)"
KEYWORDS = set("as break const continue else enum fn for if in let loop match mut pub return self struct true false while impl use".split())


def blank(text):
    """The text with comments blanked, lines kept."""
    return re.sub(r"//[^\n]*", lambda m: " " * len(m[0]), text)


def closing(text, at, opens="{", closes="}"):
    """Behind the bracket that ends the one at `at`; the `>` of an arrow is none."""
    depth = 0
    for i in range(at, len(text)):
        depth += (text[i] == opens) - (text[i] == closes and text[i - 1 : i + 1] != "->")
        if depth == 0:
            return i + 1
    return len(text)


def parted(text):
    """The parts between commas that stand in no bracket."""
    out, depth, start = [], 0, 0
    for i, c in enumerate(text + ","):
        depth += (c in "([{<") - (c in ")]}" or c == ">" and text[i - 1 : i] != "-")
        if c == "," and depth == 0:
            out.append(" ".join(text[start:i].split()))
            start = i + 1
    return [p for p in out if p]


class Function:
    """A function: where it stands, its name, its parameters, what it returns, its clauses and its body."""

    def __init__(self, path, text, found):
        self.path, self.name, self.whole = path, found[1], text
        self.line = text.count("\n", 0, found.start()) + 1
        at = found.end() - 1
        if text[at] == "<":
            at = text.index("(", closing(text, at, "<", ">"))
        end = closing(text, at, "(", ")")
        self.parameters = parted(text[at + 1 : end - 1])
        self.clauses = []
        head = self.to_brace(end)
        while head < len(text) and text[head] == "{" and (clause := re.search(r"\b(requires|ensures)\b[^{}]*$", text[end:head])):
            if not self.clauses:
                self.returns = text[end : end + clause.start()]
            stop = closing(text, head)
            self.clauses.append((text.count("\n", 0, head) + 1, " ".join((clause[0] + text[head:stop]).split())))
            end, head = stop, self.to_brace(stop)
        if not self.clauses:
            self.returns = text[end:head]
        self.returns = " ".join(self.returns.replace("->", "").split())
        self.body_at, self.body = head, text[head : closing(text, head)] if text[head : head + 1] == "{" else ""

    def to_brace(self, at):
        """The next brace or semicolon that stands in no other bracket."""
        while at < len(self.whole) and self.whole[at] not in "{;":
            opens = self.whole[at]
            at = closing(self.whole, at, opens, ")" if opens == "(" else "]") if opens in "([" else at + 1
        return at

    def place(self, text=None, line=None):
        return f"{self.path}:{line or self.line}: {self.name}" + (f": {text}" if text else "")

    def lines(self, pattern):
        """The places in the body that a pattern meets."""
        for m in re.finditer(pattern, self.body):
            yield self.place(" ".join(m[0].split()), self.file_line(m.start()))

    def file_line(self, offset):
        return self.whole.count("\n", 0, self.body_at + offset) + 1


def read_functions(paths):
    out = []
    for path in paths:
        with open(path, encoding="utf-8") as file:
            text = blank(file.read())
        out += [Function(path, text, found) for found in re.finditer(r"\bfn\s+(\w+)\s*[<(]", text)]
    return out


def types(paths, word):
    """(place, name, fields or variants with their text) of each struct or enum."""
    for path in paths:
        with open(path, encoding="utf-8") as file:
            text = blank(file.read())
        for m in re.finditer(r"\b" + word + r"\s+(\w+)\s*(?:<[^{]*>)?\s*\{", text):
            body = re.sub(r"\bghost\s+\w+\s*:\s*\{[^}]*\}", "", text[m.end() : closing(text, m.end() - 1) - 1])
            yield f"{path}:{text.count(chr(10), 0, m.start()) + 1}", m[1], parted(body)


# 1. Own forms of Option and Result, flags, numbers


def own_results(paths, functions):
    """Enums of which some variants hold a value and another holds nothing or a refusal."""
    for place, name, variants in types(paths, "enum"):
        bare = [v for v in variants if re.fullmatch(r"\w+(\(\w*Refusal\))?", v)]
        if bare and (len(bare) < len(variants) or "Refusal)" in bare[-1]):
            yield f"{place}: {name}: {' | '.join(variants)}"


def handed_on(paths, functions):
    """Matches and tests by which a refusal, or that there is no value, is only handed on."""
    bad = r"(?:Because|Refused|No[A-Z]\w*|Ended|Unreadable)"
    for f in functions:
        yield from f.lines(r"::" + bad + r"(?:\(\w+\))?\s*=>\s*\{?\s*\w+::" + bad + r"(?:\((?:\w+)\))?")
        yield from f.lines(r"let (?!Some\b|Ok\b|Err\b)[^;=]*=[^;{]*else\s*\{[^}]*return\s[^;]*;")
        yield from f.lines(r"let Ok\([^;=]*=[^;{]*else\s*\{\s*return\s+\w+\s*\{[^;]*false[^;]*;")


def flags(paths, functions):
    """Flags in a struct beside other fields, and flags among the parameters; `sound` is counted in point 5, `more` has nothing beside it."""
    for place, name, fields in types(paths, "struct"):
        yield from (f"{place}: {name}: {f}" for f in fields if re.search(r": bool$", f))
    for f in functions:
        yield from (f.place(p) for p in f.parameters if re.search(r"(?<!sound)(?<!more): bool$", p))


def numbers(paths, functions):
    """Numbers that stand for a kind, a refusal or the answer of a read: fields, parameters and results."""
    named = r"\b(?:kind|tag|refusal|code|got): " + NUMBER + r"\b"
    for word in ("enum", "struct"):
        for place, name, parts in types(paths, word):
            yield from (f"{place}: {name}: {p}" for p in parts if re.search(named, p))
    for f in functions:
        yield from (f.place(p) for p in f.parameters if re.search(named, p))
        if re.fullmatch(NUMBER, f.returns) and f.name in ("refusal", "number", "answered"):
            yield f.place("-> " + f.returns)


# 2. Twins


def by_places(paths, functions):
    """Functions that do the same at each of three places, each written out."""
    shapes = (
        r"\bSharing\s*\{\s*s0\b",
        r"\bs0\b[^}]*\bs1\b[^}]*\bs2\b",
        r"\b(\w+)0\[([^\].]+)\][^}]*\b\g<1>1\[\g<2>\][^}]*\b\g<1>2\[\g<2>\]",
    )
    shapes = [s.replace(r"\g<1>1", r"(?P=run)1").replace(r"\g<1>2", r"(?P=run)2").replace(r"\g<2>", r"(?P=at)") for s in shapes]
    shapes[2] = shapes[2].replace(r"(\w+)0\[([", r"(?P<run>\w+)0\[(?P<at>[")
    for f in functions:
        if any(re.search(s, f.body) for s in shapes):
            yield f.place()


def tokens(body):
    """The words and signs of a body; all names are one, and all numbers."""
    out = []
    for t in re.findall(r"[A-Za-z_]\w*|\d\w*|[^\s\w]", body):
        out.append(t if t in KEYWORDS or not re.match(r"\w", t) else "0" if t[0].isdigit() else "Name" if t[0].isupper() else "name")
    return out


def twins(paths, functions):
    """Functions whose bodies are the same but for names and numbers, or in one crate nearly the same: each with an earlier one."""
    bodies = [(f, tokens(f.body)) for f in functions]
    bodies = [(f, b) for f, b in bodies if len(b) >= 20]
    for i, (f, a) in enumerate(bodies):
        for g, b in bodies[:i]:
            if a == b or f.path.split("/")[1] == g.path.split("/")[1] and alike(a, b):
                yield f.place(f"like {g.name} ({g.path}:{g.line})")
                break


def alike(a, b):
    if min(len(a), len(b)) < max(25, 0.8 * max(len(a), len(b))):
        return False
    match = difflib.SequenceMatcher(None, a, b, autojunk=False)
    return match.quick_ratio() >= 0.9 and match.ratio() >= 0.9


# 3. Loops


def loops(paths, functions):
    """Loops with a condition of their own."""
    for f in functions:
        yield from f.lines(r"\bwhile\b[^{]*|\bloop\b")


# 4. Equality, order, copying, conversion, printing


CONVERTED = {
    "a variant of a number": r"(?:[{,]|\n)\s*(?:\d+|(?:Ring::)?[A-Z][A-Z_0-9]+)\s*=>|if \w+ == (?:\d+|(?:\w+::)?[A-Z_0-9]{3,}) \{\s*return (?:\w+::\w|true)",
    "words written one by one": r"\b\w*[a-z]\[\d+\] = ",
    "a word of bytes": r"\* 0x1(?:00|_)|\{\s*b as u64\s*\}",
    "digits": r"/= 10\b|% 10\b",
    "words copied": r"(\w+)\[(\w+)\] = \w+\[\2\];",
    "fields compared one by one": r"==[^;{}]*\) & \([^;{}]*==|!=[^;{}]*\) \| \([^;{}]*!=",
}


def conversions(paths, functions):
    """Functions that only compare, copy, print or turn one form into another, by hand."""
    for f in functions:
        arms = re.findall(r"=>\s*([^,}]+)", f.body)
        plain = [a for a in arms if re.fullmatch(r"\s*(?:\d\w*|true|false|[A-Z]\w*::[A-Z_0-9]+|\w+)\s*", a)]
        if re.search(r"\bmatch\b", f.body) and arms and len(plain) == len(arms):
            yield f.place("a number, a flag or a field of each variant")
            continue
        for what, pattern in CONVERTED.items():
            if re.search(pattern, f.body):
                yield f.place(what)
                break


def starts(paths, functions):
    """Functions without parameters that return a fixed value."""
    for f in functions:
        if not f.parameters and f.returns and f.name != "main":
            yield f.place("-> " + f.returns)


def casts(paths, functions):
    """Casts of one number type into another."""
    for f in functions:
        yield from f.lines(r"\bas " + NUMBER + r"\b")


# 5. Facts in many contracts, parameters that travel together


def parameters(*names):
    def found(paths, functions):
        for f in functions:
            own = [p.split(":")[0].replace("mut ", "") for p in f.parameters]
            if all(n in own for n in names):
                yield f.place()

    found.__doc__ = "Functions with the parameters " + ", ".join(names) + "."
    return found


def clauses(pattern, what):
    def found(paths, functions):
        for f in functions:
            yield from (f.place(text, line) for line, text in f.clauses if re.search(pattern, text))

    found.__doc__ = what
    return found


# 6. Buffers with a length, parallel arrays


def beside(paths, functions):
    """Byte buffers with the place up to which they are filled or read beside them, tapes with their counts; and results that are such places."""
    for place, name, fields in types(paths, "struct"):
        yield from (f"{place}: {name}: {f}" for f in fields if re.search(r"\b(?:at|length|count|next|masks|dealer): usize$", f))
    for f in functions:
        text = ", ".join(f.parameters)
        if re.search(r"\[u8\]", text) and re.search(r"\b(?:at|i): usize\b|\bgot: isize", text) or re.search(r"\b[np]: (?:Counts|Progress)\b", text):
            yield f.place()


def parallel(paths, functions):
    """Functions that are lent three arrays of which a place has one each (m0 m1 m2, c0 c1 c2, a0 a1 a2, z0 z1 z2)."""
    for f in functions:
        own = [p for p in f.parameters if re.match(r"\w+0: &(?:mut )?\[", p)]
        if own:
            yield f.place(", ".join(p.split(":")[0] for p in own))


# 7. Switches


def switches(paths, functions):
    """Matches of which two arms or more call functions, one each, with the same arguments lent."""
    for f in functions:
        called = re.findall(r"=>\s*(?:\w+::\w+\(\w+, )?([a-z]\w*)\(([^()]*)\)", f.body)
        if len({name for name, _ in called}) >= 2:
            yield f.place(", ".join(sorted({name for name, _ in called})))


# 8. Proofs


def proof_lines():
    return sum(open(p, encoding="utf-8").read().count("\n") for p in proof_files())


def proof_files():
    return sorted(glob.glob("crates/*/proofs/**/*.antt", recursive=True))


def answers():
    return [p for p in proof_files() if p.endswith("/Answers.antt")]


KINDS = {
    "1-own-results": own_results,
    "1-handed-on": handed_on,
    "1-flags": flags,
    "1-numbers": numbers,
    "2-by-places": by_places,
    "2-twins": twins,
    "3-loops": loops,
    "4-conversions": conversions,
    "4-starts": starts,
    "4-casts": casts,
    "5-masks": parameters("m0", "m1", "m2"),
    "5-channels": parameters("c0", "c1", "c2"),
    "5-record-and-tapes": parameters("record", "m0", "dealer", "c0"),
    "5-width-and-modulus": parameters("e", "p"),
    "5-sound": parameters("sound"),
    "5-record-fits": clauses(r"\bRecordFits\b", "Clauses that the record has its words."),
    "5-tapes-fit": clauses(r"\b(?:MasksFit|DealerFits)\b", "Clauses that tapes have room for the lines counted."),
    "5-in-range": clauses(r"\bInRange\b", "Clauses that sub-shares are below a number."),
    "5-long": clauses(r"^requires\b.*\bLong\b", "Clauses that three runs are long enough."),
    "5-fixed-length": clauses(r"^requires\b.*\blength \S+ ≡ \d", "Clauses that a run has a length that is a number."),
    "5-room": clauses(r"^requires\b.*≤ length\b", "Clauses that a run has room."),
    "6-beside": beside,
    "6-parallel": parallel,
    "7-switches": switches,
}


def main(argv):
    verbose = "-v" in argv
    wanted = [a for a in argv if a != "-v"]
    paths = sorted(glob.glob("crates/*/src/**/*.rt", recursive=True))
    if not paths or any(w not in KINDS and w not in ("8-lines", "8-answers") for w in wanted):
        print(__doc__, file=sys.stderr)
        return 2
    functions = read_functions(paths)
    for name, kind in KINDS.items():
        if wanted and name not in wanted:
            continue
        places = list(kind(paths, functions))
        if verbose:
            print("\n".join("  " + p for p in places))
        print(f"{name}: {len(places)}")
    if not wanted or "8-lines" in wanted:
        print(f"8-lines: {proof_lines()}")
    if not wanted or "8-answers" in wanted:
        print(f"8-answers: {len(answers())}")
    return 0


if __name__ == "__main__":
    sys.exit(main(sys.argv[1:]))
