#!/usr/bin/env python3
"""Spells the repository's own definitions and lemmas as the toolchain's library spells its words.

usage: python3 tools/respell.py [--list]     at the top of the repository, once, after the toolchain's own port script

A word in snake case (`in_range` for `in-range`), a type or a fact in camel case (`AllFit` for `All-fit`). Turned are the names
that a file of specs/ or proofs/ declares, wherever they stand: in definitions, proofs, clauses, edits, and between backticks in
pages and comments. Names that the toolchain makes (goals, steps, invariants) are left alone, and so are code and strings.
`--list` prints the names and writes nothing; it fails where two names would fall together.
"""
import os
import re
import sys

# bound in a signature or a pattern, and declared nowhere
LOCAL = """all-fees all-gains fault-number fault-place first-is fitting-numbers from-buyer from-seller lines-each next-is
no-in no-out not-buyer not-seller same-fees same-gains to-ask to-bid to-committee to-count to-house by-letter by-words
in-full portion-of standing-of counterparty-refusals closed-by customer-in margins-in lacks-margin suffices-for
fees-of""".split()

# two operators, joined as the library joins them
KEPT = {"*ℤ-+ℤ", "+ℤ-*ℤ", "neg-*ℤ"}

# a type that another script turned as a word
EARLIER = {"Goes_on": "GoesOn"}

# words of the library that a name was made of, in the library's spelling of today
OLDER = {"sumBy": "sum_by", "getD": "get_or", "okOr": "ok_or"}

DECLARED = re.compile(r"^\s*(?:(?:pub|abbrev|unfoldable)\s+)*([^\s(){}\[\];,.:=λ]+) :(?:\s|$)")
NAMED = re.compile(r"^\s*(?:pub )?(?:record|data|ruleset)(?: pub)? (\S+)")
TOKEN = re.compile(r"[^\s(){}\[\];,.|\"`⌜⌝«»λ&!?#]+")
MADE = {"Answers.antt", "Invariants.antt"}


def files(*ends):
    for folder, dirs, names in os.walk("crates"):
        dirs[:] = sorted(d for d in dirs if d != "out")
        for name in sorted(names):
            if name.endswith(ends):
                yield os.path.join(folder, name)


def declared():
    for path in files(".antt"):
        made = os.path.basename(path) in MADE
        with open(path, encoding="utf-8") as f:
            for line in f:
                found = DECLARED.match(line) or NAMED.match(line)
                # an answer or an invariant has the type that the toolchain gives it
                if found and not (made and " : goal." in line):
                    yield found.group(1)


def respelled(name):
    parts = name.split("-")
    if name[0].isupper():
        return "".join(p[0].upper() + p[1:] for p in parts)
    return "_".join(OLDER.get(p, p) for p in parts)


def table():
    names = set(declared())
    turned = {n: respelled(n) for n in names | set(LOCAL) if "-" in n and n not in KEPT and re.search("[a-zA-Z]", n)}
    turned |= {old: new for old, new in EARLIER.items() if old in names}
    seen = {}
    clashes = []
    for old, new in sorted(turned.items()):
        if new in names or new in seen:
            clashes.append((old, new))
        seen[new] = old
    return turned, clashes


def turn(text, turned):
    return TOKEN.sub(lambda m: turned.get(m.group(), m.group()), text)


def quoted(text, turned):
    return re.sub(r"`[^`\n]*`", lambda m: turn(m.group(), turned), text)


def turn_lines(text, turned, comment):
    out = []
    for line in text.split("\n"):
        at = re.search(comment, line)
        code, said = (line[: at.start()], line[at.start() :]) if at else (line, "")
        parts = re.split(r'("(?:[^"\\]|\\.)*")', code)
        code = "".join(p if i % 2 else turn(p, turned) for i, p in enumerate(parts))
        out.append(code + quoted(said, turned))
    return "\n".join(out)


def main():
    turned, clashes = table()
    for old, new in clashes:
        print(f"falls together: {old} {new}")
    if "--list" in sys.argv:
        for old, new in sorted(turned.items()):
            print(old, new)
        return 1 if clashes else 0
    pages = ["README.md"] + [os.path.join("docs", n) for n in sorted(os.listdir("docs")) if n.endswith(".md")]
    for path in [*files(".antt", ".rt", ".edit"), *pages]:
        with open(path, encoding="utf-8") as f:
            text = f.read()
        if path.endswith(".md"):
            new = quoted(text, turned)
        elif path.endswith(".antt"):
            new = turn_lines(text, turned, r"(^|\s)--(\s|$)")
        else:
            new = turn_lines(text, turned, r"//")
        if new != text:
            with open(path, "w", encoding="utf-8") as f:
                f.write(new)
    return 0


sys.exit(main())
