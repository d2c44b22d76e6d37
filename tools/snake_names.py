#!/usr/bin/env python3
"""Respells the repository's own names in snake case: definitions and lemmas with `_` between words, facts and types in camel case.

usage: python3 tools/snake_names.py [--list]      at the top of the repository, once; --list only prints OLD NEW

It goes by text over crates/ (.antt, .rt, must-fail/*.edit), README.md and docs/. A name is the repository's own if an .antt file
declares it, and not one that Rattle makes (a goal, an invariant, a measure). Names of src/, texts in quotes and the words of
comments keep their spelling; in comments and documents a name in backticks is respelled. A dash stays in the names of PAIRS.
"""
import os
import re
import sys

PART = r"[A-Za-zμ_][\w'ℕ]*"
NAME = re.compile(PART + r"(?:-[\w'ℕ]+)+|\bLaid_out\b")
HEAD = re.compile(r"^(\s*)((?:(?:abbrev|unfoldable|pub|data|record|axiom|package)\s+)*)(" + PART + r"(?:-[\w'ℕ]+)*(?:\s+" + PART + r"(?:-[\w'ℕ]+)*)*)\s*((?:\{[^}]*\}|\([^)]*\))\s*)*:(?!=)")
RECORD = re.compile(r"^\s*(?:pub\s+)?(?:record|data)\s+(" + PART + r"(?:-[\w'ℕ]+)*)")
# where the plain respelling is a variant's name already
OTHERS = {"Cannot-run": "CannotBeRun"}
# a fact that the kit's script spelled as a function
FACTS = {"Laid_out": "LaidOut"}
# lemmas on one function of another, whose names keep the dash between the two
PAIRS = {
    "all_hold-append", "all_written-append", "end_to_end-append", "flip-flip", "holds-insert", "holds-insert_all", "holds-put_in",
    "length-end_to_end", "length-insert", "length-insert_all", "literal_count-append", "literal_value-flip", "signal-flip",
    "times-append", "total_size-set",
}
# names inside one proof or one file, which no signature declares
INNER = {
    "after-count", "after-number", "after-words", "c-is", "d-is", "f-is", "l-is", "n-is", "out-is", "gs-are", "numbers-are", "empty-chain",
    "formula-law", "full-tree", "granted-calls", "is-gates", "is-switches", "literal-is", "own-l", "own-r", "there-l", "there-r",
    "short-left", "short-right", "spelt-lines", "was-left", "was-right", "read-formula",
}
CODE = re.compile(r'"(?:[^"\\\n]|\\.)*"|--[^\n]*|//[^\n]*|`[^`\n]*`|' + NAME.pattern + r"|.", re.S)


def files(root):
    for top in ("crates", "docs"):
        for folder, dirs, names in os.walk(os.path.join(root, top)):
            dirs[:] = sorted(d for d in dirs if d != "out")
            for n in sorted(names):
                if n.endswith((".antt", ".rt", ".edit", ".md")):
                    yield os.path.join(folder, n)
    yield os.path.join(root, "README.md")


def read(path):
    with open(path, encoding="utf-8") as f:
        return f.read()


def declared(root):
    """(the names that .antt files declare, those of goals that Rattle makes)"""
    own, made = set(), set()
    for p in files(root):
        if not p.endswith(".antt"):
            continue
        for line in read(p).split("\n"):
            r = RECORD.match(line)
            if r:
                own.add(r.group(1))
                continue
            m = HEAD.match(line)
            if not m:
                continue
            names = m.group(3).split()
            rest = line[m.end():].strip()
            for n in names:
                if rest.endswith("goal." + n) or rest.startswith("goal." + n):
                    made.add(n)
                else:
                    own.add(n)
    return own - made, made


def respelled(name):
    if name in OTHERS:
        return OTHERS[name]
    name = name.replace("getD", "get_or")
    words = name.split("-")
    if name[0].isupper():
        return "".join(w[0].upper() + w[1:] for w in words)
    return next((p for p in PAIRS if p.replace("_", "-") == name.replace("_", "-")), "_".join(words))


def turn(text, names, code):
    """The text with the names respelled: in code outside quotes, and in backticks."""
    def word(m):
        return names.get(m.group(0), m.group(0))

    def one(m):
        t = m.group(0)
        if t.startswith('"'):
            return t
        if t.startswith(("--", "//")):
            return re.sub(r"`[^`\n]*`", lambda q: NAME.sub(word, q.group(0)), t)
        if t.startswith("`"):
            return NAME.sub(word, t)
        if t in INNER and text[m.start() - 1:m.start()] == ".":
            return t  # a field that Rattle makes
        return names.get(t, t) if code else t

    return CODE.sub(one, text)


def main():
    root = os.getcwd()
    own, made = declared(root)
    names = {n: respelled(n) for n in own | INNER if "-" in n}
    names = {a: b for a, b in names.items() if a != b} | FACTS
    taken = {}
    for a, b in sorted(names.items()):
        taken.setdefault(b, []).append(a)
    for b, old in sorted(taken.items()):
        if len(old) > 1 or b in own or b in made:
            print(f"look: {', '.join(old)} -> {b}" + (", which stands already" if b in own or b in made else ""), file=sys.stderr)
    if "--list" in sys.argv:
        for a, b in sorted(names.items()):
            print(a, b)
        return
    for p in files(root):
        old = read(p)
        new = turn(old, names, not p.endswith(".md"))
        if new != old:
            with open(p, "w", encoding="utf-8") as f:
                f.write(new)


main()
