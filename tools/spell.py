#!/usr/bin/env python3
"""Brings the repository's own definitions and lemmas to Rattle's spelling: words in snake case.

usage: python3 tools/spell.py          rewrites crates/ (and the must-fail edits and the pages that cite names) in place
       python3 tools/spell.py --list   prints old and new names, and where two would fall together

Run once, after port.py. Types, modules and constructors keep their camel case; strings of the code keep their text.
"""

import os
import re
import sys

NAME = re.compile(r"(?<![\w'?-])[a-z][\w'?-]*")
CAMEL = re.compile(r"[a-z0-9][A-Z]")
STRING = re.compile(r'b?"(?:[^"\\]|\\.)*"')
# Names that port.py's table has under another word, where they are parts of the repository's own names.
WORDS = {"getD": "get_or", "sumOf": "sum_of"}
# Lemmas that port.py gave the name that their definition gets here: a lemma that would have its function's name gets `_lem`.
LEMMAS = {
    "crates/audits/proofs/Steps.antt": ["in_use"],
    "crates/audits/proofs/differ/note/Proof.antt": ["in_use"],
    "crates/dial/proofs/ListSteps.antt": ["join_slot"],
    "crates/dial/proofs/lists/join_at/Proof.antt": ["join_slot"],
    "crates/heap/proofs/PublicWalks.antt": ["in_reach"],
    "crates/heap/proofs/SeatWalks.antt": ["once_more"],
    "crates/heap/proofs/seats/refill/Proof.antt": ["once_more"],
    "crates/slots/proofs/AllRings.antt": ["has_cells"],
}


def snake(part):
    if part in WORDS:
        return WORDS[part]
    if not part[:1].islower():
        return part
    return re.sub(r"([a-z0-9])([A-Z])", lambda m: m[1] + "_" + m[2].lower(), part)


def spelled(name):
    if not CAMEL.search(name):
        return name
    return "-".join(snake(p) for p in name.split("-"))


def lemmas_apart(path, text):
    for n in LEMMAS.get(path, []):
        text = re.sub(rf"(?<![\w'?.-]){n}(?![\w'?.-])", n + "_lem", text)
    return text


def files(root):
    for folder, dirs, names in os.walk(os.path.join(root, "crates")):
        dirs[:] = sorted(d for d in dirs if d != "out")
        for f in sorted(names):
            if f.endswith((".antt", ".rt", ".edit")):
                yield os.path.join(folder, f)


def outside_strings(text, turn):
    """Turns what stands outside the string literals."""
    said, at = [], 0
    for m in STRING.finditer(text):
        said += [turn(text[at : m.start()]), m[0]]
        at = m.end()
    return "".join(said + [turn(text[at:])])


def renamed(text):
    return NAME.sub(lambda m: spelled(m[0]), text)


def main():
    root = os.path.dirname(os.path.dirname(os.path.realpath(__file__)))
    listing = "--list" in sys.argv[1:]
    known, clashes = {}, []
    for p in files(root):
        with open(p, encoding="utf-8") as f:
            was = f.read()
        text = lemmas_apart(os.path.relpath(p, root), was)
        names = set(NAME.findall(text))
        for n in sorted(names):
            new = spelled(n)
            if new != n:
                known[n] = new
                if new in names:
                    clashes.append((p, n, new))
        if not listing:
            new = renamed(text) if p.endswith(".antt") else outside_strings(text, renamed)
            if new != was:
                with open(p, "w", encoding="utf-8") as f:
                    f.write(new)
    if listing:
        for n in sorted(known):
            print(n, known[n])
        for c in clashes:
            print("fall together:", *c)
        return
    pages = [os.path.join(root, "README.md")] + [os.path.join(root, "docs", f) for f in sorted(os.listdir(os.path.join(root, "docs"))) if f.endswith(".md")]
    for p in pages:
        with open(p, encoding="utf-8") as f:
            text = f.read()
        new = NAME.sub(lambda m: known.get(m[0], m[0]), text)
        if new != text:
            with open(p, "w", encoding="utf-8") as f:
                f.write(new)


if __name__ == "__main__":
    main()
