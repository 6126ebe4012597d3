#!/usr/bin/env python3
"""Brings the repository's own names to today's spelling: definitions and lemmas are in snake case.

usage: python3 tools/spelling.py        at the top of the repository, once, after the kit's port.py

A name of specs/ or proofs/ that begins with a small letter and has a capital is respelled wherever it stands: in
.antt files, in the .rt files' clauses and imports, in must-fail edits, and in README.md and the pages of docs/ but for
CHANGES.md, which has the names of its time. A dash that joins two names stays. Functions of src/, types, modules,
strings, inputs and outputs are left. A lemma that would have its definition's name gets _lem. It stops, and writes
nothing, where a name that it respells would fall together with another all the same, and where nothing is left to
respell.
"""
import os
import re
import sys

WORD = re.compile(r"(?<![A-Za-z0-9_'])[a-z][A-Za-z0-9_']*")
# library words that the kit's port spells anew, as they stand inside names of ours
LIBRARY = {"getD": "get_or", "natAbs": "nat_abs"}
# letters of formulas in comments
KEPT = {"aA", "nP"}
# lemmas whose names a definition takes
LEMMAS = ["any_below", "digit_at", "digits_long", "same_row", "sum_done", "value_in"]
DEFINED = re.compile(r"^\s*(?:(?:abbrev|unfoldable|pub)\s+)*([a-z][A-Za-z0-9_'-]*)\s*:(?=\s)", re.M)
PAGES = ["README.md", "docs/RULES.md", "docs/DECISIONS.md", "docs/EXCEPTIONS.md", "docs/DIFFERENCES.md", "docs/REPLAY.md"]


def snake(word):
    if word in LIBRARY:
        return LIBRARY[word]
    return re.sub(r"(?<=[a-z0-9])(?=[A-Z])", "_", word).lower() if re.search("[A-Z]", word) else word


def files(ending):
    for folder, _, names in os.walk("crates"):
        for name in sorted(names):
            if name.endswith(ending):
                yield os.path.join(folder, name)


def text_of(path):
    with open(path, encoding="utf-8") as f:
        return f.read()


def main():
    if os.path.exists("docs/DESIGN-PASS.md"):
        sys.exit("spelling: it ran once, at the port; names are today's, and some are the library's, which it does not know")
    texts = {p: text_of(p) for p in [*files(".antt"), *files(".rt"), *files(".edit"), *PAGES]}
    logic = [t for p, t in texts.items() if p.endswith(".antt")]
    defined = {n for t in logic for n in DEFINED.findall(t)} - set(LEMMAS)
    words = {w for t in logic for w in WORD.findall(t)}
    table = {w: snake(w) for w in sorted(words - KEPT) if snake(w) != w}
    met = [w for w in table if table[w] in defined or list(table.values()).count(table[w]) > 1]
    if met:
        sys.exit(f"spelling: these would fall together with another name: {met}")
    if not table:
        sys.exit("spelling: every name is in today's spelling already")
    changed = 0
    for path, text in texts.items():
        here = table | ({w: w + "_lem" for w in LEMMAS} if path.endswith(".antt") else {})
        new = WORD.sub(lambda m: here.get(m[0], m[0]), text)
        if new != text:
            changed += 1
            with open(path, "w", encoding="utf-8") as f:
                f.write(new)
    print(f"spelling: {len(table)} names respelled, {changed} files")


main()
