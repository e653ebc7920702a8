#!/usr/bin/env python3
"""Brings this repository's own definitions and lemmas from kebab case to the library's spelling.

usage: python3 tools/respell.py [FOLDER]    once, after the kit's port.py; FOLDER is the top of a checkout (default: here)

A word that begins with a small letter goes to snake case, a type to camel case. Only names that a file of
specs/ or proofs/ of this repository defines are turned; names that the check makes of the code (goals,
invariants, places such as in-ok-text) and the library's stay. Text in quotes stays, and so do comments
where the name is also plain English (ENGLISH).
"""

import os
import re
import sys

# where snake case alone would be the name of a parameter in the same clause
OTHER = {"in-flight": "values_in_flight"}
# plain English in comments
ENGLISH = {"in-flight", "in-time", "in-order", "no-wait", "set-up", "write-back", "one-way", "sub-word"}
ANSWERS = ("Answers.antt", "Choices.antt", "Invariants.antt")
WORD = r"[\w'′₀-₉◌]+(?:-[\w'′₀-₉◌]+)*"
DEFINED = re.compile(r"^\s*(?:(?:pub|abbrev|unfoldable|record|data) )*(" + WORD + r")\s*(?:[{(][^:]*:[^:]*[})]\s*)*:")
TYPE = re.compile(r"^\s*(?:pub )?(?:record|data) (?:pub )?(" + WORD + ")")
PIECE = re.compile(r'(?P<text>"(?:[^"\\]|\\.)*"|\'"\')|(?P<comment>--(?=[ \n])[^\n]*|--$|//[^\n]*)|(?P<word>' + WORD + ")", re.M | re.S)


def files(root, endings):
    for folder, folders, names in os.walk(os.path.join(root, "crates")):
        folders[:] = sorted(f for f in folders if f != "out")
        for name in sorted(names):
            if name.endswith(endings):
                yield os.path.join(folder, name)


def read(path):
    with open(path, encoding="utf-8") as f:
        return f.read()


def defined(root):
    """The hyphenated names that the repository's own .antt files define."""
    found = set()
    for path in files(root, (".antt",)):
        answers = os.path.basename(path) in ANSWERS
        for line in read(path).splitlines():
            if line.lstrip().startswith("--"):
                continue
            m = DEFINED.match(line) or TYPE.match(line)
            if not m or "-" not in m.group(1):
                continue
            name = m.group(1)
            made = re.search(r"\b(goal|given|invariants?)\." + re.escape(name) + r"\b", line)
            if answers and (made or not path.endswith("Answers.antt")):
                continue
            found.add(name)
    return found


def respelled(name):
    if name in OTHER:
        return OTHER[name]
    if name.lstrip("◌")[:1].isupper():
        return "".join(w[:1].upper() + w[1:] for w in name.split("-"))
    return name.replace("-", "_")


def main(root):
    names = {n: respelled(n) for n in defined(root)}
    names |= {n.strip("◌"): m.strip("◌") for n, m in names.items() if "◌" in n}
    if len(set(names.values())) != len(names):
        raise SystemExit("respell: two names fall together")

    def turn(text):
        def piece(m):
            if m.group("text"):
                return m.group(0)
            if m.group("comment"):
                return re.sub(WORD, lambda w: w.group(0) if w.group(0) in ENGLISH else names.get(w.group(0), w.group(0)), m.group(0))
            return names.get(m.group(0), m.group(0))

        return PIECE.sub(piece, text)

    changed = 0
    for path in files(root, (".antt", ".rt", ".edit")):
        old = read(path)
        new = turn(old)
        if new != old:
            with open(path, "w", encoding="utf-8") as f:
                f.write(new)
            changed += 1
    print(f"respell: {len(names)} names, {changed} files")


if __name__ == "__main__":
    main(sys.argv[1] if len(sys.argv) > 1 else ".")
