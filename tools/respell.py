#!/usr/bin/env python3
"""Brings the repository's own definitions and lemmas to one spelling: words in snake case, types and facts in camel case.

usage: python3 tools/respell.py    at the top, once, right after the kit's port.py

It reads the names that specs/ and proofs/ declare and that imports give, and turns each of them in every .antt and .rt file: `previousOf` becomes
`previous_of`, `count-beyond` `count_beyond`, `Sorts-part` `SortsPart`. Names that the kit makes (goals, steps, invariants) and names of
the Rust code stay. A lemma that would fall together with a definition of that name ends in `_lem`.
"""

import os
import re

NAME = r"[A-Za-zβ_][A-Za-z0-9_'β]*(?:-[A-Za-z0-9_'β]+)*"
DECLARED = re.compile(r"^ *(?:(?:abbrev|unfoldable|pub|data|record)\s+)*(" + NAME + r") :(?!=)")
RENAMED = re.compile(r" as (" + NAME + r")")
CHAIN = re.compile(r"(?<![\w'.-])" + NAME + r"(?:\.(?:" + NAME + r"|\d+))*")

# the facts of a goal, of a branch, of a loop, of a generic function, and the module of the goals: their parts are the kit's names
KIT = {"c", "w", "l", "g", "goal"}

# lemmas whose new name a definition has
LEMMAS = {
    "bit-at": "bit_at_lem",
    "in-run": "in_run_lem",
    "last-in": "last_in_lem",
    "next-from": "next_from_lem",
    "of-sort": "of_sort_lem",
}


def files():
    for folder, dirs, names in os.walk("crates"):
        dirs[:] = sorted(d for d in dirs if d != "out")
        for name in sorted(names):
            if name.endswith((".antt", ".rt")):
                yield os.path.join(folder, name)


def respelled(name):
    if name in LEMMAS:
        return LEMMAS[name]
    if name[0].isupper():
        return "".join(part[0].upper() + part[1:] for part in name.split("-"))
    return re.sub(r"([a-z0-9])([A-Z])", lambda m: m.group(1) + "_" + m.group(2).lower(), name).replace("-", "_")


def declared():
    names = set()
    for path in files():
        for line in open(path, encoding="utf-8"):
            if line.startswith(("use ", "ghost use ")):
                names.update(RENAMED.findall(line))
            m = DECLARED.match(line)
            if path.endswith(".antt") and m and "goal." not in line:
                names.add(m.group(1))
    return {name: respelled(name) for name in names if respelled(name) != name}


def turn(text, names):
    def chain(m):
        parts = m.group(0).split(".")
        if parts[0] in KIT:
            return m.group(0)
        return ".".join(names.get(part, part) for part in parts)

    return CHAIN.sub(chain, text)


def main():
    names = declared()
    for path in files():
        text = open(path, encoding="utf-8").read()
        new = turn(text, names)
        if new != text:
            with open(path, "w", encoding="utf-8") as f:
                f.write(new)
    print(f"respelled {len(names)} names")


main()
