#!/usr/bin/env python3
"""Brings the repository's own names in definitions, lemmas, clauses and must-fail edits to snake case.

usage: python3 tools/snake_case.py          at the top of the repository: rewrites crates/ in place
       python3 tools/snake_case.py --list   prints the names and what they become, and names that would fall together

Functions of src/, types, modules and strings have no such names, so they stay as they are. In must-fail edits the projections become tight
and the library's names get today's spelling too, since edits quote definitions word for word.
"""

import os
import re
import sys

# A word as antt has it. A dash or a prime may stand inside.
NAME = re.compile(r"[A-Za-z_][\w'-]*")
HUMP = re.compile(r"(?<=[a-z0-9])[A-Z]")

# What the library calls today what edits still call by its old name.
LIBRARY = {"getD": "get_or", "_≡_": "◌≡◌", "_+_": "◌+◌", "_*_": "◌*◌", "_-_": "◌-◌", "_/_": "◌/◌", "_%_": "◌%◌", "_^_": "◌^◌", "_<_": "◌<◌", "_≤_": "◌≤◌", "_∷_": "◌∷◌", "_++_": "◌++◌", "_&&_": "◌&&◌", "_||_": "◌||◌", "_⊎_": "◌⊎◌"}


# A lemma that would get the name of the definition `leastFirst`.
APART = {"least_first": "least-first"}


def part_in_snake_case(part):
    # A part that begins with a capital is a type's or a module's name, as in `Fits-lit`.
    if not part or not part[0].islower():
        return part
    return HUMP.sub(lambda m: "_" + m.group().lower(), part)


def in_snake_case(name):
    name = APART.get(name, name)
    return "-".join(part_in_snake_case(p) for p in name.replace("getD", "get_or").replace("get_d_", "get_or_").split("-"))


def rewritten(text, is_edit):
    text = NAME.sub(lambda m: in_snake_case(m.group()), text)
    if is_edit:
        for old, new in LIBRARY.items():
            text = text.replace(old, new)
        # `x .f` is `x.f`, and `f x .g` with an argument before it `(f x).g`: only the first form is turned here.
        text = re.sub(r"Rattle·(\w+)·specs\.specs\.", r"Rattle.\1.specs.", text)
        text = re.sub(r"Rattle·(\w+)\.", r"Rattle.\1.", text)
        text = text.replace("′", "'")
    return text


def files():
    for folder, dirs, names in os.walk("crates"):
        dirs[:] = sorted(d for d in dirs if d != "out")
        for name in sorted(names):
            if name.endswith((".antt", ".rt", ".edit")):
                yield os.path.join(folder, name)


def main(argv):
    seen = {}
    for path in files():
        with open(path, encoding="utf-8") as f:
            text = f.read()
        if argv == ["--list"]:
            for name in NAME.findall(text):
                seen.setdefault(in_snake_case(name), set()).add(name)
            continue
        new = rewritten(text, path.endswith(".edit"))
        if new != text:
            with open(path, "w", encoding="utf-8") as f:
                f.write(new)
    for new, olds in sorted(seen.items()):
        if olds != {new}:
            print(new, "from", *sorted(olds), "FALL TOGETHER" if len(olds) > 1 else "")
    return 0


if __name__ == "__main__":
    raise SystemExit(main(sys.argv[1:]))
