#!/usr/bin/env python3
"""Prints every definition and every theorem's statement of a checkout, one a line, so that two checkouts can be set side by side with diff.

usage: python3 tools/statements.py [--place] [--words] [CHECKOUT [CRATE..]]

Read are the files that crates/*/specs/Lib.antt and crates/*/proofs/Lib.antt list. A definition (abbrev, unfoldable, record, data) is
printed whole, of a theorem what it says, each with the parameters of the modules around it. Comments, line breaks and `pub` are dropped,
and so is the file: what moves to another file says the same. Sorted by crate and name.

--place   names the file too
--words   drops brackets around one word and around what a projection is of, for checkouts before and after a change of spelling
"""

import os
import re
import sys

WORDS = r"((?:(?:pub|abbrev|unfoldable) )*)"
SHAPE = re.compile(r"^" + WORDS + r"(record|data) (?:pub )?(\S+)")
SIGNED = re.compile(r"^" + WORDS + r"(\S+) :(?= |$)")


def uncommented(line):
    at = re.search(r"(^|\s)--(\s|$)", line)
    return line[: at.start()].rstrip() if at else line.rstrip()


def read(path):
    with open(path, encoding="utf-8") as f:
        return [uncommented(l) for l in f.read().split("\n")]


def modules(folder):
    lib = os.path.join(folder, "Lib.antt")
    return [l.split()[-1] for l in read(lib) if re.match(r"(pub )?mod ", l)] if os.path.exists(lib) else []


def indent(line):
    return len(line) - len(line.lstrip(" "))


def joined(lines):
    return " ".join(" ".join(lines).split())


def groups_of(lines):
    """The lines that share the least indentation, each with what is indented further behind it."""
    groups = []
    for line in lines:
        if not line.strip():
            continue
        if groups and indent(line) > indent(groups[0][0]):
            groups[-1].append(line)
        else:
            groups.append([line])
    return groups


def declarations(lines, around=""):
    """Yields (kind, name, text, clauses, around): a kind is record, data, definition or theorem, `around` the parameters of modules."""
    name = None
    for group in groups_of(lines):
        text = joined(group)
        if text.startswith("module "):
            end = next(i for i, l in enumerate(group) if l.endswith("where"))
            parameters = re.match(r"module \S+ ?(.*?) ?where$", joined(group[: end + 1])).group(1)
            yield from declarations(group[end + 1 :], (around + " " + parameters).strip())
        elif SHAPE.match(text):
            yield SHAPE.match(text).group(2), SHAPE.match(text).group(3), text, [], around
        elif SIGNED.match(text):
            words, name = SIGNED.match(text).groups()
            clauses = []
            yield "definition" if re.search("abbrev|unfoldable", words) else "theorem", name, text, clauses, around
        elif name and (text.split()[0] == name or text[0] in ")}"):
            clauses.append(text)


def in_words(text):
    before = None
    while text != before:
        before = text
        text = re.sub(r"\(([^\s()]+)\)", r"\1", text)
        text = re.sub(r"\(([^()]*)\)\.(\w)", r"\1 .\2", text)
        text = re.sub(r"(?<=[^\s(])\.([A-Za-z0-9_'-]+)", r" .\1", text)
    return " ".join(text.split())


def main(argv):
    options = {a for a in argv if a.startswith("--")}
    rest = [a for a in argv if not a.startswith("--")]
    top = rest[0] if rest else "."
    for crate in rest[1:] or sorted(os.listdir(os.path.join(top, "crates"))):
        said = []
        for place in ("specs", "proofs"):
            folder = os.path.join(top, "crates", crate, place)
            for module in modules(folder):
                # A definition's clauses come behind it, so all are read first.
                for kind, name, text, clauses, around in list(declarations(read(os.path.join(folder, module + ".antt")))):
                    text = re.sub(r"\b(pub|abbrev|unfoldable) ", "", text)
                    line = (around + " ⊢ " if around else "") + text + (" := " + "; ".join(clauses) if kind == "definition" else "")
                    where = f" {place}/{module}.antt" if "--place" in options else ""
                    said.append((name, f"{crate}{where} {kind}: {in_words(line) if '--words' in options else line}"))
        for name, line in sorted(said):
            print(line)
    return 0


if __name__ == "__main__":
    raise SystemExit(main(sys.argv[1:]))
