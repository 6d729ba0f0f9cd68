#!/usr/bin/env python3
"""Moves the theorems of crates' specs/ to their proofs/, and leaves the definitions where they are.

usage: python3 tools/move_laws.py CRATE..    at the top of the repository: rewrites crates/ in place, once

A file with theorems alone moves whole. Of a file with both, what stands at the top level as a definition (abbrev, unfoldable, data, record)
stays in specs/, and the rest goes to a file of the same name in proofs/. Statements and proofs keep their words. Each import in the
repository then names the place where an item stands. An edit of a definition is then refused by a theorem of proofs/, and can be read.
"""

import os
import re
import subprocess
import sys


def chunks(text):
    """The declarations of a file, each with the comments right above it; what is indented belongs to what stands before."""
    blocks, block = [], []
    for line in text.split("\n"):
        if line.strip():
            block.append(line)
        elif block:
            blocks.append(block)
            block = []
    if block:
        blocks.append(block)
    merged = []
    for block in blocks:
        first = next((l for l in block if not l.startswith("--")), None)
        if merged and first is not None and first.startswith(" "):
            merged[-1] = merged[-1] + [""] + block
        else:
            merged.append(block)
    return merged


def kind(chunk):
    code = [l for l in chunk if not l.lstrip().startswith("--")]
    if not code:
        return "comment", None
    if code[0].startswith("use "):
        return "use", None
    if code[0].startswith("module "):
        return "law", None
    found = re.match(r"^(?:(?:pub|abbrev|unfoldable)\s+)*(?:data|record)\s+(?:pub\s+)?(\S+)", code[0]) or re.match(r"^(?:unfoldable|abbrev)(?: pub)? (\S+) :", code[0])
    if found:
        return "definition", found.group(1)
    return "law", None


def main(crates):
    where = {}
    for crate in crates:
        specs, proofs = f"crates/{crate}/specs", f"crates/{crate}/proofs"
        os.makedirs(proofs, exist_ok=True)
        moved, gone = [], []
        for name in sorted(os.listdir(specs)):
            if not name.endswith(".antt") or name == "Lib.antt":
                continue
            module = name[:-5]
            with open(f"{specs}/{name}", encoding="utf-8") as f:
                parts = chunks(f.read())
            kinds = [kind(p) for p in parts]
            if not any(k == "law" for k, _ in kinds):
                continue
            kept = [n for k, n in kinds if k == "definition"]
            moved.append(module)
            where[(crate, module)] = set(kept)
            # Constructors are imported by their type's module or from the file: they stay with the type.
            for part, (k, n) in zip(parts, kinds):
                if k == "definition" and re.search(r"\bdata\b", part[0] + " ".join(part[:4])):
                    where[(crate, module)] |= set(re.findall(r"(?m)^  ([^\s:]+) :", "\n".join(part)))
            if not kept:
                subprocess.run(["git", "mv", f"{specs}/{name}", f"{proofs}/{name}"], check=True)
                gone.append(module)
                continue
            imports = [p for p, (k, _) in zip(parts, kinds) if k == "use"]
            defs = [p for p, (k, _) in zip(parts, kinds) if k == "definition"]
            laws = [p for p, (k, _) in zip(parts, kinds) if k in ("law", "comment")]
            own = [[f"use Rattle.{crate}.specs.{module}.{{{', '.join(sorted(where[(crate, module)]))}}}"]]
            head = imports[0] + [l for p in imports[1:] for l in p]
            with open(f"{specs}/{name}", "w", encoding="utf-8") as f:
                f.write("\n\n".join("\n".join(p) for p in [head] + defs) + "\n")
            with open(f"{proofs}/{name}", "w", encoding="utf-8") as f:
                f.write("\n\n".join("\n".join(p) for p in [head + own[0]] + laws) + "\n")
        for path, of in ((f"{specs}/Lib.antt", lambda had: [l for l in had if l.split()[-1] not in gone]), (f"{proofs}/Lib.antt", lambda had: had + [f"pub mod {m}" for m in moved])):
            had = []
            if os.path.exists(path):
                with open(path, encoding="utf-8") as f:
                    had = [l for l in f.read().split("\n") if l.strip()]
            with open(path, "w", encoding="utf-8") as f:
                f.write("\n".join(of(had)) + "\n")
    line = re.compile(r"((?:ghost )?use )Rattle\.(\w+)\.specs\.(\w+)\.\{([^}]*)\}(;?)")

    def turned(m):
        key = (m.group(2), m.group(3))
        if key not in where:
            return m.group(0)
        items = [i.strip() for i in m.group(4).split(",") if i.strip()]
        stay = [i for i in items if i.split(" as ")[0].strip() in where[key]]
        go = [i for i in items if i not in stay]
        lines = []
        if stay:
            lines.append(f"{m.group(1)}Rattle.{key[0]}.specs.{key[1]}.{{{', '.join(stay)}}}{m.group(5)}")
        if go:
            lines.append(f"{m.group(1)}Rattle.{key[0]}.proofs.{key[1]}.{{{', '.join(go)}}}{m.group(5)}")
        return "\n".join(lines)

    for folder, dirs, names in os.walk("crates"):
        dirs[:] = [d for d in dirs if d != "out"]
        for name in names:
            if name.endswith((".antt", ".rt", ".edit")):
                path = os.path.join(folder, name)
                with open(path, encoding="utf-8") as f:
                    text = f.read()
                new = line.sub(turned, text)
                if new != text:
                    with open(path, "w", encoding="utf-8") as f:
                        f.write(new)
    return 0


if __name__ == "__main__":
    raise SystemExit(main(sys.argv[1:]))
