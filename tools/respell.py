#!/usr/bin/env python3
"""Brings the repository's own names to today's spelling, after port.py: words in snake case, types and modules in camel case.

usage: python3 tools/respell.py [FOLDER]      FOLDER: the top of the repository, by default the current folder

Once, on what port.py left. It prints each old name with its new one. Definitions and lemmas of specs/ and proofs/ alone: names of src/ and exported names keep their spelling.
A dash stays between two names of definitions, as in `length-append`; between plain words it becomes `_`. Where a new name is taken
already, what had it gets `_lem`, as a lemma does that would have its function's name.
"""

import collections
import os
import re
import subprocess
import sys

TOKEN = re.compile(r"[A-Za-z_][A-Za-z0-9_']*(?:-[A-Za-z0-9_'*]+)*")
DECLARED = re.compile(r"^[ \t]*(?:(?:abbrev|unfoldable|pub)[ \t]+)*([a-z][A-Za-z0-9_'-]*)(?:[ \t]+[a-z][A-Za-z0-9_'-]*)*[ \t]*:(?![=])", re.M)
IMPORT = re.compile(r"^use (?!Rattle\.(?!std\b|core\b))[^{\n]*\{([^}]*)\}", re.M)
FUNCTION = re.compile(r"\bfn (\w+)")
# lemmas whose names a definition takes
TAKEN = ["mask_at", "in_place", "of_row", "put_one"]
# a variable that port.py took for a constructor, and a field that has the name of one
FIXED = {"None-found": "none_found", "records-are": "records_are"}


def files(root, ends):
    for folder, dirs, names in os.walk(os.path.join(root, "crates")):
        dirs[:] = sorted(d for d in dirs if d != "out")
        for name in sorted(names):
            if name.endswith(ends):
                yield os.path.join(folder, name)


def read(path):
    with open(path, encoding="utf-8") as f:
        return f.read()


def snake(word):
    return re.sub(r"(?<=[a-z0-9])([A-Z])", lambda m: "_" + m.group(1).lower(), word)


def spelled(name):
    parts = name.split("-")
    return "-".join(snake(p) if p[:1].islower() else p for p in parts)


def names(root):
    """old name -> new name"""
    declared, specified, defined, foreign, seen, functions = set(), set(), set(), set(), set(), set()
    for path in files(root, (".antt", ".rt")):
        text = read(path)
        seen |= set(TOKEN.findall(text))
        if path.endswith(".rt"):
            functions |= set(FUNCTION.findall(text))
            continue
        for line in IMPORT.findall(text):
            foreign |= set(TOKEN.findall(line))
        if os.path.basename(path) == "Proof.antt":
            continue
        own = set(DECLARED.findall(text))
        declared |= own
        if "/specs/" in path:
            specified |= own
            defined |= {spelled(n) for n in own}
    kit = os.path.dirname(subprocess.run(["rt", "doc"], capture_output=True, text=True, check=True).stdout.strip())
    library = os.path.join(kit, "rattle", "std")
    words = set(TOKEN.findall(read(library + "/specs/Prelude.antt") + read(library + "/proofs/Common.antt")))
    foreign |= {w for w in words if "-" in w}
    known = defined | functions | {w for w in words if "-" not in w}
    new = {}
    for name in sorted(declared - foreign):
        to = spelled(name)
        parts = to.split("-")
        if len(parts) > 1 and not all(p in known for p in parts):
            to = "_".join(parts)
        if to != name:
            new[name] = to
    for name in TAKEN:
        new[name] = name + "_lem"
    count = collections.Counter(new.values())
    for name, to in sorted(new.items()):
        if "-" in name and name not in specified and (count[to] > 1 or to in seen and to not in new):
            new[name] = to + "_lem"
    return new | FIXED


def main(argv):
    root = argv[0] if argv else "."
    new = names(root)
    for path in files(root, (".antt", ".rt")):
        text = read(path)
        code = path.endswith(".rt")

        def turn(m):
            word = m.group(0)
            if code and word in TAKEN:
                return word
            return new.get(word, word)

        turned = TOKEN.sub(turn, text)
        if turned != text:
            with open(path, "w", encoding="utf-8") as f:
                f.write(turned)
    for name, to in sorted(new.items()):
        print(name, to)
    return 0


if __name__ == "__main__":
    raise SystemExit(main(sys.argv[1:]))
