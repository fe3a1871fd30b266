#!/usr/bin/env python3
"""Says in contracts what a lent word holds in today's words: `x.now` of a `&`, `x.old` and `x.new` of a `&mut`.

usage: python3 tools/lent.py [FOLDER]      FOLDER: the top of the repository, by default the current folder

Once, behind respell.py: `given x` and `left x`, which the repository had defined, become the library's own.
"""

import os
import re
import sys

HEAD = re.compile(r"\bfn \w+(?:<[^>]*>)?\((?P<params>[^{]*?)\)(?: -> [^\n{]*)?\n(?P<clauses>(?:[ \t]+(?:ensures|requires)\b[^\n]*\n)+)")
PARAM = re.compile(r"(\w+): (&(?:'\w+ )?(?:mut )?)")


def turned(m):
    kinds = {name: "mut" in amp for name, amp in PARAM.findall(m.group("params"))}

    def word(w):
        which, name = w.group("which"), w.group("name")
        if name not in kinds:
            return w.group(0)
        end = "now" if not kinds[name] else "old" if which == "given" else "new"
        return f"{name}.{end}"

    clauses = re.sub(r"\((?P<which>given|left) (?P<name>\w+)\)", word, m.group("clauses"))
    clauses = re.sub(r"\b(?P<which>given|left) (?P<name>\w+)", word, clauses)
    return m.group(0).replace(m.group("clauses"), clauses)


def main(argv):
    root = argv[0] if argv else "."
    for folder, dirs, names in os.walk(os.path.join(root, "crates")):
        dirs[:] = [d for d in dirs if d != "out"]
        for name in names:
            if name.endswith(".rt"):
                path = os.path.join(folder, name)
                text = open(path, encoding="utf-8").read()
                now = HEAD.sub(turned, text)
                if not re.search(r"\b(given|left) \w", "\n".join(l for l in now.split("\n") if re.match(r"\s*(ensures|requires)\b", l))):
                    now = re.sub(r"ghost use Rattle\.rules\.specs\.Lent\.\{[^}]*\};\n", "", now)
                if now != text:
                    open(path, "w", encoding="utf-8").write(now)


if __name__ == "__main__":
    main(sys.argv[1:])
