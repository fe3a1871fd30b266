#!/usr/bin/env python3
"""Carries the must-fail edits through a respelling of the files that they change.

usage: python3 tools/edits.py lay [FOLDER]       before it: each edit's changed file lies beside the file, as one more file of the crate
       python3 tools/edits.py take [FOLDER]      behind it: each edit is what differs now between the two; the laid files are gone

FOLDER: the top of the repository, by default the current folder. An edit that still says the same stays as it is. Where what differs is
no line that stands once in the file, the edit is named and left as it was.
"""

import difflib
import glob
import os
import sys

MARK = "Laid__"


def edits(root):
    for path in sorted(glob.glob(os.path.join(root, "crates", "*", "must-fail", "*.edit"))):
        with open(path, encoding="utf-8") as f:
            lines = f.read().split("\n")
        file = next(l[6:] for l in lines if l.startswith("file: "))
        pairs, words = [], []
        for l in lines:
            if l.startswith("old: "):
                pairs.append([l[5:], None])
            elif l.startswith("new:"):
                pairs[-1][1] = l[5:]
            elif l and not l.startswith("file: "):
                words.append(l)
        crate = os.path.dirname(os.path.dirname(path))
        whole = os.path.join(crate, file)
        folder, base = os.path.split(whole)
        stem, end = os.path.splitext(base)
        name = MARK if end == ".antt" else MARK.lower()
        laid = os.path.join(folder, name + stem + "__" + os.path.basename(path)[:-5] + end)
        yield path, file, pairs, words, whole, laid


def read(path):
    with open(path, encoding="utf-8") as f:
        return f.read()


def lay(root):
    for path, file, pairs, words, whole, laid in edits(root):
        text = read(whole)
        for old, new in pairs:
            if text.count(old) != 1:
                print(f"{path}: stands {text.count(old)} times: {old}")
            text = text.replace(old, new)
        with open(laid, "w", encoding="utf-8") as f:
            f.write(text)


def changes(old, new):
    """The lines that differ, as pairs; None where a change is not line for line."""
    a, b = old.split("\n"), new.split("\n")
    found = []
    for kind, i, j, k, l in difflib.SequenceMatcher(None, a, b, autojunk=False).get_opcodes():
        if kind == "equal":
            continue
        if j - i != l - k:
            return None
        found += [(x, y) for x, y in zip(a[i:j], b[k:l]) if x != y]
    return found


def take(root):
    left = 0
    for path, file, pairs, words, whole, laid in edits(root):
        if not os.path.exists(laid):
            print(f"{path}: nothing laid")
            continue
        text = read(whole)
        now, same = text, text
        for old, new in pairs:
            same = same.replace(old, new) if same.count(old) == 1 else ""
        changed = read(laid)
        os.remove(laid)
        if same == changed:
            continue
        found = changes(text, changed)
        good = bool(found)
        for old, new in found or []:
            old, new = (x.strip() for x in (old, new))
            good = good and now.count(old) == 1 and old != ""
            now = now.replace(old, new)
        if not good:
            print(f"{path}: by hand: {found}")
            left += 1
            continue
        with open(path, "w", encoding="utf-8") as f:
            f.write("".join(w + "\n" for w in words) + f"file: {file}\n" + "".join(f"old: {o.strip()}\nnew: {n.strip()}\n" for o, n in found))
    print(f"{left} left by hand")


if __name__ == "__main__":
    root = sys.argv[2] if len(sys.argv) > 2 else "."
    {"lay": lay, "take": take}[sys.argv[1]](root)
