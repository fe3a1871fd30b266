#!/usr/bin/env python3
"""Lists the places in src/ that have an older form, point by point, in the work tree or at a commit:

    tools/forms.py [COMMIT] [--list]

A place is an item (a function, a type, a constant, a loop), named by its file and its name. What a pattern cannot tell, twins
and parameters that travel together, is found by names: a group of parameters that stands in three or more signatures of a
crate, and functions whose bodies are alike when names, numbers and types are taken out."""
import collections
import re
import subprocess
import sys

arguments = [a for a in sys.argv[1:] if a != "--list"]
commit = arguments[0] if arguments else None


def files():
    if commit:
        names = subprocess.run(["git", "ls-tree", "-r", "--name-only", commit, "crates"], capture_output=True, text=True, check=True).stdout.split()
        for n in names:
            if re.fullmatch(r"crates/\w+/src/.*\.rt", n):
                yield n, subprocess.run(["git", "show", f"{commit}:{n}"], capture_output=True, text=True, check=True).stdout
    else:
        names = subprocess.run(["git", "ls-files", "crates"], capture_output=True, text=True, check=True).stdout.split()
        for n in names:
            if re.fullmatch(r"crates/\w+/src/.*\.rt", n):
                yield n, open(n).read()


def items(text):
    """(kind, name, text) of each item, comments left out."""
    text = re.sub(r"//[^\n]*", "", text)
    starts = [(m.start(), m.group(2), m.group(3)) for m in re.finditer(r"(?m)^( *)(?:#\[[^\n]*\]\s*)*(?:pub )?(?:extern \"C\" )?(fn|struct|enum|const|type|trait|impl) ?(\w+)?", text)]
    for (at, kind, name), after in zip(starts, starts[1:] + [(len(text), "", "")]):
        yield kind, name or "", text[at:after[0]]


def signature(body):
    return re.split(r"\n\s*(?:requires|ensures)|\{", body, maxsplit=1)[0]


def code(body):
    i = body.rfind("\n{") if "\n{" in body else body.find("{")
    return body[i:]


points = collections.OrderedDict((k, []) for k in [
    "1 own Option or Result", "1 a flag or a number with values beside it", "1 numbers for kinds, refusals and success",
    "2 functions alike but for names, numbers and types", "3 loops that count an index", "3 recursion that counts an index",
    "4 by hand", "5 parameters that travel together", "5 facts in three contracts", "6 parallel arrays, lengths beside",
    "7 a number or a step switched on"])
shapes = collections.defaultdict(list)
together = collections.defaultdict(set)
facts = collections.defaultdict(set)
for path, text in files():
    crate = path.split("/")[1]
    for kind, name, body in items(text):
        place = f"{crate}::{name}"
        sig = signature(body)
        if kind == "enum" and re.search(r"\w+\((Refusal|Command|Cursor|usize, usize)\)", body):
            points["1 own Option or Result"].append(place)
        if kind == "struct" and re.search(r"\b(verdict|number|clash|writes): (u32|bool)\b", body) and name != "Entry":
            points["1 a flag or a number with values beside it"].append(place)
        if kind == "fn" and re.search(r"-> (Decoded|Step|Walked|Fault|Answer|SessionAnswer|SceneAnswer|BookAnswer)\b|verdict: &mut u32", sig):
            points["1 own Option or Result"].append(place)
        if kind == "fn" and re.search(r"\b(number|verdict|function|tag|kind): (u32|usize|u8)\b", sig) and "number: u32" not in sig.replace("number: u32, verdict", ""):
            points["1 numbers for kinds, refusals and success"].append(place)
        if kind == "fn" and re.search(r"fn (unknown|contents_fault|misplaced|kind|task_of|book_size)\(.*-> (u32|usize|Task)|fn (make|put|write|save|counted)\(.*-> bool", sig, re.S):
            points["1 numbers for kinds, refusals and success"].append(place)
        if kind == "const" and re.search(r"const (TIMER|BEGIN|SURFACE_BASE|EXTENDED_BASE|WINDOW_CLIP|UNKNOWN|NONE|SINGLE|GROUP|READER|NORMALISER|TO_PCI|FROM_PCI|MEASURER|SCENES|NO_BIT)\b", body):
            points["1 numbers for kinds, refusals and success"].append(place)
        if kind == "fn":
            for w in re.finditer(r"\bwhile\b[^\n]*\{", body):
                rest = body[w.start():]
                if re.search(r"\b(i|k|n|at|least) \+= 1;|\bi = i \+ 1", rest) or re.search(r"while (low|i|k|n) <", rest):
                    points["3 loops that count an index"].append(place)
            if re.search(rf"\b{name}\(.*\b(i|id) \+ 1\b", code(body), re.S):
                points["3 recursion that counts an index"].append(place)
            if re.fullmatch(r"same_group|same|copy|copy_words|put_group|put4|wide|little_endian|store_word|swap|digit|put_decimal|put_hex|least|begins|is|length_of|input_length|xorshift|word_at|value_or_zero|fetch_or_zero|task_of|word_of|room_for", name):
                points["4 by hand"].append(place)
            if re.search(r"match (function|tag|kind|mode)\b", code(body)):
                points["7 a number or a step switched on"].append(place)
            if re.search(r"\w+: &(mut )?\[u16; 64\].*\w+: &(mut )?\[u16; 64\]|buffer: &mut \[u8\],?\s*most: usize|table: &\[u32\], n: usize", sig, re.S):
                points["6 parallel arrays, lengths beside"].append(place)
            parameters = re.findall(r"(\w+): ([^,()]+(?:\([^)]*\))?)", sig[sig.find("("):])
            names = tuple(p for p, _ in parameters)
            for a in range(len(names) - 1):
                together[(crate, names[a], names[a + 1])].add(name)
            for clause in re.findall(r"requires(?: \w+)? \{(.*?)\}\n", body, re.S):
                for fact in re.split(r" × ", clause):
                    facts[(crate, re.sub(r"\s+", " ", fact).strip(" ()"))].add(name)
            shape = re.sub(r"\b\d\w*\b", "0", re.sub(r"\b[a-zA-Z_]\w*\b", "x", re.sub(r"\s+", " ", code(body))))
            if len(shape) > 90:
                shapes[shape].append(place)
for shape, places in shapes.items():
    if len(places) > 1:
        points["2 functions alike but for names, numbers and types"].extend(places)
for (crate, a, b), names in together.items():
    if len(names) > 2:
        points["5 parameters that travel together"].append(f"{crate}: {a}, {b} in {len(names)}")
for (crate, fact), names in facts.items():
    if len(names) > 2:
        points["5 facts in three contracts"].append(f"{crate}: {fact} in {len(names)}")
for point, places in points.items():
    print(f"{len(places):4} {point}")
    if "--list" in sys.argv:
        for p in places:
            print(f"       {p}")
