#!/usr/bin/env python3
"""Prints, as markdown, each public function with its clauses, each type, trait and constant of src/ and each definition of specs/
that differs from a commit, old and new:

    tools/sides.py COMMIT"""
import re
import subprocess
import sys


def git(*arguments):
    return subprocess.run(["git", *arguments], capture_output=True, text=True, check=True).stdout


def sources(commit):
    """(path, text) of each file of src/ and specs/, at a commit or in the work tree."""
    names = git("ls-tree", "-r", "--name-only", commit, "crates") if commit else git("ls-files", "crates")
    for name in names.split():
        if re.fullmatch(r"crates/\w+/(src/.*\.rt|specs/.*\.antt)", name):
            yield name, git("show", f"{commit}:{name}") if commit else open(name).read()


def one_line(text):
    return re.sub(r"\s+", " ", text).strip()


def function(text):
    """A signature with its clauses, from where it begins to its body."""
    lines = []
    for line in text.split("\n"):
        if lines and line.strip() == "{":
            break
        if line.rstrip().endswith("{") and not re.match(r"\s*(requires|ensures)", line):
            lines.append(line.rstrip()[:-1])
            break
        lines.append(line)
        if line.rstrip().endswith(";"):
            break
    return one_line(" ".join(lines)).removeprefix("pub ")


ITEM = re.compile(
    r"(?m)^(?P<owner>impl[^\n{]*|(?:pub )?trait \w+[^\n{]*)\{"
    r"|^(?P<indent>\s*)(?P<function>(?:pub )?(?:extern \"C\" )?fn (?P<name>\w+))"
    r"|^(?P<type>(?:pub )?(?:struct|enum) (?P<type_name>\w+)[^\n]*)"
    r"|^(?P<const_indent>\s*)(?P<const>pub const (?P<const_name>\w+)[^\n=]*=[^\n;]*)"
    r"|^\}"
)


def code_items(crate, text, items):
    text = re.sub(r"(?m)^\s*//.*$", "", text)
    text = re.sub(r"\s//[^\n]*", "", text)
    owner = ""
    for m in ITEM.finditer(text):
        if m["owner"]:
            owner = re.sub(r"impl(<[^>]*>)? ?", "", m["owner"]).strip()
            if "trait" in m["owner"]:
                items[f"{crate} {one_line(m['owner'])}"] = one_line(text[m.start():text.find("\n}", m.start()) + 2])
        elif m["function"]:
            inside = owner if m["indent"] else ""
            if m["function"].startswith(("pub", "extern")) or " for " in inside:
                items[f"{crate} {inside + '::' if inside else ''}{m['name']}"] = function(text[m.start():])
        elif m["type"]:
            whole = text[m.start():text.find("\n}", m.start()) + 2] if m["type"].rstrip().endswith("{") else m["type"]
            items[f"{crate} type {m['type_name']}"] = one_line(whole)
        elif m["const"]:
            inside = owner + "::" if m["const_indent"] and owner else ""
            items[f"{crate} const {inside}{m['const_name']}"] = one_line(m["const"])
        else:
            owner = ""


def definitions(crate, module, text, items):
    for paragraph in re.split(r"\n\s*\n", re.sub(r"(?m)^\s*--.*$", "", text)):
        m = re.match(r"\s*(?:abbrev |unfoldable |axiom )*(?:pub )?(?:record |data )?([^\s:({]+)", paragraph)
        if m and not paragraph.lstrip().startswith(("use ", "pub mod", "mod ", "module")):
            items[f"{crate} {module}.{m[1]}"] = one_line(paragraph)


def read(commit):
    code, specs = {}, {}
    for path, text in sources(commit):
        crate, module = path.split("/")[1], path.split("/")[-1].split(".")[0]
        if path.endswith(".rt"):
            code_items(crate, text, code)
        else:
            definitions(crate, module, text, specs)
    return code, specs


old, new = read(sys.argv[1]), read(None)
for title, before, after in zip(("Functions, types and constants", "Definitions"), old, new):
    print(f"\n### {title}")
    for name in list(before) + [n for n in after if n not in before]:
        if before.get(name) != after.get(name):
            print(f"\n**{name}**\n\n```\nold: {before.get(name, 'none')}\nnew: {after.get(name, 'none')}\n```")
