#!/usr/bin/env python3
"""Respells the repository's own antt names: words and lemmas in snake case, types in camel case.

usage: tools/respell.py FOLDER         run once, at the top, after the kit's port.py

It collects the names that the .antt files declare, and renames those with hyphens wherever they stand: in .antt files, in the clauses and
ghost lines of .rt files, in the old and new lines of must-fail edits, and between backticks in comments and pages. Functions of src/,
exported names and strings keep theirs. A file that brings a name in from the kit keeps the kit's. It stops, and writes nothing, where two
names would fall together.
"""

import os
import re
import sys

NAME = r"[^\s(){}.;,@\"«»\[\]:]+"
TOKEN = re.compile(r"[\w'′-]+")
DECLARED = re.compile(r"^\s*(?:(?:abbrev|unfoldable|pub|mutual)\s+)*((?:" + NAME + r"\s+)*" + NAME + r")\s+:\s", re.M)
TYPE = re.compile(r"^\s*(?:(?:abbrev|unfoldable|pub)\s+)*(?:record|data|module)\s+(" + NAME + ")", re.M)
USE = re.compile(r"use\s+([\w.·'-]+?)\.\{([^}]*)\}")
# Values with a capital letter (the example list P of the README and what is made of it), and a type whose name another crate has.
CHOSEN = {"P-twice": "p_twice", "lines-P": "lines_p", "build-P": "build_p", "part-of-P": "part_of_p", "Part-ready": "PartLinesReady"}


def files(root, endings):
    for folder, dirs, names in os.walk(root):
        dirs[:] = sorted(d for d in dirs if d not in ("out", "target", ".git"))
        for name in sorted(names):
            if name.endswith(endings):
                yield os.path.join(folder, name)


def read(path):
    with open(path, encoding="utf-8") as file:
        return file.read()


def respelt(name):
    if name in CHOSEN:
        return CHOSEN[name]
    if name[0].isupper():
        return "".join(piece[:1].upper() + piece[1:] for piece in name.split("-"))
    return name.replace("-", "_")


def imported(text, crates):
    """The names that a file brings in from the kit."""
    kit = set()
    for path, names in USE.findall(text):
        parts = path.split(".")
        if not (parts[0] == "Rattle" and len(parts) > 1 and parts[1] in crates):
            kit |= {it.strip().split(" as ")[0] for it in names.split(",")}
    return kit


def turned(code, names, kit):
    return TOKEN.sub(lambda it: names[it[0]] if it[0] in names and it[0] not in kit else it[0], code)


def turned_ticks(text, names):
    return re.sub(r"`[^`\n]*`", lambda it: turned(it[0], names, ()), text)


def parts(text, comment):
    """Splits a file into code and what is not: comments and strings."""
    for it in re.finditer(r"(?P<dead>" + comment + r"[^\n]*|\"(?:\\.|[^\"\\\n])*\")|(?P<code>(?:(?!" + comment + r")[^\"])+|\")", text, re.S):
        yield it["code"] is not None, it[0]


def main():
    root = sys.argv[1]
    top = os.path.join(root, "crates")
    crates = set(os.listdir(top))
    declared, from_kit = set(), set()
    for path in files(top, (".antt", ".rt")):
        text = read(path)
        if path.endswith(".antt"):
            for it in DECLARED.finditer(text):
                declared |= set(it[1].split())
            declared |= set(TYPE.findall(text))
        from_kit |= imported(text, crates)
    names = {it: respelt(it) for it in declared if "-" in it.strip("-") and re.fullmatch(r"[\w'′-]+", it)}
    fallen = [it for it, new in names.items() if new in declared or new in from_kit or list(names.values()).count(new) > 1]
    if fallen:
        sys.exit("these names fall together with others: " + ", ".join(sorted(fallen)))
    for path in files(root, (".antt", ".rt", ".edit", ".md")):
        text = read(path)
        if path.endswith(".md"):
            new = turned_ticks(text, names)
        elif path.endswith(".edit"):
            new = re.sub(r"(?m)^((?:old|new): )(.*)$", lambda it: it[1] + turned(it[2], names, ()), text)
        else:
            kit, new = imported(text, crates), ""
            for is_code, part in parts(text, "--" if path.endswith(".antt") else "//"):
                new += turned(part, names, kit) if is_code else turned_ticks(part, names) if part[0] != '"' else part
        if new != text:
            with open(path, "w", encoding="utf-8") as file:
                file.write(new)


main()
