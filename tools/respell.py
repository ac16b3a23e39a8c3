#!/usr/bin/env python3
"""Brings the names of definitions, lemmas, fields and constructors that crates/*/specs and crates/*/proofs declare to one spelling:
words in snake case, types in camel case. usage: python3 tools/respell.py [--list]     (in the repository's top folder, once)

It was run once, after the toolchain's own script had brought the repository to a newer Rattle. Only a name that this repository declares is
turned, in .antt files and in the .rt files that cite it. Functions and types of src/, strings and comments of .rt files stay as they are."""

import os
import re
import sys

WORD = re.compile(r"[A-Za-z_ℕℤ][A-Za-z0-9_'ℕℤ-]*")
DEFINED = re.compile(r"^(?:pub )?(?:abbrev|unfoldable) (?:pub )?([A-Za-z_][\w'-]*) :", re.M)
DECLARED = re.compile(r"^(?:(?:pub|abbrev|unfoldable|opaque|inline) )*([A-Za-z_][\w'-]*) :(?! goal\.)", re.M)
TYPE = re.compile(r"^(?:(?:pub|abbrev|unfoldable) )*(?:record|data) (?:pub )?([A-Za-z_][\w'-]*)", re.M)
MEMBER = re.compile(r"^ +(?:pub )?([A-Za-z_][\w'-]*(?: [A-Za-z_][\w'-]*)*) :", re.M)
LIBRARY = re.compile(r"^(?:pub )?(?:ghost )?use Rattle\.std\.[^;\n]*", re.M)


def files(ends):
    for folder, dirs, names in os.walk("crates"):
        dirs[:] = sorted(d for d in dirs if d != "out")
        for name in sorted(names):
            if name.endswith(ends):
                yield os.path.join(folder, name)


def read(path):
    with open(path, encoding="utf-8") as f:
        return f.read()


def is_folder_of_function(path):
    """Whether an .antt file lies in the folder of one function's proof, whose goals Rattle names."""
    parts = path.split(os.sep)
    return parts[2] == "proofs" and len(parts) > 4


def turned(name):
    """The name in the spelling that is wanted."""
    if name[:1].isupper():
        return re.sub(r"-([A-Za-z])", lambda m: m[1].upper(), name)
    snake = re.sub(r"(?<=[a-z0-9])([A-Z])", lambda m: "_" + m[1].lower(), name)
    return snake.replace("-", "_")


def declared_names():
    names, definitions, library, members = set(), set(), set(), set()
    for path in files(".antt"):
        text = re.sub(r"--[^\n]*", "", read(path))
        names |= set(DECLARED.findall(text)) | set(TYPE.findall(text))
        definitions |= set(DEFINED.findall(text)) | set(TYPE.findall(text))
        if not is_folder_of_function(path):
            for row in MEMBER.findall(text):
                members |= set(row.split())
        for row in LIBRARY.findall(text):
            library |= set(WORD.findall(row))
    return names, definitions, members, library


def wanted():
    names, definitions, members, library = declared_names()
    table = {}
    for name in sorted(names | members):
        new = turned(name)
        if new != name and name not in library:
            table[name] = new
    # A lemma that would have the name of the definition that it speaks of gets _lem.
    defined = {turned(name) for name in definitions}
    for name in sorted(names - definitions - library):
        if turned(name) in defined:
            table[name] = turned(name) + "_lem"
    return table


def clashes(table):
    """New names that stand in the files already, or that two names would share."""
    used = {}
    for path in files((".antt", ".rt")):
        for word in WORD.findall(re.sub(r"--[^\n]*|//[^\n]*", "", read(path))):
            used.setdefault(word, path)
    turned_to = {}
    for name, new in table.items():
        if new in used:
            yield f"{name} -> {new}: stands in {used[new]}"
        if new in turned_to:
            yield f"{name} and {turned_to[new]} -> {new}"
        turned_to[new] = name


def respell(text, table, rust):
    def word(m):
        return table.get(m[0], m[0])

    if not rust:
        return WORD.sub(word, text)
    kept = re.compile(r"//[^\n]*|b?\"(?:\\.|[^\"\\])*\"")
    out, at = [], 0
    for m in kept.finditer(text):
        out += [WORD.sub(word, text[at : m.start()]), m[0]]
        at = m.end()
    return "".join(out + [WORD.sub(word, text[at:])])


def main(argv):
    table = wanted()
    if argv == ["--list"]:
        for name, new in table.items():
            print(f"{name} -> {new}")
        for row in clashes(table):
            print("clash: " + row)
        return 0
    for path in files((".antt", ".rt")):
        old = read(path)
        new = respell(old, table, path.endswith(".rt"))
        if new != old:
            with open(path, "w", encoding="utf-8") as f:
                f.write(new)
    return 0


if __name__ == "__main__":
    raise SystemExit(main(sys.argv[1:]))
