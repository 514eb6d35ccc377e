#!/usr/bin/env python3
"""Brings the names of the specifications and proofs to one spelling: words, fields and constructors in snake case.

usage: tools/names.py            at the top of the repository: rewrites the files below crates/ and the pages
       tools/names.py --list     writes nothing; prints each old name with its new one

What is renamed: each name that a file of specs/ or proofs/ defines in lower camel case, and each name with a dash that
a file of specs/ defines (a field, a constructor, a definition). Names of lemmas in proofs/ keep their dashes, since a
dash joins two names. Where a new name would stand for two things in one file, the lemma of that name gets `_lem`
(TAKEN). Functions of src/, strings, numbers and what the programs read and print keep their names: they have neither
camel case nor dashes, and strings are left out. In comments and pages a name with a dash is read as one only between
backticks.
"""

import os
import re
import sys

TOKEN = re.compile(r"[A-Za-z_][A-Za-z0-9_'-]*[A-Za-z0-9_']|[A-Za-z_]")
DEFINED = re.compile(r"^ *(?:abbrev |unfoldable |opaque )?(?:pub )?([A-Za-z][^\s:(){}]*) *:(?!=)", re.M)
DATA = re.compile(r"^ *(?:pub )?(?:abbrev |unfoldable )?(?:pub )?(?:data|record) ([A-Za-z][^\s:(){}]*)", re.M)

# Lemmas whose name a definition now has, by module: they get `_lem`, there and where they are imported from there.
TAKEN = {
    "Rattle.capture_trace.proofs.Tallies": ["one_more"],
    "Rattle.display_bytes.proofs.Lanes": ["all_moved"],
    "Rattle.instruction_table.proofs.RowByte": ["rows_fit"],
    "Rattle.origin.proofs.CodeWays": ["told_at"],
    "Rattle.pixel_counts.proofs.Pixels": ["by_value"],
    "Rattle.registers.proofs.Encode": ["in_order"],
    "Rattle.registers.proofs.TableTest": ["whole_fields", "laid_out", "return_alone", "all_whole"],
    "Rattle.text.proofs.Printing": ["is_digit", "is_leading"],
}


def texts(root):
    for folder, dirs, files in os.walk(os.path.join(root, "crates")):
        dirs[:] = sorted(d for d in dirs if d != "out")
        for f in sorted(files):
            if f.endswith((".rt", ".antt", ".edit")):
                yield os.path.join(folder, f)


def pages(root):
    yield os.path.join(root, "README.md")
    for folder, dirs, files in os.walk(os.path.join(root, "docs")):
        dirs.sort()
        for f in sorted(files):
            if f.endswith(".md") and f != "PORT.md":
                yield os.path.join(folder, f)


def read(path):
    with open(path, encoding="utf-8") as f:
        return f.read()


def uncommented(text):
    return re.sub(r"--.*", "", text)


def snake(name):
    name = re.sub(r"([A-Z]+)([A-Z][a-z])", r"\1_\2", name)
    name = re.sub(r"([a-z0-9])([A-Z])", r"\1_\2", name)
    return name.lower()


def is_camel(name):
    return name[0].islower() and any(c.isupper() for c in name) and "-" not in name


def renamed(root):
    """Old names and new ones. A name with a dash keeps it where its new name is taken."""
    camel, dashed, taken = {}, {}, set()
    for path in texts(root):
        if not path.endswith(".antt"):
            continue
        for name in DEFINED.findall(uncommented(read(path))):
            if is_camel(name):
                camel[name] = snake(name)
            elif "-" in name:
                if "/specs/" in path:
                    dashed[name] = name.replace("-", "_")
            else:
                taken.add(name)
    taken |= set(camel.values())
    return {**camel, **{old: new for old, new in dashed.items() if new not in taken}}


def lemmas_of(path, text):
    """The lemmas of TAKEN that this file defines or imports."""
    module = "Rattle." + re.sub(r".*?/crates/", "", path)[: -len(".antt")].replace("/", ".")
    for of, names in TAKEN.items():
        for name in names:
            if module == of or re.search(rf"use {re.escape(of)}\.\{{[^}}]*(?<![\w'-]){name}(?![\w'-])", text):
                yield name


# A text as pieces: (kind, text), of kind 'code', 'comment', 'string'.
def pieces(text, comment):
    shape = re.compile(r'(?P<string>"(?:[^"\\\n]|\\.)*")|(?P<comment>' + re.escape(comment) + r".*)")
    at = 0
    for m in shape.finditer(text):
        yield "code", text[at : m.start()]
        yield m.lastgroup, m.group()
        at = m.end()
    yield "code", text[at:]


def turn_code(text, names):
    return TOKEN.sub(lambda m: names.get(m.group(), m.group()), text)


def turn_said(text, names):
    """A comment or a page: names between backticks, and camel case anywhere."""
    camel = {a: b for a, b in names.items() if "-" not in a}
    parts = re.split(r"(`[^`\n]*`)", text)
    return "".join(turn_code(p, names) if p.startswith("`") else turn_code(p, camel) for p in parts)


def turned(path, names):
    text = read(path)
    if path.endswith(".antt"):
        for name in lemmas_of(path, text):
            text = re.sub(rf"(?<![\w.'-]){name}(?![\w'-])", name + "_lem", text)
    if path.endswith(".md"):
        return turn_said(text, names)
    out = []
    for kind, piece in pieces(text, "--" if path.endswith(".antt") else "//"):
        if kind == "code":
            out.append(turn_code(piece, names))
        elif kind == "comment":
            out.append(turn_said(piece, names))
        else:
            out.append(piece)
    return "".join(out)


def main(argv):
    root = os.path.dirname(os.path.dirname(os.path.abspath(__file__)))
    names = renamed(root)
    if argv == ["--list"]:
        for old in sorted(names):
            print(old, names[old])
        return 0
    changed = 0
    for path in [*texts(root), *pages(root)]:
        new = turned(path, names)
        if new != read(path):
            changed += 1
            with open(path, "w", encoding="utf-8") as f:
                f.write(new)
    print(f"{len(names)} names, {changed} files")
    return 0


if __name__ == "__main__":
    raise SystemExit(main(sys.argv[1:]))
