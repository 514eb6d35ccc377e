"""The tables of docs/INSTRUCTIONS.md are what the program `instructions` must print.

tables.py                 compares the page's tables with crates/instructions/stdout
tables.py --make-stdout   writes that file from the page
"""
import difflib
import pathlib
import sys

import project

PAGE = pathlib.Path("docs/INSTRUCTIONS.md")
STDOUT = pathlib.Path("crates/instructions/stdout")
START, END = "<!-- table -->", "<!-- end of table -->"


def tables(text):
    """The table lines between each pair of markers."""
    inside, lines = False, []
    for line in text.splitlines(keepends=True):
        if line.strip() in (START, END):
            inside = line.strip() == START
        elif inside and line.startswith("|"):
            lines.append(line)
    return lines


page = tables(PAGE.read_text())
if sys.argv[1:] == ["--make-stdout"]:
    STDOUT.write_text("".join(page))
    sys.exit()
faults = [] if page else [f"{PAGE} has no table"]
if "instructions" not in project.crates():
    faults.append("crates.txt does not list instructions")
stored = STDOUT.read_text().splitlines(keepends=True) if STDOUT.is_file() else []
faults += [line.rstrip() for line in difflib.unified_diff(page, stored, str(PAGE), str(STDOUT), n=0)]
project.finish("tables", faults)
print(f"tables: {len(page)} lines of {PAGE}, as the program prints them")
