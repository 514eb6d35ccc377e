"""Names in the documents: each in back quotes stands in the project, no must-fail edit goes unnamed, and the
layers of docs/ARCHITECTURE.md are those of crates.txt. An edit that two crates have is to be named twice.
"""
import glob
import os
import re
from collections import Counter

# docs/PORT.md and docs/DESIGN-PASS.md tell what was changed, and so they name what was and is no more.
OF_OLD_NAMES = {"docs/PORT.md", "docs/DESIGN-PASS.md"}
DOCUMENTS = ["README.md", *sorted(set(glob.glob("docs/*.md")) - OF_OLD_NAMES)]
STATEMENTS, ARCHITECTURE = "docs/STATEMENTS.md", "docs/ARCHITECTURE.md"
LEFT_OUT = {"refusals", "registers", "instruction_table", "text", "print", "program_io"}
PLACES = ["crates", "tests", "include", "samples", "examples", "bench", ".ci"]
PLACED = re.compile(r"((?:`[^`\n]+`(?:, | and )?)+)\s+in\s+`((?:crates|tests)/[^`\n]+)`")
WORD = re.compile(r"[A-Za-z0-9_'·-]+")


def read(path):
    with open(path, encoding="utf-8", errors="replace") as file:
        return file.read()


def edits():
    """The names of all must-fail edits, once for each crate that has one of that name."""
    return Counter(os.path.basename(path)[:-len(".edit")] for path in glob.glob("crates/*/must-fail/*.edit"))


def known():
    """Every word of the project's code, definitions, laws and tests, and the names of its files."""
    words = set()
    for place in PLACES:
        for directory, _, files in os.walk(place):
            for file in files:
                words.update(WORD.findall(directory + " " + file))
                words.update(WORD.findall(read(os.path.join(directory, file))))
    return words


def quoted(text):
    """What stands in back quotes in the prose of a document."""
    prose = re.sub(r"^```.*?^```", "", text, flags=re.S | re.M)
    return re.findall(r"`([^`\n]+)`", prose)


def is_path(name):
    """Whether it names one place below the project's root."""
    return os.path.exists(name.split("/")[0]) and "/" in name and not re.search(r"[ *]", name)


def unknown(path, words):
    for name in quoted(read(path)):
        name = name.rstrip("/")
        if is_path(name) and not os.path.exists(name):
            yield f"{path}: there is no {name}"
        elif re.fullmatch(WORD, name) and name not in words and not os.path.exists(name):
            yield f"{path}: {name} stands nowhere in the project"


def misplaced(path):
    """Names that are said to stand in a file and do not: `NAME`, `NAME` and `NAME` in `FILE`."""
    text = re.sub(r"\s*\n\s*", " ", read(path))
    for names, place in PLACED.findall(text):
        words = set(WORD.findall(read(place))) if os.path.isfile(place) else set()
        for name in quoted(names):
            if re.fullmatch(WORD, name) and words and name not in words:
                yield f"{path}: {name} does not stand in {place}"


def stands_on():
    """What each crate stands on, by crates.txt, without what docs/ARCHITECTURE.md leaves out."""
    lines = [line.split(":") for line in read("crates.txt").splitlines() if re.match(r"[a-z]", line)]
    return {name.split()[0]: [word for word in rest.split() if word not in LEFT_OUT] for name, rest in lines}


def layers():
    """The same by the diagram of docs/ARCHITECTURE.md: the words from the fifteenth character on. A line goes on after blanks."""
    diagram = re.search(r"^```\n(.*?)^```", read(ARCHITECTURE), flags=re.S | re.M).group(1)
    diagram = re.sub(r"\n {30,}", " ", diagram)
    rows = [line[15:].split() for line in diagram.splitlines() if not line.startswith(" -")]
    return {row[0]: row[1:] for row in rows}


def missing():
    words = known()
    wrong = [fault for path in DOCUMENTS for fault in [*unknown(path, words), *misplaced(path)]]
    if layers() != stands_on():
        wrong.append(f"{ARCHITECTURE}: the layers are not those of crates.txt")
    unnamed = edits() - Counter(quoted(read(STATEMENTS)))
    return wrong + [f"{STATEMENTS}: the edit {edit} is not named" for edit in sorted(unnamed)]
