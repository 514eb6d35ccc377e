"""Every public function of a library says what comes out for every input: it has an `ensures` and no `requires`.

.ci/conditions names the functions that may have a `requires`, one a line: `crate::module::function: the reason`.
"""
import pathlib
import re

import project

CONDITIONS = pathlib.Path(".ci/conditions")
COMMENT_OR_LITERAL = r"//[^\n]*|b?\"(?:\\.|[^\"\\])*\"|b'(?:\\.[^']*|[^'\\])'"


def words(path):
    """The words and signs of a source file, without comments and literals."""
    return re.findall(r"\w+|[^\w\s]", re.sub(COMMENT_OR_LITERAL, " ", path.read_text()))


def past_block(text, i):
    """The place after the block that opens at i."""
    depth = 0
    while True:
        depth += (text[i] == "{") - (text[i] == "}")
        i += 1
        if depth == 0:
            return i


def contract(text, i):
    """The kinds of clauses between a function's name, at i, and its body; and the place after the body."""
    clauses = set()
    while True:
        opens = text.index("{", i)
        clause = {"requires", "ensures"} & set(text[i:opens])
        i = past_block(text, opens)
        if not clause:
            return clauses, i
        clauses |= clause


def functions(text):
    """Each `pub fn` of a file: its name, the type whose `impl` it stands in or None, and the kinds of its clauses."""
    i, owner, owned = 0, None, 0
    while i < len(text):
        if text[i] == "impl":
            opens = text.index("{", i)
            owner, owned = text[opens - 1], past_block(text, opens)
            i = opens
        elif text[i] == "fn":
            public = "pub" in (text[i - 1], text[i - 2] if text[i - 1] == "extern" else "")
            name = text[i + 1]
            clauses, after = contract(text, i + 1)
            if public:
                yield name, owner if i < owned else None, clauses
            i = after - 1
        i += 1


def modules(path, name, public):
    """The file and those that its `mod` lines name: each with its words, and whether other crates can name it."""
    text = words(path)
    yield name, public, text
    folder = path.parent if path.stem == "lib" else path.parent / path.stem
    for before, word, child, end in zip([""] + text, text, text[1:], text[2:]):
        if word == "mod" and end == ";":
            yield from modules(folder / f"{child}.rt", f"{name}::{child}", public and before == "pub")


def exposed(crate):
    """The public functions of a library, by their full names, with the kinds of their clauses."""
    files = list(modules(pathlib.Path("crates", crate, "src/lib.rt"), crate, True))
    open_text = [text for _, public, text in files if public]
    types = {b for text in open_text for a, b in zip(text, text[1:]) if a in ("struct", "enum")}
    passed_on = {w for text in open_text for line in re.findall(r"pub use ([^;]*);", " ".join(text)) for w in line.split()}
    for module, public, text in files:
        for name, owner, clauses in functions(text):
            if public or owner in types or (owner or name) in passed_on:
                yield "::".join(filter(None, (module, owner, name))), clauses


allowed = dict(line.split(": ", 1) for line in CONDITIONS.read_text().splitlines() if ": " in line and line[0] != "#")
libraries = [name for name in project.crates() if pathlib.Path("crates", name, "src/lib.rt").is_file()]
found = dict(pair for crate in libraries for pair in exposed(crate))
faults = [f"{name} has no ensures" for name, clauses in found.items() if "ensures" not in clauses]
conditioned = {name for name, clauses in found.items() if "requires" in clauses}
faults += [f"{name} has a requires, and {CONDITIONS} does not say why" for name in sorted(conditioned - set(allowed))]
faults += [f"{CONDITIONS} names {name}, which has no requires" for name in sorted(set(allowed) - conditioned)]
project.finish("contracts", faults)
print(f"contracts: {len(found)} public functions of {len(libraries)} libraries, {len(conditioned)} under a condition")
