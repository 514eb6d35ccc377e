"""Looks at why the prover refused each must-fail edit, by the first refusal that rt tells of it.

It has to stand at the edited place: in the proof of a function that was edited, or that names what was edited, or at a
lemma that names it; a definition stands also for those that are built on it. And it has to be of a kind in FACTS.
rt passes over errors that only follow from another one (`.. was not admitted`) and over proof files that name a fact
which the edited code does not ask for. All else is a fault: an edit that was not tried, a name out of scope, only such
proof files, a limit of the prover, a definition that is refused itself. Where an edit renames a goal, its answer is such
a proof file, and then rt tells of the goal that it is not proved: that is a fault too, but where rt has values for it.

An edit `over_the_wall_..` is one of the compiler's wall: there a crate or a body that can't be had is the fact.

rt tells no more than the beginning of a refusal. Where that does not show the kind, or where a goal is not proved, or
where it is a kind that a proof which merely does not fit gives too, and the edit does not keep the shape of the code, the
edit is made in a copy and checked there, and all that is said is looked at.

    edits.py LOG            the edits of all crates, by what rt ci or rt must-fail said; - is standard input
    edits.py LOG CRATE..    those of these crates

Not looked at is whether the fact is false: a proof that does not fit the edited crate is refused in the same words.
"""
import collections
import pathlib
import re
import sys

import project
import trial

Refusal = collections.namedtuple("Refusal", "path line text")

FACTS = [
    ("two numbers are to be equal", r"the two types are `Path \S+ (\d+) (?!\1`)\d+`\s+\(expected\)"),
    ("values break the goal",
     r"`omega`: the (goal|part `\S+` of the goal) does not follow .*the (goal|part) fails, at|; the facts known there allow "),
    ("the proof has another number",
     r"where one has `(\d+)`\s+\(expected\).*? and the other has `(?!\1`)\d+`\s+\(found\)"),
    ("a computed test is not true", r"expected type `T \(.*but this has type `Prim\.Unit"),
    ("no proof was found",
     r"it is not proved that|`search`: no proof of|`cc`: the equations do not join|`omega`: the goal does not follow"),
    ("a rewritten goal is left", r"give a proof of that as the last argument, `(simp|rw) L t`"),
    ("nothing to rewrite", r"`simp`: no equation of the list has an instance|`rw`: no occurrence of the path's"),
    ("the proof has another type",
     r"the two (types|sides) (first )?differ|the two types are|expected type `.*but this has type|≟ `.*does not hold"),
]
# Kinds that a proof which merely does not fit gives too. They count only of an edit that keeps the shape of the code, word for
# word, with another name or number, or that says that a harmless twin of it was tried and is proved.
UNSURE = ["nothing to rewrite", "the proof has another type"]
NO_FACT = (r"has no `|has no field|is not a field of|not in scope|does not use the library|cannot be had|"
           r"cannot be unfolded here")
OTHER_FACT = r"expected type `[^`]*\bGoals\.[^`]*`,?\s+but this has type `[^`]*\bGoals\."
FOLLOWS = r"not admitted"
TAKEN_AWAY = r"has no `|has no field|is not in scope"
NOT_PROVED = r"it is not proved that (?!.*; the facts known there allow )"
WALL = r"the module `\S+` cannot be had|cannot be unfolded here|this module may not unfold it|does not unfold here"

# What rt says of an edit: its verdict, the crate and the edit, and the beginning of the first refusal.
TRIED = re.compile(r"rt: must-fail (\w+)/(\S+)\.edit: (.*)")
REFUSED = "refused, as it must be: "
PLACE = re.compile(r"(note: )?(?:\./)?(\S+?)(?::(\d+):\d+)?: (?:error(?:\[[\w-]+\])?: |(?=it is not proved|`search` found no proof))")

RUST_ITEM = re.compile(r"^(?: *#\[.*\]\n)* *(?:pub )?(?:extern \"C\" )?(?:fn|const|static|struct|enum|impl) (\w+)", re.M)
LEMMA_ITEM = re.compile(r"^(?!--|use |pub use |unfolding |mod |pub mod )"
                        r"(?:(?:pub|abbrev|unfoldable|record|data|module|mutual) +)*(\S+)", re.M)
WORD = re.compile(r"[^\s(){}\[\],;:.`<>&|!]+")


# The words that each name of a goal, or of a fact that a goal has, has one of, beside words of the code.
GOAL_WORDS = {"returns", "if", "then", "else", "in", "loop"}

# The files that hold the proof of one function, in a directory of its name.
PROOF_FILES = ["Proof.antt", "Answers.antt", "Invariants.antt"]


def head(refusal):
    """The first line of what is said; those behind it have advice."""
    return refusal.text.split("\n")[0]


def refusal(entry):
    """The refusal that an entry of a log tells, or None."""
    found = PLACE.match(entry)
    return found and Refusal(found[2], int(found[3] or 0), entry[found.end():])


def all_refusals(log):
    """What the log of a check refuses, in its order: errors, and behind them facts that no proof was found for."""
    entries = re.split(r"\n(?! )", log)
    errors = [refusal(entry) for entry in entries if not entry.startswith("note: ")]
    notes = [refusal(entry) for entry in entries if entry.startswith("note: ")]
    return [error for error in errors if error and not re.search(FOLLOWS, head(error))] + [note for note in notes if note]


def names_gone(refusal):
    """Whether it is of a file of proofs that names what the edit took away."""
    return refusal.path.startswith("proofs/") and bool(re.search(TAKEN_AWAY, head(refusal)))


def refusals(log):
    """The same as rt chooses: without proof files that name what the edit took away, where something else is refused."""
    found = all_refusals(log)
    return [one for one in found if not names_gone(one)] or found


def tried(log):
    """What rt says of each edit, by crate and name; before a line of the gate's own log stand seconds and a tab."""
    found = (TRIED.fullmatch(re.sub(r"^\d+\t", "", line)) for line in log.splitlines())
    return {(match[1], match[2]): match[3] for match in found if match}


def items(text, pattern):
    """The declarations of a file: (start, name, text), those that follow each other under one name as one.

    A module without a name has its start as its name."""
    found = [(match.start(), f"_{match.start()}" if match[1] == "_" else match[1]) for match in pattern.finditer(text)]
    heads = [head for i, head in enumerate(found) if i == 0 or found[i - 1][1] != head[1]]
    ends = [start for start, _ in heads[1:]] + [len(text)]
    return [(start, name, text[start:end]) for (start, name), end in zip(heads, ends)]


def declarations(path):
    text = path.read_text()
    return items(text, RUST_ITEM if path.suffix == ".rt" else LEMMA_ITEM)


def item_at(path, place):
    """The name of the declaration at this place of the file."""
    before = [name for start, name, _ in declarations(path) if start <= place]
    return before[-1] if before else ""


def at_line(path, line):
    lines = path.read_text().splitlines(keepends=True)
    return item_at(path, len("".join(lines[:line])) - 1)


def renames_goals(old, new):
    """Whether two texts of a function's proof differ in names of goals and of their facts alone: these have words of the code."""
    old, new = (re.findall(r"[\w'-]+|[^\w\s]", part) for part in (old, new))
    of_goals = [all(GOAL_WORDS & set(word.split("-")) for word in pair) for pair in zip(old, new)]
    return len(old) == len(new) and all(a == b or is_goal for a, b, is_goal in zip(old, new, of_goals))


def same_shape(old, new):
    """Whether two texts of code differ in names and numbers alone."""
    old, new = (re.findall(r"\w+|[^\w\s]", part) for part in (old, new))
    return len(old) == len(new) and all(a == b or a[0].isalnum() and b[0].isalnum() for a, b in zip(old, new))


def keeps_shape(edit):
    """Whether each text of an edit of code differs from the one it replaces in names and numbers alone.

    The proofs of functions may have their goals' new names."""
    found = list(trial.replacements(edit))
    in_code = [same_shape(old, new) for file, old, new in found if file.startswith("src/")]
    other = [pathlib.Path(file).name in PROOF_FILES and renames_goals(old, new)
             for file, old, new in found if not file.startswith("src/")]
    return bool(in_code) and all(in_code + other)


def edited(crate, edit):
    """The names of the declarations that an edit changes, by file."""
    names = collections.defaultdict(set)
    for file, old, _ in trial.replacements(edit):
        text = (crate / file).read_text()
        place = text.find(old)
        names[file].add(item_at(crate / file, place + len(old) - len(old.lstrip())))
    return names


def named_by(names, files):
    """The declarations of these files whose text has one of the names."""
    return {name for path in files for _, name, text in declarations(path) if names & set(WORD.findall(text))}


def touched(crate, names, files):
    """The edited names, the declarations of these files that are built on them, and the functions that name one."""
    known = set()
    while names != known:
        known = names
        names = known | named_by(known, files)
    return names | named_by(names, (crate / "src").rglob("*.rt"))


def proof_of(path):
    """The function that this file has the proof of."""
    return path.parent.name.lstrip("+") if path.name in PROOF_FILES else ""


def stands_at(copy, refusal, names):
    """Whether the error is at what the edit touches, given the names of the edited declarations."""
    path = copy / refusal.path
    in_proof = path.name in PROOF_FILES
    if refusal.path.split("/")[0] not in ("src", "proofs") or not (in_proof or path.is_file()):
        return False
    definitions = list((copy / "specs").rglob("*.antt"))
    names = touched(copy, names, definitions if in_proof or path.suffix == ".rt" else definitions + [path])
    return (proof_of(path) or at_line(path, refusal.line)) in names


def judged(crate, edit, copy, first, gone=None):
    """(kind, None), or (None, what is wrong): of the edit of this crate, whose edited copy is first refused so.

    With the functions whose proofs name what the edit took away, if the refusal is whole. Without, (None, None) where its
    beginning does not tell."""
    is_whole = gone is not None
    shown = f"{first.path}:{first.line}: {first.text[:300]}"
    names = edited(crate, edit)
    if edit.stem.startswith("over_the_wall_"):
        if first.path in names and re.search(WALL, first.text):
            return "the wall", None
        return None, f"not refused by the wall: {shown}" if is_whole else None
    if re.search(NO_FACT, head(first)) or re.search(OTHER_FACT, first.text):
        return None, f"no fact: {shown}"
    kind = next((kind for kind, pattern in FACTS if re.search(pattern, first.text, re.S)), None)
    if not stands_at(copy, first, set().union(*names.values()) - {""}):
        return None, f"not at what was edited: {shown}"
    unsure = kind in UNSURE and not keeps_shape(edit) and "twin" not in edit.read_text()
    not_proved = re.match(NOT_PROVED, first.text, re.S)
    if (kind is None or unsure or not_proved) and not is_whole:
        return None, None
    if not_proved and at_line(copy / first.path, first.line) in gone:
        return None, f"only names that are gone: {shown}"
    if kind is None:
        return None, f"of no known kind: {shown}"
    if unsure:
        return None, f"the code has another shape, and no harmless twin is named: {shown}"
    return kind, None


def edited_copy(crate, edit, copy):
    """The crate with the edit, in that directory."""
    trial.copy_crate(crate.name, copy)
    for _ in trial.make(edit, copy):
        pass


def whole(crate, edit, first):
    """All of the refusal that rt tells the beginning of, by a check of a copy; and the functions whose proofs name what the
    edit took away."""
    with trial.room() as to:
        trial.copy_project(crate.name, to)
        copy = to / "crates" / crate.name
        for _ in trial.make(edit, copy):
            pass
        log = trial.check(crate.name, to)[1]
    gone = {proof_of(pathlib.Path(one.path)) for one in all_refusals(log) if names_gone(one)} - {""}
    return next((one for one in refusals(log) if (one.path, one.line) == (first.path, first.line)), first), gone


def judged_by(said, crate, edit):
    """The same by what rt said of the edit; a refusal that it tells too little of is looked at in whole."""
    if not said.startswith(REFUSED):
        return None, f"not refused by a fact: {said or 'the log says nothing of it'}"
    first = refusal(said[len(REFUSED):])
    if not first:
        return None, "the log gives no reason for the refusal"
    with trial.room() as copy:
        edited_copy(crate, edit, copy)
        found = judged(crate, edit, copy, first)
        return found if any(found) else judged(crate, edit, copy, *whole(crate, edit, first))


def judge_all(log, names):
    kinds, faults, number = collections.Counter(), [], 0
    known = tried(log)
    for name in names:
        crate = pathlib.Path("crates", name)
        for edit in sorted(crate.glob("must-fail/*.edit")):
            kind, fault = judged_by(known.get((name, edit.stem), ""), crate, edit)
            number += 1
            kinds[kind] += 1
            faults += [f"{edit}: {fault}"] if fault else []
    project.finish("edits", faults)
    print("edits: " + ", ".join(f"{kind}: {number_of}" for kind, number_of in kinds.most_common()))
    print(f"edits: {number} must-fail edits, each first refused at a fact of what it edits; where a log does not tell a false "
          "fact from an unfit proof, the edit keeps the code's shape or names a harmless twin")


def main(words):
    if not words:
        sys.exit("usage: edits.py LOG [CRATE..]")
    log = sys.stdin.read() if words[0] == "-" else pathlib.Path(words[0]).read_text(errors="replace")
    judge_all(log, words[1:] or project.crates())


if __name__ == "__main__":
    main(sys.argv[1:])
