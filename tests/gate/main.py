"""Holds .ci/edits.py, which judges why must-fail edits were refused, against what rt says of sample edits of a small
crate, and against sample logs of a check where that is too little.

Run from the project's root. The crate is made in a directory of its own; what is said is in the prover's words.
"""
import os
import pathlib
import sys
import tempfile

sys.path.insert(0, os.path.abspath(".ci"))
import edits

FILES = {
    "src/lib.rt": """\
const MOST: u8 = 100;

pub fn half(n: u8) -> u8
    ensures { result ≡ half_of n }
{
    n / 2
}

pub fn within(n: u8) -> bool
    ensures { result ≡ nat_le n 100 }
{
    n <= MOST
}
""",
    "specs/Half.antt": """\
abbrev pub half_of : ℕ → ℕ
half_of n = n / 2

abbrev pub quarter_of : ℕ → ℕ
quarter_of n = half_of (half_of n)
""",
    "proofs/Laws.antt": """\
pub quarter-law : (n : ℕ) → quarter_of n ≡ n / 4
quarter-law n = omega arith

pub within-law : (n : ℕ) → n ≤ 100 → n < 101
within-law n h = omega arith
""",
    "proofs/half/Answers.antt": "returns c = refl\n",
    "proofs/within/Answers.antt": "returns c = refl\nreturns-if-n-le100 c = eq c.if-n-le100.true\n",
}
CODE = "file: src/lib.rt\nold: n / 2\nnew: n / 3\n"
CONSTANT = "file: src/lib.rt\nold: const MOST: u8 = 100;\nnew: const MOST: u8 = 101;\n"
DEFINITION = "file: specs/Half.antt\nold: half_of n = n / 2\nnew: half_of n = n / 3\n"
WALL = "file: proofs/Laws.antt\nold: quarter-law n = omega arith\nnew: quarter-law n = refl\n"
OTHER_SHAPE = CODE.replace("n / 3", "n / 2 / 2")
IN_PROOF = "file: proofs/within/Answers.antt\nold: returns-if-n-le100 c = eq c.if-n-le100.true\n"
GOALS_RENAMED = CONSTANT + IN_PROOF + "new: returns-if-n-le101 c = eq c.if-n-le101.true\n"
PROOF_CHANGED = CONSTANT + IN_PROOF + "new: returns-if-n-le101 c = ne c.if-n-le101.true\n"
PROOF_ALONE = IN_PROOF + "new: returns-if-n-le101 c = eq c.if-n-le101.true\n"

RETURN = "./proofs/half/Answers.antt:1:5: error: `returns`: "
WITHIN = RETURN.replace("half", "within")
ITSELF = "./specs/Half.antt:2:12: error: `half_of`: "
LAW = "./proofs/Laws.antt:2:17: error: `quarter-law`: "
FOLLOWS = "./proofs/half/Answers.antt:9:9: error: `half-spec`: `returns` was not admitted (it has holes)\n"
# The beginning of a refusal, as rt shows it, and what follows.
DIFFER = "as printed, the two types differ only where one has `3` (expected), right after `mathlib.Core.Path.◌≡◌"
NUMBERS = (DIFFER + " n /`\n  and the other has `2` (found)\n"
           "  computed as far as they go, the two types differ only where one has `3` (expected)"
           " and the other has `2` (found)\n")
EXPECTED = "expected type `Post c`, but this has type `r ≡ half_of n`"
TYPES = EXPECTED + "\n  `r` is not in scope here, so what is shown does not paste back\n"
MEET = "`half_of (c.args).0`"
NOT_MEET = MEET + "\n  ≟ `n / 3`\n  does not hold (this comparison had to wait for a metavariable)\n"
TEST = "expected type `T (all_hold quarter_of)`, but this has type `Prim.Unit {?ℓ0}`"
SIDES = "expected type `quarter_of 8 ≡ 2`, but this has type `quarter_of 8 ≡ quarter_of 8`"
EQUAL = (SIDES + "\n  computed as far as they go, the two types are `Path ℕ 0 2` (expected) and `Path ℕ 0 0` (found)\n")
JOIN = "`cc`: the equations do not join `quarter_of n` to `n / 4`"
REWRITTEN = "give a proof of that as the last argument, `simp L t` (`simp L ?` shows it as a hole's goal), or add "
NOTHING = "`simp`: no equation of the list has an instance in the goal `mathlib.Core.Path.◌≡◌"
BREAKS = "`omega`: the goal does not follow from what it read. All of that holds, and the goal fails, at `n` = 2"
NOTE = "note: src/lib.rt:3:1: it is not proved that what the function ensures holds when it returns (`returns`)"
VALUES = NOTE + "; the facts known there allow values at which this goal i"
GAVE_UP = NOTE + "; `search` gave up at one of its limits"
NOTE_WITHIN = "note: src/lib.rt:11:5: it is not proved that what the function ensures holds when it returns (`returns-if-n-le101`)"
VALUES_WITHIN = NOTE_WITHIN + "; the facts known there allow values at which this goal is false: `n` = 101"
GOAL_GONE = ("./proofs/+within/Answers.antt:2:1: error: `returns-if-n-le100`: `goal.returns-if-n-le100`: module "
             "`Rattle.sample.proofs.+within.Goals` has no `returns-if-n-le100` that can be named from here\n")
FACT_GONE = ("./proofs/+within/Answers.antt:2:27: error: `returns`: record `Rattle.sample.proofs.+within.View.In` has no field "
             "`if-n-le100` (nearest: .if-n-le101)\n  the fields that can be named here are `args`, `if-n-le101`\n")
ELSEWHERE = "./proofs/Laws.antt:5:18: error: `within-law`: " + BREAKS
SCOPE = "`half_of` is not in scope: add `use Half.{half_of}` at the top of the file"
OTHER_GOAL = "expected type `half.Goals.returns`, but this has type `half.Goals.returns-then-n-eq0`"
SHUT = "`half_of` cannot be unfolded here: take it out of this `unfolding`"
NOT_HAD = "the module `Rattle.inside` cannot be had: not found: `Rattle.inside` is no child of the module that writes it"
STAYS_SHUT = TYPES + "  `half_of` does not unfold here (this module may not unfold it: not marked `unfoldable`)\n"
FIELD = "`is-half` is not a field of record `Quarter`"
REFUSED = "refused, as it must be: "
NAMES = "refused, as it must be (only because a proof file names what the edit took away, so this says little): " + RETURN
LIMIT = "refused, as it must be (only by a limit of the prover, which gave no verdict): " + RETURN
BAD = "BAD EDIT: an 'old:' text is in src/lib.rt 0 times, and not once"

# the edit's name, the edit, what rt says of it, the log of a check where that is wanted, and the kind or the first words
# of the fault
CASES = [
    ("number_at_a_return", CODE, REFUSED + RETURN + DIFFER, None, "the proof has another type"),
    ("number_in_another_shape", OTHER_SHAPE, REFUSED + RETURN + DIFFER, FOLLOWS + RETURN + NUMBERS,
     "the proof has another number"),
    ("type_at_a_return", CODE, REFUSED + RETURN + EXPECTED, None, "the proof has another type"),
    ("no_proof_file", CODE, REFUSED + NOTE, NOTE + "\n", "no proof was found"),
    ("no_proof_file_and_values", CODE, REFUSED + VALUES, None, "values break the goal"),
    ("no_proof_file_and_a_limit", CODE, REFUSED + GAVE_UP, GAVE_UP + "\n", "no proof was found"),
    ("goal_renamed", CONSTANT, REFUSED + NOTE_WITHIN, GOAL_GONE + NOTE_WITHIN + "\n", "only names that are gone"),
    ("fact_of_a_goal_renamed", CONSTANT, REFUSED + NOTE_WITHIN, FACT_GONE + NOTE_WITHIN + "\n", "only names that are gone"),
    ("goal_renamed_and_values", CONSTANT, REFUSED + NOTE_WITHIN, GOAL_GONE + VALUES_WITHIN + "\n", "values break the goal"),
    ("goal_renamed_elsewhere", CODE, REFUSED + NOTE, GOAL_GONE + NOTE + "\n", "no proof was found"),
    ("constant", CONSTANT, REFUSED + WITHIN + DIFFER, None, "the proof has another type"),
    ("definition_at_its_law", DEFINITION, REFUSED + LAW + BREAKS, None, "values break the goal"),
    ("definition_at_a_number", DEFINITION.replace("n / 3", "n / 2 / 2"), REFUSED + LAW + SIDES, LAW + EQUAL,
     "two numbers are to be equal"),
    ("definition_at_an_equation", DEFINITION, REFUSED + LAW + JOIN, None, "no proof was found"),
    ("definition_at_a_computed_test", DEFINITION, REFUSED + LAW + TEST, None, "a computed test is not true"),
    ("definition_at_its_contract", DEFINITION, REFUSED + RETURN + EXPECTED, RETURN + TYPES, "the code has another shape"),
    ("definition_with_a_twin", "# The twin `n / 4 * 2` is proved.\n" + DEFINITION, REFUSED + RETURN + EXPECTED, None,
     "the proof has another type"),
    ("code_of_another_shape", OTHER_SHAPE, REFUSED + RETURN + EXPECTED, RETURN + TYPES, "the code has another shape"),
    ("sides_that_do_not_meet", CODE, REFUSED + RETURN + MEET, RETURN + NOT_MEET, "the proof has another type"),
    ("rewritten_goal", OTHER_SHAPE, REFUSED + RETURN + REWRITTEN, None, "a rewritten goal is left"),
    ("nothing_to_rewrite", CODE, REFUSED + RETURN + NOTHING, None, "nothing to rewrite"),
    ("nothing_to_rewrite_in_another_shape", OTHER_SHAPE, REFUSED + RETURN + NOTHING, RETURN + NOTHING,
     "the code has another shape"),
    ("goals_with_new_names", GOALS_RENAMED, REFUSED + WITHIN + EXPECTED, None, "the proof has another type"),
    ("goals_with_another_proof", PROOF_CHANGED, REFUSED + WITHIN + EXPECTED, WITHIN + TYPES, "the code has another shape"),
    ("goals_alone", PROOF_ALONE, REFUSED + WITHIN + EXPECTED, None, "not at what was edited"),
    ("over_the_wall_by_unfolding", WALL, REFUSED + LAW + SHUT, None, "the wall"),
    ("over_the_wall_by_name", WALL, REFUSED + LAW + NOT_HAD, None, "the wall"),
    ("over_the_wall_by_computing", WALL, REFUSED + LAW + EXPECTED, LAW + STAYS_SHUT, "the wall"),
    ("over_the_wall_elsewhere", WALL, REFUSED + RETURN + EXPECTED, RETURN + TYPES, "not refused by the wall"),
    ("unfolded_and_no_wall", WALL, REFUSED + LAW + SHUT, None, "no fact"),
    ("named_and_no_wall", WALL, REFUSED + LAW + NOT_HAD, None, "no fact"),
    ("out_of_scope", CODE, REFUSED + RETURN + SCOPE, None, "no fact"),
    ("no_such_field", DEFINITION, REFUSED + LAW + FIELD, None, "no fact"),
    ("goals_in_another_order", CODE, REFUSED + RETURN + OTHER_GOAL, None, "no fact"),
    ("no_such_goal", CODE, NAMES + "`goal.returns-else`: module `half.Goals` has no `returns-else`", None,
     "not refused by a fact"),
    ("only_a_limit", CODE, LIMIT + "antt ran out of stack", None, "not refused by a fact"),
    ("bad_edit", CODE, BAD, None, "not refused by a fact"),
    ("not_refused", CODE, "NOT REFUSED: the crate is still proved with this edit", None, "not refused by a fact"),
    ("definition_refused_itself", DEFINITION, REFUSED + ITSELF + EXPECTED, None, "not at what was edited"),
    ("another_law", DEFINITION, REFUSED + ELSEWHERE, None, "not at what was edited"),
    ("unknown_words", CODE, REFUSED + RETURN + "out of memory", RETURN + "out of memory\n", "of no known kind"),
    ("another_place_in_the_check", OTHER_SHAPE, REFUSED + RETURN + EXPECTED, ELSEWHERE + "\n", "the code has another shape"),
    ("no_reason", CODE, "refused, as it must be", None, "not refused by a fact"),
    ("no_place", CODE, REFUSED + "the check ended", None, "the log gives no reason"),
    ("no_line_in_the_log", CODE, None, None, "not refused by a fact: the log says nothing of it"),
]


def make(path, text):
    path.parent.mkdir(parents=True, exist_ok=True)
    path.write_text(text)


def sample_check(log):
    """Stands for a check of a copy: it has this log. None where no check is wanted."""
    def check(crate, to):
        if log is None:
            raise AssertionError("a check that is not wanted")
        return 1, log + "logic=not-proved\n"
    return check


def judged(name, edit, said, log):
    """What the judge says of the edit, by a line as it stands in the gate's log."""
    path = pathlib.Path("crates/sample/must-fail", f"{name}.edit")
    make(path, edit)
    line = f"7\trt: must-fail sample/{name}.edit: {said}\n" if said else ""
    edits.trial.check = sample_check(log)
    known = edits.tried("6\trt: sample proved\n" + line)
    return edits.judged_by(known.get(("sample", name), ""), pathlib.Path("crates/sample"), path)


def main():
    wrong = []
    with tempfile.TemporaryDirectory() as project:
        os.chdir(project)
        make(pathlib.Path("crates.txt"), "sample:\n")
        for file, text in FILES.items():
            make(pathlib.Path("crates/sample", file), text)
        for name, edit, said, log, expected in CASES:
            kind, fault = judged(name, edit, said, log)
            if not (kind == expected or (fault or "").startswith(expected)):
                wrong.append(f"gate: {name}: judged {kind or fault!r} and not {expected!r}")
        os.chdir("/")
    if wrong:
        sys.exit("\n".join(wrong))
    print(f"gate: {len(CASES)} samples of what is said of must-fail edits, judged as they should be")


main()
