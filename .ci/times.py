"""Where the time of the gate went, from its log: times.py LOG.

A line of the log is the seconds since the gate began, a tab, and what was printed then. rt proves crates and tries
must-fail edits beside each other, and says when a crate is proved, but not how long that took: of a crate the table
has that time, or that an earlier run on this machine proved the same. The tests of the tests run beside the proofs;
of them the clock has what was waited for at the end.
"""
import re
import sys

PARTS = {
    "proofs and edits": re.compile(r"rt: (?:(\w+) (?:proved|is kept: .*)|must-fail (?:\w+)/\S+: refused, as it must be.*)"),
    "programs": re.compile(r"rt: (\w+) ran.*"),
    "tests": re.compile(r"gate: (.+) passed \((\d+) s\)"),
    "mutants": None,
    "checks": None,
}
CRATE = re.compile(r"rt: (\w+) (proved|is kept)\b.*")
EDIT = re.compile(r"rt: must-fail (\w+)/\S+: refused, as it must be.*")
ENDED = re.compile(r"gate: (\w+) ended")


def read(path):
    """The lines of the log: seconds and what was said."""
    with open(path, errors="replace") as log:
        pairs = (line.rstrip("\n").partition("\t") for line in log)
        return [(int(stamp), said) for stamp, _, said in pairs if stamp.isdigit()]


def parts(lines):
    """For each part of the gate how many lines it has, their seconds where they tell them, and when it ended."""
    number, seconds, ends = {part: 0 for part in PARTS}, {part: 0 for part in PARTS}, {}
    for stamp, said in lines:
        for part, pattern in PARTS.items():
            if found := pattern and pattern.fullmatch(said):
                number[part] += 1
                seconds[part] += int(found[2]) if pattern.groups > 1 else 0
                ends[part] = stamp
        if (found := ENDED.fullmatch(said)) and found[1] in PARTS:
            ends[found[1]] = stamp
    return number, seconds, ends


def clocks(ends):
    """The seconds on the clock that each part took, one after the other."""
    taken, before = {}, 0
    for part in PARTS:
        end = max(before, ends.get(part, before))
        taken[part], before = end - before, end
    return taken


def main(path):
    lines = read(path)
    number, seconds, ends = parts(lines)
    clock = clocks(ends)
    print(f"{'where the time went':<22}{'number':>8}{'sum s':>8}{'clock s':>9}")
    for part in PARTS:
        print(f"  {part:<20}{number[part] or '':>8}{seconds[part] or '':>8}{clock[part]:>9}")
    print(f"  {'all':<36}{sum(clock.values()):>9}")
    edits = [found[1] for _, said in lines if (found := EDIT.fullmatch(said))]
    print(f"{'by crate':<22}{'proved after s':>16}{'edits':>8}")
    for stamp, said in lines:
        if found := CRATE.fullmatch(said):
            when = stamp if found[2] == "proved" else "kept"
            print(f"  {found[1]:<20}{when:>16}{edits.count(found[1]) or '':>8}")
    print(f"{'by test':<22}{'s':>8}")
    for _, said in lines:
        if found := PARTS["tests"].fullmatch(said):
            print(f"  {found[1]:<20}{found[2]:>8}")


main(sys.argv[1])
