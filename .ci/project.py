"""What the checks share: the crates that crates.txt lists."""
import pathlib
import sys


def lines():
    """The lines of crates.txt that name a crate, without comments."""
    found = (line.partition("#")[0] for line in pathlib.Path("crates.txt").read_text().splitlines())
    return [line for line in found if ":" in line]


def name_of(line):
    """The crate's name: behind it a line may say what is built of it, as `staticlib`."""
    return line.partition(":")[0].split()[0]


def crates():
    """Each listed crate's name with the list of what it depends on."""
    return {name_of(line): line.partition(":")[2].split() for line in lines()}


def finish(what, faults):
    """Ends the check: with each fault on a line of its own, or with one line that says what was looked at."""
    for fault in faults:
        print(f"{what}: {fault}", file=sys.stderr)
    if faults:
        sys.exit(1)
