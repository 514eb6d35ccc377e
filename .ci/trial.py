"""What an edit of a crate makes of it: its replacements, made in a copy, and what the prover says of that copy."""
import contextlib
import pathlib
import shutil
import subprocess
import tempfile

import project

PARTS = ["src", "specs", "proofs"]


class Unfit(Exception):
    """An edit that can't be made, in one line."""


def replacements(edit):
    """The file, the old and the new text of each replacement: a `file:` line holds for those after it."""
    file = old = ""
    for line in edit.read_text().splitlines():
        if line.startswith("file: "):
            file = line[len("file: "):]
        elif line.startswith("old: "):
            old = line[len("old: "):]
        elif line.startswith("new:"):
            yield file, old, line[len("new:"):].removeprefix(" ")


def make(edit, crate):
    """Makes the edit in this folder of its crate; for each replacement its file, line, old and new text."""
    for file, old, new in replacements(edit):
        text = (crate / file).read_text()
        if text.count(old) != 1:
            raise Unfit(f"its old text stands {text.count(old)} times in {file}, and not once")
        (crate / file).write_text(text.replace(old, new))
        yield file, text[:text.index(old)].count("\n") + 1, old, new


def stands_on(crate, crates):
    """The crate, and all that it stands on, of this project."""
    found = [crate]
    for name in found:
        found += [below for below in crates[name] if below in crates and below not in found]
    return found


def copy_crate(name, to):
    """The crate's code, definitions and proofs."""
    for part in PARTS:
        if pathlib.Path("crates", name, part).is_dir():
            shutil.copytree(f"crates/{name}/{part}", to / part)


def copy_project(crate, to):
    """The crate with what it stands on, and what is proved of that already."""
    names = stands_on(crate, project.crates())
    (to / "crates.txt").write_text("".join(line + "\n" for line in project.lines() if project.name_of(line) in names))
    for name in names:
        copy_crate(name, to / "crates" / name)
        if name != crate:
            with contextlib.suppress(FileNotFoundError):
                shutil.copytree(f"crates/{name}/out/rlib", to / "crates" / name / "out/rlib")


@contextlib.contextmanager
def room():
    """A directory that is removed in any case."""
    with tempfile.TemporaryDirectory(prefix="pcf8820-") as to:
        yield pathlib.Path(to).resolve()


def check(crate, to, shown=lambda line: None):
    """The status of a check of the crate in that copy, and what it says; each line is shown as it comes."""
    said = []
    with subprocess.Popen(["rt", "check"], cwd=to / "crates" / crate, stdin=subprocess.DEVNULL, stdout=subprocess.PIPE,
                          stderr=subprocess.STDOUT, text=True, errors="replace") as started:
        for line in started.stdout:
            said.append(line)
            shown(line)
    return started.returncode, "".join(said)
