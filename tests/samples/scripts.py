"""The scripts of samples/ and examples/: their statuses, what they say where something is wrong, and what they leave
behind. Those that run something that rt makes are in runs.py.

Each case is a call and what is expected of it: its status, and words of its output and of its messages. A script that
fails says so in lines that begin with its own name, and with no trace of Python.
"""
import os
import shutil
import struct
import subprocess
import tempfile

import runs
from calls import ROOT, Calls, script

PICTURE, BREAK = (os.path.join(ROOT, "samples", name) for name in ("picture", "break"))
PIXEL = "P3\n1 1\n255\n0 0 0\n"
USAGE = "samples/picture --help tells how it is called"
# A crate that stands on no other, and whose check takes a few seconds.
SMALL = "text"


# ---- samples/picture


def pictures(calls):
    calls.expect([PICTURE, "text"], 0, out="#\n", given=PIXEL)
    calls.expect([PICTURE, "text", "0-0", "0-0"], 0, out="#\n", given=PIXEL)
    calls.expect([PICTURE, "--help"], 0, out="samples/picture text [ROWS COLUMNS]")
    for given, message in (
            ("", "the input is empty; view prints nothing where it can't read its capture"),
            (" \n", "the input is empty; view prints nothing where it can't read its capture"),
            ("refused\t7\n", "there is no picture, since view has refused its capture: refused 7"),
            ("column\tbank\tbyte\tevent\n", "no pixmap in text form (P3), but: column\tbank\tbyte\tevent"),
            ("P6\n1 1\n255\nabc", "no pixmap in text form (P3), but: P6"),
            ("P3\n1 1\n", "the pixmap ends within its header"),
            ("P3\nx 1\n255\n", "the width is no number: x"), ("P3\n1 -1\n255\n", "the height is no number: -1"),
            ("P3\n1 0\n255\n", "a pixmap with no pixel, or with another maximum than 255"),
            ("P3\n1 1\n63\n0 0 0\n", "a pixmap with no pixel, or with another maximum than 255"),
            (PIXEL[:-3], "the pixmap ends early: 2 numbers for 1 times 1 pixels of three"),
            (PIXEL + "0", "the pixmap goes on after its last pixel: 4 numbers for 1 times 1 pixels of three"),
            (PIXEL[:-2] + "x", "word 3 behind the header is no number: x"),
            (PIXEL[:-2] + "256", "word 3 behind the header is above 255: 256")):
        calls.expect([PICTURE, "text"], 1, error=f"samples/picture: {message}\n", given=given)
        calls.expect([PICTURE, "png"], 1, error=f"samples/picture: {message}\n", given=given)
    calls.expect([PICTURE, "text"], 1, given=PIXEL[:-2] + "9",
                 error="samples/picture: a colour that view does not print: 0 0 9\n")


def wrong_pictures(calls):
    for words, message in (
            ([], "text or png is wanted, and no more than goes with it"),
            (["ppm"], "text or png is wanted, and no more than goes with it"),
            (["text", "0-0"], "text or png is wanted, and no more than goes with it"),
            (["png", "4", "4"], "text or png is wanted, and no more than goes with it"),
            (["png", "0"], "the scale is a number from 1 to 64, and not 0"),
            (["png", "65"], "the scale is a number from 1 to 64, and not 65"),
            (["png", "-1"], "the scale is a number from 1 to 64, and not -1"),
            (["png", "two"], "the scale is a number from 1 to 64, and not two"),
            (["text", "0", "0-0"], "rows are given as first and last, as in 0-11, and not as 0"),
            (["text", "0-0", "a-b"], "columns are given as first and last, as in 0-11, and not as a-b"),
            (["text", "3-2", "0-0"], "rows 3-2: the first comes after the last"),
            (["text", "0-1", "0-0"], "there are no rows up to 1: the picture has rows 0 to 0"),
            (["text", "0-0", "0-101"], "there are no columns up to 101: the picture has columns 0 to 0")):
        calls.expect([PICTURE, *words], 2, error=f"samples/picture: {message}; {USAGE}\n", given=PIXEL)
    calls.not_taken([PICTURE, "--help"], "samples/picture: standard output: %s")
    with open("/dev/full", "wb") as full:
        done = subprocess.run([PICTURE, "text"], input=PIXEL.encode(), stdout=full, stderr=subprocess.PIPE)
    calls.hold(done.returncode == 1 and done.stderr == b"samples/picture: standard output: No space left on device\n",
               f"samples/picture on an output that is full: {done}")


def sizes(calls, programs):
    """A PNG is as wide and as high as its scale says: that stands in its first chunk, IHDR."""
    glass = subprocess.run([os.path.join(programs, "view"), "samples/stray.capture"], stdout=subprocess.PIPE).stdout
    for words, scale in ([], 4), (["1"], 1), (["3"], 3), (["64"], 64):
        done = subprocess.run([PICTURE, "png", *words], input=glass, stdout=subprocess.PIPE, stderr=subprocess.PIPE)
        head = b"\x89PNG\r\n\x1a\n" + struct.pack(">I4sII", 13, b"IHDR", 101 * scale, 67 * scale)
        calls.hold(done.returncode == 0 and done.stdout.startswith(head) and not done.stderr,
                   f"samples/picture png {words}: {done.returncode}, {done.stdout[:24]}, {done.stderr}")


# ---- samples/break


def wrong_breaks(calls):
    calls.expect([BREAK], 0, out="  display/mirror_without_mx: columns are mirrored where MX = 1")
    calls.expect([BREAK, "--help"], 0, out="samples/break EDIT")
    for word, near in ("mirror_without", "display/mirror_without_mx"), ("display/no/such.edit", ""):
        calls.expect([BREAK, word], 2, error=f"samples/break: there is no edit {word}; near to it: {near}")
    calls.expect([BREAK, "a", "b"], 2, error="samples/break: too many arguments; usage: samples/break [EDIT]\n")
    calls.expect([BREAK, "leading_zero_accepted"], 2, error="is an edit of more than one crate: ")
    for words in [], ["--help"], ["mirror_without_mx"]:
        calls.not_taken([BREAK, *words], "samples/break: standard output: %s")


def small_project(to):
    """A project of one small crate, with edits of its own: one that fits nowhere, and one that is no code."""
    for part in (".ci", "samples", f"crates/{SMALL}"):
        shutil.copytree(part, os.path.join(to, part))
    with open(os.path.join(to, "crates.txt"), "w") as file, open("crates.txt") as all_crates:
        file.writelines(line for line in all_crates if line.startswith(SMALL + ":"))
    with open(f"crates/{SMALL}/src/lib.rt") as file:
        first = file.readline().rstrip("\n")
    for name, old, new in ("nowhere", first + "no", "x"), ("garbled", first, "fn"):
        with open(os.path.join(to, f"crates/{SMALL}/must-fail/{name}.edit"), "w") as file:
            file.write(f"# {name}\nfile: src/lib.rt\nold: {old}\nnew: {new}\n")


def refused(calls, project, room):
    """The first edit of the crate itself, by its path as the caller sees it."""
    below = f"crates/{SMALL}/must-fail"
    edit = sorted(os.listdir(below))[0]
    name = f"{SMALL}/{edit.removesuffix('.edit')}"
    said = calls.expect([os.path.join(project, "samples/break"), edit], 0, directory=os.path.join(project, below),
                        TMPDIR=room, out=f"\nThe edit {name} was refused, as it must be.",
                        error=f"samples/break: {SMALL} is proved\nsamples/break: checking {SMALL} with this edit\n")
    for words in (f"The edit {name}: ", f"\ncrates/{SMALL}/", "\n  - ", "\n  + ", f"\nRefused at crates/{SMALL}/",
                  "\n  fact: ", "\nThe prover says:\n  "):
        calls.made += 1
        if words not in said.out:
            calls.wrong.append(f"samples/break {edit}: no {words!r} in {said.out}")


def breaks(calls):
    with tempfile.TemporaryDirectory() as directory:
        project, room = os.path.join(directory, "project"), os.path.join(directory, "room")
        small_project(project)
        os.makedirs(room)
        refused(calls, project, room)
        for name, out, error in (
                ("nowhere", "The edit", f"{SMALL}/nowhere: its old text stands 0 times in src/lib.rt, and not once"),
                ("garbled", "  + fn", f"{SMALL}/garbled did not get as far as the prover")):
            calls.expect([os.path.join(project, "samples/break"), name], 1, TMPDIR=room, out=out, error=error)
        calls.made += 1
        if os.listdir(room):
            calls.wrong.append(f"samples/break leaves {os.listdir(room)} behind")


def two_crates(to):
    """A project of two crates, one above the other, for something that goes by rt's name."""
    for part in (".ci", "samples"):
        shutil.copytree(part, os.path.join(to, part))
    for name, text in (("crates.txt", "below:\nabove: below io\n"), ("crates/below/src/lib.rt", "\n"),
                       ("crates/above/src/lib.rt", "fn one() -> u8 {\n    1\n}\n"),
                       ("crates/above/must-fail/two.edit", "# one is 1\nfile: src/lib.rt\nold: 1\nnew: 2\n")):
        os.makedirs(os.path.dirname(os.path.join(to, name)), exist_ok=True)
        with open(os.path.join(to, name), "w") as file:
            file.write(text)


MADE = "The edit above/two: one is 1\ncrates/above/src/lib.rt, line 2\n  - 1\n  + 2\n"
REFUSED = ("Refused at crates/above/src/lib.rt:1\n  function: one\n  fact: returns\nThe prover says:\n"
           "  it is not proved that one is 1 (`returns`)\nThe edit above/two was refused, as it must be.\n")
PROVED = "samples/break: below is proved\nsamples/break: above is proved\n"
CHECKING = PROVED + "samples/break: checking above with this edit\n"


def breaks_above(calls):
    """The crate and what it stands on are proved first, in the project. An edit that is not refused is told as an error."""
    note = "note: src/lib.rt:1:1: it is not proved that one is 1 (\\`returns\\`)"
    of = "echo 'crate %s: modules loaded=1 checked=2'"
    with tempfile.TemporaryDirectory() as project:
        two_crates(project)
        for proved, refused, status, out, error in (
                (0, 1, 0, MADE + REFUSED, CHECKING),
                (0, 0, 1, MADE, CHECKING + "samples/break: above/two was NOT refused: above is still proved with it\n"),
                (1, 1, 1, "The edit above/two: one is 1\n", "samples/break: below is NOT PROVED\nsamples/break: above is not "
                 "proved as it stands (status 1): crate below: modules loaded=1 checked=2\nlogic=not-proved\n")):
            script(os.path.join(project, "bin/rt"), "[ \"$*\" = check ] && [ \"${PWD##*/}\" = above ] || exit 3",
                   f"case $PWD in {project}/*)", of % "below", f"[ {proved} = 0 ] || {{ echo logic=not-proved; exit 1; }}",
                   "echo logic=proved", of % "above", "echo logic=proved", "exit 0 ;;", "esac",
                   "grep -q '^    2$' src/lib.rt && [ -d ../below ] && [ -f ../../crates.txt ] || exit 3",
                   f"[ {refused} = 0 ] || echo \"{note}\"", f"[ {refused} = 0 ] || echo logic=not-proved", f"exit {refused}")
            calls.expect([os.path.join(project, "samples/break"), "above/two"], status, out=out, error=error,
                         PATH=f"{project}/bin:{os.environ['PATH']}")


def compare(programs, archive):
    """How many calls were made, and what was not as expected."""
    calls = Calls()
    programs = os.path.abspath(programs)
    runs.all_of(calls, programs, os.path.abspath(archive))
    pictures(calls)
    wrong_pictures(calls)
    sizes(calls, programs)
    wrong_breaks(calls)
    breaks(calls)
    breaks_above(calls)
    return calls.made, calls.wrong
