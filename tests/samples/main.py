"""Holds the samples, and what the documents say of them, against the programs.

    main.py PROGRAMS ARCHIVE           compares
    main.py --make PROGRAMS ARCHIVE    writes the expected outputs and the documents' outputs

PROGRAMS is a directory with replay, draw, view, compare, who, state, trace and wires, ARCHIVE the library for C.
`--make` is for the model's. What is compared:

- each capture of samples/: its listing, its glass, the chip at its end and its events in words, with
  samples/expected/NAME.listing, .glass, .state and .trace;
- each pair of captures NAME-1 and NAME-2: what differs, with samples/expected/NAME.compared;
- each list of samples/: the capture that draws it, with samples/expected/NAME.drawn;
- the samples of two wires: their bytes, with the traffic of samples/probe.capture; what was on the wires,
  with that capture itself, and with samples/expected/unclear.wires where a sample is lost;
- in the documents, each code block whose first line begins with `$ `: what its commands print;
- docs/glass.png: its pixels, with those of README.md's own command for it;
- samples/picture: the character of every level, and of a dark and an undriven pixel;
- the scripts of samples/ and examples/: statuses and messages, by scripts.py (not where outputs are
  written);
- in the documents, each name in back quotes: it has to stand in the project.
"""
import glob
import os
import struct
import subprocess
import sys
import zlib

import names
import scripts

DOCUMENTS = ["README.md", "docs/LESSONS.md"]
PAIRS = ["samples/night"]
PROBE = "python3 -B tests/programs/probe.py samples/probe.capture"
# The sample of place 453 is lost: the data line goes up for the first bit of the byte 129.
LOST = 453
PICTURE = "docs/glass.png"


class Sides:
    """The programs to run, and whether their outputs are to be written or compared."""

    def __init__(self, making, programs, archive):
        self.making, self.programs, self.archive = making, programs, archive
        self.compared, self.wrong = 0, []

    def printed(self, command):
        """What a command of the documents prints with these programs, standard error with it."""
        command = command.replace("target/bin", self.programs)
        command = command.replace("target/staticlib/libhost.a", self.archive)
        done = subprocess.run(["sh", "-c", command], stdout=subprocess.PIPE, stderr=subprocess.STDOUT,
                              stdin=subprocess.DEVNULL, timeout=600,
                              env={**os.environ, "PROGRAMS": self.programs})
        return done.stdout

    def compare(self, what, ours, theirs):
        self.compared += 1
        if ours != theirs:
            self.wrong.append(f"{what}: printed\n{ours!r}\nand not\n{theirs!r}"[:1000])

    def expect(self, command, path):
        ours = self.printed(command)
        if self.making:
            write(path, ours)
        self.compare(path, ours, read(path))


def read(path):
    with open(path, "rb") as file:
        return file.read()


def write(path, data):
    with open(path, "wb") as file:
        file.write(data)


def expected(path, ending):
    name = os.path.splitext(os.path.basename(path))[0]
    return f"samples/expected/{name}.{ending}"


def compare_samples(sides):
    for capture in sorted(glob.glob("samples/*.capture")):
        sides.expect(f"target/bin/replay {capture}", expected(capture, "listing"))
        sides.expect(f"target/bin/view {capture} | samples/picture text", expected(capture, "glass"))
        sides.expect(f"target/bin/state {capture}", expected(capture, "state"))
        sides.expect(f"target/bin/trace {capture}", expected(capture, "trace"))
    for name in PAIRS:
        sides.expect(f"target/bin/compare {name}-1.capture {name}-2.capture", expected(name, "compared"))
    for drawing in sorted(glob.glob("samples/*.list")):
        sides.expect(f"target/bin/draw 0 {drawing}", expected(drawing, "drawn"))
    compare_probes(sides)


def compare_probes(sides):
    sides.expect(PROBE, "samples/probe.bin")
    sides.expect(f"{PROBE} {LOST}", "samples/unclear.bin")
    sides.compare("wires 0 samples/probe.bin", sides.printed("target/bin/wires 0 samples/probe.bin"),
                  read("samples/probe.capture"))
    sides.expect("target/bin/wires 0 samples/unclear.bin", "samples/expected/unclear.wires")


def blocks(lines):
    """The text in pieces: (False, lines) for prose, (True, lines) for a block of commands."""
    piece, fenced = [], False
    for line in lines:
        if line.startswith("```"):
            if fenced:
                yield piece[:1] and piece[0].startswith("$ "), piece
                piece, fenced = [line], False
            else:
                piece, fenced = piece + [line], True
                yield False, piece
                piece = []
        else:
            piece.append(line)
    yield False, piece


def printed_block(sides, lines):
    """The block with what its commands print."""
    out = []
    for line in lines:
        if line.startswith("$ "):
            out.append(line)
            out += sides.printed(line[2:]).decode().splitlines()
    return out


def compare_document(sides, path):
    text = read(path).decode()
    out = []
    for is_run, lines in blocks(text.splitlines()):
        ours = printed_block(sides, lines) if is_run else lines
        if is_run and not sides.making:
            sides.compare(f"{path}, {lines[0]}", "\n".join(ours), "\n".join(lines))
        out += ours
    if sides.making:
        write(path, ("\n".join(out) + "\n").encode())


def pixels(png):
    """The size and the rows of a PNG that samples/picture made; zlib is free to pack them in many ways."""
    at, data, head = 8, b"", b""
    while at < len(png):
        size, name = struct.unpack(">I4s", png[at:at + 8])
        body = png[at + 8:at + 8 + size]
        head += body if name == b"IHDR" else b""
        data += body if name == b"IDAT" else b""
        at += 12 + size
    return head + zlib.decompress(data)


def picture_command():
    """The command of README.md that makes the picture, but for where it puts it."""
    into = f" >{PICTURE}"
    lines = read("README.md").decode().splitlines()
    [command] = [line.strip().removesuffix(into) for line in lines if line.endswith(into)]
    return command


def compare_picture(sides):
    png = sides.printed(picture_command())
    if sides.making:
        write(PICTURE, png)
    sides.compare(PICTURE, pixels(png), pixels(read(PICTURE)))


def compare_characters(sides):
    """A picture of one row: the levels that there are, 0 to 62 and 64, a dark and an undriven pixel."""
    greys = [255 * (64 - level) // 64 for level in [*range(63), 64]]
    colours = [(grey, grey, grey) for grey in greys] + [(0, 0, 96), (96, 64, 0)]
    text = f"P3\n{len(colours)} 1\n255\n" + "".join("%d %d %d\n" % colour for colour in colours)
    done = subprocess.run(["samples/picture", "text"], input=text.encode(), stdout=subprocess.PIPE,
                          stderr=subprocess.STDOUT)
    characters = "." * 16 + "-" * 16 + "+" * 16 + "#" * 16 + "du\n"
    sides.compare("samples/picture text", done.stdout.decode(), characters)


def main(words):
    making = words[:1] == ["--make"]
    words = words[making:]
    if len(words) != 2:
        sys.exit("usage: main.py [--make] PROGRAMS ARCHIVE")
    sides = Sides(making, *words)
    os.makedirs("samples/expected", exist_ok=True)
    compare_samples(sides)
    for path in DOCUMENTS:
        compare_document(sides, path)
    compare_picture(sides)
    compare_characters(sides)
    made, failed = (0, []) if making else scripts.compare(sides.programs, sides.archive)
    wrong = sides.wrong + failed + names.missing()
    if wrong:
        print("samples: DIFFERENT: " + "\n".join(wrong), file=sys.stderr)
        sys.exit(1)
    print(f"samples: {sides.compared} outputs and {made} calls of scripts as expected; every edit is named in "
          "docs/STATEMENTS.md")


main(sys.argv[1:])
