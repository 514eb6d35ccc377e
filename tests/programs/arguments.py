"""Themes of the arguments: files by name, standard input, files that cannot be read, wrong calls."""
import os
import tempfile

import captures
import lists
import texts
import wires

CAPTURE = texts.capture(captures.GOOD)
LIST = lists.LIT + b"put\t5\t2\t167\n"
SAMPLES = wires.samples_of(captures.GOOD)
READERS = ((["replay"], CAPTURE), (["view"], CAPTURE), (["draw", "1"], LIST), (["who", "8", "5"], CAPTURE),
           (["state"], CAPTURE), (["trace"], CAPTURE), (["wires", "1"], SAMPLES))


def files(sides):
    """A file that is named is read, and standard input is not."""
    with tempfile.TemporaryDirectory() as directory:
        for name in ("input", "with blank", "-", "0", "--help", "gr\u00fcn"):
            path = os.path.join(directory, name)
            for words, content in READERS:
                for data in (content, content[:-1], b"", content + b"999\n"):
                    with open(path, "wb") as file:
                        file.write(data)
                    sides.same(words + [path], b"261\n")


def large_files(sides):
    """Files longer than a buffer, and a list that is too long."""
    with tempfile.TemporaryDirectory() as directory:
        path = os.path.join(directory, "input")
        for words, data in ((["replay"], CAPTURE + b"257\n" * 100000), (["view"], CAPTURE * 3000),
                            (["who", "8", "5"], CAPTURE + b"257\n" * 100000), (["state"], CAPTURE + b"257\n" * 100000),
                            (["trace"], CAPTURE + b"257\n" * 20000), (["wires", "2"], SAMPLES * 300),
                            (["draw", "2"], LIST * 500), (["draw", "2"], b"\n" * lists.MOST_BYTES),
                            (["draw", "2"], b"\n" * (lists.MOST_BYTES + 1))):
            with open(path, "wb") as file:
                file.write(data)
            sides.same(words + [path])


def relative_files(sides):
    """Names that might be taken for options stand for files too; `-` alone is standard input."""
    here = os.getcwd()
    with tempfile.TemporaryDirectory() as directory:
        os.chdir(directory)
        try:
            for name in ("-", "--", "-x", "--help", "3"):
                for words, content in READERS:
                    sides.same(words + ["./" + name], content)
                    with open(name, "wb") as file:
                        file.write(content)
                    sides.same(words + [name], b"")
                    sides.same(words + ["./" + name], b"261\n")
                    os.remove(name)
                sides.same(["compare", name, name], CAPTURE)
                with open(name, "wb") as file:
                    file.write(CAPTURE)
                sides.same(["compare", name, "./" + name], b"")
                sides.same(["compare", "./" + name, name], b"")
                os.remove(name)
        finally:
            os.chdir(here)


def standard_input(sides):
    """`-` is standard input, as no argument is."""
    for words, content in READERS:
        for data in (content, content[:-1], b"", content + b"999\n"):
            sides.known(words[0], sides.same(words + ["-"], data), sides.same(words, data).output)
    with tempfile.TemporaryDirectory() as directory:
        path = os.path.join(directory, "input")
        for data in (texts.capture([256]), b"pins\t0\n261\n", b""):
            with open(path, "wb") as file:
                file.write(data)
            for words in (["-", path], [path, "-"]):
                sides.same(["compare"] + words, CAPTURE)
                sides.same(["compare"] + words, b"")


def unreadable(sides):
    """Missing files, directories, and files without leave to read them where that holds."""
    with tempfile.TemporaryDirectory() as directory:
        locked = os.path.join(directory, "locked")
        with open(locked, "wb") as file:
            file.write(CAPTURE)
        os.chmod(locked, 0)
        missing = os.path.join(directory, "missing")
        for words, content in READERS:
            for path in (missing, directory, "", os.path.join(locked, "below")):
                sides.same(words + [path], content)
            if not os.access(locked, os.R_OK):
                sides.same(words + [locked], content)


def two_files(sides):
    """Both files are opened first; the first is read whole, and the second only where it is good."""
    with tempfile.TemporaryDirectory() as directory:
        good, bad, missing = (os.path.join(directory, name) for name in ("gr\u00fcn und gut", "bad", "missing"))
        for path, content in ((good, CAPTURE), (bad, CAPTURE + b"261\n")):
            with open(path, "wb") as file:
                file.write(content)
        paths = good, bad, missing, directory, "", os.path.join(good, "below"), "/dev/null", "/dev/stdin", "-"
        for first in paths:
            for second in paths:
                sides.same(["compare", first, second], texts.capture([256]))
        sides.exactly(["compare", bad, directory], b"", b"refused\t1\t%d\n" % (len(captures.GOOD) + 2))
        for words in ([], [good], [good, good, good], [good, good, ""], [good, good, missing]):
            sides.same(["compare"] + words, CAPTURE)


def no_arguments(sides):
    """A program that reads nothing, and is given nothing or something."""
    for words in ([], [""], ["0"], ["-"], ["0", "1"], ["--help"], ["--help", "0"]):
        sides.same(["search"] + words, CAPTURE)


def wrong_calls(sides):
    """Too many words, none where pins are wanted, pins that are none."""
    with tempfile.TemporaryDirectory() as directory:
        path = os.path.join(directory, "input")
        with open(path, "wb") as file:
            file.write(LIST)
        for words in (["replay", path, path], ["view", path, path], ["draw"], ["draw", "0", path, path],
                      ["replay", path, ""], ["view", "a", "b", "c"], ["who", "8", "5", path, path],
                      ["who", "8", "5", path, ""], ["state", path, path], ["trace", path, path], ["trace", path, ""],
                      ["wires"], ["wires", "0", path, path], ["wires", "0", path, ""]):
            sides.same(words, CAPTURE)
        for pins in ("4", "00", "01", "03", "", " 0", "0 ", "-1", "+1", "x", "0x1", "10", "255", "256",
                     "260", "4294967296", "18446744073709551616", "pins", path):
            for program, data in ("draw", LIST), ("wires", SAMPLES):
                sides.same([program, pins], data)
                sides.same([program, pins, path], b"")


THEMES = [no_arguments, wrong_calls, standard_input, two_files, files, large_files, relative_files,
          unreadable]
