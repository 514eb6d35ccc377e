"""Themes of what the programs say: the exact bytes on standard error, and nothing on standard output.

Each program has a row in USAGES. One that reads a capture, named by its last argument, has a row in
CAPTURE_READERS too; for `draw`, `compare`, `search` and `wires` there are themes of their own.
"""
import os
import tempfile

import captures
import lists
import texts

CAPTURE = texts.capture(captures.GOOD)
LIST = lists.LIT + b"put\t5\t2\t167\n"

USAGES = {
    "replay": b"replay [CAPTURE]",
    "view": b"view [CAPTURE]",
    "draw": b"draw PINS [LIST]",
    "compare": b"compare FIRST SECOND",
    "search": b"search",
    "who": b"who ROW COLUMN [CAPTURE]",
    "state": b"state [CAPTURE]",
    "trace": b"trace [CAPTURE]",
    "wires": b"wires PINS [SAMPLES]",
}

# The words before the input's name.
CAPTURE_READERS = [["replay"], ["view"], ["who", "8", "5"], ["state"], ["trace"]]
READERS = CAPTURE_READERS + [["draw", "2"], ["wires", "2"]]

MOST_PATH = 4095

MALFORMED = (b"no put, fill or set, a field too many or too few, an unknown register, a number with a"
             b" leading zero or not of 1 to 3 digits, or no newline at the end")
OUT_OF_RANGE = (b"a column above 100, a bank above 16, ends the wrong way round, a byte above 255, a byte"
                b" above 63 where bank 16 is touched, or a value wider than its field")
TOO_MANY_LINES = b"more than 4096 lines"


def message(program, *parts):
    return b": ".join([program.encode(), *parts]) + b"\n"


def wrong_call(program, fault):
    return message(program, fault + b"; usage: " + USAGES[program])


def written(directory, name, content):
    path = os.path.join(directory, name)
    with open(path, "wb") as file:
        file.write(content)
    return path


def with_input(path):
    """The calls that read the file of this path: of `compare` as each of its two."""
    yield from (words + [path] for words in READERS)
    yield ["compare", path, "/dev/null"]
    yield ["compare", "/dev/null", path]


# ---- How a program is called ----

def helps(sides):
    """`--help` as the only argument is answered on standard output."""
    for program, usage in USAGES.items():
        sides.says([program, "--help"], b"", CAPTURE, b"usage: " + usage + b"\n")


def help_among_others(sides):
    """Beside other words `--help` is a word as any other."""
    no_file = b"--help", b"No such file or directory"
    sides.says(["draw", "0", "--help"], message("draw", *no_file))
    sides.says(["wires", "0", "--help"], message("wires", *no_file))
    sides.says(["compare", "--help", "-"], message("compare", *no_file))
    sides.says(["replay", "--help", "-"], wrong_call("replay", b"too many arguments"))
    sides.says(["search", "--help", ""], wrong_call("search", b"too many arguments"))
    for word in ("-help", "--hel", "--helps", "--HELP", "--help ", "--help" + 20 * "x"):
        sides.says(["replay", word], message("replay", word.encode(), no_file[1]))


def wrong_numbers_of_words(sides):
    """Too many words, and too few; the files are not looked at."""
    for words in READERS:
        sides.says(words + ["missing", "-"], wrong_call(words[0], b"too many arguments"), CAPTURE)
        for fewer in range(1, len(words)):
            sides.says(words[:fewer], wrong_call(words[0], b"too few arguments"), CAPTURE)
    for words in ([], ["missing"], ["-"]):
        sides.says(["compare"] + words, wrong_call("compare", b"too few arguments"), CAPTURE)
    sides.says(["compare", "missing", "-", "-"], wrong_call("compare", b"too many arguments"), CAPTURE)
    for words in ([""], ["-"], ["0", "1"]):
        sides.says(["search"] + words, wrong_call("search", b"too many arguments"), CAPTURE)


def two_inputs(sides):
    """Standard input is one of the two files of `compare`, and not both."""
    fault = b"only one of the two can be standard input"
    sides.says(["compare", "-", "-"], wrong_call("compare", fault), CAPTURE)


def pins(sides):
    fault = b"PINS is not 0, 1, 2 or 3"
    for word in ("4", "00", "", "-1", " 0", "-", "x" * 5000):
        for program in ("draw", "wires"):
            sides.says([program, word], wrong_call(program, fault), LIST)
            sides.says([program, word, "missing"], wrong_call(program, fault))


def pixels(sides):
    """The row is judged first; where it or the column is wrong, the file is not looked at."""
    row, column = b"ROW is not a number from 0 to 66", b"COLUMN is not a number from 0 to 100"
    for word in ("101", "256", "00", "", "-1", " 0", "-", "x" * 5000):
        sides.says(["who", word, "5"], wrong_call("who", row), CAPTURE)
        sides.says(["who", "8", word, "missing"], wrong_call("who", column))
        sides.says(["who", word, word, "missing"], wrong_call("who", row))
    sides.says(["who", "67", "100"], wrong_call("who", row), CAPTURE)


# ---- Files ----

def unopened(sides):
    """Files that can't be opened: missing, below a file, with no name, without leave where that holds."""
    with tempfile.TemporaryDirectory() as directory:
        locked = written(directory, "locked", CAPTURE)
        os.chmod(locked, 0)
        below = os.path.join(locked, "below")
        missing = os.path.join(directory, "gr\u00fcn und weg")
        reasons = [(missing, missing.encode(), b"No such file or directory"),
                   (below, below.encode(), b"Not a directory"), ("", b"''", b"No such file or directory")]
        if not os.access(locked, os.R_OK):
            reasons.append((locked, locked.encode(), b"Permission denied"))
        for path, name, reason in reasons:
            for words in with_input(path):
                sides.says(words, message(words[0], name, reason), CAPTURE)


def long_names(sides):
    """A name that no path can have is not repeated."""
    most = "x" * MOST_PATH
    for words in with_input(most):
        sides.says(words, message(words[0], most.encode(), b"File name too long"), CAPTURE)
    for path in (most + "x", "-" * (MOST_PATH + 1), most * 5):
        for words in with_input(path):
            sides.says(words, message(words[0], b"the file's name", b"File name too long"), CAPTURE)


def odd_names(sides):
    """A message is one line, whatever the name is."""
    for path, name in (("a\nb", b"a?b"), ("\x01\x1f\x7f \u00e4", b"??? \xc3\xa4"), ("\n", b"?"),
                       ("refused\t1\n", b"refused?1?")):
        for words in with_input(path):
            sides.says(words, message(words[0], name, b"No such file or directory"), CAPTURE)


def unread(sides):
    """Inputs that can't be read: a directory, by its name and as standard input."""
    reason = b"Is a directory"
    with tempfile.TemporaryDirectory() as directory:
        good = written(directory, "good", CAPTURE)
        for words in READERS:
            sides.says(words + [directory], message(words[0], directory.encode(), reason), CAPTURE)
            for dash in ([], ["-"]):
                sides.says_of_directory(words + dash, directory, message(words[0], b"standard input", reason))
        for words in ([directory, good], [good, directory]):
            sides.says(["compare"] + words, message("compare", directory.encode(), reason))
        for words in (["-", good], [good, "-"]):
            sides.says_of_directory(["compare"] + words, directory, message("compare", b"standard input", reason))


# ---- Refusals ----

def refused_captures(sides):
    """A bad capture is told by the one line on standard output."""
    for words in CAPTURE_READERS:
        sides.says(words, b"", b"pins\t0\n261\n", b"refused\t2\n")
        sides.says(words + ["/dev/null"], b"", CAPTURE, b"refused\t1\n")
    sides.says(["compare", "-", "/dev/null"], b"", CAPTURE, b"refused\t2\t1\n")


def refused_lists(sides):
    """The line on standard output, and a sentence that says by which rule and where."""
    put = b"put\t5\t2\t167\n"
    cases = ((b"put\t5\t2\n", b"6", b"1", MALFORMED), (put + b"put\t5\t2\t167", b"6", b"2", MALFORMED),
             (put * 11 + b"put\t101\t2\t1\n", b"7", b"12", OUT_OF_RANGE),
             (put * 4095 + b"set\tpd\t2\n", b"7", b"4096", OUT_OF_RANGE), (put * 4097, b"9", b"0", TOO_MANY_LINES))
    with tempfile.TemporaryDirectory() as directory:
        for text, number, line, rule in cases:
            path = written(directory, "a list", text)
            place = b"" if line == b"0" else b", line " + line
            output = b"refused\t" + number + b"\t" + line + b"\n"
            for words, name in (([path], path.encode()), ([], b"standard input"), (["-"], b"standard input")):
                said = message("draw", name + place, b"refused by " + number, rule)
                sides.says(["draw", "3"] + words, said, text, output)


def long_lists(sides):
    """A list that has no room."""
    text = b"\n" * (lists.MOST_BYTES + 1)
    with tempfile.TemporaryDirectory() as directory:
        path = written(directory, "list", text)
        sides.says(["draw", "0", path], message("draw", path.encode(), b"longer than 1048576 bytes"))
    sides.says(["draw", "0"], message("draw", b"standard input", b"longer than 1048576 bytes"), text)


def unread_behind_a_part(sides):
    """Where reading fails behind a part, its lines are printed, and its unclear samples told before that."""
    reason = message("wires", b"standard input", b"Resource temporarily unavailable")
    start = b"pins\t2\n256\n"
    for samples, said in ((b"\2", b""), (b"\2\1", message("wires", b"1 unclear sample"))):
        for dash in [], ["-"]:
            sides.says_of_failing_pipe(["wires", "2"] + dash, samples, said + reason, start)
    lines = b"1\t256\tstart\t-\n"
    reason = message("trace", b"standard input", b"Resource temporarily unavailable")
    sides.says_of_failing_pipe(["trace"], b"pins\t0\n256\n", reason, lines)


def unclear_samples(sides):
    """Told behind the capture, with their number; before a byte that is no sample, too. A refusal alone is not told."""
    start = b"pins\t3\n256\n"
    with tempfile.TemporaryDirectory() as directory:
        for samples, said, output in (
                (b"\2\1", b"1 unclear sample", start), (b"\2\1\2", b"2 unclear samples", start),
                (b"\2\1\4\1", b"1 unclear sample", start + b"refused\t14\t2\n"),
                (b"\2\4", None, start + b"refused\t14\t1\n"), (b"\2", None, start),
                (b"\2" + b"\1\2" * 617, b"1234 unclear samples", start)):
            path = written(directory, "samples", samples)
            for words in [path], [], ["-"]:
                sides.says(["wires", "3"] + words, message("wires", said) if said else b"", samples, output)


THEMES = [helps, help_among_others, wrong_numbers_of_words, two_inputs, pins, pixels, unopened, long_names, odd_names,
          unread, refused_captures, refused_lists, long_lists, unread_behind_a_part, unclear_samples]
