"""Themes of `who`: what pixels show, the cells behind them and the events that wrote these."""
import os
import random
import tempfile

import captures
import texts
from texts import BANKS, COLUMNS, RESET, STOP

ROWS = 67
NAMES = "row", "column", "shows", "ram row", "bank", "cell column", "place", "byte", "value", "event", "line"

# Display on, each value in its own register; mode 10 shows the value's.
LIT = [0x01, 0x10, 0x0C, 0x04, 0x01, 0x0B, 0x40, 0x8A, 0x41, 0x94, 0x42, 0xA9, 0x43, 0xBF, 0x01, 0x09]
MODES = {"00": 0x04, "01": 0x05, "10": 0x06, "11": 0x07}


def lit(mode="10", mirror=0x08, part=0x40, pins=0):
    """Display on, in this mode. MIRROR is the command of MX, MY and PS, PART that of DP."""
    return texts.commands(pins, *LIT, MODES[mode], mirror, part)


def who(sides, row, column, data):
    return sides.same(["who", str(row), str(column)], data)


def exactly(sides, data, *values):
    """The values of the eleven lines, in their order."""
    output = b"".join(texts.line(*pair) for pair in zip(NAMES, values, strict=True))
    sides.exactly(["who", str(values[0]), str(values[1])], data, output)


# ---- Known beforehand ----

PUT = texts.data(0, 5, 2, [167])


def known(sides):
    """The cell of the first marked stream: dark, in the modes, upside down, and after a reset pulse."""
    put = texts.capture(PUT)
    for row, value in (8, 3), (9, 1), (10, 2), (11, 2):
        exactly(sides, put, row, 5, "dark", row, 2, 5, 207, 167, value, 10, 11)
        for mode, level in ("00", 10), ("01", 64), ("10", [10, 20, 41, 64][value]), ("11", [64, 41, 20, 10][value]):
            exactly(sides, texts.capture(PUT + lit(mode)), row, 5, f"level {level}", row, 2, 5, 207, 167, value, 10, 11)
        exactly(sides, texts.capture(PUT + lit(mirror=0x0A)), 66 - row, 5, f"level {[10, 20, 41, 64][value]}",
                row, 2, 5, 207, 167, value, 10, 11)
        exactly(sides, texts.capture(PUT + lit() + [RESET]), row, 5, "dark", row, 2, 5, 207, 167, value, 10, 11)
    exactly(sides, put, 7, 5, "dark", 7, 1, 5, 106, 0, 0, 0, 0)
    exactly(sides, put, 8, 6, "dark", 8, 2, 6, 208, 0, 0, 0, 0)
    exactly(sides, texts.capture(PUT + lit()), 66, 100, "level 10", 66, 16, 100, 1716, 0, 0, 0, 0)
    exactly(sides, b"pins\t3\n", 0, 0, "dark", 0, 0, 0, 0, 0, 0, 0, 0)


def mirrored(sides):
    """MX is in force when a byte is written, and no more when it is shown; DO and bank 16 too."""
    before = texts.commands(0, 0x09, 0x0C)
    first = len(before) + 10
    data = texts.capture(before + PUT)
    exactly(sides, data, 8, 95, "dark", 8, 2, 95, 297, 167, 3, first, first + 1)
    exactly(sides, data, 8, 5, "dark", 8, 2, 5, 207, 0, 0, 0, 0)
    exactly(sides, texts.capture(PUT + before), 8, 5, "dark", 8, 2, 5, 207, 167, 3, 10, 11)
    exactly(sides, texts.capture(PUT + before), 8, 95, "dark", 8, 2, 95, 297, 0, 0, 0, 0)
    last = texts.capture(texts.data(0, 100, 16, [0xD8]))
    for row, value in (64, 0), (65, 2), (66, 1):
        exactly(sides, last, row, 100, "dark", row, 16, 100, 1716, 24, value, 10, 11)
    swapped = texts.capture(texts.commands(0, 0x1C) + PUT)
    for row, value in (8, 1), (9, 1), (10, 2), (11, 3):
        exactly(sides, swapped, row, 5, "dark", row, 2, 5, 207, 229, value, 15, 16)


def events(sides):
    """The last event that wrote the cell, by its number and its line, however far into the capture."""
    for before in (0, 1, 244, 245, 246, 300, 65525, 65526, 65536, 70000):
        data = texts.capture(PUT + [STOP] * before + PUT + [STOP] * 5)
        exactly(sides, data, 8, 5, "dark", 8, 2, 5, 207, 167, 3, before + 21, before + 22)
    stray = texts.capture(PUT + texts.data(0, 5, 2, [0]))
    exactly(sides, stray, 8, 5, "dark", 8, 2, 5, 207, 0, 0, 21, 22)


def driven(sides):
    """Which rows are driven where PS is 1: eight of them for DP 000 and 111, none for another DP."""
    for mirror, part, rows in ((0x0B, 0x47, range(3, 11)), (0x09, 0x47, range(56, 64)), (0x09, 0x40, range(0, 8)),
                               (0x0B, 0x40, range(59, 67)), (0x09, 0x43, range(0)), (0x08, 0x43, range(0, 67))):
        data = texts.capture(lit(mirror=mirror, part=part))
        for row in [*range(12), 33, *range(55, ROWS)]:
            ram_row = 66 - row if mirror & 2 else row
            bank = ram_row // 4
            exactly(sides, data, row, 7, "level 10" if row in rows else "undriven", ram_row, bank, 7, 101 * bank + 7,
                    0, 0, 0, 0)


def refusals(sides):
    for line, data in (1, b""), (1, b"pins\t4\n"), (2, b"pins\t0\n261\n"), (13, texts.capture(PUT) + b"257"):
        sides.exactly(["who", "8", "5"], data, b"refused\t%d\n" % line)


# ---- Wrong calls ----

NO_NUMBERS = ["", " ", "-1", "+1", "01", "00", "007", "0x1", "1.0", "1e1", " 1", "1 ", "1,", "a", "1a", "a1", ":",
              "/", "1000", "0000", "256", "257", "300", "323", "357", "512", "999", "65536", "65541", "4294967296",
              "4294967301", "18446744073709551616", "18446744073709551621", "row", "-", "\u0661"]


def wrong_calls(sides):
    """Off the glass, no numbers, too few words or too many; then the capture does not matter."""
    data = texts.capture(PUT)
    for words in ([], ["8"], ["8", "5", "a", "b"], ["67", "101"], ["101", "66"], ["5", "8", ""],
                  ["67", "5", "/dev/null"], ["/dev/stdin", "8", "5"]):
        sides.same(["who"] + words, data)
    for row, column in (66, 100), (66, 0), (0, 100), (10, 10), (9, 99):
        who(sides, row, column, data)
        who(sides, row, 101 + column, data)
        who(sides, 67 + row, column, data)
    for word in NO_NUMBERS:
        sides.same(["who", word, "5"], data)
        sides.same(["who", "8", word], data)
    sides.same(["who", "67", "0"], b"")


# ---- Against the model ----

def drawn(source, pins=0):
    """Much of the memory written, some of it twice, along banks and columns, mirrored and not."""
    out = []
    for way in (0x10, 0x1A, 0x12):
        out += texts.commands(pins, 0x01, way, 0x09, source.choice([0x08, 0x0C]), 0x01)
        content = [source.randrange(256) for _ in range(700)]
        out += texts.data(pins, source.randrange(COLUMNS), source.randrange(BANKS), content)
    return out


def every_row(sides):
    """All rows and all columns, with a chip in each of the ways to show them."""
    source = random.Random(51)
    ways = [lit("10"), lit("11", mirror=0x0E), lit("10", mirror=0x0B, part=0x47), lit("01", mirror=0x0D),
            lit("00") + texts.commands(0, 0x01, 0x14), lit() + texts.commands(0, 0x01, 0x0C, 0x06)]
    with tempfile.TemporaryDirectory() as directory:
        path = os.path.join(directory, "capture")
        for i, way in enumerate(ways):
            with open(path, "wb") as file:
                file.write(texts.capture(drawn(source) + way))
            for row in sides.sample(range(ROWS), 17):
                sides.same(["who", str(row), str((row * 37 + i) % COLUMNS), path])
            for column in sides.sample(range(COLUMNS), 9) if i < 3 else ():
                sides.same(["who", str((column * 23 + i) % ROWS), str(column), path])


def samples(sides):
    source = random.Random(53)
    for path in texts.sample_captures():
        for _ in range(4):
            sides.same(["who", str(source.randrange(ROWS)), str(source.randrange(COLUMNS)), path])


def bad_lines(sides):
    good = texts.capture(captures.GOOD)
    for first in sides.sample(captures.PINS_LINES, 8):
        who(sides, 8, 5, first)
    for bad in sides.sample(captures.BAD_EVENT_LINES, 8):
        who(sides, 8, 5, good + bad + b"\n" + good)
        who(sides, 66, 100, good + bad)


def cuts(sides):
    """A capture that ends at any place, and one that comes in two pieces or byte by byte."""
    for data in captures.SMALL:
        for at in sides.sample(range(1, len(data)), 2):
            who(sides, 8, 5, data[:at])
            sides.same_in_pieces(["who", "8", "5"], data, lambda whole: (whole[:at], whole[at:]))
        sides.same_in_pieces(["who", "9", "5"], data, lambda whole: [whole[k:k + 1] for k in range(len(whole))])


def random_pixels(sides):
    """Pixels of random captures, cells that were written among them."""
    source = random.Random(52)
    for i in range(40 if sides.quick else 200):
        data = texts.random_capture(source)
        for _ in range(2):
            who(sides, source.randrange(ROWS), source.randrange(COLUMNS), data)
        if i % 4 == 0:
            who(sides, source.randrange(ROWS), source.randrange(COLUMNS), texts.damaged(source, data))


# Those that find an error with few comparisons come first.
THEMES = [known, refusals, mirrored, wrong_calls, events, driven, every_row, samples, random_pixels, bad_lines, cuts]
