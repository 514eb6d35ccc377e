"""Themes across the programs: what they say of one capture agrees, whatever the model says of it."""
import random

import pairs
import texts
from sides import Difference
from texts import BANKS, COLUMNS

ROWS = 67
DARK, UNDRIVEN = b"0 0 96", b"96 64 0"


def agree(sides, one, other, what):
    if one != other:
        raise Difference(f"{sides.theme}: {what}: {one!r} and {other!r}")
    sides.compared += 1


def lines(output):
    """The lines of an output, each as its fields."""
    return [line.split("\t") for line in output.decode().splitlines()]


def good_captures(sides, seed):
    source = random.Random(seed)
    for _ in range(12 if sides.quick else 60):
        yield source, texts.random_capture(source)


def cells(sides):
    """The last display byte that the trace tells of a cell is the row of the listing."""
    for _, data in good_captures(sides, 71):
        last = {}
        for number, _, what, _ in lines(sides.same(["trace"], data).output):
            word, *numbers = what.split()
            if word == "display":
                column, bank, byte = map(int, numbers)
                last[bank, column] = column, bank, byte, int(number)
        listing = [tuple(map(int, row)) for row in lines(sides.same(["replay"], data).output)[1:]]
        agree(sides, [last[place] for place in sorted(last)], listing, "the last writes of the trace and the listing")


def registers_told(trace):
    """The registers after the commands that a trace tells; X and Y are left out, since display bytes move them."""
    at_reset = {row[0]: row[1] for row in pairs.REGISTERS if row[0] not in ("x", "y")}
    held = dict(at_reset)
    for _, _, what, answer in trace:
        words = what.split()
        if what == "reset":
            held = dict(at_reset)
        elif what == "command page return":
            held["h"] = 0
        elif words[0] == "command" and answer == "taken":
            told = zip(words[1::2], words[2::2])
            held.update((name, int(value)) for name, value in told if name in held)
    return held


def registers(sides):
    """The commands that the trace tells as taken set the registers of the state; its answers are those that are counted."""
    for _, data in good_captures(sides, 72):
        trace = lines(sides.same(["trace"], data).output)
        state = dict(lines(sides.same(["state"], data).output))
        held = registers_told(trace)
        agree(sides, {name: int(state[name]) for name in held}, held, "the registers")
        bytes_sent = [answer for _, event, _, answer in trace if int(event) < 256]
        not_acknowledged = bytes_sent.count("not acknowledged")
        agree(sides, [int(state[name]) for name in ("count", "acknowledged", "not acknowledged")],
              [len(trace), len(bytes_sent) - not_acknowledged, not_acknowledged], "the counts")


def counted(listing):
    """How many pixels have each value, by the cells of a listing: a cell that is not listed holds 0."""
    values = [byte >> 2 * row & 3 for _, bank, byte, _ in listing for row in range(4 if bank < BANKS - 1 else 3)]
    counts = [values.count(value) for value in range(4)]
    return [counts[0] + ROWS * COLUMNS - sum(counts)] + counts[1:]


def counts(sides):
    """The counts of pixels that the state tells are those of the cells that are listed."""
    for _, data in good_captures(sides, 74):
        listing = [tuple(map(int, row)) for row in lines(sides.same(["replay"], data).output)[1:]]
        state = dict(lines(sides.same(["state"], data).output))
        agree(sides, [int(state[f"pixels {value}"]) for value in range(4)], counted(listing), "the counts of pixels")


def shown(colour):
    """What a pixel of this colour shows."""
    if colour in (DARK, UNDRIVEN):
        return "dark" if colour == DARK else "undriven"
    greys = {255 * (64 - level) // 64: level for level in [*range(63), 64]}
    return f"level {greys[int(colour.split()[0])]}"


def place_agrees(sides, told):
    """Four rows of the RAM to a bank, 101 columns, two bits of a byte to a row."""
    number = {name: int(value) for name, value in told.items() if name != "shows"}
    bank, row_of_bank = divmod(number["ram row"], 4)
    agree(sides, [number[name] for name in ("bank", "cell column", "place", "value")],
          [bank, number["column"], COLUMNS * bank + number["column"], number["byte"] >> 2 * row_of_bank & 3],
          "the place of a pixel")


def pixels(sides):
    """A pixel is the one of the picture, and its cell the one of the listing; its line is that of the event."""
    for source, data in good_captures(sides, 73):
        picture = sides.same(["view"], data).output.splitlines()[3:]
        listing = {(row[0], row[1]): row[2:] for row in lines(sides.same(["replay"], data).output)[1:]}
        trace = lines(sides.same(["trace"], data).output)
        for _ in range(5):
            row, column = source.randrange(ROWS), source.randrange(COLUMNS)
            told = dict(lines(sides.same(["who", str(row), str(column)], data).output))
            agree(sides, told["shows"], shown(picture[COLUMNS * row + column]), "what a pixel shows")
            place_agrees(sides, told)
            cell = told["cell column"], told["bank"]
            agree(sides, [told["byte"], told["event"]], listing.get(cell, ["0", "0"]), "the cell of a pixel")
            if told["event"] != "0":
                byte = trace[int(told["event"]) - 1][1]
                agree(sides, data.decode().splitlines()[int(told["line"]) - 1], byte, "the line of a pixel's event")


THEMES = [cells, registers, counts, pixels]
