"""What is printed of the captures that generate.c makes, by arithmetic alone.

    expected.py listing EVENTS          the listing of the capture of this many events
    expected.py comparison EVENTS OTHER the comparison of the captures of this many events
    expected.py state EVENTS            the chip after it
    expected.py pixel EVENTS            the last row and column of the glass after it
    expected.py line EVENTS             the last line of its trace
"""
import sys

COLUMNS, BANKS, FIRST = 101, 17, 4
PLACES = COLUMNS * BANKS


def last_writer(place, events):
    """The last of the events FIRST, FIRST + 1, ... that writes this place, 0 if none does; they go round the places."""
    writer = events - (events - FIRST - place) % PLACES
    return writer if writer >= FIRST else 0


def stored(bank, writer):
    return writer % 100 % (64 if bank == BANKS - 1 else 256) if writer else 0


def cells(events):
    """Column, bank, byte and event of every cell, by bank, then column."""
    for place in range(PLACES):
        bank, column = divmod(place, COLUMNS)
        writer = last_writer(place, events)
        yield column, bank, stored(bank, writer), writer


def address(events):
    """X and Y after the events: the place of the next display byte."""
    bank, column = divmod((events + 1 - FIRST) % PLACES, COLUMNS)
    return {"x": column, "y": bank}


def listing(events):
    print("column\tbank\tbyte\tevent")
    for cell in cells(events):
        if cell[3] != 0:
            print(*cell, sep="\t")


def comparison(events, other):
    print("column\tbank\tfirst byte\tsecond byte\tfirst event\tsecond event")
    for (column, bank, *first), (_, _, *second) in zip(cells(events), cells(other)):
        if first != second:
            print(column, bank, first[0], second[0], first[1], second[1], sep="\t")
    for name, value in address(events).items():
        if value != address(other)[name]:
            print(name, value, address(other)[name], sep="\t")


def pixels(events):
    """How many pixels have each value: four to a byte, three in the last bank."""
    values = [byte >> 2 * row & 3 for _, bank, byte, _ in cells(events) for row in range(3 if bank == BANKS - 1 else 4)]
    return {f"pixels {value}": values.count(value) for value in range(4)}


def state(events):
    """Registers are as after reset, but for the address; each event but START is a byte that is acknowledged."""
    names = "h do pd v d e mx my ps x y bs bsh dp prs hve s tc sm vop gr gs0 gs1 gs2 gs3 dof dm ec oc".split()
    held = dict.fromkeys(names, 0) | {"pd": 1, "dof": 1} | address(events)
    held |= {"pins": 0, "status": 0, "last rs": 1, "phase": "endless display bytes", "count": events,
             "acknowledged": events - 1, "not acknowledged": 0} | pixels(events)
    for name, value in held.items():
        print(name, value, sep="\t")


def pixel(events):
    column, bank, byte, writer = list(cells(events))[-1]
    told = {"row": 66, "column": column, "shows": "dark", "ram row": 66, "bank": bank, "cell column": column,
            "place": PLACES - 1, "byte": byte, "value": byte // 16 % 4, "event": writer,
            "line": writer + 1 if writer else 0}
    for name, value in told.items():
        print(name, value, sep="\t")


def line(events):
    column, bank, byte, _ = next(cell for cell in cells(events) if cell[3] == events)
    print(events, events % 100, f"display {column} {bank} {byte}", "acknowledged", sep="\t")


PRINTED = {"listing": listing, "comparison": comparison, "state": state, "pixel": pixel, "line": line}
PRINTED[sys.argv[1]](*map(int, sys.argv[2:]))
