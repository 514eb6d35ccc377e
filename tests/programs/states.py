"""Themes of `state`: the chip at the end of a capture, how many bytes were acknowledged, and the counts of pixels."""
import random

import captures
import pairs
import texts
from texts import READ_ACK, READ_NACK, RESET, SENSOR, START, STOP

STATE = ["state"]

# Behind the registers, after reset and no event.
REST = {"pins": 0, "status": 0, "last rs": 0, "phase": "idle", "count": 0, "acknowledged": 0, "not acknowledged": 0,
        "pixels 0": 6767, "pixels 1": 0, "pixels 2": 0, "pixels 3": 0}
AT_RESET = {row[0]: row[1] for row in pairs.REGISTERS} | REST


def exactly(sides, events, pins=0, **values):
    """After these events the chip is as after reset, but for these values. Blanks in names are written as _."""
    values = {name.replace("_", " "): value for name, value in values.items()}
    assert set(values) <= set(AT_RESET)
    state = AT_RESET | {"pins": pins, "count": len(events)} | values
    sides.exactly(STATE, texts.capture(events, pins), b"".join(texts.line(*pair) for pair in state.items()))


def pixels(*counts):
    return {f"pixels_{value}": count for value, count in enumerate(counts)}


# ---- Known beforehand ----

def known(sides):
    """After reset, after the first marked stream, and with every register changed."""
    for pins in range(4):
        exactly(sides, [], pins)
        exactly(sides, [START, 0x78 | pins << 1, START, 0x79 | pins << 1], pins, acknowledged=2, phase="reading")
    exactly(sides, texts.data(0, 5, 2, [167]), x=6, y=2, last_rs=1, acknowledged=9, **pixels(6763, 1, 2, 1))
    changed = {row[0]: row[2] for row in pairs.REGISTERS}
    count = len([event for event in pairs.EVERY_REGISTER if event < 256])
    exactly(sides, pairs.EVERY_REGISTER, acknowledged=count, **changed)
    exactly(sides, pairs.EVERY_REGISTER + [RESET], acknowledged=count)


# What leads to each phase; then last RS, and how many bytes are acknowledged and not.
PHASES = [
    ("idle", [], 0, 0, 0), ("idle", [STOP], 0, 0, 0), ("idle", [START, 0x78, STOP], 0, 1, 0), ("idle", [7], 0, 0, 1),
    ("address awaited", [START], 0, 0, 0), ("address awaited", [START, 0x78, 0x40, START], 1, 2, 0),
    ("ignoring", [START, 0x7A], 0, 0, 1), ("ignoring", [START, 0x00, 0x78, 0x80], 0, 0, 3),
    ("ignoring", [START, 0x79, 5], 0, 1, 1), ("ignoring", [START, 0x79, READ_NACK, 5, 6], 0, 1, 2),
    ("control byte awaited", [START, 0x78], 0, 1, 0),
    ("control byte awaited", [START, 0x78, 0xC0, 0, 0x80, 0], 0, 5, 0),
    ("one command awaited", [START, 0x78, 0x80], 0, 2, 0), ("one display byte awaited", [START, 0x78, 0xFF], 1, 2, 0),
    ("endless commands", [START, 0x78, 0x3F, 0, 0], 0, 4, 0), ("endless display bytes", [START, 0x78, 0x40], 1, 2, 0),
    ("reading", [START, 0x79], 0, 1, 0), ("reading", [START, 0x79, READ_ACK, READ_ACK], 0, 1, 0),
    ("read ended", [START, 0x79, READ_NACK], 0, 1, 0), ("read ended", [START, 0x79, READ_NACK, READ_ACK], 0, 1, 0),
    ("idle", [START, 0x78, 0x40, RESET], 0, 2, 0), ("idle", [START, 0x79, RESET, 0x79], 0, 1, 1),
]


def phases(sides):
    for phase, events, last_rs, good, bad in PHASES:
        x = 1 if 0xC0 in events else 0
        exactly(sides, events, phase=phase, last_rs=last_rs, acknowledged=good, not_acknowledged=bad, x=x)


def answers(sides):
    """A command byte is acknowledged whether it is taken or not; a byte that is read is none from the master."""
    head = [START, 0x78, 0x00]
    exactly(sides, head + [0x00, 0x01, 0xE5, 0x51, 0x0D, 0x04, 0x7F], phase="endless commands", acknowledged=9)
    exactly(sides, head + list(range(2, 8)) * 50, phase="endless commands", acknowledged=302)
    exactly(sides, [5] * 300, not_acknowledged=300)
    exactly(sides, [STOP] * 70000 + [5] * 70000, not_acknowledged=70000)
    exactly(sides, [READ_ACK, READ_NACK, START, READ_ACK, READ_NACK, STOP, SENSOR + 255, RESET])


def status(sides):
    """The status byte takes a reading where SM is 1 and PD is 0, and no other way."""
    on, measure = texts.commands(0, 0x10), texts.commands(0, 0x0A, 0x21)
    reading = [SENSOR + 200]
    exactly(sides, on + measure + reading, pd=0, h=2, sm=1, status=200, acknowledged=8)
    exactly(sides, on + measure + reading + [SENSOR], pd=0, h=2, sm=1, status=0, acknowledged=8)
    exactly(sides, on + reading + measure, pd=0, h=2, sm=1, acknowledged=8)
    exactly(sides, measure + reading, h=2, sm=1, acknowledged=5)
    exactly(sides, on + reading, pd=0, acknowledged=3)
    exactly(sides, on + measure + reading + [RESET], acknowledged=8)


def written(sides, head, y, content, counts, x=0, **values):
    """These bytes from column x of a bank on, after these commands, leave these counts."""
    events = texts.commands(0, *head, 0x80 | x, 0x40 | y)[:-1] + [0x40] + content + [STOP]
    sent = len([event for event in events if event < 256])
    exactly(sides, events, x=x + len(content), y=y, last_rs=1, acknowledged=sent, **pixels(*counts), **values)


def counts(sides):
    """The pixels of each value: of the byte as it is stored, for the byte that stood there, three of them in bank 16."""
    written(sides, [], 0, [0x1B], (6764, 1, 1, 1))
    written(sides, [], 15, [0xFF, 0xFF], (6759, 0, 0, 8))
    written(sides, [], 16, [0xFF], (6764, 0, 0, 3))
    written(sides, [], 16, [0xC0, 0x40], (6767, 0, 0, 0))
    written(sides, [], 7, [0x55] * 50, (6567, 200, 0, 0))
    written(sides, [], 7, [0xAA] * 50, (6567, 0, 200, 0))
    written(sides, [0x1C], 3, [0x01], (6766, 0, 1, 0), do=1)
    written(sides, [0x1C], 16, [0x03], (6767, 0, 0, 0), do=1)
    written(sides, [0x1C], 16, [0xC0], (6766, 0, 0, 1), do=1)
    written(sides, [0x09, 0x0C, 0x01], 3, [0xFF], (6763, 0, 0, 4), mx=1, x=20)
    twice = texts.data(0, 9, 4, [0xFF]) + texts.data(0, 9, 4, [0x05])
    exactly(sides, twice, x=10, y=4, last_rs=1, acknowledged=18, **pixels(6765, 2, 0, 0))
    exactly(sides, twice + [RESET], acknowledged=18, **pixels(6765, 2, 0, 0))
    exactly(sides, [START, 0x7A, 0x40, 0xFF, 0xFF, STOP], not_acknowledged=4)
    every = [0x1B] * 1717
    exactly(sides, [START, 0x78, 0x40] + every, phase="endless display bytes", last_rs=1, acknowledged=1719,
            **pixels(1616, 1717, 1717, 1717))


def single_registers(sides):
    for name, _, value, page, words in pairs.REGISTERS:
        events = texts.commands(0, 0x08 | page, *words, *([0x01] if page else []))
        exactly(sides, events, acknowledged=len([event for event in events if event < 256]), **{name: value})


def refusals(sides):
    for line, data in (1, b""), (1, b"pins\t4\n"), (2, b"pins\t0\n261\n"), (5, b"pins\t0\n256\n120\n7\n01\n257\n"), \
            (3, b"pins\t0\n256\n257"), (70002, b"pins\t0\n" + b"7\n" * 70000 + b"\n"):
        sides.exactly(STATE, data, b"refused\t%d\n" % line)


# ---- Against the model ----

def samples(sides):
    for path in texts.sample_captures():
        sides.same(STATE + [path])


def every_command(sides):
    """A command of every kind as the last one, in each page: each byte is the last one in some page."""
    for page in range(5):
        for byte in sides.sample(range(page, 256, 4), 24):
            sides.same(STATE, texts.capture(texts.commands(0, 0x0B, 0x42, 0x01, 0x08 | page, byte)))


def bad_lines(sides):
    good = texts.capture(captures.GOOD)
    for first in sides.sample(captures.PINS_LINES, 8):
        sides.same(STATE, first)
    for bad in sides.sample(captures.BAD_EVENT_LINES, 8):
        sides.same(STATE, good + bad + b"\n" + good)
        sides.same(STATE, good + bad)


def cuts(sides):
    """The state after each event of a capture; captures that end at any place, and such as come in pieces."""
    events = texts.random_events(random.Random(61), 2, 4)
    for length in sides.sample(range(min(len(events), 120)), 10):
        sides.same(STATE, texts.capture(events[:length], 2))
    for data in captures.SMALL:
        for at in sides.sample(range(1, len(data)), 2):
            sides.same(STATE, data[:at])
            sides.same_in_pieces(STATE, data, lambda whole: (whole[:at], whole[at:]))
        sides.same_in_pieces(STATE, data, lambda whole: [whole[k:k + 1] for k in range(len(whole))])


def long_captures(sides):
    """Ends around the sizes that a buffer may have."""
    data = texts.random_capture(random.Random(62), 3000)
    for size in (512, 4096, 8192, 16384, 32768, 65536, 131072):
        for end in sides.sample(range(size - 4, size + 5), 2):
            sides.same(STATE, data[:end].rpartition(b"\n")[0] + b"\n")
            sides.same(STATE, data[:end])


def random_captures(sides):
    source = random.Random(63)
    for i in range(40 if sides.quick else 300):
        data = texts.random_capture(source)
        sides.same(STATE, texts.damaged(source, data) if i % 4 == 0 else data)


# Those that find an error with few comparisons come first.
THEMES = [known, refusals, phases, answers, status, counts, single_registers, samples, every_command, random_captures,
          bad_lines, long_captures, cuts]
