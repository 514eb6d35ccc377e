"""Themes of `compare`: pairs of captures, good and bad; and outputs known beforehand."""
import random
import tempfile

import captures
import texts
from texts import BANKS, COLUMNS, READ_NACK, SENSOR, START, STOP, line

HEAD = b"column\tbank\tfirst byte\tsecond byte\tfirst event\tsecond event\n"

# Each register: its value after reset, another one, and the commands of a page that set it alone.
REGISTERS = [
    ("h", 0, 2, 0, [0x0A]), ("do", 0, 1, 0, [0x1C]), ("pd", 1, 0, 0, [0x10]), ("v", 0, 1, 0, [0x16]),
    ("d", 0, 1, 1, [0x06]), ("e", 0, 1, 1, [0x05]), ("mx", 0, 1, 1, [0x0C]), ("my", 0, 1, 1, [0x0A]),
    ("ps", 0, 1, 1, [0x09]), ("x", 0, 100, 0, [0xE4]), ("y", 0, 16, 0, [0x50]), ("bs", 0, 5, 1, [0x15]),
    ("bsh", 0, 1, 1, [0x39]), ("dp", 0, 6, 1, [0x46]), ("prs", 0, 1, 2, [0x06]), ("hve", 0, 1, 2, [0x05]),
    ("s", 0, 3, 2, [0x0B]), ("tc", 0, 2, 2, [0x12]), ("sm", 0, 1, 2, [0x21]), ("vop", 0, 100, 2, [0xE4]),
    ("gr", 0, 3, 3, [0x43]), ("gs0", 0, 60, 3, [0xBC]), ("gs1", 0, 61, 3, [0x41, 0xBD, 0x40]),
    ("gs2", 0, 62, 3, [0x42, 0xBE, 0x40]), ("gs3", 0, 63, 3, [0x43, 0xBF, 0x40]), ("dof", 1, 0, 4, [0x04]),
    ("dm", 0, 1, 4, [0x07]), ("ec", 0, 1, 4, [0x0A]), ("oc", 0, 1, 4, [0x09]),
]

# All of them, to the same values.
EVERY_REGISTER = texts.commands(
    0, 0x1A, 0xE4, 0x50, 0x09, 0x07, 0x0F, 0x15, 0x39, 0x46, 0x01, 0x0A, 0x07, 0x0B, 0x12, 0x21, 0xE4, 0x01,
    0x0B, 0xBC, 0x41, 0xBD, 0x42, 0xBE, 0x43, 0xBF, 0x01, 0x0C, 0x05, 0x0B, 0x01, 0x0A)

GOOD = texts.capture(captures.GOOD)


def pair(sides, first, second):
    return sides.same_of_files("compare", [first, second])


def exactly(sides, first, second, *lines):
    """Two lists of events: after the header these lines and no others; the same the other way round."""
    first, second = texts.capture(first), texts.capture(second)
    there = HEAD + b"".join(line(*words) for words in lines)
    back = HEAD + b"".join(line(*exchanged(words)) for words in lines)
    sides.known("compare", pair(sides, first, second), there)
    sides.known("compare", pair(sides, second, first), back)


def exchanged(words):
    """The words of a line where the first capture is the second one."""
    if len(words) == 3:
        name, one, other = words
        return name, other, one
    column, bank, byte, other_byte, event, other_event = words
    return column, bank, other_byte, byte, other_event, event


# ---- Cells ----

def cells(sides):
    """A cell differs by its byte, by the event that wrote it, or by both. Data begins with event 10."""
    put = texts.data(0, 5, 2, [167])
    exactly(sides, put, put)
    exactly(sides, put, [], (5, 2, 167, 0, 10, 0), ("x", 6, 0), ("y", 2, 0))
    exactly(sides, put, [STOP] + put, (5, 2, 167, 167, 10, 11))
    exactly(sides, put, texts.data(0, 5, 2, [168]), (5, 2, 167, 168, 10, 10))
    exactly(sides, texts.data(0, 5, 2, [0]), texts.commands(0, 0x86, 0x42), (5, 2, 0, 0, 10, 0))
    exactly(sides, put + put, put, (5, 2, 167, 167, 21, 10))
    exactly(sides, texts.data(0, 7, 16, [0xFF]), texts.data(0, 7, 16, [0x3F]))


def order(sides):
    """By bank, then column, however they were written; the corners too."""
    places = [(100, 16), (0, 16), (99, 15), (0, 1), (1, 0), (100, 0), (0, 0)]
    one = [e for column, bank in places for e in texts.data(0, column, bank, [1])]
    other = [e for column, bank in places for e in texts.data(0, column, bank, [2])]
    lines = [(column, bank, 1, 2, 10 + 11 * i, 10 + 11 * i) for i, (column, bank) in enumerate(places)]
    exactly(sides, one, other, *sorted(lines, key=lambda words: (words[1], words[0])))


def every_cell(sides):
    """All cells: other bytes, and other events, also such as differ in their high bits alone."""
    places = [(column, bank) for bank in range(BANKS) for column in range(COLUMNS)]
    content = [place % 64 for place in range(len(places))]
    whole = texts.data(0, 0, 0, content)
    other = [63 - byte for byte in content]
    exactly(sides, whole, texts.data(0, 0, 0, other),
            *((*place, content[i], other[i], 10 + i, 10 + i) for i, place in enumerate(places)))
    for before in (1, 256, 65536):
        exactly(sides, [STOP] * before + whole, whole,
                *((*place, content[i], content[i], 10 + i + before, 10 + i) for i, place in enumerate(places)))


# ---- Registers and what is none ----

def registers(sides):
    """All registers, in their order."""
    exactly(sides, [], EVERY_REGISTER, *(row[:3] for row in REGISTERS))
    exactly(sides, EVERY_REGISTER, EVERY_REGISTER + texts.commands(0, 0x01, 0xC0, 0x0A), ("x", 100, 64))


def single_registers(sides):
    for name, after_reset, value, page, words in REGISTERS:
        back = [0x01] if page else []
        exactly(sides, [], texts.commands(0, 0x08 | page, *words, *back), (name, after_reset, value))


def no_registers(sides):
    """Pins, count, phase, last RS and status byte are not told."""
    for events in ([START], [STOP], [STOP] * 300, [START, 0x78], [START, 0x78, 0x80], [START, 0x78, 0x40],
                   [START, 0x78, 0xC0], [START, 0x78, 0x40, STOP], [START, 0x79], [START, 0x79, READ_NACK],
                   [START, 0], [SENSOR + 7]):
        exactly(sides, [], events)
    measuring = texts.commands(0, 0x10, 0x0A, 0x21, 0x01)
    exactly(sides, measuring + [SENSOR + 7], measuring + [SENSOR + 200])
    for pins in (1, 2, 3):
        sides.known("compare", pair(sides, texts.capture([]), texts.capture([], pins)), HEAD)


# ---- Refusals ----

def refusals(sides):
    """The first capture is judged whole before the second."""
    bad_at = {1: b"", 2: b"pins\t0\n261\n", 13: texts.capture(texts.data(0, 5, 2, [167])) + b"01\n",
              70002: b"pins\t0\n" + b"7\n" * 70000 + b"7"}
    for number, bad in bad_at.items():
        sides.known("compare", pair(sides, bad, GOOD), line("refused", 1, number))
        sides.known("compare", pair(sides, GOOD, bad), line("refused", 2, number))
        for other in bad_at.values():
            sides.known("compare", pair(sides, bad, other), line("refused", 1, number))


def bad_lines(sides):
    """Bad lines of all kinds, in each of the captures and in both."""
    for first in sides.sample(captures.PINS_LINES, 10):
        pair(sides, first, GOOD)
        pair(sides, GOOD, first)
    for i, bad in enumerate(sides.sample(captures.BAD_EVENT_LINES, 10)):
        pair(sides, GOOD + bad + b"\n" + GOOD, GOOD)
        pair(sides, GOOD, GOOD + bad)
        pair(sides, b"pins\t0\n" * (i % 2) + bad, b"pins\t0\n" + bad + b"\n")


# ---- Captures at random ----

def byte_changed(source, events):
    places = [i for i, event in enumerate(events) if event < 256]
    if not places:
        return events
    at = source.choice(places)
    return events[:at] + [source.randrange(256)] + events[at + 1:]


def event_changed(source, events):
    at = source.randrange(len(events) + 1)
    return events[:at] + [source.choice([source.randrange(261), SENSOR])] + events[at + 1:]


def event_left_out(source, events):
    at = source.randrange(len(events) + 1)
    return events[:at] + events[at + 1:]


def cut(source, events):
    return events[:source.randrange(len(events) + 1)]


def longer(source, events):
    return events + texts.random_events(source, 0, 2)


def the_same(source, events):
    return events


CHANGES = [byte_changed, byte_changed, event_changed, event_left_out, cut, longer, the_same]


def random_pair(source):
    """Two captures that are alike for the most part; now and then for other pins, or not alike at all."""
    pins = source.choice([0, 0, 0, 1, 2, 3])
    events = texts.random_events(source, pins, source.choice([1, 3, 10]))
    changed = source.choice(CHANGES)(source, events)
    both = [texts.capture(events, pins), texts.capture(changed, source.choice([pins] * 9 + [pins ^ 1]))]
    if source.randrange(10) == 0:
        both[1] = texts.random_capture(source)
    source.shuffle(both)
    return both


def random_pairs(sides):
    source = random.Random(31)
    for _ in range(60 if sides.quick else 400):
        pair(sides, *random_pair(source))


def damaged_pairs(sides):
    source = random.Random(32)
    for i in range(30 if sides.quick else 200):
        both = random_pair(source)
        for which in ([0], [1], [0, 1])[i % 3]:
            both[which] = texts.damaged(source, both[which])
        pair(sides, *both)


def long_pairs(sides):
    """Captures that end around the sizes that a buffer may have, before a longer and a shorter one."""
    data = texts.random_capture(random.Random(33), 3000)
    for size in (4096, 16384, 65536, 131072):
        for end in sides.sample(range(size - 4, size + 5), 2):
            whole_lines = data[:end].rpartition(b"\n")[0] + b"\n"
            pair(sides, whole_lines, data)
            pair(sides, data, whole_lines)
            pair(sides, data[:end], GOOD)
            pair(sides, GOOD, data[:end])


def through_a_pipe(sides):
    """One of the two comes through a pipe, in pieces."""
    source = random.Random(34)
    with tempfile.NamedTemporaryFile() as file:
        file.write(GOOD)
        file.flush()
        for i in sides.sample(range(16), 5):
            words = ["/dev/stdin", file.name] if i % 2 else [file.name, "/dev/stdin"]
            data = texts.random_capture(source, 3)
            sides.same_in_pieces(["compare"] + words, texts.damaged(source, data) if i % 4 > 1 else data,
                                 lambda whole: captures.in_parts(source, whole))


# Those that find an error with few comparisons come first.
THEMES = [cells, order, registers, every_cell, refusals, no_registers, single_registers, random_pairs,
          damaged_pairs, bad_lines, long_pairs, through_a_pipe]
