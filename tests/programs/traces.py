"""Themes of `trace`: each event in words, and its answer; lines that come before the input ends."""
import random

import captures
import lists
import texts
from texts import READ_ACK, READ_NACK, RESET, SENSOR, START, STOP

TRACE = ["trace"]

ACK, NACK = "acknowledged", "not acknowledged"
START_LINE, STOP_LINE = (START, "start", "-"), (STOP, "stop", "-")
WRITE = [START_LINE, (0x78, "address 60 write", ACK)]
ONE, ENDLESS = (0x80, "control one command", ACK), (0x00, "control endless commands", ACK)
ONE_BYTE, BYTES = (0xC0, "control one display byte", ACK), (0x40, "control endless display bytes", ACK)


def printed(rows, first=1):
    """The lines of these events: number, words and answer of each, the first with this number."""
    return b"".join(b"%d\t%d\t%s\t%s\n" % (first + i, event, words.encode(), answer.encode())
                    for i, (event, words, answer) in enumerate(rows))


def exactly(sides, rows, pins=0, behind=b"", refusal=b""):
    """The events of these rows, and what may stand behind them in the capture: these lines and no others."""
    capture = texts.capture([row[0] for row in rows], pins)
    sides.exactly(TRACE, capture + behind, printed(rows) + refusal)


# ---- Known beforehand ----

MARKED = WRITE + [ONE, (0x01, "command page return", "taken"), ONE, (0x85, "command x 5", "taken"),
                  ONE, (0x42, "command y 2", "taken"), BYTES, (0xA7, "display 5 2 167", ACK), STOP_LINE]


def messages(sides):
    """The first marked stream, and messages for other chips, for none, and of no use."""
    exactly(sides, MARKED)
    exactly(sides, [])
    for pins in range(4):
        rows = [START_LINE]
        for other in range(4):
            answer = ACK if other == pins else NACK
            rows += [(0x78 | other << 1, f"address {60 + other} write", answer), START_LINE,
                     (0x79 | other << 1, f"address {60 + other} read", answer), START_LINE]
        exactly(sides, rows + [(0xF8, "address 124 write", NACK), (0x80, "ignored", NACK), STOP_LINE,
                               (0x78, "ignored", NACK)], pins)


# Page, byte, what is said of it, and the answer; GR is 2.
COMMANDS = [
    (0, 0x00, "nop", "taken"), (0, 0x01, "page return", "taken"), (0, 0x08, "h 0", "taken"), (0, 0x0C, "h 4", "taken"),
    (0, 0x0D, "h 5", "out of range"), (0, 0x0F, "h 7", "out of range"), (0, 0x14, "do 0 pd 1 v 0", "taken"),
    (0, 0x12, "do 0 pd 0 v 1", "taken"), (0, 0x18, "do 1 pd 0 v 0", "taken"), (0, 0x15, None, "unknown"),
    (0, 0x50, "y 16", "taken"), (0, 0x51, "y 17", "out of range"), (0, 0x5F, "y 31", "out of range"),
    (0, 0xE4, "x 100", "taken"), (0, 0xE5, "x 101", "out of range"), (0, 0xFF, "x 127", "out of range"),
    (0, 0x04, None, "unknown"), (0, 0x7F, None, "unknown"),
    (1, 0x00, "nop", "taken"), (1, 0x06, "d 1 e 0", "taken"), (1, 0x05, "d 0 e 1", "taken"),
    (1, 0x0C, "mx 1 my 0 ps 0", "taken"), (1, 0x0A, "mx 0 my 1 ps 0", "taken"), (1, 0x09, "mx 0 my 0 ps 1", "taken"),
    (1, 0x16, "bs 6", "taken"), (1, 0x39, "bsh 1", "taken"), (1, 0x46, "dp 6", "taken"), (1, 0x80, None, "unknown"),
    (2, 0x06, "prs 1 hve 0", "taken"), (2, 0x05, "prs 0 hve 1", "taken"), (2, 0x0E, "s 6", "taken"),
    (2, 0x13, "tc 3", "taken"), (2, 0x21, "sm 1", "taken"), (2, 0xFF, "vop 127", "taken"), (2, 0x40, None, "unknown"),
    (3, 0x42, "gr 2", "taken"), (3, 0xA8, "gs2 40", "taken"), (3, 0xBF, "gs2 63", "taken"), (3, 0xC0, None, "unknown"),
    (4, 0x06, "dof 1 dm 0", "taken"), (4, 0x05, "dof 0 dm 1", "taken"), (4, 0x0A, "ec 1 oc 0", "taken"),
    (4, 0x09, "ec 0 oc 1", "taken"), (4, 0x40, "row block swap", "taken"), (4, 0x58, "row block swap", "taken"),
    (4, 0x41, None, "unknown"), (4, 0x01, "page return", "taken"),
]


def command(byte, words, answer="taken"):
    return byte, f"command {words}" if words else "command", answer


def rows_of_the_table(sides):
    """Every row, in its page and with its fields from the high end; numbers in range, and out of it."""
    rows = WRITE + [ENDLESS, command(0x0B, "h 3"), command(0x42, "gr 2"), command(0x01, "page return")]
    for page, byte, words, answer in COMMANDS:
        rows += [command(0x08 | page, f"h {page}"), command(byte, words, answer)]
        rows += [command(0x01, "page return")]
    exactly(sides, rows)


def grey_registers(sides):
    """A level is told with the name of the register that GR selects before it."""
    rows = WRITE + [ENDLESS, command(0x0B, "h 3"), command(0x80, "gs0 0")]
    for n in (3, 1, 2, 0):
        rows += [command(0x40 | n, f"gr {n}"), command(0x80 | 10 + n, f"gs{n} {10 + n}")]
    exactly(sides, rows + [command(0x42, "gr 2"), (RESET, "reset", "-")] + WRITE
            + [ENDLESS, command(0x0B, "h 3"), command(0xBF, "gs0 63")])


def display_bytes(sides):
    """The cell and what is stored there: mirrored, in the other order, in bank 16, along banks and columns."""
    there = [command(0xE3, "x 99"), command(0x4F, "y 15")]
    rows = WRITE + [ENDLESS] + there + WRITE + [BYTES, (0xFF, "display 99 15 255", ACK), (1, "display 100 15 1", ACK),
                                                (0xC1, "display 0 16 1", ACK), (0xFF, "display 1 16 63", ACK)]
    rows += WRITE + [ENDLESS, command(0x1E, "do 1 pd 1 v 1"), command(0x09, "h 1"), command(0x0C, "mx 1 my 0 ps 0"),
                     command(0x01, "page return")] + there
    rows += WRITE + [BYTES, (0x01, "display 1 15 128", ACK), (0xFC, "display 1 16 63", ACK),
                     (0x03, "display 0 0 192", ACK)] + WRITE + [ONE_BYTE, (0xA7, "display 0 1 229", ACK),
                     (0xBF, "control one command", ACK), (0xE5, "command x 101", "out of range"),
                     (0xFF, "control one display byte", ACK), (0x80, "display 0 2 1", ACK), STOP_LINE]
    exactly(sides, rows)


def reads(sides):
    """Readings of the sensor, and what is read in each phase; a byte while the chip sends."""
    read, last = (READ_ACK, "read", "255"), (READ_NACK, "last read", "255")
    rows = [read, last, (SENSOR + 9, "sensor 9", "-"), START_LINE, read, last]
    rows += WRITE[1:] + [read, last, (0x80, "control one command", ACK), read, command(0x10, "do 0 pd 0 v 0"), ENDLESS,
                         last, command(0x0A, "h 2"), command(0x21, "sm 1"), (SENSOR + 37, "sensor 37", "-"), read]
    reading = [START_LINE, (0x79, "address 60 read", ACK)]
    rows += reading + [(READ_ACK, "read", "37"), (SENSOR + 255, "sensor 255", "-"), (READ_NACK, "last read", "255"),
                       read, (0x79, "ignored", NACK), read, (0x79, "ignored", NACK)]
    rows += reading + [(SENSOR, "sensor 0", "-"), (READ_NACK, "last read", "0"), last]
    rows += reading + [(0, "ignored", NACK), read] + WRITE + [BYTES] + reading + [read, (RESET, "reset", "-"), last]
    exactly(sides, rows + reading + [(READ_ACK, "read", "0"), STOP_LINE, read])


def refusals(sides):
    """At a bad line the lines of the events before it stand, and nothing follows the refusal."""
    for bad in (b"261\n", b"01\n", b"\n", b"256", b"999\n120\n", b"1000\n", b"25 6\n257\n"):
        exactly(sides, MARKED, behind=bad, refusal=b"refused\t13\n")
        exactly(sides, [], behind=bad, refusal=b"refused\t2\n")
    for before in range(len(MARKED)):
        exactly(sides, MARKED[:before], behind=b"120 \n256\n", refusal=b"refused\t%d\n" % (before + 2))
    for first in (b"", b"pins\t4\n256\n", b"256\n120\n", b"pins\t0"):
        sides.exactly(TRACE, first, b"refused\t1\n")


def kept_open(sides):
    """A line is printed when its event has come, and the input goes on."""
    rows = MARKED[:4]
    steps = [(b"pins\t0\n", b"")]
    steps += [(b"%d\n" % row[0], printed([row], i + 1)) for i, row in enumerate(rows)]
    steps += [(b"128\n133\n12", printed(MARKED[4:6], 5)), (b"8", b""), (b"\n", printed(MARKED[6:7], 7)), (b"6", b"")]
    ends = [(b"6\n64\n167\n25", printed(MARKED[7:10], 8)), (b"7\n", printed(MARKED[10:], 11))]
    sides.as_it_comes(TRACE, steps + ends)
    sides.as_it_comes(TRACE, steps + [(b"6\n261\n", printed(MARKED[7:8], 8) + b"refused\t10\n")])
    many = [STOP_LINE] * 65540
    sides.as_it_comes(TRACE, [(b"pins\t3\n", b"")] + [(b"257\n", printed([STOP_LINE], i + 1)) for i in range(5)])
    sides.exactly(TRACE, texts.capture([row[0] for row in many]), printed(many))


# ---- Against the model ----

def every_command(sides):
    """Each byte as a command in each page, with each GR, as one command and among endless ones."""
    for gr in range(4):
        for page in range(5):
            one, endless = [], []
            for byte in range(256):
                one += texts.commands(0, 0x01, 0x0B, 0x40 | gr, 0x01, 0x08 | page, byte)
                endless += [0x01, 0x0B, 0x40 | gr, 0x01, 0x08 | page, byte]
            sides.same(TRACE, texts.capture(one))
            sides.same(TRACE, texts.capture([START, 0x78, 0x3F] + endless))


# What leads to each phase, from idle.
PHASES = [[], [START], [START, 0x00], [START, 0x78], [START, 0x78, 0x80], [START, 0x78, 0xC0], [START, 0x78, 0x00],
          [START, 0x78, 0x40], [START, 0x79], [START, 0x79, READ_NACK]]


def every_event(sides):
    """Each event number in each phase, with last RS 0 and 1, and after what else it may depend on."""
    measuring = texts.commands(0, 0x10, 0x0A, 0x21, 0x01) + [SENSOR + 77]
    mirrored = texts.commands(0, 0x1C, 0x09, 0x0C, 0x01, 0xE4, 0x50)
    for before in ([], measuring, mirrored, [START, 0x78, 0x40, STOP]):
        for way in PHASES:
            for numbers in (range(0, 256), [*range(256, 261), *range(SENSOR, SENSOR + 256, 15)]):
                sides.same(TRACE, texts.capture([e for n in numbers for e in [STOP] + before + way + [n, 258, n]]))


def cells(sides):
    """Every cell, by banks and by columns, in both orders of the bits, mirrored and not."""
    for way in range(0x10, 0x20, 2):
        for mirror in (0x08, 0x0C, 0x0E):
            head = texts.commands(1, 0x01, way, 0x09, mirror, 0x01)
            sides.same(TRACE, texts.capture(head + texts.data(1, 98, 14, [i * 37 % 256 for i in range(1800)]), 1))


def samples(sides):
    """The captures of samples/, and one that is drawn and piped on."""
    for path in texts.sample_captures():
        sides.same(TRACE + [path])
    sides.same_piped(["draw", "2"], TRACE, lists.LIT + b"put\t5\t2\t167\nfill\t99\t100\t15\t16\t63\n")
    sides.same_piped(["draw", "2"], TRACE, b"put\t5\t2\n")


def bad_lines(sides):
    good = texts.capture(captures.GOOD)
    lines = good.splitlines(keepends=True)
    for first in sides.sample(captures.PINS_LINES, 12):
        sides.same(TRACE, first + b"256\n120\n")
    for i, bad in enumerate(sides.sample(captures.BAD_EVENT_LINES, 12)):
        sides.same(TRACE, b"".join(lines[:i + 1]) + bad + b"\n" + b"".join(lines[i + 1:]))
        sides.same(TRACE, good + bad)
    for number in sides.sample([261, *range(262, 511, 9), 511, 768, *range(769, 999, 9), 999], 12):
        sides.same(TRACE, good + b"%d\n256\n" % number)


def cuts(sides):
    """A capture that ends at any place, and one that comes in two pieces or byte by byte."""
    for data in captures.SMALL:
        for at in sides.sample(range(1, len(data)), 5):
            sides.same(TRACE, data[:at])
            sides.same_in_pieces(TRACE, data, lambda whole: (whole[:at], whole[at:]))
        sides.same_in_pieces(TRACE, data, lambda whole: [whole[k:k + 1] for k in range(len(whole))])


def long_captures(sides):
    """Ends and bad lines around the sizes that a buffer may have."""
    data = texts.random_capture(random.Random(42), 3000)
    for size in (512, 1024, 4096, 8192, 16384, 65536):
        for end in sides.sample(range(size - 2, size + 3), 2):
            sides.same(TRACE, data[:end].rpartition(b"\n")[0] + b"\n")
            sides.same(TRACE, data[:end] + b"x" + data[end:])
    for lines in (255, 256, 4096, 65535, 65536):
        sides.same(TRACE, b"pins\t0\n" + b"7\n" * lines + b"261\n")


def random_captures(sides):
    source = random.Random(43)
    for i in range(30 if sides.quick else 200):
        data = texts.random_capture(source)
        sides.same(TRACE, texts.damaged(source, data) if i % 3 == 0 else data)
    for _ in sides.sample(range(12), 3):
        sides.same_in_pieces(TRACE, texts.random_capture(source, 6), lambda whole: captures.in_parts(source, whole))


# Those that find an error with few comparisons come first.
THEMES = [messages, rows_of_the_table, grey_registers, display_bytes, reads, refusals, kept_open, every_command,
          every_event, cells, samples, bad_lines, long_captures, random_captures, cuts]
