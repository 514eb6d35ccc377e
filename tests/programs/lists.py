"""Themes of `draw`: drawing lists, good and bad, and what is piped on."""
import random

import texts

PINS = "0", "1", "2", "3"

MOST_BYTES = 1 << 20

BAD_LINES = [
    b"", b"put", b"put\t5\t2", b"put\t5\t2\t167\t0", b"put\t5\t2\t", b"put\t5\t\t167", b"put 5 2 167",
    b"put\t05\t2\t167", b"put\t5\t02\t167", b"put\t5\t2\t007", b"put\t5\t2\t1000", b"put\t-5\t2\t167",
    b"put\t5\t2\t+7", b"Put\t5\t2\t167", b"puts\t5\t2\t167", b" put\t5\t2\t167", b"put\t5\t2\t167\r",
    b"put\t5\t2\t167 ", b"put\t5\t2\t167\t", b"\tput\t5\t2\t167", b"put\t5\t2\t16\0", b"\0", b"\xff",
    b"put\t101\t2\t1", b"put\t5\t17\t1", b"put\t5\t2\t256", b"put\t0\t16\t64", b"put\t999\t999\t999",
    b"put\t101\t2\tx", b"fill\t1\t0\t0\t0\t0", b"fill\t0\t0\t1\t0\t0", b"fill\t0\t101\t0\t0\t0",
    b"fill\t0\t100\t0\t17\t0", b"fill\t0\t100\t0\t16\t64", b"fill\t0\t100\t16\t16\t255",
    b"fill\t0\t0\t0\t0", b"fill\t0\t0\t0\t0\t0\t0", b"fill\t0\t0\t0\t0\t256", b"set", b"set\tpd",
    b"set\tpd\t", b"set\tpd\t2", b"set\tpd\t01", b"set\tpd\t0\t", b"set\tPD\t0", b"set\tgr\t0",
    b"set\th\t0", b"set\tx\t0", b"set\ty\t0", b"set\tgs4\t0", b"set\tgs\t0", b"set\tp\t0", b"set\t\t0",
    b"set\tvop\t128", b"set\tgs0\t64", b"set\tbs\t8", b"set\tvop\t999", b"pins\t0", b"256", b"#",
]

# Display on, each value in its own register.
LIT = b"set\tpd\t0\nset\tdof\t0\nset\td\t1\nset\tgs0\t2\nset\tgs1\t21\nset\tgs2\t42\nset\tgs3\t63\n"


def drawn(sides, text, pins="0"):
    return sides.same(["draw", pins], text)


def piped(sides, text, pins="0"):
    for program in ("replay", "view"):
        sides.same_piped(["draw", pins], [program], text)


def empty_lists(sides):
    for pins in PINS:
        drawn(sides, b"", pins)
        piped(sides, b"", pins)


def bad_lines(sides):
    """A bad line as the only one, as the last, in the middle; each also without its newline."""
    for bad in BAD_LINES:
        drawn(sides, bad + b"\n")
        drawn(sides, LIT + bad + b"\n", "3")
        drawn(sides, LIT + bad)
        drawn(sides, LIT + bad + b"\n" + LIT + b"put\t5\t2\n")
    for good in (b"put\t5\t2\t167", b"fill\t0\t100\t0\t16\t63", b"set\tpd\t0"):
        drawn(sides, good)
        drawn(sides, good + b"\r\n")
        drawn(sides, good + b"\n\n")
        drawn(sides, b"\n" + good + b"\n")
    piped(sides, b"put\t5\t2\n")


def fields(sides):
    """Each field with its least value, its largest and one more."""
    for i, (name, bits) in enumerate(texts.FIELDS):
        for value in (0, (1 << bits) - 1, 1 << bits):
            drawn(sides, LIT + texts.line("set", name, value), PINS[i % 4])


def cells(sides):
    """Corners and edges, with data order, mirroring and both ways of addressing."""
    v, mx, do = b"set\tv\t1\n", b"set\tmx\t1\n", b"set\tdo\t1\n"
    for way in (b"", v, mx, do, v + mx + do):
        text = LIT + way
        for column in (0, 1, 50, 99, 100):
            for bank in (0, 1, 15, 16):
                text += texts.line("put", column, bank, (column + 3 * bank) % 64)
        text += b"fill\t0\t100\t3\t3\t228\nfill\t7\t7\t0\t16\t27\nfill\t60\t100\t9\t16\t63\n"
        for pins in PINS:
            drawn(sides, text, pins)
            piped(sides, text, pins)


def counts_of_lines(sides):
    """4,096 lines are taken, more are not; what is refused behind them does not count."""
    put = b"put\t5\t2\t167\n"
    for lines in (4095, 4096, 4097, 5000):
        drawn(sides, put * lines)
        drawn(sides, put * lines + b"put")
        drawn(sides, b"\n" * lines)
    drawn(sides, put * 4096 + b"put\t5\t2\t167")
    drawn(sides, b"x\n" + put * 4096)


def sizes(sides):
    """Up to 1,048,576 bytes are looked at, more are not, by standard input."""
    for size in (MOST_BYTES - 1, MOST_BYTES, MOST_BYTES + 1, 2 * MOST_BYTES):
        for text in (b"x" * size, b"\n" * size, b"put\t5\t2\t167\n" + b"7" * (size - 12)):
            assert len(text) == size
            drawn(sides, text)
    piped(sides, b"x" * (MOST_BYTES + 1))


def whole_glass(sides):
    """As much as a list can draw: the whole glass, 4,096 times, by banks and by columns."""
    fill = b"fill\t0\t100\t0\t16\t%d\n"
    lines = 40 if sides.quick else 4096
    by_banks = b"".join(fill % (i % 64) for i in range(lines))
    drawn(sides, by_banks)
    by_columns = b"set\tv\t1\n" + b"".join(fill % (i % 64) for i in range(lines - 1))
    drawn(sides, by_columns, "1")
    piped(sides, LIT + b"set\tv\t1\n" + by_banks[:-8 * len(fill)].rpartition(b"\n")[0] + b"\n", "2")


def random_lists(sides):
    source = random.Random(21)
    for i in range(40 if sides.quick else 300):
        text = texts.random_list(source, source.choice([0, 1, 4, 20]))
        drawn(sides, text, PINS[i % 4])
        if i % 2:
            piped(sides, text, PINS[i % 4])


def damaged_lists(sides):
    source = random.Random(22)
    for i in range(40 if sides.quick else 500):
        text = texts.damaged(source, texts.random_list(source, source.choice([1, 4, 20])))
        drawn(sides, text, PINS[i % 4])


# Those that find an error with few comparisons come first.
THEMES = [empty_lists, sizes, whole_glass, cells, fields, bad_lines, counts_of_lines, random_lists,
          damaged_lists]
