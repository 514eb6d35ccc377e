"""Themes of `replay` and `view`: captures, good and bad; and outputs known beforehand."""
import random

import texts

BOTH = ["replay"], ["view"]

PINS_LINES = [
    b"", b"\n", b"pins", b"pins\n", b"pins\t", b"pins\t\n", b"pins\t0", b"pins\t4\n", b"pins\t5\n",
    b"pins\t00\n", b"pins\t01\n", b"pins\t03\n", b"pins\t10\n", b"pins\t255\n", b"pins\t256\n",
    b"pins\t260\n", b"pins\t1000\n", b"pins\t4294967296\n", b"pins\t18446744073709551616\n",
    b"pins\t-1\n", b"pins\t+1\n", b"pins\tx\n", b"pins\t0\t\n", b"pins\t\t0\n", b"pins\t0 \n",
    b"pins\t 0\n", b"pins 0\n", b"pins0\n", b"pin\t0\n", b"Pins\t0\n", b"PINS\t0\n", b" pins\t0\n",
    b"\tpins\t0\n", b"\npins\t0\n", b"pins\t0\r\n", b"pins\t0\n\n", b"pins\t0\0\n", b"\0", b"\xff",
    b"pins\t0\t0\n", b"pinss\t0\n", b"pi", b"0\n", b"256\n", b"\xef\xbb\xbfpins\t0\n",
]

BAD_EVENT_LINES = [
    b"", b"00", b"01", b"000", b"007", b"010", b"0256", b"1000", b"2560", b"0000", b"9999", b"65536",
    b"65792", b"4294967296", b"18446744073709551617", b" 1", b"1 ", b"1\r", b"\r", b"\t1", b"1\t",
    b"1\t2", b"1 2", b"a", b"1a", b"a1", b"12a", b"12:", b"12/", b"/", b":", b"-1", b"+1", b"1.0", b"0x1",
    b"1e2", b"\0", b"1\0", b"\xb1", b"1\xff", b"pins\t0", b"refused\t1", b"2 56", b"25\n\n7",
    b"261", b"300", b"511", b"768", b"800", b"999",
]

# Display on and a few cells, for a capture with something to show.
GOOD = texts.commands(0, 0x10, 0x0C, 0x04, 0x01, 0x09, 0x06, 0x01, 0x0B, 0x41, 0x94, 0x43, 0xBF, 0x01) \
    + texts.data(0, 5, 2, [167]) + texts.data(0, 99, 16, [0xFF, 0x1B, 0xE4]) + [texts.START]


def both(sides, data):
    for program in BOTH:
        sides.same(program, data)


def one_colour(colour):
    """A picture of this colour all over."""
    return b"P3\n101 67\n255\n" + (colour + b"\n") * (101 * 67)


def one_grey(grey):
    return one_colour(b"%d %d %d" % (grey, grey, grey))


def all_by_register_3(held):
    """Display on, in the mode that shows grey register 3 everywhere, and the register set."""
    return texts.commands(0, 0x10, 0x0C, 0x04, 0x01, 0x09, 0x05, 0x01, 0x0B, 0x43, 0x80 | held, 0x01)


def known(sides):
    """Outputs that can be told without any program."""
    head = b"column\tbank\tbyte\tevent\n"
    put = texts.capture([256, 0x78, 0x80, 0x01, 0x80, 0x85, 0x80, 0x42, 0x40, 0xA7, 257])
    sides.exactly(["replay"], put, head + b"5\t2\t167\t10\n")
    sides.exactly(["replay"], b"pins\t3\n", head)
    sides.exactly(["replay"], b"", b"refused\t1\n")
    sides.exactly(["view"], put + b"261\n", b"refused\t13\n")
    sides.exactly(["view"], put, one_colour(b"0 0 96"))
    for held, grey in (0, 255), (1, 251), (61, 11), (62, 7), (63, 0):
        sides.exactly(["view"], texts.capture(all_by_register_3(held)), one_grey(grey))
    sides.exactly(["draw", "0"], b"put\t5\t2\t167\n", put)
    sides.exactly(["draw", "0"], b"set\tgs3\t63\n",
                  texts.capture(texts.commands(0, 0x01, 0x0B, 0x43, 0x80 | 63, 0x01)))
    sides.exactly(["draw", "0"], b"set\tgs3\t64\n", b"refused\t7\t1\n")
    sides.exactly(["draw", "2"], b"set\tgr\t1\n", b"refused\t6\t1\n")
    sides.exactly(["draw", "1"], b"", b"pins\t1\n")


def pins(sides):
    """The first line, good and bad, alone and with events behind it."""
    for pins in range(4):
        both(sides, b"pins\t%d\n" % pins)
        both(sides, texts.capture(GOOD, pins))
        both(sides, texts.capture(texts.data(pins, 7, 3, [1, 2, 3]), pins))
    for first in PINS_LINES:
        both(sides, first)
        sides.same(["replay"], first + b"256\n120\n")


def event_lines(sides):
    """A bad line as the second, in the middle, as the last, with and without its newline."""
    good = texts.capture(GOOD)
    lines = good.splitlines(keepends=True)
    for bad in BAD_EVENT_LINES:
        sides.same(["replay"], b"pins\t0\n" + bad + b"\n")
        sides.same(["view"], b"".join(lines[:13]) + bad + b"\n" + b"".join(lines[13:]))
        sides.same(["replay"], good + bad + b"\n")
        sides.same(["replay"], good + bad)
    for last in range(len(lines)):
        sides.same(["replay"], b"".join(lines[:last + 1])[:-1])
    both(sides, good + b"261\n01\n")
    both(sides, good + b"01\n261\n")


def event_numbers(sides):
    """Every accepted number in one capture; every other one of up to three digits by itself."""
    listed = list(range(261)) + list(range(512, 768))
    both(sides, texts.capture(listed))
    both(sides, texts.capture([texts.START, 0x78, 0x40] + list(range(256)) + listed[258:]))
    for number in sides.sample(listed, 40):
        sides.same(["replay"], texts.capture([number]))
    refused = [number for number in range(1000) if number not in set(listed)]
    for number in sides.sample(refused, 40):
        sides.same(["view" if number % 2 else "replay"], texts.capture(GOOD + [number, 256]))


def in_parts(random, data):
    while data:
        length = random.choice([1, 1, 2, 5, 50, 500])
        yield data[:length]
        data = data[length:]


def pieces(sides):
    """Inputs that come in small pieces."""
    source = random.Random(11)
    for i in sides.sample(range(24), 6):
        data = texts.random_capture(source, 6)
        if i % 2:
            data = texts.damaged(source, data)
        sides.same_in_pieces(BOTH[i % 2], data, lambda whole: in_parts(source, whole))


# Small captures, good ones and bad ones, to be cut at every place.
SMALL = [
    texts.capture([256, 0x78, 0x80, 0x01, 0x80, 0x85, 0x80, 0x42, 0x40, 0xA7, 257]),
    b"pins\t3\n", b"pins\t4\n256\n", b"pins\t0\n256\n012\n257\n", b"pins\t0\r\n256\r\n",
    b"pins\t0\n256\n257", b"pins\t0\n256\n261\n257\n", b"pins\t0\n1200\n256\n",
]


def every_cut(sides):
    """Captures that come through a pipe in two pieces, cut at every place, and byte by byte."""
    for i, data in enumerate(SMALL):
        for at in sides.sample(range(1, len(data)), 4):
            sides.same_in_pieces(BOTH[(i + at) % 2], data, lambda whole: (whole[:at], whole[at:]))
        for program in BOTH:
            sides.same_in_pieces(program, data, lambda whole: [whole[k:k + 1] for k in range(len(whole))])


def long_captures(sides):
    """Ends and bad lines around the sizes that a buffer may have."""
    source = random.Random(12)
    data = texts.random_capture(source, 3000)
    for size in (512, 1024, 4096, 8192, 16384, 32768, 65536, 131072):
        for end in sides.sample(range(size - 5, size + 6), 4):
            sides.same(["replay"], data[:end])
            sides.same(["replay"], data[:end].rpartition(b"\n")[0] + b"\n")
    one = b"pins\t0\n" + b"255\n" * 40000
    for size in (256, 512, 1024, 4096, 8192, 16384, 32768, 65536, 131072):
        for at in sides.sample(range(size - 3, size + 4), 4):
            sides.same(["replay"], one[:at] + b"x" + one[at + 1:])
            sides.same(["replay"], one[:at])
    for lines in (255, 256, 4094, 4095, 4096, 4097, 8191, 8192, 8193, 65534, 65535, 65536, 70000):
        sides.same(["replay"], b"pins\t0\n" + b"7\n" * lines + b"261\n")
        sides.same(["replay"], b"pins\t0\n" + b"7\n" * lines + b"\n")
    for letter in (b"1", b"0", b"x", b" "):
        sides.same(["replay"], b"pins\t0\n256\n" + letter * 300000)
        sides.same(["replay"], b"pins\t0\n256\n" + letter * 300000 + b"\n")
        sides.same(["view"], letter * 300000)


def many_writes(sides):
    """Every cell written, several times, along banks and along columns."""
    source = random.Random(13)
    for way in (0x10, 0x12, 0x18, 0x1A):
        for mirror in (0x08, 0x0C, 0x0E):
            head = texts.commands(2, 0x01, way, 0x0C, 0x04, 0x01, 0x09, 0x06, mirror, 0x01, 0x0B,
                                  0x41, 0x94, 0x42, 0xA9, 0x43, 0xBF)
            content = [source.randrange(256) for _ in range(2000)]
            both(sides, texts.capture(head + texts.data(2, 3, 4, content), 2))


def random_captures(sides):
    source = random.Random(14)
    for i in range(60 if sides.quick else 500):
        sides.same(BOTH[i % 2], texts.random_capture(source))


def damaged_captures(sides):
    source = random.Random(15)
    for i in range(60 if sides.quick else 600):
        sides.same(BOTH[i % 8 == 0], texts.damaged(source, texts.random_capture(source)))


# Those that find an error with few comparisons come first.
THEMES = [known, many_writes, pins, long_captures, event_lines, event_numbers, random_captures,
          damaged_captures, pieces, every_cut]
