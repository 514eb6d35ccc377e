"""Captures and drawing lists, good ones at random and damaged ones."""
import glob
import os

START, STOP, READ_ACK, READ_NACK, RESET, SENSOR = 256, 257, 258, 259, 260, 512
COLUMNS, BANKS = 101, 17

# The registers that a line can set, with their widths.
FIELDS = [
    ("do", 1), ("pd", 1), ("v", 1), ("d", 1), ("e", 1), ("mx", 1), ("my", 1), ("ps", 1), ("bs", 3),
    ("bsh", 1), ("dp", 3), ("prs", 1), ("hve", 1), ("s", 3), ("tc", 3), ("sm", 1), ("vop", 7),
    ("dof", 1), ("dm", 1), ("ec", 1), ("oc", 1), ("gs0", 6), ("gs1", 6), ("gs2", 6), ("gs3", 6),
]


SAMPLES = os.path.join(os.path.dirname(os.path.abspath(__file__)), "../../samples")


def sample_captures():
    return sorted(glob.glob(os.path.join(SAMPLES, "*.capture")))


def capture(events, pins=0):
    return b"pins\t%d\n" % pins + b"".join(b"%d\n" % event for event in events)


# ---- Messages on the bus ----

def commands(pins, *words):
    """A message of single commands."""
    return [START, 0x78 | pins << 1] + [b for word in words for b in (0x80, word)] + [STOP]


def data(pins, x, y, content):
    """Display data from this address on."""
    return commands(pins, 0x01, 0x80 | x, 0x40 | y)[:-1] + [0x40] + list(content) + [STOP]


def lights(random, pins):
    """Display on, in some mode, mirrored or not, whole or in part, and the four grey registers set, often
    to what is shown as white, as the shade next to black and as black."""
    part = random.choice([0, 0, 7, random.randrange(8)])
    greys = [b for n in range(4)
             for b in (0x40 | n, 0x80 | random.choice([0, 62, 63, random.randrange(64)]))]
    return commands(pins, 0x01, 0x10 | random.choice([0, 0, 2, 8, 10]), 0x0C, 0x04, 0x01, 0x09,
                    0x04 | random.choice([0, 1, 2, 2, 2, 3]),
                    0x08 | random.choice([0, 0, 1, 2, 4, 6, 7]), 0x40 | part,
                    0x01, 0x0B, *greys, 0x01)


def random_message(random, pins):
    kind = random.randrange(10)
    if kind < 4:
        long = random.choice([1, 8, 101, 250])
        content = [random.randrange(256) for _ in range(random.randrange(1, long + 1))]
        return data(pins, random.randrange(COLUMNS), random.randrange(BANKS), content)
    if kind < 6:
        return commands(pins, *(random.choice([0x01, 0x08 | random.randrange(8), random.randrange(256)])
                                for _ in range(random.randrange(1, 8))))
    if kind == 6:
        return [START, 0x79 | pins << 1, READ_ACK, READ_NACK, STOP]
    if kind == 7:
        return [START, random.randrange(256)] + [random.randrange(256) for _ in range(5)] + [STOP]
    if kind == 8:
        return [random.choice([SENSOR + random.randrange(256), RESET, READ_ACK, STOP])]
    return [random.choice([random.randrange(256), random.randrange(261),
                           SENSOR + random.randrange(256)]) for _ in range(random.randrange(20))]


def random_events(random, pins, messages):
    events = lights(random, pins) if random.randrange(4) else []
    for _ in range(messages):
        events += random_message(random, pins)
        if random.randrange(30) == 0:
            events += lights(random, pins)
    return events


def random_capture(random, messages=None):
    pins = random.randrange(4)
    if messages is None:
        messages = random.choice([0, 1, 3, 10, 30])
    return capture(random_events(random, pins, messages), pins)


# ---- Lines of a drawing list ----

def line(*words):
    return "\t".join(str(word) for word in words).encode() + b"\n"


def random_stretch(random, last):
    longest = random.choice([0, 3, last])
    first = random.randrange(last + 1)
    return first, min(last, first + random.randrange(longest + 1))


def random_fill(random):
    c0, c1 = random_stretch(random, COLUMNS - 1)
    b0, b1 = random_stretch(random, BANKS - 1)
    return line("fill", c0, c1, b0, b1, random.randrange(64 if b1 == BANKS - 1 else 256))


def random_put(random):
    bank = random.randrange(BANKS)
    return line("put", random.randrange(COLUMNS), bank,
                random.randrange(64 if bank == BANKS - 1 else 256))


def random_set(random):
    name, bits = random.choice(FIELDS)
    return line("set", name, random.randrange(1 << bits))


def random_list(random, lines):
    text = b"set\tpd\t0\nset\tdof\t0\nset\td\t1\nset\tgs1\t21\nset\tgs2\t42\nset\tgs3\t63\n"
    if random.randrange(3) == 0:
        text = b""
    kinds = [random_fill, random_put, random_set, random_set]
    return text + b"".join(random.choice(kinds)(random) for _ in range(lines))


# ---- Damage ----

BYTES = b"0123456789\t\n\r -+.x\0\xff"


def damaged_once(random, text):
    at = random.randrange(len(text) + 1)
    lines = text.splitlines(keepends=True)
    which = random.randrange(len(lines)) if lines else 0
    kind = random.randrange(7)
    if kind == 0:
        return text[:at] + text[at + 1:]
    if kind == 1:
        return text[:at] + bytes([random.choice(BYTES)]) + text[at:]
    if kind == 2:
        return text[:at] + bytes([random.choice(BYTES)]) + text[at + 1:]
    if kind == 3:
        return text[:at]
    if kind == 4:
        return b"".join(lines[:which] + lines[which + 1:])
    if kind == 5:
        return b"".join(lines[:which] + lines[which:which + 1] + lines[which:])
    return b"".join(lines[:which] + [b"%d\n" % random.randrange(1100)] + lines[which:])


def damaged(random, text):
    for _ in range(random.choice([1, 1, 1, 2, 3])):
        text = damaged_once(random, text)
    return text
