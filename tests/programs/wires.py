"""Themes of `wires`: samples of the two lines, clean ones and unclear ones, and bytes that are no samples."""
import random

import captures
import probe
import texts
from texts import READ_ACK, READ_NACK, START, STOP

BAD_SAMPLES = [4, 5, 7, 8, 10, 16, 48, 51, 64, 127, 128, 130, 131, 252, 254, 255]
# The sizes that a buffer may have.
SIZES = [512, 1024, 4096, 8192, 16384, 65536, 131072]


def words(pins=0):
    return ["wires", str(pins)]


def told(unclear):
    """What is said of so many unclear samples."""
    return b"wires: %d unclear sample%s\n" % (unclear, b"" if unclear == 1 else b"s") if unclear else b""


def printed(events, refused=None, pins=0):
    return texts.capture(events, pins) + (b"" if refused is None else b"refused\t14\t%d\n" % refused)


def exactly(sides, samples, events, unclear=0, refused=None, pins=0):
    """These events, and nothing else; so many unclear samples; and the place of a byte that is no sample."""
    output = printed(events, refused, pins)
    sides.exactly(words(pins), bytes(samples), output)
    if unclear:
        sides.says(words(pins), told(unclear), bytes(samples), output)


def digits(text):
    """Samples that are written as digits, with blanks where they help to read."""
    return [int(digit) for digit in text.replace(" ", "")]


# ---- Traffic ----

def samples_of(events):
    """The samples of these events."""
    said = probe.Wires()
    for event in events:
        said.say(event)
    return bytes(said.samples)


def random_message(source, wires):
    """A START, its bytes, and mostly a STOP; one that has none is followed by a repeated START."""
    wires.start()
    for _ in range(source.choice([0, 1, 1, 2, 5, 12])):
        value = source.randrange(256)
        if wires.stage == probe.FIRST:
            value = source.choice([0x78, 0x79, value])
        wires.byte(value, source.randrange(2))
    if source.randrange(6) == 0:
        wires.bits(source.randrange(256), source.randrange(8))
    if source.randrange(4):
        wires.stop()


def random_traffic(source, messages, hold=None):
    """Each level is held for HOLD samples, or for 1 to 4 of them."""
    wires = probe.Wires((lambda: hold) if hold else (lambda: source.randrange(1, 5)))
    wires.wait()
    for _ in range(messages):
        random_message(source, wires)
        if source.randrange(3) == 0:
            wires.samples += wires.samples[-1:] * source.randrange(30)
    return wires


def long_traffic(samples):
    """Traffic of at least so many samples, with an event in every few of them."""
    source = random.Random(81)
    wires = probe.Wires()
    while len(wires.samples) < samples:
        random_message(source, wires)
    return wires


# ---- Known beforehand ----

# START, the clock low again, and eight bits: 0, 1, 1, 1, 1, 0, 0, 0.
ADDRESS = "2 0 20 131 31 31 31 020 20 20"
READ_ADDRESS = "2 0 20 131 31 31 31 020 20 131"

KNOWN = [
    ("", [], 0), ("3", [], 0), ("333", [], 0), ("1", [], 0), ("1313", [], 0), ("1010102", [], 0),
    # The first sample is held against two lines that are high.
    ("2", [START], 0), ("22", [START], 0), ("0", [], 1), ("3332", [START], 0),
    ("23", [START, STOP], 0), ("2323", [START, STOP, START, STOP], 0), ("2023", [START, STOP], 0),
    ("20132", [START, START], 0), ("1023", [STOP], 0), ("10231023", [STOP, STOP], 0),
    # Unclear: nothing is told before the next START.
    ("023", [], 1), ("0232", [START], 1), ("02323", [START, STOP], 1), ("0303", [], 4), ("21", [START], 1),
    ("213", [START], 1), ("2131023", [START], 1), ("21321", [START, START], 2), ("12", [], 1), ("123", [], 1),
    ("00", [], 1), ("0" * 9 + "2", [], 1), ("023 1023 1023 2", [START], 1),
    (ADDRESS, [START], 0), (ADDRESS + "2", [START, 0x78], 0), (ADDRESS + "13", [START, 0x78], 0),
    (ADDRESS + "222 0", [START, 0x78], 0), (ADDRESS + "23", [START, 0x78, STOP], 0),
    (ADDRESS + "132", [START, 0x78, START], 0), (ADDRESS + "2 0 20202020 20202020", [START, 0x78], 0),
    (ADDRESS + "2 0 20202020 20202020 2", [START, 0x78, 0], 0),
    (ADDRESS + "2 0 131313131 31313131", [START, 0x78], 0),
    (ADDRESS + "2 0 131313131 31313131 3", [START, 0x78, 255], 0),
    (READ_ADDRESS + "3", [START, 0x79], 0), (READ_ADDRESS + "02", [START, 0x79], 0),
    (READ_ADDRESS + "02 0 20202020 20202020 2", [START, 0x79, READ_ACK], 0),
    (READ_ADDRESS + "02 0 20202020 20202020 13", [START, 0x79, READ_NACK], 0),
    (READ_ADDRESS + "02 0 20202020 20202020 131 31313131 31313131 3", [START, 0x79, READ_NACK, READ_NACK], 0),
    # A spike of both lines within a byte, and the message after it.
    (ADDRESS[:-3] + "30 20 13" + ADDRESS + "2", [START, START, 0x78], 2),
]


def known(sides):
    for text, events, unclear in KNOWN:
        exactly(sides, digits(text), events, unclear)
    for pins in range(4):
        exactly(sides, [], [], pins=pins)
        exactly(sides, digits(ADDRESS + "2"), [START, 0x78], pins=pins)


def every_byte(sides):
    """Each byte as the first one and behind it, written and read, with both ninth bits."""
    for ninth in (0, 1):
        wires = probe.Wires()
        for value in range(256):
            wires.start()
            for _ in range(3):
                wires.byte(value, ninth)
            wires.byte(255 - value, 1 - ninth)
            wires.stop()
        exactly(sides, wires.samples, wires.events)


def within_bytes(sides):
    """START and STOP after each number of bits of a byte, the first one, a written one and a read one."""
    for head in ([], [0x78], [0x78, 0x40], [0x79], [0x79, 0x40]):
        for count in range(9):
            for end in ("start", "stop"):
                wires = probe.Wires()
                wires.start()
                for value in head:
                    wires.byte(value, 0)
                wires.bits(0xA5, count)
                # The clock rises before a START, with the data line high, and before a STOP, with it low.
                if count == 8:
                    wires.told(0xA5, int(end == "start"))
                getattr(wires, end)()
                random_message(random.Random(count), wires)
                exactly(sides, wires.samples, wires.events)


def while_high(sides):
    """The data line changes while the clock of a bit is still high: a START after a 1, a STOP after a 0."""
    for head in ([], [0x78], [0x79]):
        for value in (0xA5, 0x5A, 0x00, 0xFF):
            for count in range(9):
                wires = probe.Wires()
                wires.start()
                for byte in head:
                    wires.byte(byte, 0)
                wires.bits(value, count)
                level = value >> 7 - count & 1 if count < 8 else value & 1
                wires.clock_to(0)
                wires.data_to(level)
                wires.clock_to(1)
                if count == 8:
                    wires.told(value, level)
                wires.change_data()
                if level:
                    wires.byte(0x7A, 1)
                wires.stop()
                exactly(sides, wires.samples, wires.events)


def outside(sides):
    """Clocks before a START and after a STOP, and changes of the data line while the clock is low."""
    wires = probe.Wires()
    for value in (0x78, 0x79, 0x00, 0xFF):
        wires.bits(value)
        wires.bits(0x55, 7)
        wires.data_to(1)
        wires.clock_to(1)
        wires.start()
        for level in (1, 0, 1, 0):
            wires.clock_to(0)
            wires.data_to(level)
        wires.byte(value, 0)
        wires.byte(value, 1)
        wires.stop()
    exactly(sides, wires.samples, wires.events)


def sample_captures(sides):
    """The traffic of the captures of samples/, but for those with a reset pulse, which is on no wire."""
    for i, path in enumerate(texts.sample_captures()):
        with open(path, "rb") as file:
            data = file.read()
        pins, *events = [int(line.split()[-1]) for line in data.splitlines()]
        if max(events) > READ_NACK:
            continue
        wires = probe.Wires(lambda: 1 + i % 3)
        for event in events:
            wires.say(event, i % 2, 37 * i % 256)
        sides.exactly(words(pins), bytes(wires.samples), data)


def messages(sides):
    source = random.Random(82)
    for i in range(20 if sides.quick else 150):
        wires = random_traffic(source, source.choice([1, 3, 10, 40]), source.choice([None, 1, 2, 7]))
        exactly(sides, wires.samples, wires.events, pins=i % 4)


def unclear(sides):
    """A spike of both lines for one sample is two unclear ones; nothing is told from there to the next START."""
    source = random.Random(83)
    wires = random_traffic(source, 8, 3)
    starts = [place for event, place in zip(wires.events, wires.places) if event == START]
    held = [place for place in range(1, len(wires.samples) - 1) if len(set(wires.samples[place - 1:place + 2])) == 1]
    for place in sides.sample(held, 20):
        samples = bytearray(wires.samples)
        samples[place] ^= 3
        again = min((start for start in starts if start > place), default=len(samples))
        events = [event for event, at in zip(wires.events, wires.places) if not place <= at < again]
        exactly(sides, samples, events, unclear=2)
    for count in (1, 2, 9, 10, 255, 256, 65535, 65536, 80000):
        exactly(sides, bytes([0, 3] * count)[:count], [], unclear=count)


def lost_samples(sides):
    """A sample that is lost: unclear where both lines changed around it, and as the model says anywhere."""
    wires = random_traffic(random.Random(84), 6, 1)
    for place in sides.sample(range(1, len(wires.samples) - 1), 20):
        sides.same(words(), bytes(wires.samples[:place] + wires.samples[place + 1:]))


# ---- Bytes that are no samples ----

def refused_at(sides, wires, place, bad=4, behind=b""):
    """The events before it, the refusal, and no more."""
    samples = bytes(wires.samples[:place]) + bytes([bad]) + (behind or bytes(wires.samples[place + 1:]))
    events = [event for event, at in zip(wires.events, wires.places) if at < place]
    exactly(sides, samples, events, refused=place)


def bad_samples(sides):
    """Each byte above 3 as the first, within a message, as the last; and what is behind it is not looked at."""
    wires = random_traffic(random.Random(85), 4, 2)
    for bad in sides.sample(range(4, 256), 16):
        exactly(sides, [bad], [], refused=0)
        refused_at(sides, wires, len(wires.samples) // 2, bad)
    for bad in BAD_SAMPLES:
        refused_at(sides, wires, len(wires.samples) - 1, bad)
        exactly(sides, [2, 0, bad, 3, 0, 3], [START], refused=2)
        exactly(sides, [0, 3, bad, 0, 3], [], unclear=2, refused=2)
        exactly(sides, [3, bad, bad, 255], [], refused=1)
    for place in sides.sample(range(len(wires.samples)), 20):
        refused_at(sides, wires, place)


def refused_at_edges(sides):
    """Around the sizes that a buffer may have."""
    wires = long_traffic(SIZES[-1] + 10)
    for size in SIZES:
        for place in sides.sample(range(size - 2, size + 3), 3):
            refused_at(sides, wires, place)
            refused_at(sides, wires, place, 255, b"\xff" * 10)
            refused_at(sides, wires, place, 7, b"\7")
    exactly(sides, bytes([3]) * 1_000_000 + b"\4", [], refused=1_000_000)


# ---- Input in parts ----

def edges(sides):
    """Ends around those sizes, and traffic that is moved on sample by sample: each place of a byte comes to an edge."""
    wires = long_traffic(SIZES[-1] + 10)
    for size in SIZES:
        for end in sides.sample(range(size - 2, size + 3), 2):
            events = [event for event, at in zip(wires.events, wires.places) if at < end]
            exactly(sides, wires.samples[:end], events)
    for idle in sides.sample(range(1, 60), 6):
        exactly(sides, bytes([3]) * idle + bytes(wires.samples), wires.events)


def an_event_each(sides):
    """The most events that samples can be: START and STOP in turn, one with each sample; then a byte that is none."""
    for size in SIZES:
        for length in sides.sample(range(size - 1, size + 2), 1):
            samples, events = bytes([2, 3] * size)[:length], ([START, STOP] * size)[:length]
            exactly(sides, samples, events)
            exactly(sides, samples + b"\4\3", events, refused=length)


def pieces(sides):
    """Samples that come by a pipe in small pieces, one by one, and cut at each place."""
    source = random.Random(86)
    for i in sides.sample(range(20), 5):
        samples = bytes(random_traffic(source, 6).samples)
        if i % 2:
            samples = damaged(source, samples)
        sides.same_in_pieces(words(), samples, lambda whole: captures.in_parts(source, whole))
    small = bytes(digits("3" + ADDRESS + "2 0 131 023 20 02 2131023 4"))
    sides.same_in_pieces(words(), small, lambda whole: [whole[k:k + 1] for k in range(len(whole))])
    for at in sides.sample(range(1, len(small)), 8):
        sides.same_in_pieces(words(), small, lambda whole: (whole[:at], whole[at:]))


def kept_open(sides):
    """An event is printed when its sample has come, and the input goes on."""
    bits, low = bytes(digits(ADDRESS)), bytes(digits("20" * 8))
    steps = [(b"\3", b"pins\t2\n"), (bits[:1], b"256\n"), (bits[1:9], b""), (bits[9:], b""), (b"\2", b"120\n"),
             (b"\0" + low, b""), (b"\2\0", b"0\n"), (b"\1\3", b""), (b"\2", b"256\n"),
             (bits[1:] + b"\2\0" + low + b"\2", b"120\n0\n"), (b"\0\2\3", b"257\n")]
    so_far = sum(len(piece) for piece, _ in steps)
    sides.as_it_comes(words(2), steps + [(b"\3\0\3\0", b""), (b"\2\3\2", b"256\n")])
    sides.as_it_comes(words(2), steps + [(b"\1\0\2\3\7", b"257\nrefused\t14\t%d\n" % (so_far + 4))])


# ---- Against the model ----

def damaged(source, samples):
    """Some samples lost, doubled, or others in their place; seldom such as are none."""
    for _ in range(source.choice([1, 2, 5])):
        at = source.randrange(len(samples) + 1)
        kind = source.randrange(10)
        if kind < 3:
            samples = samples[:at] + samples[at + source.choice([1, 2, 3]):]
        elif kind < 6:
            samples = samples[:at] + bytes([source.randrange(4)]) + samples[at:]
        elif kind < 9:
            samples = samples[:at] + bytes([source.randrange(4)]) + samples[at + 1:]
        else:
            samples = samples[:at] + bytes([source.choice(BAD_SAMPLES)]) + samples[at + 1:]
    return samples


def damaged_traffic(sides):
    source = random.Random(87)
    for i in range(40 if sides.quick else 300):
        samples = bytes(random_traffic(source, source.choice([1, 3, 10]), source.choice([None, 1])).samples)
        sides.same(words(i % 4), damaged(source, samples))


def noise(sides):
    """Lines that change at random: mostly one of them at a time, the clock more often than the data line."""
    source = random.Random(88)
    for i in range(10 if sides.quick else 60):
        samples = [3]
        changes = [0] * 3 + [1] + [2] * source.choice([2, 10, 50]) + [3] * (i % 3 == 0)
        for _ in range(source.choice([100, 3000, 20000])):
            samples.append(samples[-1] ^ source.choice(changes))
        sides.same(words(i % 4), bytes(samples))
    for length in (10, 5000, 70000):
        sides.same(words(), bytes(source.randrange(4) for _ in range(length)))
        sides.same(words(), bytes(source.randrange(256) for _ in range(length)))


def piped(sides):
    """What is printed is a capture: a program behind it tells what it tells of that capture from a file."""
    source = random.Random(89)
    for i in sides.sample(range(12), 4):
        pins = i % 4
        wires = random_traffic(source, 5)
        for event in texts.data(pins, 40 + i, i, [1, 2, 255, i]) + texts.data(pins, 99, 16, [0xA7] * 4):
            wires.say(event)
        for program in (["replay"], ["trace"], ["who", "8", "5"], ["state"], ["view"]):
            printed_of_file = sides.same(program, texts.capture(wires.events, pins)).output
            sides.known(program[0], sides.same_piped(words(pins), program, bytes(wires.samples)), printed_of_file)
    for program in (["replay"], ["trace"], ["who", "8", "5"]):
        sides.same_piped(words(3), program, b"")
        sides.same_piped(words(3), program, bytes(digits("2023 0 3")) + b"\4")


# Those that find an error with few comparisons come first.
THEMES = [known, within_bytes, while_high, every_byte, outside, bad_samples, unclear, sample_captures, kept_open,
          refused_at_edges, edges, an_event_each, messages, lost_samples, noise, damaged_traffic, pieces, piped]
