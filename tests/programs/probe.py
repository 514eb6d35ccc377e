"""Samples of the two wires, as a probe gives them: a byte each, SCL in bit 1 and SDA in bit 0.

    probe.py CAPTURE [LOST] >SAMPLES

writes the traffic of a capture, as a probe gives it that takes each level of the lines once, but without the sample
of place LOST, from 0.
"""
import sys

START, STOP, READ_ACK, READ_NACK = 256, 257, 258, 259
# Which bytes come next: none outside of START to STOP; the first one; and behind it by its low bit.
OUTSIDE, FIRST, WRITTEN, READ = range(4)


class Wires:
    """Both lines are high at first, and one of them changes at a time. Each level is held for as many samples as
    HOLD says. `events` is what was said so far, `places` the samples that tell it, and `stage` which bytes come next;
    `changed` is the place of the last change, and `rose` that of the clock's last rise."""

    def __init__(self, hold=lambda: 1):
        self.clock, self.data, self.hold = 1, 1, hold
        self.samples, self.events, self.places = bytearray(), [], []
        self.stage, self.changed, self.rose = OUTSIDE, 0, 0

    def wait(self):
        self.samples += bytes([self.clock << 1 | self.data]) * self.hold()

    def clock_to(self, level):
        if self.clock != level:
            self.clock, self.changed = level, len(self.samples)
            self.rose = self.changed if level else self.rose
            self.wait()

    def data_to(self, level):
        if self.data != level:
            self.data, self.changed = level, len(self.samples)
            self.wait()

    def tell(self, event, place, stage):
        self.events.append(event)
        self.places.append(place)
        self.stage = stage

    def start(self):
        """Within a message the data line goes up while the clock is low, to fall while it is high."""
        if not self.data:
            self.clock_to(0)
        self.data_to(1)
        self.clock_to(1)
        self.data_to(0)
        self.tell(START, self.changed, FIRST)

    def stop(self):
        self.clock_to(0)
        self.data_to(0)
        self.clock_to(1)
        self.data_to(1)
        self.tell(STOP, self.changed, OUTSIDE)

    def change_data(self):
        """While the clock of a bit is high: a START where the data line falls, a STOP where it rises."""
        self.data_to(1 - self.data)
        self.tell(STOP if self.data else START, self.changed, OUTSIDE if self.data else FIRST)

    def bit(self, level):
        """The clock is low at the end."""
        self.clock_to(0)
        self.data_to(level)
        self.clock_to(1)
        self.clock_to(0)

    def bits(self, value, count=8):
        """So many bits of a byte, the highest first."""
        for place in range(7, 7 - count, -1):
            self.bit(value >> place & 1)

    def told(self, value, ninth):
        """A byte has had its ninth bit."""
        event = READ_ACK + ninth if self.stage == READ else value
        direction = READ if value & 1 else WRITTEN
        self.tell(event, self.rose, direction if self.stage == FIRST else self.stage)

    def byte(self, value, ninth):
        self.bits(value)
        self.bit(ninth)
        self.told(value, ninth)

    def say(self, event, ninth=0, value=0):
        """The next event of a capture; NINTH is the acknowledge bit of a written byte, VALUE what a read one holds."""
        if event == START:
            self.start()
        elif event == STOP:
            self.stop()
        elif self.stage == READ and event in (READ_ACK, READ_NACK):
            self.byte(value, event - READ_ACK)
        elif self.stage in (FIRST, WRITTEN) and event < START:
            self.byte(event, ninth)
        else:
            raise ValueError(f"event {event} can't be said on the wires here")


def main(path, *lost):
    wires = Wires()
    wires.wait()
    with open(path) as file:
        for line in file.read().splitlines()[1:]:
            wires.say(int(line))
    for place in lost:
        del wires.samples[int(place)]
    sys.stdout.buffer.write(wires.samples)


if __name__ == "__main__":
    main(*sys.argv[1:])
