"""Clean traffic at random: one line changes at a time, and there is nothing of which sigrok is known to say otherwise.

So each START has its whole first byte behind it, no byte ends between its eighth and its ninth bit, each STOP has a
START before it, and both lines are high at first.
"""
import probe

# The bits of a byte after which a START or STOP may come. Each of the two has a clock of its own, whose rise is
# taken for one bit more.
CUTS = [1, 2, 3, 4, 5, 6, 8]


class Bus:
    """A master, the chips that it talks to, and a probe that holds each level for as many samples as HOLD says."""

    def __init__(self, source, hold):
        self.source, self.wires = source, probe.Wires(hold)
        self.wires.wait()

    def idle(self):
        """Nobody talks; the clock may go on, and the data line may change while it is low."""
        wires = self.wires
        for _ in range(self.source.choice([0, 0, 1, 3, 40])):
            wires.wait()
        if self.source.randrange(4) == 0:
            wires.bits(self.source.randrange(256), self.source.randrange(1, 9))
            wires.data_to(1)
            wires.clock_to(1)

    def byte(self):
        wires = self.wires
        if self.source.randrange(8) == 0:
            wires.clock_to(0)
            wires.data_to(1 - wires.data)
            wires.data_to(1 - wires.data)
        wires.byte(self.source.randrange(256), self.source.randrange(2))

    def end(self):
        """Both lines high and the bus free, or a repeated START."""
        if self.source.randrange(3):
            self.wires.stop()
        else:
            self.wires.start()

    def cut(self):
        """A byte behind the first that is not finished, but where the rise before its end is the ninth one."""
        wires, value, count = self.wires, self.source.randrange(256), self.source.choice(CUTS)
        wires.bits(value, count)
        stops = self.source.randrange(2)
        if count == 8:
            wires.told(value, 1 - stops)
        if stops:
            wires.stop()
        else:
            wires.start()

    def cut_while_high(self):
        """The data line changes while the clock of a bit is high: a START after a 1, a STOP after a 0."""
        wires, level = self.wires, self.source.randrange(2)
        wires.bits(self.source.randrange(256), self.source.randrange(7))
        wires.data_to(level)
        wires.clock_to(1)
        wires.change_data()

    def message(self):
        """From where the bus stands to a STOP, or to a START whose first byte is still to come."""
        if self.wires.stage == probe.OUTSIDE:
            self.idle()
            self.wires.start()
        self.byte()
        for _ in range(self.source.choice([0, 1, 2, 8, 30])):
            self.byte()
        self.source.choice([self.end, self.end, self.end, self.cut, self.cut_while_high])()


def random_traffic(source, events, hold):
    """Samples with at least so many events, and these events. All is said at the end, and the bus is free."""
    bus = Bus(source, hold)
    while len(bus.wires.events) < events:
        bus.message()
    if bus.wires.stage == probe.FIRST:
        bus.byte()
        bus.wires.stop()
    bus.idle()
    return bytes(bus.wires.samples), bus.wires.events
