"""The places where sigrok's decoder says otherwise than wires: what stands on the lines there, and what each says."""
import probe
from probe import START, STOP

WRITE, READ = 0x78, 0x79


def said(*steps, first=(1, 1)):
    """The samples of "start", of "stop", of bytes that are acknowledged, and of a byte's first bits with how many they
    are. FIRST is where clock and data line stand at first."""
    wires = probe.Wires()
    wires.clock, wires.data = first
    wires.wait()
    for step in steps:
        if step == "start":
            wires.start()
        elif step == "stop":
            wires.stop()
        elif isinstance(step, tuple):
            wires.bits(*step)
        else:
            wires.byte(step, 0)
    return bytes(wires.samples)


def with_one_lost(before, *after):
    """Without the sample that comes next after BEFORE."""
    lost = len(said(*before))
    samples = said(*before, *after)
    return samples[:lost] + samples[lost + 1:]


# What it is; the samples; the lines of sigrok's decoder; the events that wires prints, and its unclear samples. A START
# and a STOP have a clock of their own, whose rise is one bit more: after seven bits they come behind the eighth.
DIFFERENCES = [
    ("a STOP with no START before it, which sigrok does not tell",
     said("stop", "start", WRITE, "stop"),
     ["Start", "Write", "Address write: 78", "ACK", "Stop"],
     [STOP, START, WRITE, STOP], 0),
    ("a START between the eighth and the ninth bit of a byte, which sigrok has told and goes on with",
     said("start", WRITE, (0xA5, 7), "start", READ, "stop"),
     ["Start", "Write", "Address write: 78", "ACK", "Data write: A5", "ACK", "Data write: F2", "ACK", "Stop"],
     [START, WRITE, START, READ, STOP], 0),
    ("a STOP between the eighth and the ninth bit of a byte, which sigrok has told and goes on with",
     said("start", WRITE, (0xA4, 7), "stop", "start", READ, "stop"),
     ["Start", "Write", "Address write: 78", "ACK", "Data write: A4", "ACK", "Data write: F2", "ACK", "Stop"],
     [START, WRITE, STOP, START, READ, STOP], 0),
    ("samples that end between the eighth and the ninth bit of a byte, which sigrok has told",
     said("start", WRITE, (0xA5, 8)),
     ["Start", "Write", "Address write: 78", "ACK", "Data write: A5"],
     [START, WRITE], 0),
    ("a START within the first byte, which sigrok overlooks",
     said("start", (0xA0, 3), "start", WRITE, 0x40, "stop"),
     ["Start", "Read", "Address read: B7", "NACK", "Data read: 04", "ACK", "Stop"],
     [START, START, WRITE, 0x40, STOP], 0),
    ("a STOP within the first byte, which sigrok overlooks",
     said("start", (0xA0, 3), "stop", "start", WRITE, 0x40, "stop"),
     ["Start", "Read", "Address read: A7", "NACK", "Data read: 04", "ACK", "Stop"],
     [START, STOP, START, WRITE, 0x40, STOP], 0),
    ("a STOP right behind a START, which sigrok overlooks",
     said("start", "stop", "start", WRITE, 0x40, "stop"),
     ["Start", "Write", "Address write: 3C", "ACK", "Data write: 20", "ACK", "Stop"],
     [START, STOP, START, WRITE, 0x40, STOP], 0),
    ("a first sample with the data line low, which sigrok holds against no other",
     said(WRITE, "stop", first=(1, 0)),
     [],
     [START, WRITE, STOP], 0),
    ("both lines changed between two samples, where sigrok takes a bit",
     with_one_lost(["start", WRITE], 0x80, "stop", "start", READ, "stop"),
     ["Start", "Write", "Address write: 78", "ACK", "Data write: 80", "ACK", "Stop",
      "Start", "Read", "Address read: 79", "ACK", "Stop"],
     [START, WRITE, START, READ, STOP], 1),
]
