"""Samples by way of sigrok's files: what sigrok-cli writes of them with -O binary."""
import os
import random

import sigrok

# Where a file tells its rate, sigrok-cli writes this line before the samples.
RATE = b"META samplerate: 1000000\n"


def value_changes(samples):
    """A value change dump of the two lines, a sample each microsecond."""
    changes = "".join(f"#{i}\n{sample & 1}!\n{sample >> 1}\"\n" for i, sample in enumerate(samples))
    return ("$timescale 1 us $end\n$scope module probe $end\n$var wire 1 ! SDA $end\n$var wire 1 \" SCL $end\n"
            f"$upscope $end\n$enddefinitions $end\n{changes}#{len(samples)}\n").encode()


def table(samples):
    return "".join(f"{sample & 1},{sample >> 1}\n" for sample in samples).encode()


def session(directory, channels, samples):
    """The path of a session, which is sigrok's own kind of file."""
    path = os.path.join(directory, "probe.sr")
    given = sigrok.stored(directory, samples)
    sigrok.called("-I", f"binary:numchannels={channels}:samplerate=1000000", "-i", given, "-o", path)
    return path


def written(directory, samples):
    """What -O binary writes, by what it was read from. It has the bytes of all channels; a dump of two is without the
    others."""
    binary = "-O", "binary"
    yield "a session", b"", sigrok.called("-i", session(directory, 2, samples), *binary)
    path = sigrok.stored(directory, table(samples))
    yield "a table", b"", sigrok.called("-I", "csv:header=no:column_formats=2l", "-i", path, *binary)
    path = sigrok.stored(directory, value_changes(samples))
    yield "a dump", RATE, sigrok.called("-I", "vcd", "-i", path, *binary)

    source = random.Random(6)
    eight = bytes(sample | source.randrange(64) << 2 for sample in samples)
    dump = sigrok.called("-i", session(directory, 8, eight), "-C", "0,1", "-O", "vcd")
    yield "two of eight channels", RATE, sigrok.called("-I", "vcd", "-i", "-", *binary, data=dump)
