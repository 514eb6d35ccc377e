"""Calls of sigrok-cli, and what its I2C decoder says of samples."""
import os
import re
import subprocess

from probe import READ_ACK, READ_NACK, START, STOP

# SDA is channel 0 and SCL channel 1: bits 0 and 1 of a byte.
SAMPLES = "binary:numchannels=2:samplerate=1000000"
DECODER = "i2c:sda=0:scl=1:address_format=unshifted"
ANNOTATIONS = "i2c=start:repeat-start:stop:ack:nack:address-read:address-write:data-read:data-write"
SECONDS = 120


class Failure(Exception):
    pass


def called(*words, data=None):
    """What sigrok-cli prints, called with these words."""
    done = subprocess.run(["sigrok-cli", *words], input=data, stdout=subprocess.PIPE, stderr=subprocess.PIPE,
                          timeout=SECONDS)
    if done.returncode != 0 or done.stderr:
        raise Failure(f"sigrok-cli {' '.join(words)}: status {done.returncode}, {done.stderr[:300]!r}")
    return done.stdout


def stored(directory, data):
    """The path of a file for the next call."""
    path = os.path.join(directory, "input")
    with open(path, "wb") as file:
        file.write(data)
    return path


def decoded(directory, samples):
    """The decoder's lines, in order."""
    printed = called("-I", SAMPLES, "-i", stored(directory, samples), "-P", DECODER, "-A", ANNOTATIONS).decode()
    return [line.removeprefix("i2c-1: ") for line in printed.splitlines()]


def events(lines):
    """The decoder's lines as the events of a capture. A byte that is read is told by its acknowledge bit, and that bit
    of a byte which is written is no event."""
    found, read = [], False
    for line in lines:
        byte = re.fullmatch("(Address write|Address read|Data write|Data read): ([0-9A-F]{2})", line)
        if line in ("Start", "Start repeat"):
            found.append(START)
        elif line == "Stop":
            found.append(STOP)
        elif line in ("ACK", "NACK"):
            found += [READ_ACK if line == "ACK" else READ_NACK] if read else []
        elif byte:
            read = byte[1] == "Data read"
            found += [] if read else [int(byte[2], 16)]
        elif line not in ("Write", "Read"):
            raise Failure(f"sigrok's decoder says {line!r}")
    return found
