"""Holds the program wires against sigrok. tests/sigrok/run tells what is compared.

    main.py WIRES
"""
import os
import random
import subprocess
import sys
import tempfile

sys.path.append(os.path.join(os.path.dirname(os.path.abspath(__file__)), "../programs"))
import files
import sigrok
import traffic
from differences import DIFFERENCES

# How long a level is held, in samples: always as long, or longer and shorter at random; and how many events are said.
HOLDS = [
    ("1", lambda source: 1, 8000), ("2", lambda source: 2, 8000), ("5", lambda source: 5, 8000),
    ("100", lambda source: 100, 800), ("1 to 4", lambda source: source.randrange(1, 5), 8000),
    ("1 to 40", lambda source: source.choice([1, 1, 2, 3, 10, 40]), 8000),
]


def events_of(what, program, samples, unclear=0):
    """The events that wires prints of samples, of which so many are unclear."""
    done = subprocess.run([program, "0"], input=samples, stdout=subprocess.PIPE, stderr=subprocess.PIPE)
    head, *lines = done.stdout.decode().splitlines() or [""]
    said = f"wires: {unclear} unclear sample{'' if unclear == 1 else 's'}\n" if unclear else ""
    if done.returncode != 0 or done.stderr.decode() != said or head != "pins\t0" or not all(map(str.isdigit, lines)):
        raise sigrok.Failure(f"{what}: wires gives status {done.returncode}, {done.stderr!r}, {done.stdout[:60]!r} "
                             f"and at the end {lines[-1:]}")
    return [int(line) for line in lines]


def hold(what, **found):
    """All that was found, by the name of who says it, is the same."""
    lists = list(found.values())
    if all(one == lists[0] for one in lists):
        return
    at = next(i for i in range(max(map(len, lists)) + 1) if len({tuple(one[i:i + 1]) for one in lists}) > 1)
    shown = "\n".join(f"  {name}: {len(one)} of them, {one[max(at - 5, 0):at]} and then {one[at:at + 8]}"
                      for name, one in found.items())
    raise sigrok.Failure(f"{what}: not the same from place {at} on\n{shown}")


def clean_traffic(program, directory):
    """How many events, of how many samples."""
    events = samples = 0
    for name, length, count in HOLDS:
        source, what = random.Random(name), f"traffic with levels of {name} samples"
        data, said = traffic.random_traffic(source, count, lambda: length(source))
        hold(what, said=said, wires=events_of(what, program, data),
             sigrok=sigrok.events(sigrok.decoded(directory, data)))
        events, samples = events + len(said), samples + len(data)
    return events, samples


def differences(program, directory):
    for what, samples, theirs, ours, unclear in DIFFERENCES:
        hold(what, expected=theirs, sigrok=sigrok.decoded(directory, samples))
        hold(what, expected=ours, wires=events_of(what, program, samples, unclear))


def by_files(program, directory):
    """How many ways."""
    samples, said = traffic.random_traffic(random.Random(5), 300, lambda: 2)
    ways = list(files.written(directory, samples))
    for name, before, data in ways:
        what = f"-O binary of {name}"
        hold(what, expected=before + samples, sigrok=data)
        hold(what, said=said, wires=events_of(what, program, data[len(before):]))
    return len(ways)


def main(program):
    with tempfile.TemporaryDirectory() as directory:
        try:
            events, samples = clean_traffic(program, directory)
            differences(program, directory)
            ways = by_files(program, directory)
        except sigrok.Failure as failure:
            sys.exit(f"sigrok: DIFFERENT: {failure}")
    print(f"sigrok: {events} events of {samples} samples, told alike by wires and by sigrok; {len(DIFFERENCES)} places "
          f"where they differ, each as it has to; samples from sigrok's files in {ways} ways")


main(os.path.abspath(sys.argv[1]))
