"""Holds the programs of the bench crews against the model's programs, byte by byte.

    main.py [--status] PROGRAMS MODEL [quick GROUP...]

PROGRAMS and MODEL are directories with the programs. `--status` asks for a status that is not 0
where a call fails. `quick` takes a sample of the cases, of these groups only: arguments, messages,
captures, pairs, lists, pixels, states, traces, wires, agreement.
"""
import os
import sys

import agreement
import arguments
import captures
import lists
import messages
import pairs
import pixels
import states
import traces
import wires
from sides import Difference, Sides, report


GROUPS = {"arguments": arguments.THEMES, "messages": messages.THEMES, "captures": captures.THEMES,
          "pairs": pairs.THEMES, "lists": lists.THEMES, "pixels": pixels.THEMES, "states": states.THEMES,
          "traces": traces.THEMES, "wires": wires.THEMES, "agreement": agreement.THEMES}


def compare(sides, groups):
    for group in groups:
        for theme in GROUPS[group]:
            sides.theme = theme.__name__
            theme(sides)


def main(words):
    with_status = words[:1] == ["--status"]
    words = words[with_status:]
    if len(words) < 2 or words[2:3] not in ([], ["quick"]):
        sys.exit("usage: main.py [--status] PROGRAMS MODEL [quick GROUP...]")
    directories = [os.path.abspath(word) for word in words[:2]]
    sides = Sides(*directories, quick=len(words) > 2, with_status=with_status)
    try:
        compare(sides, words[3:] or GROUPS)
    except Difference as error:
        report(sides, error)
    report(sides)


main(sys.argv[1:])
