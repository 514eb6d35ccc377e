"""An output that can't be written: each program says so once, by its own name, and ends.

    full_output.py PROGRAMS

PROGRAMS is the directory with the programs. The model's are not held to this. A program has a row in CASES
for each kind of text that it prints. At the end stand-ins that go on, as no program may, are held to the same
and have to be found.
"""
import os
import subprocess
import sys
import tempfile

import captures
import lists
import texts
import wires

CAPTURE = texts.capture(captures.GOOD)
# Some 400 kB: more than any program reads at a time, and more than a pipe holds.
LARGE = CAPTURE + b"0\n" * 200_000
SAMPLES = wires.samples_of(captures.GOOD)
LARGE_SAMPLES = SAMPLES * 400
# The programs that print as they read, with an input that tells little, and one that they must not read to its end.
AS_READ = [(["trace"], CAPTURE, LARGE), (["wires", "1"], SAMPLES, LARGE_SAMPLES)]
SAMPLE = os.path.join(os.path.dirname(os.path.abspath(__file__)), "../../samples/stray.capture")
# Many lines, so that a program that goes on would say it many times; and a refused input, which prints another line.
CASES = [
    (["replay"], CAPTURE), (["replay"], b""), (["replay", "--help"], b""),
    (["view"], CAPTURE), (["view"], b""), (["view", "--help"], b""),
    (["draw", "1"], lists.LIT + b"put\t5\t2\t167\n" * 100), (["draw", "1"], b"no list\n"), (["draw", "--help"], b""),
    (["compare", "-", SAMPLE], CAPTURE), (["compare", SAMPLE, "-"], b""), (["compare", "--help"], b""),
    (["search"], b""), (["search", "--help"], b""),
    (["who", "8", "5"], CAPTURE), (["who", "8", "5"], b""), (["who", "--help"], b""),
    (["state"], CAPTURE), (["state"], b""), (["state", "--help"], b""),
    (["trace"], CAPTURE), (["trace"], b""), (["trace", "--help"], b""),
    (["wires", "1"], SAMPLES), (["wires", "1"], b""), (["wires", "1"], b"\4"), (["wires", "--help"], b""),
    # With unclear samples, too.
    (["wires", "1"], b"\0" + SAMPLES), (["wires", "1"], LARGE_SAMPLES),
    (["instructions"], b""), (["cases_run"], b""),
    (["replay"], LARGE), (["view"], LARGE), (["who", "8", "5"], LARGE), (["state"], LARGE), (["trace"], LARGE),
    (["compare", "-", SAMPLE], LARGE),
]
SECONDS = 60

# How the program is started, and why its output can't be written: a full device, and an output that is shut. The
# words of a shell: what is run is "$@".
OUTPUTS = [('exec "$@" >/dev/full', b"No space left on device"), ('exec "$@" >&-', b"Bad file descriptor")]


def started(directory, words, start):
    """The words that start the program with such an output."""
    return ["sh", "-c", start, "sh", os.path.join(directory, words[0])] + words[1:]


def wrong(directory, words, data, start, reason):
    """What is wrong with the program, or None."""
    done = subprocess.run(started(directory, words, start), input=data, stdout=subprocess.PIPE,
                          stderr=subprocess.PIPE, timeout=SECONDS)
    if done.returncode < 0:
        return f"ended by signal {-done.returncode}"
    if done.stderr != words[0].encode() + b": standard output: " + reason + b"\n":
        return f"said {done.stderr[:300]!r}"
    return None


def reads_on(directory, words, left, start):
    """Whether a program that prints as it reads takes all of a large input though nothing that it prints is taken."""
    process = subprocess.Popen(started(directory, words, start), stdin=subprocess.PIPE, stdout=subprocess.PIPE,
                               stderr=subprocess.PIPE, bufsize=0)
    try:
        while left:
            left = left[os.write(process.stdin.fileno(), left):]
    except BrokenPipeError:
        pass
    process.communicate(timeout=SECONDS)
    return not left


def faults(directory):
    """What is wrong with the programs of this directory, call by call."""
    for start, reason in OUTPUTS:
        for words, data in CASES:
            fault = wrong(directory, words, data, start, reason)
            if fault:
                yield f"{' '.join(words)}, {start}, input {data[:60]!r} of {len(data)} bytes: {fault}"
        for words, _, large in AS_READ:
            if reads_on(directory, words, large, start):
                yield f"{' '.join(words)}, {start}: reads on to the end of its input"


SAY = "os.write(2, b'%s: standard output: No space left on device\\n')"
# What a program that goes on does: says it for each part, or says it once and reads on.
GOING_ON = [f"while os.read(0, 65536): {SAY}", f"os.read(0, 65536); {SAY}\nwhile os.read(0, 65536): pass"]


def found_out(code, words, small, large):
    """Whether a program of this code is found to go on."""
    start, reason = OUTPUTS[0]
    with tempfile.TemporaryDirectory() as directory:
        path = os.path.join(directory, words[0])
        with open(path, "w") as file:
            file.write(f"#!{sys.executable} -S\nimport os\n{code % words[0]}\n")
        os.chmod(path, 0o755)
        # By the small input nothing is to be seen.
        if wrong(directory, words, small, start, reason):
            return False
        return wrong(directory, words, large, start, reason) is not None or reads_on(directory, words, large, start)


def main(words):
    if len(words) != 1:
        sys.exit("usage: full_output.py PROGRAMS")
    for fault in faults(os.path.abspath(words[0])):
        sys.exit(f"full output: {fault}")
    for code in GOING_ON:
        for case in AS_READ:
            if not found_out(code, *case):
                sys.exit(f"full output: a {case[0][0]} that goes on is not found: {code!r}")
    print(f"full output: {len(OUTPUTS) * (len(CASES) + len(AS_READ))} calls, each told once by the program's name; "
          f"{len(GOING_ON) * len(AS_READ)} stand-ins that go on are found")


main(sys.argv[1:])
