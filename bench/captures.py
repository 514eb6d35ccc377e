"""What bench/replay and bench/instructions share: captures, and the plain C programs of tests/model."""
import os
import subprocess

OUT = "target/bench"
FLAGS = ["-std=c11", "-D_POSIX_C_SOURCE=200809L", "-Wall", "-Wextra", "-Werror", "-O2"]
KINDS = {"mixed": "mixed messages", "banks": "whole banks"}


def build(program, includes, sources):
    os.makedirs(OUT, exist_ok=True)
    path = os.path.join(OUT, program)
    subprocess.run([os.environ.get("CC", "gcc"), *FLAGS, *("-I" + name for name in includes), *sources,
                    "-o", path], check=True)
    return path


def make_capture(kind, size):
    """A file with a capture of this kind and of about this many bytes."""
    maker = build("make_capture", ["bench", "tests/host"],
                  ["bench/make_capture.c", "bench/streams.c", "tests/host/records.c"])
    path = os.path.join(OUT, f"{kind}_{size}")
    with open(path, "wb") as file:
        subprocess.run([maker, str(size), kind], stdout=file, check=True)
    return path


def plain_program(name):
    parts = [name, "capture", "pixels", "names", "program", "model", "display"]
    return build("plain_" + name, ["tests/model"], [f"tests/model/{part}.c" for part in parts])
