"""Builds the archive for C, runs the parts of the tests against the independent model and against sigrok, and the
examples, as many at a time as there are cores.

What they print stays in order. A part that fails ends the others, and its output alone is printed.
"""
import concurrent.futures
import contextlib
import os
import signal
import subprocess
import sys
import time

# What takes long comes first, so that the others run beside it.
ARCHIVE = "tools/build host"
PARTS = ["tests/run programs", "tests/run model", "tests/run worked", "tests/run gate", "tests/sigrok/run"]
PARTS_OF_ARCHIVE = ["tests/run host", "tests/run bus", "tests/run compile", "tests/run samples", "tests/run glass",
                    "tests/run wires", "examples/run"]
running = set()


def run(part):
    """What a part prints, and a line with its seconds."""
    began = time.monotonic()
    process = subprocess.Popen(part.split(), stdout=subprocess.PIPE, stderr=subprocess.STDOUT, text=True,
                               start_new_session=True)
    running.add(process)
    printed, _ = process.communicate()
    running.discard(process)
    if process.returncode != 0:
        raise RuntimeError(f"{printed}gate: {part} FAILED")
    return f"{printed}gate: {part} passed ({time.monotonic() - began:.0f} s)"


def run_after(archive, part):
    archive.result()
    return run(part)


def end_others():
    for process in list(running):
        with contextlib.suppress(ProcessLookupError):
            os.killpg(process.pid, signal.SIGTERM)


pool = concurrent.futures.ThreadPoolExecutor(len(os.sched_getaffinity(0)))
archive = pool.submit(run, ARCHIVE)
parts = [archive] + [pool.submit(run, part) for part in PARTS]
parts += [pool.submit(run_after, archive, part) for part in PARTS_OF_ARCHIVE]
done, _ = concurrent.futures.wait(parts, return_when=concurrent.futures.FIRST_EXCEPTION)
failed = [part.exception() for part in parts if part in done and part.exception()]
if failed:
    pool.shutdown(wait=False, cancel_futures=True)
    end_others()
    sys.exit(str(failed[0]))
for part in parts:
    print(part.result())
