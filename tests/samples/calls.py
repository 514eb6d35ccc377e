"""Calls of scripts: what a call leaves, and what was not as expected."""
import collections
import os
import subprocess

Said = collections.namedtuple("Said", "status out error")

ROOT = os.getcwd()
NOT_TAKEN = {'exec "$@" >/dev/full': "No space left on device", 'exec "$@" >&-': "Bad file descriptor"}


def called(words, directory=ROOT, given="", **variables):
    done = subprocess.run(words, cwd=directory, input=given.encode(), stdout=subprocess.PIPE, stderr=subprocess.PIPE,
                          env={**os.environ, **variables}, timeout=600)
    return Said(done.returncode, done.stdout.decode(errors="replace"), done.stderr.decode(errors="replace"))


class Calls:
    """Makes calls and keeps what was not as expected."""

    def __init__(self):
        self.made, self.wrong = 0, []

    def expect(self, words, status, out=None, error=None, **how):
        """Output and messages are compared whole where they end with a newline, else they have to hold the words."""
        self.made += 1
        said = called(words, **how)
        good = said.status == status and self.fits(said.out, out) and self.fits(said.error, error)
        if not good or "Traceback" in said.error:
            self.wrong.append(f"{' '.join(words)}: {said}, and not status {status}, {out!r}, {error!r}"[:1000])
        return said

    def hold(self, good, wrong):
        """Counts it, and keeps what is wrong where it is not good."""
        self.made += 1
        if not good:
            self.wrong.append(wrong[:1000])

    def not_taken(self, words, error, **how):
        """On an output that is full and on one that is shut one line says so, where %s stands for the reason; where
        nobody reads the output, nothing is said."""
        for start, reason in NOT_TAKEN.items():
            self.expect(["sh", "-c", start, "sh", *words], 1, error=error.replace("%s", reason) + "\n", **how)
        reading, writing = os.pipe()
        os.close(reading)
        done = subprocess.run(words, stdin=subprocess.DEVNULL, stdout=writing, stderr=subprocess.PIPE,
                              env={**os.environ, **how}, timeout=600)
        os.close(writing)
        self.hold(done.returncode and not done.stderr, f"{' '.join(words)}, its output unread: {done}")

    @staticmethod
    def fits(text, wanted):
        if wanted is None:
            return text == ""
        return text == wanted if wanted.endswith("\n") else wanted in text


def script(path, *lines):
    os.makedirs(os.path.dirname(path), exist_ok=True)
    with open(path, "w") as file:
        file.write("\n".join(("#!/bin/sh",) + lines) + "\n")
    os.chmod(path, 0o755)
