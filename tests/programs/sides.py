"""Runs a program and the model's program of the same name on the same input, and compares them.

What is asked of a program, by what the model does:

- the model ends with status 0: the output is the model's, byte by byte, the status is 0 and nothing
  stands on standard error; but where `draw` refuses, one line there says by which number and at which
  line, and what `wires` says there is what the model says;
- the model gives up: there is no crash, no output, and exactly one line on standard error, which begins
  with the program's name; the status is not 0 where that is asked for. (It is not asked of a Rattle
  program: it ends with 0 whenever its `main` returns.)

The bytes of the messages are held against a table, in messages.py.
"""
import array
import fcntl
import os
import subprocess
import sys
import tempfile
import termios
import time

SECONDS = 600


class Difference(Exception):
    pass


class Done:
    """What a program left: its status, its output and what it said on standard error."""

    def __init__(self, status, output, said):
        self.status, self.output, self.said = status, output, said


def finish(process, data):
    try:
        output, said = process.communicate(data, timeout=SECONDS)
    except subprocess.TimeoutExpired:
        process.kill()
        raise Difference(f"no end after {SECONDS} s")
    return Done(process.returncode, output, said)


def begin(words, stdin=subprocess.PIPE):
    return subprocess.Popen(words, stdin=stdin, stdout=subprocess.PIPE, stderr=subprocess.PIPE)


def run(words, data):
    return finish(begin(words), data)


def wait_until_read(process):
    """Until the program has read all that was written to it, or has ended."""
    left = array.array("i", [1])
    until = time.monotonic() + SECONDS
    while left[0] and process.poll() is None and time.monotonic() < until:
        fcntl.ioctl(process.stdin.fileno(), termios.FIONREAD, left)
        time.sleep(0.0001)


def run_in_pieces(words, data, pieces):
    """The input comes through a pipe in pieces, each after the one before it was read, so that every cut is one between two reads."""
    process = begin(words)
    for piece in pieces(data):
        try:
            os.write(process.stdin.fileno(), piece)
        except BrokenPipeError:
            break
        wait_until_read(process)
    return finish(process, b"")


def sleeps(process):
    """Whether it waits for something, or has ended. One that has read all of its input waits for more."""
    with open(f"/proc/{process.pid}/stat", "rb") as file:
        return file.read().rpartition(b") ")[2][:1] in b"SZ"


def wait_until_done(process):
    """Until the program has read all that was written to it and does nothing more, or has ended."""
    wait_until_read(process)
    until = time.monotonic() + SECONDS
    while process.poll() is None and not sleeps(process) and time.monotonic() < until:
        time.sleep(0.0001)


def run_kept_open(words, steps):
    """STEPS are pieces of the input and what is to be printed for each before the next one comes. Gives the first of
    them for which something else is printed, with what that is; None if there is none."""
    process = begin(words)
    os.set_blocking(process.stdout.fileno(), False)
    try:
        for piece, printed in steps:
            os.write(process.stdin.fileno(), piece)
            wait_until_done(process)
            output = process.stdout.read() or b""
            if output != printed:
                return piece, output
    except BrokenPipeError:
        return piece, b""
    finally:
        process.kill()
        process.communicate()
    return None


def run_piped(first, second, data):
    """FIRST | SECOND: what SECOND leaves."""
    source = begin(first)
    sink = begin(second, stdin=source.stdout)
    source.stdout.close()
    try:
        source.stdin.write(data)
        source.stdin.close()
    except BrokenPipeError:
        pass
    done = finish(sink, None)
    source.wait()
    source.stderr.close()
    return done


def shown(data):
    return repr(data[:300]) + (f" and {len(data) - 300} bytes more" if len(data) > 300 else "")


def is_message(program, said):
    """One line that begins with the program's name."""
    return said.count(b"\n") == 1 and said.endswith(b"\n") and said.startswith(program.encode() + b": ")


def is_told(program, output, said, theirs):
    """What stands on standard error where the output is this one: nothing, but for a refusal of `draw` and for the
    unclear samples of `wires`."""
    if program == "wires":
        return said == theirs
    if program != "draw" or not output.startswith(b"refused\t"):
        return said == b""
    number, line = output.split()[1:]
    place = b", line " + line if line != b"0" else b""
    return is_message(program, said) and place + b": refused by " + number + b": " in said


def difference(program, ours, theirs, with_status):
    """What is wrong with ours, or None."""
    if theirs.status != 0:
        if ours.status < 0 or (with_status and ours.status == 0):
            return f"status {ours.status} for a call that has to fail"
        if ours.output:
            return f"output {shown(ours.output)} of a call that has to fail"
        if not is_message(program, ours.said):
            return f"not one line of {program} on standard error: {shown(ours.said)}"
        return None
    if ours.output != theirs.output:
        return f"output\n  {shown(ours.output)}\nand not\n  {shown(theirs.output)}"
    if ours.status != 0 or not is_told(program, ours.output, ours.said, theirs.said):
        return f"status {ours.status}, standard error {shown(ours.said)}"
    return None


class Sides:
    """The directory of the programs and that of the model's; counts the comparisons."""

    def __init__(self, programs, model, quick, with_status):
        self.programs, self.model = programs, model
        self.quick, self.with_status = quick, with_status
        self.theme, self.compared = "", 0

    def words(self, directory, words):
        return [os.path.join(directory, words[0])] + words[1:]

    def hold(self, wrong, what, inputs):
        if wrong:
            raise Difference(f"{self.theme}: {what}\ninput: {', '.join(map(shown, inputs))}\n{wrong}")
        self.compared += 1

    def judge(self, program, what, inputs, ours, theirs):
        self.hold(difference(program, ours, theirs, self.with_status), what, inputs)
        return theirs

    def says(self, words, said, data=b"", output=b""):
        """The program leaves exactly this on standard error and on standard output; the model is not asked."""
        self.left(words, run(self.words(self.programs, words), data), said, output)

    def says_of_directory(self, words, directory, said):
        """The same, with this directory, which can't be read, as standard input."""
        stdin = os.open(directory, os.O_RDONLY)
        try:
            done = finish(begin(self.words(self.programs, words), stdin), None)
        finally:
            os.close(stdin)
        self.left(words, done, said, b"")

    def says_of_failing_pipe(self, words, data, said, output):
        """The same, with a pipe as standard input that gives DATA in one read and fails in the next, as it has no more and
        does not wait."""
        stdin, other = os.pipe()
        try:
            os.set_blocking(stdin, False)
            os.write(other, data)
            done = finish(begin(self.words(self.programs, words), stdin), None)
        finally:
            os.close(stdin)
            os.close(other)
        self.left(words, done, said, output, True)

    def left(self, words, done, said, output, fails=False):
        wrong = None
        # Where a status is asked for, a call that fails says something and has another than 0.
        failed = self.with_status and (fails or output == b"" and said != b"")
        if done.status < 0 or (done.status != 0) != failed:
            wrong = f"status {done.status}, with standard error {shown(done.said)}"
        elif done.said != said:
            wrong = f"standard error\n  {shown(done.said)}\nand not\n  {shown(said)}"
        elif done.output != output:
            wrong = f"output\n  {shown(done.output)}\nand not\n  {shown(output)}"
        self.hold(wrong, " ".join(words)[:300], [])

    def same(self, words, data=b""):
        """WORDS are the program's name and its arguments; DATA is its standard input."""
        return self.judge(words[0], " ".join(words), [data], run(self.words(self.programs, words), data),
                          run(self.words(self.model, words), data))

    def exactly(self, words, data, output):
        """The same, and the output is this one, known without the model."""
        self.known(words[0], self.same(words, data), output)

    def known(self, program, theirs, output):
        """What the model's program left is this output."""
        if theirs.output != output:
            raise Difference(f"{self.theme}: the model's {program} does not print {shown(output)}")

    def same_of_files(self, program, contents):
        """The arguments are the names of files with these contents."""
        with tempfile.TemporaryDirectory() as directory:
            paths = [os.path.join(directory, str(i + 1)) for i in range(len(contents))]
            for path, content in zip(paths, contents):
                with open(path, "wb") as file:
                    file.write(content)
            words = [program] + paths
            return self.judge(program, " ".join(words), contents, run(self.words(self.programs, words), b""),
                              run(self.words(self.model, words), b""))

    def same_in_pieces(self, words, data, pieces):
        return self.judge(words[0], " ".join(words) + ", in pieces", [data],
                          run_in_pieces(self.words(self.programs, words), data, pieces),
                          run(self.words(self.model, words), data))

    def same_piped(self, first, second, data):
        both = [self.words(directory, words) for directory in (self.programs, self.model)
                for words in (first, second)]
        return self.judge(second[0], " ".join(first) + " | " + " ".join(second), [data],
                          run_piped(both[0], both[1], data), run_piped(both[2], both[3], data))

    def as_it_comes(self, words, steps):
        """Each piece of the input is answered at once: STEPS are pieces and what is to be printed for each."""
        for directory in (self.programs, self.model):
            wrong = run_kept_open(self.words(directory, words), steps)
            if wrong:
                raise Difference(f"{self.theme}: {' '.join(words)}: {shown(wrong[1])} is printed when "
                                 f"{shown(wrong[0])} has come, and the input goes on")
        self.compared += 1

    def sample(self, cases, count):
        """All cases, or some of them, evenly spread, when it has to be quick."""
        cases = list(cases)
        if not self.quick or len(cases) <= count:
            return cases
        return [cases[i * len(cases) // count] for i in range(count)]


def report(sides, error=None):
    if error is not None:
        print(f"programs: DIFFERENT, after {sides.compared} equal comparisons: {error}", file=sys.stderr)
        sys.exit(1)
    print(f"programs: {sides.compared} comparisons, with the model's programs and of messages, all equal")
