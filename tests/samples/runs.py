"""The scripts that run a program or the library, and have rt make it where it is not there: samples/run and
examples/run; and tools/build, which both ask for it.
"""
import os
import shutil
import subprocess
import tempfile

from calls import ROOT, script

RUN = os.path.join(ROOT, "samples/run")


# ---- samples/run


def runs(calls, programs):
    last = "The last write is event 65, line 66 of %s: byte 0 into column 43 of bank 2.\n"
    known = {"PROGRAMS": programs}
    absolute = os.path.join(ROOT, "samples/stray.capture")
    for words, directory, name in (
            ([RUN], "/", absolute), (["samples/run"], ROOT, "samples/stray.capture"),
            (["./run", "stray.capture"], "samples", "stray.capture"),
            (["../run", "../stray.capture"], "samples/expected", "../stray.capture"), ([RUN, absolute], "/", absolute)):
        calls.expect(words, 0, out=(last % name)[:-1], directory=directory, **known)
    with open(absolute) as file:
        calls.expect([RUN, "-"], 0, out=(last % "standard input")[:-1], given=file.read(), **known)
    calls.expect([RUN, "--help"], 0, out="usage: samples/run [CAPTURE]\n", **known)
    calls.expect([RUN, "a", "b"], 2, error="samples/run: too many arguments; usage: samples/run [CAPTURE]\n", **known)


def bad_runs(calls, programs):
    with tempfile.TemporaryDirectory() as directory:
        with open(os.path.join(directory, "with blank"), "w") as file:
            file.write("pins\t0\n256\n261\n")
        calls.expect([RUN, "with blank"], 1, out="refused\t3\n", directory=directory, PROGRAMS=programs,
                     error="samples/run: line 3 of with blank is bad: not what a capture has there\n")
        calls.expect([RUN, "none"], 1, error="samples/run: none: there is no such file\n", directory=directory,
                     PROGRAMS=programs)
        calls.expect([RUN, "."], 1, error="samples/run: .: is a directory\n", directory=directory, PROGRAMS=programs)
        calls.expect([RUN, "with blank"], 1, error=f"samples/run: there is no {directory}/replay\n", directory=directory,
                     PROGRAMS=directory)


def large_counts(calls):
    """The last event and its line to the last digit, whatever the event's number is."""
    row = "printf '%s\\t%s\\t%s\\t%s\\n' "
    with tempfile.TemporaryDirectory() as directory:
        for before, last, line in (
                ("8", "9", "10"), ("9", "10", "11"), ("998", "999", "1000"), ("2147483647", "2147483648", "2147483649"),
                ("4294967298", "4294967299", "4294967300"), ("9007199254740992", "9007199254740993", "9007199254740994"),
                ("18446744073709551608", "18446744073709551609", "18446744073709551610"),
                ("9999999999999999999", "18446744073709551615", "18446744073709551616")):
            script(os.path.join(directory, "replay"), row + "column bank byte event", row + "1 2 3 " + before,
                   row + "4 5 6 " + last, row + "7 8 9 " + before)
            calls.expect([RUN], 0, out=f"\nThe last write is event {last}, line {line} of {ROOT}/samples/stray.capture: "
                         "byte 6 into column 4 of bank 5.\n"[:-1], PROGRAMS=directory)


def failing_replay(calls):
    """One that ends with another status than 0, after a part of its listing."""
    with tempfile.TemporaryDirectory() as directory:
        replay = os.path.join(directory, "replay")
        script(replay, "printf 'column\\tbank\\tbyte\\tevent\\n1\\t2\\t3\\t4\\n'", "exit 3")
        calls.expect([RUN], 1, error=f"samples/run: {replay} has failed\n", PROGRAMS=directory)


def tools(directory, *names):
    """A path on which these tools are, and nothing else."""
    os.makedirs(directory)
    for name in names:
        os.symlink(shutil.which(name), os.path.join(directory, name))
    return directory


def waits_for(file):
    """The words of a script that go on once there is such a file, and end with 1 if it does not come."""
    return f"n=0; until [ -e '{file}' ]; do n=$((n + 1)); [ $n -lt 600 ] || exit 1; sleep 0.1; done"


def shown_at_once(calls, words, line, sign, **variables):
    """The script shows this line while rt, which waits for the sign, has not ended."""
    process = subprocess.Popen(words, stdin=subprocess.DEVNULL, stdout=subprocess.PIPE, stderr=subprocess.PIPE,
                               env={**os.environ, **variables})
    for said in process.stderr:
        if said == line.encode() + b"\n":
            with open(sign, "w"):
                pass
    out = process.stdout.read()
    calls.hold(process.wait() == 0 and os.path.exists(sign), f"{words}: {line!r} does not come while rt runs: {out}")


def project_of(to, *parts):
    """A part of the project, with what proves and makes things in it."""
    for part in (*parts, "tools/build"):
        if os.path.isdir(part):
            shutil.copytree(part, os.path.join(to, part))
        else:
            os.makedirs(os.path.dirname(os.path.join(to, part)), exist_ok=True)
            shutil.copy(part, os.path.join(to, part))


# What rt says of a crate that it proves, and of one that it does not.
PROVED = "echo 'crate text: modules loaded=1 checked=2'; echo 'logic=proved functions=13'"
UNPROVED = "echo 'crate capture: modules loaded=1 checked=2'; echo 'logic=not-proved'"


def first_runs(calls, programs):
    """Where the program is not there, rt is asked for it: here something that goes by its name."""
    with tempfile.TemporaryDirectory() as project:
        project_of(project, "samples/run", "samples/stray.capture", "crates/replay/src/main.rt")
        rt, path = os.path.join(project, "bin/rt"), f"{project}/bin:{os.environ['PATH']}"
        environment = {"PATH": path, "PROGRAMS": ""}
        run = [os.path.join(project, "samples/run")]
        making = "samples/run: proving and making replay, a line for each crate; this takes some minutes\n"

        script(rt, PROVED, "echo 'a fact of it'", UNPROVED, "exit 1")
        calls.expect(run, 1, error=f"{making}tools/build: text is proved\ntools/build: capture is NOT PROVED\n"
                     "tools/build: replay could not be made; target/build/replay.log says why\n"
                     "samples/run: replay could not be made\n", **environment)
        with open(os.path.join(project, "target/build/replay.log")) as file:
            calls.hold("a fact of it" in file.read(), "target/build/replay.log does not have what rt said")
        calls.expect(run, 1, error=f"{making}tools/build: there is no rt on the path, which proves and makes replay\n"
                     "samples/run: replay could not be made\n", PATH=tools(f"{project}/path", "dirname"), PROGRAMS="")
        sign = os.path.join(project, "sign")
        script(rt, "[ \"$*\" = 'run -- --help' ] && [ \"${PWD##*/}\" = replay ] || exit 1", PROVED, waits_for(sign),
               f"mkdir -p out && cp '{programs}/replay' out")
        shown_at_once(calls, run, "tools/build: text is proved", sign, **environment)
        calls.expect(run, 0, out="The last write is event 65", **environment)


# ---- examples/run


def examples(calls, archive):
    """Where the archive is not there, rt is asked for it: here something that goes by its name."""
    with tempfile.TemporaryDirectory() as project:
        project_of(project, "examples", "include")
        os.makedirs(os.path.join(project, "crates/host_c"))
        rt, path = os.path.join(project, "bin/rt"), f"{project}/bin:{os.environ['PATH']}"
        run = [os.path.join(project, "examples/run")]
        making = "examples/run: proving and making target/staticlib/libhost.a; this takes some minutes\n"
        unmade = "examples/run: target/staticlib/libhost.a could not be made\n"

        calls.expect(run + ["--model", "--model"], 2, error="examples/run: too many arguments\n")
        calls.expect(run + ["--help"], 2, error="examples/run: unknown argument --help: --model or --make-stdout\n")
        calls.expect(run, 1, PATH=tools(f"{project}/path", "dirname", "mkdir"),
                     error=making + "tools/build: there is no rt on the path, which proves and makes host\n" + unmade)
        script(rt, UNPROVED, "echo 'a fact of it'", "exit 1")
        calls.expect(run, 1, error=making + "tools/build: capture is NOT PROVED\n"
                     "tools/build: host could not be made; target/build/host.log says why\n" + unmade, PATH=path)
        with open(os.path.join(project, "target/build/host.log")) as file:
            calls.hold("a fact of it" in file.read(), "target/build/host.log does not have what rt said")
        sign = os.path.join(project, "sign")
        script(rt, "[ \"$*\" = lib ] && [ \"${PWD##*/}\" = host_c ] || exit 1", PROVED, waits_for(sign),
               f"mkdir -p out && cp '{archive}' out/libhost_c.a")
        shown_at_once(calls, run, "tools/build: text is proved", sign, PATH=path)
        calls.expect(run, 0, out="examples: as expected\n", PATH=path)
        for name in "wires", "four_glasses", "host":
            with open(os.path.join(project, f"examples/{name}.stdout"), "a") as file:
                file.write(f"one line more of {name}\n")
            calls.expect(run, 1, out=f"< one line more of {name}", PATH=path)


# ---- tools/build


def builds(calls, programs):
    """What rt ci has made is taken as it is; a program that is not there, and one that rt does not make, are told."""
    with tempfile.TemporaryDirectory() as project:
        project_of(project, "crates/replay/src/main.rt")
        build, made = os.path.join(project, "tools/build"), os.path.join(project, "crates/replay/out/replay")
        usage = "tools/build: usage: tools/build NAME.. or tools/build --made\n"
        calls.expect([build], 1, error=usage)
        calls.expect([build, "nothing"], 1, error="tools/build: there is no program nothing\n")
        calls.expect([build, "--made"], 1, error="tools/build: crates/replay/out/replay is not there; rt ci makes it\n")
        os.makedirs(os.path.dirname(made))
        shutil.copy(os.path.join(programs, "replay"), made)
        calls.expect([build, "--made"], 0, out="")
        calls.expect([os.path.join(project, "target/bin/replay"), "--help"], 0, out="replay")
        # an earlier one does not stand for one that could not be made
        script(os.path.join(project, "bin/rt"), UNPROVED, "exit 1")
        calls.expect([build, "replay"], 1, PATH=f"{project}/bin:{os.environ['PATH']}",
                     error="tools/build: capture is NOT PROVED\ntools/build: replay could not be made; "
                     "target/build/replay.log says why\n")


def all_of(calls, programs, archive):
    runs(calls, programs)
    bad_runs(calls, programs)
    calls.not_taken([RUN], "samples/run: standard output can't be written", PROGRAMS=programs)
    calls.not_taken([RUN, "--help"], "samples/run: standard output can't be written", PROGRAMS=programs)
    large_counts(calls)
    failing_replay(calls)
    first_runs(calls, programs)
    examples(calls, archive)
    builds(calls, programs)
