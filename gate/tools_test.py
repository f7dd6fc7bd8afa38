#!/usr/bin/env python3
"""Tests tools/ulfm_log.c and tools/join_logs.py on a stub of an MPI: no MPI is needed, only a C compiler.

    gate/tools_test.py [PROGRAM]     PROGRAM is crates/ulfm/out/ulfm, if it isn't given

The C file must compile without a warning. Two processes, of which one dies, are logged through it; the joined log is tools/test/two.observed in order
`ranks`, and has the same lines of each rank in order `time`; `ulfm check --observed` explains both, and not the first with one value changed. Files that lack
their end, have another rank's name or a line that may not stand there are told as such. Where mpicc is there the C file is compiled with it too. It
prints a line for each failure, and ends with 1 where there is one.
"""
import os
import shutil
import subprocess
import sys
import tempfile

TOP = os.path.dirname(os.path.dirname(os.path.realpath(__file__)))
TOOLS = os.path.join(TOP, "tools")
JOIN = os.path.join(TOOLS, "join_logs.py")
CC = os.environ.get("CC", "cc")
WARN = ["-std=c11", "-Wall", "-Wextra", "-Wpedantic", "-Werror", "-O1"]
failures = 0


def holds(what, is_so, more=""):
    global failures
    if not is_so:
        failures += 1
        print(f"failed: {what}" + (f"\n{more}" if more else ""))


def run(*words, **settings):
    return subprocess.run(words, capture_output=True, text=True, timeout=60, **settings)


def compiled(folder):
    """The program of two ranks, linked with the logger and the stub."""
    program = os.path.join(folder, "two")
    stub = ["-I", os.path.join(TOOLS, "test", "stub")]
    done = run(CC, *WARN, *stub, "-c", os.path.join(TOOLS, "ulfm_log.c"), "-o", os.path.join(folder, "old.o"))
    holds("ulfm_log.c compiles without the calls of 2023", done.returncode == 0 and not done.stderr, done.stderr)
    done = run(CC, *WARN, *stub, "-DULFM_LOG_2023", "-c", os.path.join(TOOLS, "ulfm_log.c"), "-o", os.path.join(folder, "log.o"))
    holds("ulfm_log.c compiles", done.returncode == 0 and not done.stderr, done.stderr)
    sources = [os.path.join(TOOLS, "test", "two.c"), os.path.join(TOOLS, "test", "stub", "stub.c")]
    done = run(CC, *WARN, "-D_GNU_SOURCE", *stub, *sources, os.path.join(folder, "log.o"), "-o", program)
    holds("the stub compiles", done.returncode == 0 and not done.stderr, done.stderr)
    return program


def logged(folder, program):
    """What two processes log: the name of their files."""
    name, shared = os.path.join(folder, "log"), os.path.join(folder, "shared")
    with open(shared, "wb") as it:
        it.truncate(int(run(program, "--size").stdout))
    common = dict(os.environ, ULFM_LOG=name, STUB_SHARED=shared, STUB_RANKS="2")
    started = [subprocess.Popen([program], env=dict(common, STUB_RANK=str(rank))) for rank in (0, 1)]
    holds("both processes end well", [it.wait(timeout=60) for it in started] == [0, 0])
    return name


def of_ranks(text):
    """The lines of each rank, in order, whatever stands between them."""
    lines = text.splitlines()[1:]
    return {rank: [line for line in lines if line.split()[2 if line.startswith("call") else 1] == rank] for rank in "01"}


def joins(name, program):
    with open(os.path.join(TOOLS, "test", "two.observed"), encoding="ascii") as it:
        wanted = it.read()
    by_ranks = run(JOIN, "--order", "ranks", name)
    holds("the log in order ranks", by_ranks.returncode == 0 and by_ranks.stdout == wanted, by_ranks.stdout + by_ranks.stderr)
    by_time = run(JOIN, name)
    holds("the log in order time", by_time.returncode == 0 and of_ranks(by_time.stdout) == of_ranks(wanted), by_time.stdout + by_time.stderr)
    holds("its header", by_time.stdout.startswith("ulfm-observed 1 2 3 6 time any\n"), by_time.stdout[:60])
    return by_ranks.stdout, by_time.stdout


def judged(program, logs):
    """The logs are explained, and the first isn't with one value changed."""
    for log in logs:
        done = run(program, "check", "--observed", input=log)
        holds("the log is explained", done.returncode == 0 and done.stdout == "explained\n", log + done.stdout + done.stderr)
    done = run(program, "check", "--observed", input=logs[0].replace("agreed 0000000c", "agreed 0000000f", 1))
    holds("the log with another value isn't explained", done.returncode == 1 and done.stdout.startswith("not explained: "), done.stdout + done.stderr)


def tells(name, what, change, wanted):
    """A changed copy of a process's file is told so."""
    folder = name + "-" + what.replace(" ", "-")
    os.mkdir(folder)
    for rank in "01":
        shutil.copy(f"{name}.{rank}", os.path.join(folder, f"log.{rank}"))
    change(os.path.join(folder, "log"))
    done = run(JOIN, os.path.join(folder, "log"))
    holds(what, wanted in done.stdout + done.stderr and (done.returncode == 0) == wanted.startswith("lost"), done.stdout + done.stderr)


def appends(text):
    def change(name):
        with open(name + ".1", "a", encoding="ascii") as it:
            it.write(text)
    return change


def changes(name):
    tells(name, "a line that is cut", appends("call 99"), "lost 1")
    tells(name, "a file that is missing", lambda at: os.remove(at + ".1"), "lost 1")
    tells(name, "another line", appends("barrier\n"), "log.1:4: this line may not stand here: barrier")
    tells(name, "a reply without a call", appends("reply 1 done\n"), "log.1:4: this line may not stand here")
    tells(name, "another error", appends("call 1 barrier 0\nreply 2 other 15\n"), "log.1:5: the error class 15 has no reply")
    tells(name, "a communicator of nobody", appends("call 1 barrier 7\n"), "rank 1 names a communicator that it never had")
    tells(name, "another rank's file", lambda at: shutil.copy(at + ".0", at + ".1"), "log.1:1: this isn't the file of rank 1 of 2")


def real(folder):
    """With an MPI that has ULFM, the C file compiles too."""
    if shutil.which("mpicc"):
        done = run("mpicc", "-std=c11", "-Wall", "-Wextra", "-c", os.path.join(TOOLS, "ulfm_log.c"), "-o", os.path.join(folder, "real.o"))
        holds("ulfm_log.c compiles with mpicc", done.returncode == 0 and not done.stderr, done.stderr)


def main():
    ulfm = sys.argv[1] if len(sys.argv) > 1 else os.path.join(TOP, "crates/ulfm/out/ulfm")
    with tempfile.TemporaryDirectory() as folder:
        program = compiled(folder)
        if not failures:
            name = logged(folder, program)
            judged(ulfm, joins(name, program))
            changes(name)
            done = run(JOIN, "--lost", "1", name)
            holds("a rank that is said to be lost", done.returncode == 0 and done.stdout.endswith("\nlost 1\n"), done.stdout + done.stderr)
            done = run(JOIN, "--lost", "2", name)
            holds("a lost rank of nobody", done.returncode == 1 and "there are only 2 ranks" in done.stderr, done.stdout + done.stderr)
        real(folder)
    sys.exit(1 if failures else 0)


if __name__ == "__main__":
    main()
