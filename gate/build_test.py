#!/usr/bin/env python3
"""Tests `./ulfm --build` on a copy of the repository, with a command that proves nothing in the toolchain's place: the proofs themselves are the gate's.

Each crate below the program is asked for once, after all that it names, with others beside it; a build that is interrupted goes on where it was, and says
so; one whose crate can't be proved says which; and what is built is asked for no more, until a source changes.
"""
import os
import re
import shutil
import signal
import subprocess
import sys
import tempfile
import time

sys.dont_write_bytecode = True
from checks import ends, expect
from crates import Crates

TOP = os.path.dirname(os.path.dirname(os.path.realpath(__file__)))
# It tells when it began and ended, and leaves a file of what it built. It fails at the crate that FAILS names.
STUB = """#!/usr/bin/env bash
[ "$1" = version ] && { echo stub; exit; }
crate=${PWD##*/}
echo "begin $crate $*" >>"$ASKED"
sleep "${TAKES:-0.05}"
[ "$crate" = "${FAILS:-}" ] && { echo "no proof of $crate"; exit 1; }
mkdir -p out && echo built >"out/$crate"
chmod +x "out/$crate"
echo "end $crate" >>"$ASKED"
"""


class Copy:
    """A copy of the repository with nothing built, and a stub of the toolchain."""

    def __init__(self, folder):
        self.root, self.asked = f"{folder}/copy", f"{folder}/asked"
        shutil.copytree(TOP, self.root, ignore=shutil.ignore_patterns("out", ".git", "__pycache__"))
        os.mkdir(f"{folder}/bin")
        with open(f"{folder}/bin/rt", "w", encoding="utf-8") as it:
            it.write(STUB)
        os.chmod(f"{folder}/bin/rt", 0o755)
        self.surroundings = {**os.environ, "PATH": f"{folder}/bin:{os.environ['PATH']}", "ASKED": self.asked}

    def start(self, **more):
        open(self.asked, "w").close()
        how = {"env": {**self.surroundings, **more}, "stderr": subprocess.PIPE, "text": True, "start_new_session": True}
        return subprocess.Popen([f"{self.root}/ulfm", "--build"], **how)

    def build(self, **more):
        """Runs the build. Gives its status, what it said, and the crates that were asked for, as they began."""
        command = self.start(**more)
        _, printed = command.communicate(timeout=120)
        return command.returncode, printed, self.begun()

    def lines(self):
        with open(self.asked, encoding="utf-8") as it:
            return [line.split() for line in it]

    def begun(self):
        return [it[1] for it in self.lines() if it[0] == "begin"]

    def ended(self):
        return [it[1] for it in self.lines() if it[0] == "end"]


def builds_all(copy, crates, names):
    status, printed, begun = copy.build()
    lines = [it[:2] for it in copy.lines()]
    at = {tuple(it): place for place, it in enumerate(lines)}
    expect(status == 0, f"a build ends with {status}: {printed}")
    expect(sorted(begun) == sorted(names), f"not each crate is asked for once: {begun}")
    early = [it for it in names for below in crates.by_name[it].named if at["end", below] > at["begin", it]]
    expect(not early, f"begun before what they stand on: {early}")
    beside = any(one[0] == two[0] == "begin" for one, two in zip(lines, lines[1:]))
    expect(beside or len(os.sched_getaffinity(0)) == 1, "no crate is built beside another")
    told = re.findall(rf"^ulfm: crate \d+ of {len(names)}: proving .*; about \d+ minutes left$", printed, re.M)
    expect(len(told) >= len(names) // 4, f"it isn't said how far it is: {printed}")
    expect(os.path.isfile(f"{copy.root}/crates/ulfm/out/ulfm"), "the program doesn't stay")
    status, printed, begun = copy.build()
    expect(status == 0 and not begun, f"what is built is asked for again: {begun}")


def builds_what_changed(copy, crates, names):
    with open(f"{copy.root}/crates/ulfm_run/src/lib.rt", "a", encoding="utf-8") as it:
        it.write("// more\n")
    _, _, begun = copy.build()
    wanted = [it for it in names if it == "ulfm_run" or "ulfm_run" in crates.below(it)]
    expect(sorted(begun) == sorted(wanted), f"after a change {begun} are built, and not {wanted}")


def goes_on(copy, names):
    """A build that is interrupted ends with 130, and the next one asks for nothing that had ended."""
    command = copy.start(TAKES="0.4")
    while len(copy.ended()) < 5:
        time.sleep(0.05)
    os.killpg(command.pid, signal.SIGTERM)
    _, printed = command.communicate(timeout=60)
    expect(command.returncode == 130, f"an interrupted build ends with {command.returncode}: {printed}")
    expect("Traceback" not in printed, f"an interrupted build tells of its insides: {printed}")
    done = copy.ended()
    status, printed, begun = copy.build()
    expect(status == 0 and f"{len(done)} of {len(names)} crates were proved before" in printed, f"it isn't said that the build goes on: {printed}")
    expect(sorted([*done, *begun]) == sorted(names), f"after {done} were built, {begun} are")


def tells_what_failed(copy):
    status, printed, begun = copy.build(FAILS="ulfm_words")
    is_named = "no proof of ulfm_words" in printed and "ulfm_words could not be proved and built" in printed
    expect(status == 3 and is_named, f"a crate that isn't proved isn't named: {printed}")
    expect("ulfm_steps" not in begun, "what stands on a crate that failed is begun")


def main():
    crates = Crates(TOP)
    names = crates.lowest_first(["ulfm"])
    for trial in (lambda it: (builds_all(it, crates, names), builds_what_changed(it, crates, names)), lambda it: goes_on(it, names), tells_what_failed):
        with tempfile.TemporaryDirectory(prefix="build-test-") as folder:
            trial(Copy(folder))
    ends("build_test")


if __name__ == "__main__":
    main()
