#!/usr/bin/env python3
"""Proves and builds the program and the crates below it, as many at once as there are processors: `./ulfm --build`.

A crate is begun once those that it names are built, and first those with the dearest chain of others behind them. What was proved stays in
each crate's out/: a build that was interrupted goes on there, and says so.
"""
import functools
import hashlib
import os
import subprocess
import sys
import time

sys.dont_write_bytecode = True
from crates import Crates
from lanes import Task, has_room, in_lanes, minutes_left
from rooms import LEFT_OUT, Room, end_at_a_signal

HERE = os.path.dirname(os.path.dirname(os.path.abspath(__file__)))
PROGRAM = "ulfm"


@functools.cache
def toolchain():
    """What the toolchain says of itself."""
    return subprocess.run(["rt", "version"], capture_output=True, text=True).stdout.strip()


def sum_of(crates, name, more=""):
    """A sum of all that a crate's proof is made from: its sources, those of the crates below it, their lines, and the toolchain."""
    made = hashlib.sha256(f"{toolchain()}\n{more}".encode())
    for it in crates.lowest_first([name]):
        made.update(own_sum(crates, it))
    return made.hexdigest()


def own_sum(crates, name):
    """A sum of a crate's line and of its files but those of out/ and must-fail/."""
    folder = crates.folder(name)
    if name not in crates.sums:
        made = hashlib.sha256(crates.by_name[name].line.encode())
        for at, folders, files in os.walk(folder):
            folders[:] = sorted(it for it in folders if at != folder or it not in LEFT_OUT)
            for file in sorted(files):
                with open(f"{at}/{file}", "rb") as it:
                    made.update(f"\n{at.removeprefix(folder)}/{file} {hashlib.sha256(it.read()).hexdigest()}".encode())
        crates.sums[name] = made.digest()
    return crates.sums[name]


class Build:
    """The proof and build of some crates and of those below them, each into its out/."""

    def __init__(self, crates, names):
        self.crates = crates
        self.names = crates.lowest_first(names)
        self.kept = [it for it in self.names if self.is_kept(it)]
        self.begun, self.failed, self.since = {}, [], time.monotonic()

    def mark(self, name):
        """The file that says of which sources a crate's out/ has the proof and the build."""
        return f"{self.crates.folder(name)}/out/built-of"

    def is_kept(self, name):
        try:
            with open(self.mark(name), encoding="utf-8") as it:
                return it.read() == sum_of(self.crates, name)
        except OSError:
            return False

    def tasks(self, places=None):
        """A task for each crate that isn't built, lowest first: the dearest chain comes first, or the crate of the least place."""
        chains = self.crates.chains(self.names)
        place = lambda name: places[name] if places else (-chains[name],)
        needed = [it for it in self.names if it not in self.kept]
        waits = {it: tuple(below for below in self.crates.by_name[it].named if below in needed) for it in needed}
        return {it: Task(self.work(it), waits[it], place(it), self.crates.by_name[it].proof, chains[it]) for it in needed}

    def work(self, name):
        return lambda jobs: self.build(name, jobs)

    def build(self, name, jobs):
        self.begun[name] = time.monotonic()
        os.makedirs(f"{self.crates.folder(name)}/out", exist_ok=True)
        with Room(self.crates, name, takes=True) as room:
            is_program = self.crates.is_program(name)
            given = f"{room.folder}/stdin" if is_program and os.path.isfile(f"{room.folder}/stdin") else None
            words = ["run", "--jobs", str(jobs), "--", *arguments(room.folder)] if is_program else ["lib", "--jobs", str(jobs)]
            # (of what is there now, which may have changed since the build began)
            made = sum_of(Crates(self.crates.root), name)
            status, said = room.run(*words, given=given)
        del self.begun[name]
        with open(f"{self.crates.folder(name)}/out/build.log", "w", encoding="utf-8") as it:
            it.write(said)
        if status:
            if has_room():
                self.failed.append(name)
            return False
        with open(self.mark(name), "w", encoding="utf-8") as it:
            it.write(made)
        return True


def arguments(folder):
    """The words that a program is run with."""
    try:
        with open(f"{folder}/args", encoding="utf-8") as it:
            return it.read().splitlines()
    except OSError:
        return []


def sources_of_program():
    """What the program stands on, as the launcher tells it, which compares this with what it finds later."""
    return subprocess.run([f"{HERE}/ulfm", "--sources"], stdout=subprocess.PIPE, text=True).stdout


def say(text):
    print(f"ulfm: {text}", file=sys.stderr, flush=True)


def main():
    end_at_a_signal()
    crates = Crates(HERE)
    sources = sources_of_program()
    build = Build(crates, [PROGRAM])
    tasks, count = build.tasks(), len(build.names)
    if build.kept and tasks:
        say(f"{len(build.kept)} of {count} crates were proved before, and are kept: going on with the others")

    told = [""]

    def tell(done, running):
        left = minutes_left(tasks, build.begun)
        text = f"crate {len(build.kept) + done + 1} of {count}: proving {', '.join(running)}; about {left} minutes left"
        if text != told[-1]:
            say(text)
        told.append(text)

    try:
        lost = in_lanes(tasks, lambda: bool(build.failed), tell)
    except KeyboardInterrupt:
        sys.exit(130)
    for name in build.failed:
        log = f"crates/{name}/out/build.log"
        with open(f"{HERE}/{log}", encoding="utf-8") as it:
            print("".join(it.readlines()[-20:]), end="", file=sys.stderr)
        say(f"{name} could not be proved and built: {log} has all that rt said")
    if lost and not build.failed:
        say("the disk is full: what was proved is kept, and the next build goes on with the others")
    if build.failed or lost:
        sys.exit(3)
    with open(f"{crates.folder(PROGRAM)}/out/built", "w", encoding="utf-8") as it:
        it.write(sources)
    say(f"proved and built, after {round((time.monotonic() - build.since) / 60)} minutes: crates/{PROGRAM}/out/{PROGRAM}")


if __name__ == "__main__":
    main()
