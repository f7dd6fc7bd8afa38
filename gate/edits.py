#!/usr/bin/env python3
"""Tries the must-fail edits: wrong bodies that the prover must refuse, many at a time.

The edits of a crate are tried in groups, over its proof: edits of different functions are applied together, the crate is checked once, and each edit
is judged by what the check says of the function that it turns. An edit counts as refused in a group only where that function is itself not proved,
whatever it calls. One whose function is proved, is only blamed on a callee, or isn't told of, is tried again, then alone, and at last by
the toolchain's own command. Each crate is tried in a room of its own, as many at once as there are processors.

    gate/edits.py [--minutes N] [--read] [NAME..]     the edits of these crates, or of all

With --minutes it ends after N minutes, and says what it hadn't reached. With --read it proves none of them: it says which aren't texts of the language any
more, since they name what the code does no longer, say. That takes a crate a few checks of some ten seconds.

Crates that changed since the last commit that passed on this machine come first, and then the others in an order that the commit draws. What was refused
is known on this machine from then on, by a sum of all that it rests on. The last line is 'N passed, M failed'.
"""
import argparse
import hashlib
import os
import random
import re
import subprocess
import sys
import tempfile
import threading
import time

sys.dont_write_bytecode = True
import said
from build import Build, sum_of
from crates import Crates, read
from lanes import Task, has_room, in_lanes, minutes_left
from rooms import Room, end_all, end_at_a_signal
from turned import edited, edits_of, strays_of

# to be raised where the rules change by which an edit counts as refused: what was known by older ones is then tried again
RULES = "1"
# what an edit costs, in seconds of one processor
COST = 14


class Known:
    """The edits that were refused on this machine, each by a sum of what this rests on."""

    def __init__(self, crates):
        self.crates = crates
        self.folder = os.path.join(os.environ.get("XDG_CACHE_HOME") or os.path.expanduser("~/.cache"), "ulfm-gate")
        try:
            os.makedirs(self.folder, exist_ok=True)
        except OSError:
            # (where nothing can be kept, each edit is tried)
            self.folder = tempfile.mkdtemp(prefix="ulfm-gate-")

    def file(self, crate, edit, crates=None):
        return f"{self.folder}/{sum_of(crates or self.crates, crate, f'{RULES} {hashlib.sha256(edit.text.encode()).hexdigest()}')}"

    def get(self, crate, edit):
        try:
            return read(self.file(crate, edit))
        except OSError:
            return None

    def keep(self, crate, edit, text):
        """Keeps that an edit was refused, unless a source has changed since the run began."""
        if self.file(crate, edit, Crates(self.crates.root)) == self.file(crate, edit):
            write(self.file(crate, edit), text)

    def last_passed(self):
        """The last commit whose edits passed."""
        try:
            return read(f"{self.folder}/passed").strip()
        except OSError:
            return ""

    def passed(self, commit):
        write(f"{self.folder}/passed", f"{commit}\n")


def write(file, text):
    with open(f"{file}.{os.getpid()}", "w", encoding="utf-8") as it:
        it.write(text)
    os.replace(f"{file}.{os.getpid()}", file)


class Over(Exception):
    """The time is over, or the disk is full."""


class Trial:
    """The trial of one crate's edits."""

    def __init__(self, run, name):
        self.run, self.name = run, name
        self.edits = edits_of(name, run.crates.folder(name))
        self.refused, self.failed = {}, {it: "BAD EDIT: its name doesn't end in .edit" for it in strays_of(run.crates.folder(name))}
        self.groups, self.alone, self.known = 0, 0, 0
        for edit in self.edits:
            text = run.known.get(name, edit)
            if edit.fault:
                self.failed[edit.name] = f"BAD EDIT: {edit.fault}"
            elif not edit.changes_code:
                self.failed[edit.name] = "BAD EDIT: it changes no code, so it tries no contract"
            elif text:
                self.refused[edit.name] = text
                self.known += 1

    def left(self):
        """The edits that are still to be tried."""
        return [it for it in self.edits if it.name not in self.refused and it.name not in self.failed]

    def work(self, jobs):
        """Tries what is left, as far as there is time."""
        self.run.begun[self.name, "edits"] = time.monotonic()
        try:
            with Room(self.run.crates, self.name) as room:
                self.flags = "--jobs", str(jobs)
                if self.run.only_reads:
                    self.read(room)
                    return not self.left()
                status, output = self.check(room, {})
                if status:
                    print(output[-2000:], flush=True)
                    self.failed.update({it.name: "BAD EDIT: the crate itself isn't proved" for it in self.left()})
                self.in_groups(room)
                for edit in self.left():
                    self.by_itself(room, edit)
        except Over:
            pass
        finally:
            del self.run.begun[self.name, "edits"]
            print(self.tells(), flush=True)
        return not self.left()

    def read(self, room):
        """Reads what is left in groups, and proves nothing of it."""
        pools = [self.left()]
        while pools:
            pool = pools.pop()
            if not pool:
                continue
            group, texts = self.chosen(pool)
            faults = said.unread(self.check(room, texts, "--only", "")[1])
            self.groups += 1
            if not faults:
                self.refused.update({it.name: "it was only read" for it in group})
            elif len(group) == 1:
                self.failed[group[0].name] = f"BAD EDIT: {faults[0]}"
            else:
                pools += [group[::2], group[1::2]]
            pools.append([it for it in pool if it not in group])

    def check(self, room, texts, *words):
        """Checks the crate with these texts in place of its own, over what is kept. Gives the status and what is said."""
        for path, text in texts.items():
            room.write(path, text)
        status, output = room.run("check", *self.flags, *words)
        for path in texts:
            room.write(path, read(f"{self.run.crates.folder(self.name)}/{path}"))
        self.run.end_where_over()
        return status, output

    def in_groups(self, room):
        """Tries edits of different functions together, again and again while that tells more of some."""
        pools = [[it for it in self.left() if it.function]]
        while pools:
            pool = pools.pop()
            group, texts = self.chosen(pool)
            if len(group) < 2:
                pools += [pool[1:]] if pool[1:] else []
                continue
            status, output = self.check(room, texts)
            self.groups += 1
            now, passed = judged(group, output) if status == 1 and said.is_verdict_on_proofs(output) else ({}, [])
            for edit, text in now.items():
                self.refuse(edit, text)
            done = [*now, *passed]
            pools.append([it for it in pool if it not in (done or group)])
            # (where nothing was learned, one edit may hide what the others do)
            pools += [] if done else [group[::2], group[1::2]]

    def chosen(self, edits):
        """Edits of different functions that can be applied together, as many as there are, and the texts that they make."""
        group, made = [], {}
        for edit in edits:
            if all(edit.function != it.function for it in group):
                texts, fault = edited([it.text for it in [*group, edit]], self.run.crates.folder(self.name))
                if not fault:
                    group, made = [*group, edit], texts
        return group, made

    def by_itself(self, room, edit):
        """Tries one edit alone: by a check over what is kept, and where that doesn't show that it is refused, by the toolchain's own command."""
        self.alone += 1
        status, output = self.check(room, edited([edit.text], self.run.crates.folder(self.name))[0])
        lines = said.told(output)
        lost = said.losses(said.said_of(edit.function, lines) if edit.function else lines, output) or said.losses(lines, output)
        if status == 1 and lost and said.is_verdict_on_proofs(output):
            self.refuse(edit, lost[0])
            return
        os.makedirs(f"{room.folder}/must-fail")
        room.write(f"must-fail/{edit.name}", edit.text)
        _, output = room.run("must-fail", self.name)
        self.run.end_where_over()
        os.remove(f"{room.folder}/must-fail/{edit.name}")
        os.rmdir(f"{room.folder}/must-fail")
        is_refused, text = said.of_edit(self.name, edit.name, output)
        if is_refused:
            self.refuse(edit, text)
        else:
            self.failed[edit.name] = text
            print(f"must-fail {self.name}/{edit.name}: {text}", flush=True)

    def refuse(self, edit, text):
        self.refused[edit.name] = text
        self.run.known.keep(self.name, edit, text)
        print(f"must-fail {self.name}/{edit.name}: refused, as it must be: {text}", flush=True)

    def tells(self):
        left = f", {len(self.left())} not reached" if self.left() else ""
        return f"edits: {self.name}: {len(self.edits)} edits, {self.known} known, {self.groups} groups, {self.alone} alone{left}"


def judged(group, output):
    """The edits of a group that are refused, each with what is said of the function that it turns, and those whose function is
    proved with them. Where there are such, nothing is said of the others: a body that is read without a contract could be what broke them."""
    lines, refused = said.told(output), {}
    passed = [it for it in group if said.is_proved(it.function, lines)]
    for edit in [] if passed else group:
        lost = said.losses(said.said_of(edit.function, lines), output)
        if lost:
            refused[edit] = lost[0]
    return refused, passed


class Run:
    """One run over the edits of some crates."""

    def __init__(self, root, names, minutes, only_reads):
        self.crates, self.minutes, self.only_reads = Crates(root), minutes, only_reads
        unknown = [it for it in names if it not in self.crates.by_name]
        if unknown:
            sys.exit(f"edits: there is no crate {', '.join(unknown)}")
        self.known, self.begun, self.over, self.told, self.told_at = Known(self.crates), {}, False, "", 0
        self.commit = git(root, "rev-parse", "HEAD")
        trials = {it: Trial(self, it) for it in names or self.crates.by_name}
        self.trials = {it: trial for it, trial in trials.items() if trial.edits or trial.failed}

    def is_over(self):
        return self.over

    def end(self):
        self.over = True
        end_all()

    def end_where_over(self):
        """Where the time is over or the disk is full, what was said of an edit just now says nothing of it."""
        if self.over or not has_room():
            raise Over()

    def places(self):
        """The place of each crate whose edits are to be tried: what has changed, and then an order that the commit draws. Where time has
        no end, the dearest come first."""
        names = sorted(it for it, trial in self.trials.items() if trial.left())
        random.Random(self.commit).shuffle(names)
        changed = self.changed()
        cost = (lambda it: 0) if self.minutes else (lambda it: -len(self.trials[it].left()))
        names.sort(key=lambda it: (it not in changed, cost(it)))
        return {it: at for at, it in enumerate(names)}

    def changed(self):
        """The crates that changed since the last commit that passed on this machine."""
        since = self.known.last_passed()
        named = git(self.crates.root, "diff", "--name-only", since or "HEAD", "--", "crates")
        named += "\n" + git(self.crates.root, "ls-files", "--others", "--exclude-standard", "crates")
        return set(re.findall(r"^crates/(\w+)/", named, re.M))

    def tasks(self):
        """Tasks that build what is needed, each at the first place of the crates above it, and those that try edits."""
        places = self.places()
        build = Build(self.crates, places)
        build.begun = self.begun
        first = {it: (min(at for name, at in places.items() if it == name or it in self.crates.below(name)), 0) for it in build.names}
        tasks = build.tasks(first)
        for name, at in places.items():
            waits = (name,) if name in tasks else ()
            tasks[name, "edits"] = Task(self.trials[name].work, waits, (at, 1), COST * len(self.trials[name].left()))
        return tasks, build

    def tries(self):
        """Tries all edits, as far as there is time. Gives how many are refused, and how many failed."""
        tasks, build = self.tasks()
        timer = threading.Timer(60 * self.minutes, self.end) if self.minutes else None
        if timer:
            timer.daemon = True
            timer.start()
        in_lanes(tasks, self.is_over, lambda done, running: self.tell(tasks, done), self.end)
        if timer:
            timer.cancel()
        return self.sums(build)

    def tell(self, tasks, done):
        """Says how far the run is, twice a minute at the most."""
        tried = sum(len(it.refused) + len(it.failed) for it in self.trials.values())
        whole = sum(len(it.edits) for it in self.trials.values())
        text = f"edits: {tried} of {whole} edits, {done} of {len(tasks)} builds and crates; about {minutes_left(tasks, self.begun)} minutes left"
        if text != self.told and time.monotonic() > self.told_at + 30:
            print(text, flush=True)
            self.told, self.told_at = text, time.monotonic()

    def sums(self, build):
        trials = self.trials.values()
        for name, trial in self.trials.items():
            for edit, text in trial.failed.items():
                print(f"must-fail {name}/{edit}: {text}")
        weak = [f"{name}/{edit}" for name, trial in self.trials.items() for edit, text in trial.refused.items() if said.BY_NAMES in text]
        if weak:
            print(f"edits: refused {said.BY_NAMES}: {' '.join(weak)}")
        lost = [] if self.over else build.failed
        for name in lost:
            print(f"edits: {name} could not be proved: crates/{name}/out/build.log has all that rt said")
        left = [it for it in trials if it.left()]
        count = lambda of: sum(of(it) for it in trials)
        print(f"edits: all: {count(lambda it: len(it.edits))} edits, {count(lambda it: it.known)} of them known from this machine, "
              f"{count(lambda it: it.groups)} groups, {count(lambda it: it.alone)} alone")
        if left:
            print(f"edits: not reached: {', '.join(f'{it.name} ({len(it.left())} of {len(it.edits)})' for it in left)}")
        # (nothing else ends a run before its time)
        is_full = bool(left) and not self.over and not lost
        if is_full:
            print("edits: the disk was full")
        failed = count(lambda it: len(it.failed)) + len(lost) + (is_full and not self.minutes)
        if not failed and not left and not self.only_reads and not git(self.crates.root, "status", "--porcelain") and self.commit:
            self.known.passed(self.commit)
        return count(lambda it: len(it.refused)), failed


def git(root, *words):
    """What git says, or nothing."""
    return subprocess.run(["git", *words], cwd=root, stdout=subprocess.PIPE, stderr=subprocess.DEVNULL, text=True).stdout.strip()


def main():
    words = argparse.ArgumentParser(prog="gate/edits.py", description="Tries the must-fail edits of these crates, or of all.")
    words.add_argument("--minutes", type=float, default=0, help="ends after this time, and says what was not reached")
    words.add_argument("--read", action="store_true", help="proves none of them, and says which can't be read")
    words.add_argument("names", nargs="*", metavar="NAME")
    given = words.parse_args()
    end_at_a_signal()
    try:
        passed, failed = Run(os.getcwd(), given.names, given.minutes, given.read).tries()
    except KeyboardInterrupt:
        sys.exit(130)
    print(f"{passed} passed, {failed} failed")
    sys.exit(1 if failed else 0)


if __name__ == "__main__":
    main()
