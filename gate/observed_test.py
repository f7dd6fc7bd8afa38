#!/usr/bin/env python3
"""Tests `ulfm check --observed`: logs of calls and replies of random runs, changed logs, and what a right MPI would log of MPICH's own tests.

    gate/observed_test.py [--logs N] [--changed M] [--cases K] [--hard H] [--seed S] [--keep FOLDER] [--program PATH | --native PATH --checks PATH]

N logs of random runs, in each form and order (gate/random_logs.py), must be explained; of each the trace that explains it must be legal by `ulfm
check`, its calls and replies those of the log, and its other lines ones that are allowed beside them. M small logs in which something was changed
must get the verdict of a second, slow judge (gate/slow_judge.py). MPICH's tests (gate/mpich_cases.py) must be explained, and of K logs with one reply of
them changed, or of all for a K of 0, each explanation must be right. H hard logs (gate/hard_logs.py) must be given up or get the right verdict. Else a log
may be given up where the end of one rank's lines was lost; of the others at most one in a hundred.

In place of the program, which is crates/ulfm/out/ulfm if nothing else is said, --native reads many logs, each with a line `=` behind it, and answers so, and
--checks does so with traces; gate/as_rust makes both, as plain Rust. --keep writes the logs that fail. The last line is 'N passed, M failed'.
"""
import argparse
import collections
import os
import random
import subprocess
import sys

TOP = os.path.dirname(os.path.dirname(os.path.realpath(__file__)))
sys.dont_write_bytecode = True
sys.path.insert(0, os.path.join(TOP, "gate"))
import hard_logs  # noqa: E402
import mpich_cases  # noqa: E402
import random_logs  # noqa: E402
import slow_judge  # noqa: E402

BATCH = 400
GIVEN_UP = "unknown: the search was given up\n"
# how each verdict ends the program, and its first words
VERDICTS = {"explained": 0, "not explained": 1, "unknown": 4}


class Judges:
    """The judge of logs, and the one of traces."""

    def __init__(self, asked):
        self.program, self.native, self.checks = asked.program, asked.native, asked.checks

    def answers(self, texts, witness):
        """What is said of each log: its verdict, and the text of the answer."""
        if self.native:
            words = [self.native] + (["witness"] if witness else [])
            return [(verdict_of(it), it) for it in through(words, texts).split("=\n")[:len(texts)]]
        return [self.answer(text, witness) for text in texts]

    def answer(self, text, witness):
        words = [self.program, "check", "--observed"] + (["--witness"] if witness else [])
        done = subprocess.run(words, input=text.encode(), capture_output=True, timeout=300)
        said = done.stdout.decode()
        verdict = verdict_of(said)
        return (verdict if VERDICTS.get(verdict) == done.returncode and not done.stderr else f"status {done.returncode}"), said

    def are_legal(self, traces):
        """Whether each trace is legal."""
        if self.checks:
            return [it == "legal" for it in through([self.checks], traces).splitlines()]
        run = [subprocess.run([self.program, "check"], input=it.encode(), capture_output=True, timeout=300) for it in traces]
        return [it.returncode == 0 and it.stdout == b"legal\n" for it in run]


def through(words, texts):
    """What a program says of many texts at once."""
    return subprocess.run(words, input="".join(it + "=\n" for it in texts).encode(), capture_output=True, timeout=3600, check=True).stdout.decode()


def verdict_of(said):
    """The verdict that an answer begins with; or its first line, where it is none."""
    first = said.split("\n", 1)[0]
    if first == "explained" or said == GIVEN_UP:
        return first.split(":")[0]
    return "not explained" if first.startswith("not explained: ") and len(first) > 15 else first


class Shadow:
    """A log beside the trace that is to explain it: each line of the trace is the caller's next one of the log, or one that the log may lack."""

    def __init__(self, log):
        lines = log.splitlines()
        self.timed, self.logged = (it in lines[0].split()[5:] for it in ("time", "logged"))
        self.own, self.lost = collections.defaultdict(list), set()
        for at, line in enumerate(lines[1:]):
            kind, rest = line.split(" ", 1)
            if kind == "lost":
                self.lost.add(rest)
            else:
                self.own[caller_of(kind, rest)].append((at, kind, rest))
        self.next, self.order = collections.Counter(), []
        self.under, self.acted, self.begun = {}, set(), {}

    def explained_by(self, trace):
        """What is wrong with the trace as an explanation; nothing, where it is one."""
        for line in trace.splitlines()[1:]:
            kind, rest = line.split(" ", 1)
            if kind in ("call", "reply") and not self.shows(kind, rest):
                return f"the log lacks {line}"
            if kind == "event" and not self.may_happen(rest.split()):
                return f"nobody may do {line}"
        if any(self.next[caller] < len(own) for caller, own in self.own.items()):
            return "the trace lacks lines of the log"
        if self.timed and self.order != sorted(self.order):
            return "the order is another"
        return f"{min(self.acted)} contributed, and isn't told so" if self.acted else ""

    def shows(self, kind, rest):
        """Takes a call or a reply."""
        caller = caller_of(kind, rest)
        text = rest if kind == "call" else " ".join(rest.split()[:1] + rest.split()[2:])
        place = self.next[caller]
        is_told = place < len(self.own[caller]) and self.own[caller][place][1] == kind and slow_judge.fits(self.own[caller][place][2], text)
        if is_told:
            self.order.append(self.own[caller][place][0])
            self.next[caller] += 1
        elif not self.may_lack(caller, kind, text):
            return False
        self.goes_on(caller, kind, text, is_told)
        return True

    def may_lack(self, caller, kind, text):
        """Whether the log may lack this line of a caller: `started`, the poll behind it, and anything behind a lost end."""
        if caller in self.lost and self.next[caller] == len(self.own[caller]):
            return True
        words = text.split()
        if kind == "reply":
            return words[1] == "started" and caller in self.under
        return words[0] == "poll" and self.begun.get(caller) == words[2]

    def goes_on(self, caller, kind, text, is_told):
        """Keeps what a caller has under way."""
        if kind == "call":
            self.under[caller] = text.split()
            self.begun.pop(caller, None)
        else:
            call = self.under.pop(caller, ["", "", ""])
            if not is_told and call[0] in slow_judge.STARTS:
                self.begun[caller] = call[2]
            self.acted.discard(caller)

    def may_happen(self, words):
        """Takes an event: the outside declares, leaves out and makes communicators, and no more."""
        if words[0] != "-":
            if words[1] in ("settle", "arrive"):
                self.acted.add(words[0])
            return True
        return words[1] in ("mark", "spawn") or (words[1] == "fail" and (not self.logged or self.under.get("-") == ["fail", words[2]]))


def caller_of(kind, rest):
    """Whose line it is."""
    words = rest.split()
    return words[0] if kind == "reply" else "-" if words[0] == "fail" else words[1]


class Test:
    """The counts, and what is said of failures."""

    def __init__(self, asked):
        self.asked, self.judges, self.rng = asked, Judges(asked), random.Random(asked.seed)
        self.counts, self.seen = {True: 0, False: 0}, collections.Counter()
        self.given_up = 0

    def holds(self, what, log, is_so):
        self.counts[is_so] += 1
        if not is_so:
            print(f"failed: {what}")
            if self.asked.keep:
                os.makedirs(self.asked.keep, exist_ok=True)
                with open(os.path.join(self.asked.keep, f"{self.counts[False]}.log"), "w", encoding="ascii") as it:
                    it.write(log)

    def may_give_up(self, log, verdict):
        """Whether a log was given up, and may be; how many were is looked at in the end."""
        if verdict != "unknown":
            return False
        is_lost = "\nlost " in log
        self.seen["given up, an end lost" if is_lost else "given up"] += 1
        self.given_up += not is_lost
        return True

    def explanations(self, logs, answers):
        """What is wrong with each answer that is an explanation."""
        traces = [said.partition("\n")[2] for verdict, said in answers if verdict == "explained"]
        legal = iter(zip(traces, self.judges.are_legal(traces)))
        for log, (verdict, _) in zip(logs, answers):
            trace, is_legal = next(legal) if verdict == "explained" else ("", None)
            yield "" if is_legal is None else Shadow(log).explained_by(trace) if is_legal else "the witness isn't legal"

    def are_explained(self, logs):
        """Each log is explained, by a right witness; where its end was lost it may be given up."""
        answers = self.judges.answers(logs, True)
        for log, answer, wrong in zip(logs, answers, self.explanations(logs, answers)):
            verdict = answer[0]
            self.seen["logs of runs"] += 1
            self.holds(wrong or f"a run's log is {verdict}", log, (verdict == "explained" or self.may_give_up(log, verdict)) and not wrong)

    def random(self):
        """Logs of random runs."""
        logs, left = [], self.asked.logs
        while left > 0:
            logs += list(random_logs.forms(random_logs.large(self.rng), self.rng))
            if len(logs) >= min(left, BATCH):
                self.are_explained(logs[:left])
                left, logs = left - len(logs[:left]), []

    def changed(self):
        """Changed logs, beside the slow judge."""
        left = self.asked.changed
        while left > 0:
            logs, wanted = [], []
            while len(logs) < min(left, BATCH):
                log = random_logs.small(self.rng)
                verdict = slow_judge.Slow(log, self.asked.states).explained()
                self.seen["too large"] += verdict is None
                if verdict is not None:
                    logs.append(log)
                    wanted.append("explained" if verdict else "not explained")
            self.as_wanted(logs, wanted)
            left -= len(logs)

    def as_wanted(self, logs, wanted):
        """Each log has the verdict that is wanted, with a right witness; where its end was lost it may be given up."""
        answers = self.judges.answers(logs, True)
        for log, want, answer, wrong in zip(logs, wanted, answers, self.explanations(logs, answers)):
            verdict = answer[0]
            self.seen["changed, " + want] += 1
            self.holds(wrong or f"{verdict}, and the slow judge says {want}", log, (verdict == want or self.may_give_up(log, verdict)) and not wrong)

    def cases(self):
        """MPICH's tests, and a reply of each changed."""
        logs = [log for run in mpich_cases.cases() for log in random_logs.forms(run, self.rng, ("logged", "any", "stars", "blocking"))]
        self.are_explained(logs)
        changed = sorted({it for log in logs for it in mpich_cases.each_changed(log)})
        if self.asked.cases:
            changed = self.rng.sample(changed, min(self.asked.cases, len(changed)))
        for at in range(0, len(changed), BATCH):
            some = changed[at:at + BATCH]
            answers = self.judges.answers(some, True)
            for log, answer, wrong in zip(some, answers, self.explanations(some, answers)):
                verdict = answer[0]
                self.seen["MPICH's changed, " + verdict] += 1
                self.holds(wrong or f"a changed log is {verdict}", log, (verdict in ("explained", "not explained") or self.may_give_up(log, verdict)) and not wrong)

    def hard(self):
        """Logs that are hard to judge: each is given up, or has the right verdict."""
        found = [hard_logs.hard(self.rng) for _ in range(self.asked.hard)]
        logs = [log for log, _ in found]
        answers = self.judges.answers(logs, True)
        for (log, is_explained), answer, wrong in zip(found, answers, self.explanations(logs, answers)):
            want = "explained" if is_explained else "not explained"
            self.seen["hard, " + answer[0]] += 1
            self.holds(wrong or f"{answer[0]}, and the hard log is {want}", log, answer[0] in (want, "unknown") and not wrong)


def options():
    words = argparse.ArgumentParser(description=__doc__, formatter_class=argparse.RawDescriptionHelpFormatter)
    for name, default in (("logs", 100), ("changed", 120), ("cases", 40), ("hard", 6), ("seed", 1), ("states", 2500)):
        words.add_argument(f"--{name}", type=int, default=default)
    words.add_argument("--program", default=os.path.join(TOP, "crates/ulfm/out/ulfm"))
    words.add_argument("--native")
    words.add_argument("--checks")
    words.add_argument("--keep")
    return words.parse_args()


def main():
    test = Test(options())
    test.random()
    test.changed()
    test.cases()
    test.hard()
    test.holds("too many logs were given up", "", test.given_up * 100 <= sum(test.counts.values()))
    print("; ".join(f"{name}: {count}" for name, count in sorted(test.seen.items())))
    print(f"{test.counts[True]} passed, {test.counts[False]} failed")
    return int(test.counts[False] > 0 or test.counts[True] == 0)


if __name__ == "__main__":
    sys.exit(main())
