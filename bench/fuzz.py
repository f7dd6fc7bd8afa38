#!/usr/bin/env python3
"""Feeds changed scripts and traces to the program, and looks at each answer: it comes, in time, with a status and a line on standard error that
belong together, and with as many lines of output as lines were read before a fault.

    bench/fuzz.py run|steps|check|all SECONDS [SEED] [--program PATH] [--judge PATH]

`run` and `steps` feed scripts to `ulfm run` and `ulfm run --steps`, `check` feeds traces to `ulfm check`, and `all` does these in turn. What `steps`
prints at status 0 is judged by `ulfm check`, and must be legal. With --judge another judge of traces (a program with the same lines as `ulfm check`) reads each
trace too, and must say the same, but of lines that end in a space, which the native one takes. It prints each difference with the text in hexadecimal, and
every ten minutes and at its end how many texts were tried and what was answered; its status is 1 where there is a difference. A program that ends by a signal,
or hasn't ended after a minute, is one.
"""
import argparse
import collections
import glob
import os
import random
import re
import subprocess
import time

TOP = os.path.dirname(os.path.dirname(os.path.realpath(__file__)))
HEADS = {"run": b"ulfm", "steps": b"ulfm-steps", "check": b"ulfm-trace"}
COMMANDS = {"run": ["run"], "steps": ["run", "--steps"], "check": ["check"]}
FAULT = re.compile(rb"ulfm: line (\d+): (cut|long|lines|header|limits|verb|words|number|flag|step|open)\n")
VERDICT = re.compile(rb"illegal line (\d+) (text|call|look|event|own|reply)\n")
NAMES = [b"list", b"settle", b"arrive", b"revoke", b"revocation", b"block", b"mark", b"slot", b"cache", b"wing", b"comm", b"spawn", b"arrival"]
VERBS = [b"get", b"ack", b"agree", b"shrink", b"barrier", b"poll", b"revoke", b"isrevoked", b"free"]


def call(rng, ranks, comms):
    """A call of a rank, mostly of one that there is."""
    verb = rng.choice(VERBS + [b"agree", b"poll", b"poll", b"shrink"])
    words = [verb, b"%d" % rng.randrange(ranks + (rng.random() < 0.03)), b"%d" % (rng.randrange(comms) if rng.random() < 0.4 else 0)]
    if verb == b"ack":
        words.append(b"%d" % rng.randrange(ranks + 2))
    if verb == b"agree":
        words.append(rng.choice([b"%08x" % rng.getrandbits(32), b"%016x" % rng.getrandbits(64), b"%016x" % rng.getrandbits(32)]))
    return b" ".join(words)


def script(rng, kind):
    """A script of its grammar, mostly without a fault."""
    ranks, comms, rounds = rng.randrange(1, 6), rng.randrange(1, 5), rng.randrange(1, 7)
    lines = [b"%s 1 %d %d %d" % (HEADS[kind], ranks, comms, rounds)]
    for _ in range(rng.randrange(40)):
        rank = rng.randrange(ranks)
        if rng.random() < 0.06:
            lines.append(b"fail %d" % rank)
        elif kind == "run":
            lines.append(call(rng, ranks, comms))
        else:
            asked = call(rng, ranks, comms)
            rank = int(asked.split()[1])
            lines.append(rng.choice([b"finish %d" % rank, b"finish %d" % rank, b"step %d %d" % (rank, rng.randrange(1, 4)), b"before %d %s" % (rank, rng.choice(NAMES))]))
            if rng.random() < 0.7:
                lines += [b"finish %d" % rank, b"call " + asked]
    return b"\n".join(lines) + b"\n"


def changed(rng, text):
    """The text with a change or some."""
    lines = text.split(b"\n")
    for _ in range(rng.choice([0, 1, 1, 1, 2, 3])):
        at, other = rng.randrange(len(lines)), rng.randrange(len(lines))
        way = rng.randrange(10)
        if way == 0:
            lines[at:at + 1] = []
        elif way == 1:
            lines.insert(at, lines[other])
        elif way == 2:
            lines[at], lines[other] = lines[other], lines[at]
        elif way in (3, 4, 5):
            numbers = list(re.finditer(rb"\d+", lines[at]))
            if numbers:
                it = rng.choice(numbers)
                new = rng.choice([b"%d" % (int(it[0]) + 1), b"%d" % max(0, int(it[0]) - 1), b"0", b"255", b"256", b"1023", b"1024", b"9999", b"10000", b"00", b"-1", b""])
                lines[at] = lines[at][:it.start()] + new + lines[at][it.end():]
        elif way == 6:
            words = lines[at].split(b" ")
            words[rng.randrange(len(words))] = rng.choice(VERBS + NAMES + [b"", b"call", b"step", b"fail", b"event", b"reply", b"-", b"00000000", b"0000000G"])
            lines[at] = b" ".join(words)
        elif way == 7 and lines[at]:
            place = rng.randrange(len(lines[at]))
            lines[at] = lines[at][:place] + bytes([rng.randrange(256)]) + lines[at][place + 1:]
        elif way == 8:
            lines[at] += rng.choice([b" ", b"\r", b"\t", b" 0", b"x" * rng.choice([1, 60, 65, 8193])])
        elif way == 9:
            return b"\n".join(lines)[:rng.randrange(len(text) + 1)]
        lines = lines or [b""]
    return b"\n".join(lines)


def answered(program, kind, text):
    """What the program gives for a text; a status below 0 where it was ended by a signal, or after a minute."""
    words = [program, *COMMANDS[kind]]
    try:
        return subprocess.run(words, input=text, capture_output=True, timeout=60)
    except subprocess.TimeoutExpired as late:
        return subprocess.CompletedProcess(words, -1, late.stdout or b"", b"no answer after a minute\n")


def is_answer(kind, text, ran):
    """Whether status, standard error and output belong together."""
    if kind == "check":
        verdict = VERDICT.fullmatch(ran.stdout)
        lines = text.count(b"\n") + (not text.endswith(b"\n"))
        return not ran.stderr and (ran.stdout == b"legal\n" and ran.returncode == 0 or bool(verdict) and ran.returncode == 1 and int(verdict[1]) <= lines + 1)
    fault = FAULT.fullmatch(ran.stderr)
    if ran.returncode not in (0, 1) or (ran.returncode == 0) == bool(fault) or (ran.returncode == 0 and ran.stderr):
        return False
    before = int(fault[1]) - 1 if fault else text.count(b"\n")
    if kind == "run":
        return ran.stdout.count(b"\n") == max(before - 1, 0)
    return ran.stdout.count(b"\n") >= min(before, 1)


class Fuzzer:
    """Feeds changed texts of one kind, and counts what was answered."""

    def __init__(self, kind, rng, given):
        self.kind, self.rng, self.given = kind, rng, given
        names = {"run": "*.ulfm", "steps": "*.steps", "check": "*.steps"}[kind]
        self.seeds = [open(name, "rb").read() for name in sorted(glob.glob(os.path.join(TOP, "examples", names)))]
        self.told, self.tried, self.wrong = collections.Counter(), 0, 0

    def text(self):
        rng = self.rng
        if rng.random() < 0.01:
            return bytes(rng.randrange(256) for _ in range(rng.randrange(200)))
        text = rng.choice(self.seeds) if rng.random() < 0.3 else script(rng, "run" if self.kind == "run" else "steps")
        if self.kind == "check":
            text = answered(self.given.program, "steps", text).stdout
        return changed(rng, text)

    def is_well(self, text, ran):
        """Whether the answer is well formed, and other judges say what they must."""
        if not is_answer(self.kind, text, ran):
            return False
        if self.kind == "steps" and ran.returncode == 0:
            return answered(self.given.program, "check", ran.stdout).stdout == b"legal\n"
        if self.kind == "check" and self.given.judge and b" \n" not in text:
            return subprocess.run([self.given.judge], input=text, capture_output=True, timeout=60).stdout == ran.stdout
        return True

    def step(self):
        text = self.text()
        ran = answered(self.given.program, self.kind, text)
        self.tried += 1
        self.told[(ran.stdout if self.kind == "check" else ran.stderr).split(b" ")[-1].strip().decode() or "ran"] += 1
        if not self.is_well(text, ran):
            self.wrong += 1
            print(f"{self.kind}: status {ran.returncode}, {ran.stderr!r}, {ran.stdout[-200:]!r}: {text.hex()}", flush=True)

    def __str__(self):
        answers = ", ".join(f"{name} {count}" for name, count in self.told.most_common())
        return f"{self.kind}: {self.tried} texts, {self.wrong} wrong; answered: {answers}"


def main():
    words = argparse.ArgumentParser()
    words.add_argument("kind", choices=[*sorted(COMMANDS), "all"])
    words.add_argument("seconds", type=float)
    words.add_argument("seed", type=int, nargs="?", default=1)
    words.add_argument("--program", default=os.path.join(TOP, "crates/ulfm/out/ulfm"))
    words.add_argument("--judge")
    given = words.parse_args()
    rng = random.Random(given.seed)
    fuzzers = [Fuzzer(kind, rng, given) for kind in (COMMANDS if given.kind == "all" else [given.kind])]
    begun = told = time.monotonic()
    while time.monotonic() < begun + given.seconds:
        for fuzzer in fuzzers:
            fuzzer.step()
        if time.monotonic() > told + 600:
            told = time.monotonic()
            print(*fuzzers, sep="\n", flush=True)
    print(*fuzzers, sep="\n")
    return int(any(fuzzer.wrong for fuzzer in fuzzers))


if __name__ == "__main__":
    raise SystemExit(main())
