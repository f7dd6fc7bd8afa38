#!/usr/bin/env python3
"""Times the built program on call scripts of 25,000, 50,000 and 100,000 lines, and as ratios to other programs.

    bench/measure.py [--native FILE.rs [--cfg NAME].. | --program PATH] [--kinds KIND,..] [--sizes LINES,..] [--repeats N] [--instructions]

Each kind of script is made here. A native program, if one is given as a Rust source that does the same work, is built in a
temporary folder and runs in turn with ours, so that the ratio is of one run; its output must be the same bytes. With --program
the other one is a program that is built already, as `ulfm` of an earlier commit. What is printed are the medians of the processor
times, and of the ratios of runs in turn; with --instructions the instructions of one run, in millions, which valgrind counts and no other
work on the machine changes.
"""
import argparse
import os
import re
import shutil
import statistics
import subprocess
import sys
import tempfile

HERE = os.path.dirname(os.path.abspath(__file__))
PROGRAM = os.path.join(HERE, "..", "crates", "ulfm", "out", "ulfm")


def text(lines):
    """Calls of a rank that the world doesn't have: the object answers at once, so what is timed is the text."""
    calls = ["fail 9", "get 9 0", "ack 9 0 12", "agree 9 0 0123abcd", "poll 9 0"]
    return ["ulfm 1 1 1 1"] + [calls[i % len(calls)] for i in range(lines - 1)]


def rounds(ranks, rounds_there, lines):
    """One agree after another: each rank contributes, then each asks for the reply."""
    script = [f"ulfm 1 {ranks} 1 {rounds_there}"]
    turn = 0
    while len(script) < lines:
        for rank in range(ranks):
            script.append(f"agree {rank} 0 {0xFFFFFFFF ^ 1 << (rank + turn) % 32:08x}")
        script.extend(f"poll {rank} 0" for rank in range(ranks))
        turn += 1
    return script[:lines]


def pending(lines):
    """One of 1,024 ranks never contributes, and all others ask again and again."""
    script = ["ulfm 1 1024 1 2"] + [f"agree {rank} 0 ffffffff" for rank in range(1023)]
    while len(script) < lines:
        script.extend(f"poll {rank} 0" for rank in range(1023))
    return script[:lines]


def failures(call, lines):
    """1,000 of 1,024 ranks fail, and then the others make a call that looks at them all."""
    script = ["ulfm 1 1024 1 2"] + [f"fail {rank}" for rank in range(24, 1024)]
    while len(script) < lines:
        script.extend(call.format(rank) for rank in range(24))
    return script[:lines]


def marks(lines):
    """1,000 of 1,024 ranks fail, and then the others agree: each poll marks all who failed."""
    script = ["ulfm 1 1024 1 2000"] + [f"fail {rank}" for rank in range(24, 1024)] + [f"ack {rank} 0 1024" for rank in range(12)]
    while len(script) < lines:
        script.extend(f"agree {rank} 0 {0xFFFFFFFF ^ 1 << rank:08x}" for rank in range(24))
        script.extend(f"poll {rank} 0" for rank in range(24))
    return script[:lines]


def shrinks(lines):
    """128 ranks shrink one communicator after another, each into the next, and give the old one back."""
    script = ["ulfm 1 128 256 63"]
    for comm in range(255):
        for call in ["shrink", "poll"] + (["free"] if comm else []):
            script.extend(f"{call} {rank} {comm}" for rank in range(128))
    while len(script) < lines:
        script.append("poll 0 255")
    return script[:lines]


def looks(lines):
    """500 failures, and then calls that look at them: each get prints all of them."""
    script = ["ulfm 1 512 1 2"] + [f"fail {rank}" for rank in range(12, 512)]
    turn = 0
    while len(script) < lines:
        script.append(f"ack {turn % 12} 0 500" if turn % 8 else f"get {turn % 12} 0")
        turn += 1
    return script[:lines]


KINDS = {
    "text": text,
    "rounds16": lambda lines: rounds(16, 4096, lines),
    "looks": looks,
    "rounds64": lambda lines: rounds(64, 4096, lines),
    "rounds1024": lambda lines: rounds(1024, 2000, lines),
    "look1024": lambda lines: failures("isrevoked {} 0", lines),
    "get1024": lambda lines: failures("get {} 0", lines),
    "marks1024": marks,
    "pending1024": pending,
    "shrink128": shrinks,
}


def processor_time(command, script, output):
    """The processor time of one run, in seconds."""
    with open(script, "rb") as source, open(output, "wb") as target:
        process = subprocess.Popen(command, stdin=source, stdout=target)
        _, status, usage = os.wait4(process.pid, 0)
        process.returncode = os.waitstatus_to_exitcode(status)
    if process.returncode != 0:
        sys.exit(f"{command[0]} ended with status {process.returncode}")
    return usage.ru_utime + usage.ru_stime


def instructions(command, script, output):
    """The instructions of one run, in millions."""
    counting = ["valgrind", "--tool=callgrind", "--callgrind-out-file=/dev/null"]
    with open(script, "rb") as source, open(output, "wb") as target:
        told = subprocess.run(counting + command, stdin=source, stdout=target, stderr=subprocess.PIPE, text=True)
    counted = re.search(r"Collected : (\d+)", told.stderr)
    if told.returncode != 0 or not counted:
        sys.exit(f"{command[0]} under valgrind ended with status {told.returncode}")
    return int(counted[1]) / 1e6


def same(one, other):
    with open(one, "rb") as a, open(other, "rb") as b:
        return a.read() == b.read()


def measure(kind, size, commands, repeats, folder, cost):
    """The median of what each command costs, and of the first's cost to the second's, run in turn on one script, each first every other time."""
    script = os.path.join(folder, "script")
    with open(script, "w") as file:
        file.write("\n".join(KINDS[kind](size)) + "\n")
    costs = [[] for _ in commands]
    for repeat in range(repeats):
        for place in range(len(commands))[:: 1 if repeat % 2 == 0 else -1]:
            costs[place].append(cost(commands[place], script, os.path.join(folder, f"output{place}")))
    for place in range(1, len(commands)):
        if not same(os.path.join(folder, "output0"), os.path.join(folder, f"output{place}")):
            sys.exit(f"{kind} of {size} lines: the outputs differ")
    return [statistics.median(each) for each in costs], statistics.median(map(lambda a, b: a / b, costs[0], costs[-1]))


def build(source, settings, folder):
    if not shutil.which("rustc"):
        sys.exit("the native program is built by rustc, which isn't on the PATH")
    program = os.path.join(folder, "native")
    chosen = [word for name in settings for word in ("--cfg", name)]
    subprocess.run(["rustc", "-O", "--edition", "2021", *chosen, source, "-o", program], check=True, stderr=subprocess.DEVNULL)
    return program


def main():
    words = argparse.ArgumentParser(description=__doc__, formatter_class=argparse.RawDescriptionHelpFormatter)
    words.add_argument("--native", metavar="FILE.rs", help="a native program of the same work")
    words.add_argument("--cfg", metavar="NAME", action="append", default=[], help="a setting that the native program is built with; may be given again")
    words.add_argument("--program", metavar="PATH", help="another program of the same work, built already")
    words.add_argument("--instructions", action="store_true", help="count instructions by valgrind, once, in place of times")
    words.add_argument("--kinds", default=",".join(KINDS))
    words.add_argument("--sizes", default="25000,50000,100000")
    words.add_argument("--repeats", type=int, default=5)
    asked = words.parse_args()
    if not os.path.exists(PROGRAM):
        sys.exit("build the program first: ./ulfm --help")
    cost, unit, repeats = (instructions, "M", 1) if asked.instructions else (processor_time, "s", asked.repeats)
    with tempfile.TemporaryDirectory() as folder:
        commands = [[PROGRAM, "run"]]
        if asked.native:
            commands.append([build(asked.native, asked.cfg, folder), "run"])
        elif asked.program:
            commands.append([asked.program, "run"])
        beside = f"  {'other, ' + unit:>9}   ratio" if len(commands) > 1 else ""
        print(f"{'script':<11} {'lines':>7} {'ulfm, ' + unit:>9} {'growth':>7}" + beside)
        for kind in asked.kinds.split(","):
            before = None
            for size in map(int, asked.sizes.split(",")):
                found, ratio = measure(kind, size, commands, repeats, folder, cost)
                growth = f"{found[0] / before:.1f}" if before else "-"
                line = f"{kind:<11} {size:>7} {found[0]:>9.3f} {growth:>7}"
                if len(commands) > 1:
                    line += f"  {found[1]:>9.3f} {ratio:>7.3f}"
                print(line, flush=True)
                before = found[0]


main()
