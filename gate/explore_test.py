#!/usr/bin/env python3
"""Tests `ulfm explore`: the programs of examples/explore, byte for byte and by what is known of each; their scripts, run and judged; random tiny
programs beside a brute force over their schedules; limits and faults.

    gate/explore_test.py [--keep] [--programs N] [--seed S] [PROGRAM]

PROGRAM is crates/ulfm/out/ulfm, if it isn't given. `--keep` writes the outputs of examples/explore anew; N is 40, if it isn't given. The brute force
is gate/schedules.py. The last line is 'N passed, M failed'.
"""
import argparse
import glob
import os
import random
import re
import subprocess
import sys

TOP = os.path.dirname(os.path.dirname(os.path.realpath(__file__)))
sys.dont_write_bytecode = True
sys.path.insert(0, os.path.join(TOP, "gate"))
import schedules  # noqa: E402
from checks import ends_counted, holds  # noqa: E402

EXAMPLES = os.path.join(TOP, "examples/explore")
# What is known of each program: its outcomes, its states, and which of its questions have an answer.
KNOWN = {
    "agree_get": (11, 40751, {}),
    "barrier_revoked": (4, 783, {"alike": True}),
    "barrier_then_agree": (3, 71201, {"alike": False, "ended": False}),
    "by_agree": (3, 5904, {"alike": False, "ended": False}),
    "by_barrier": (5, 4230, {"alike": True}),
    "by_get": (8, 7817, {"alike": True}),
    "first": (5, 314, {}),
    "found": (5, 31295, {"find": True}),
    "no_revoke": (4, 80044, {"ended": True}),
    "recover": (9, 70465, {"alike": False, "ended": False}),
    "revoke_agree": (3, 3741323, {"alike": False, "ended": False}),
    "revoke_shrink": (3, 194076, {"alike": False, "ended": False}),
    "revoke_suspected": (9, 1463836, {"ended": True, "alike": False}),
}
# Random programs with more states than this in the brute force are passed over.
MOST_STATES = 5000
HEAD = "ulfm-explore 1 2 1 2\n"
FAULTS = (
    ("", "line 1: header"),
    ("ulfm 1 2 1 2\n", "line 1: header"),
    ("ulfm-explore 1 9 1 2\n", "line 1: limits"),
    ("ulfm-explore 1 2 1 16\n", "line 1: limits"),
    ("ulfm-explore 1 2 1 2", "line 1: cut"),
    (HEAD + "rank 0\nget 0", "line 3: cut"),
    (HEAD + "# " + "x" * 255 + "\n", "line 2: long"),
    (HEAD + "get 0\n", "line 2: rank"),
    (HEAD + "rank 2\n", "line 2: number"),
    (HEAD + "may fly 0\n", "line 2: words"),
    (HEAD + "rank 0\njump 0\n", "line 3: verb"),
    (HEAD + "rank 0\nagree 0 f\n", "line 3: flag"),
    (HEAD + "rank 0\nagree 0\n", "line 3: words"),
    (HEAD + "rank 0\ngo on\nget 0\n", "line 3: name"),
    (HEAD + "rank 0\nat on\nat on\n", "line 4: name"),
    (HEAD + "rank 0\nif done\n", "line 3: words"),
    (HEAD + "\n" * 1000, "line 1001: lines"),
)


def ran(program, text, *words):
    """Output, status and what is told, for these words over a text."""
    done = subprocess.run([program, *words], input=text.encode(), capture_output=True, timeout=300)
    return done.stdout.decode(), done.returncode, done.stderr.decode()


def outcomes_in(output):
    """The outcomes that are told, in order: of each rank its fate and what it noted."""
    found = []
    for line in output.splitlines():
        rank = re.fullmatch(r"rank \d+ (\w+)(?:: (.*))?", line)
        if re.fullmatch(r"outcome \d+", line):
            found.append(())
        elif rank:
            found[-1] += ((rank[1], tuple(rank[2].split("; ")) if rank[2] else ()),)
    return found


def scripts_in(output):
    """The scripts that are told, each with its question and its outcome's number."""
    return [(at[1], int(at[2]), at[3]) for at in re.finditer(r"^(\w+) outcome (\d+)\n(.*?)^end\n", output, re.M | re.S)]


def shows(program, what, script, outcome):
    """Runs a script: its trace is legal, and each rank's noted replies stand in it, in their order."""
    trace, status, told = ran(program, script, "run", "--steps")
    holds(f"{what} runs", (status, told) == (0, ""))
    holds(f"{what} is legal", ran(program, trace, "check")[0] == "legal\n")
    for rank, (_, notes) in enumerate(outcome):
        replies = iter(re.findall(rf"^reply {rank} \d+ (.*)$", trace, re.M))
        holds(f"{what}: rank {rank}", all(note.startswith("say ") or note in ("declared", "already-failed") or note in replies for note in notes))


def example(program, name, keep):
    """One program of the examples."""
    with open(os.path.join(EXAMPLES, name + ".ulfm"), encoding="ascii") as file:
        text = file.read()
    output, status, told = ran(program, text, "explore")
    holds(f"{name} ends", (status, told) == (0, ""))
    path = os.path.join(EXAMPLES, name + ".out")
    if keep:
        with open(path, "w", encoding="ascii") as file:
            file.write(output)
    with open(path, encoding="ascii") as file:
        holds(f"{name}'s output", file.read() == output)
    found = outcomes_in(output)
    number, states, questions = KNOWN[name]
    holds(f"{name} counts", output.endswith(f"all outcomes {number} states {states}\n") and len(found) == number == len(set(found)))
    for question, answered in questions.items():
        line = rf"^{question} outcome \d+$" if answered else rf"^{question} none$"
        holds(f"{name}: {question}", re.search(line, output, re.M))
    for question, at, script in scripts_in(output):
        shows(program, f"{name}: {question}", script, found[at - 1])
    if states < 50000:
        for at, outcome in enumerate(found, 1):
            script, status, _ = ran(program, text, "explore", "--outcome", str(at))
            holds(f"{name}: script {at}", status == 0)
            shows(program, f"{name}: outcome {at}", script, outcome)


def limits(program):
    """Where not all schedules are tried, and where there is no such outcome."""
    with open(os.path.join(EXAMPLES, "by_agree.ulfm"), encoding="ascii") as file:
        text = file.read()
    output, status, told = ran(program, text, "explore", "--most", "100")
    holds("a limit's status", (status, told) == (4, ""))
    holds("a limit's output", re.search(r"^alike none so far$", output, re.M) and re.search(r"^some outcomes \d+ states \d+$", output, re.M))
    holds("no such outcome", ran(program, text, "explore", "--outcome", "4") == ("", 1, "ulfm: no such outcome\n"))
    for words in (("--most", "0"), ("--outcome", "x"), ("--states", "3")):
        holds(f"bad words {words}", ran(program, text, "explore", *words) == ("", 2, "ulfm: bad command line\n"))
    for bad, fault in FAULTS:
        holds(f"fault {fault}", ran(program, bad, "explore") == ("", 1, f"ulfm: {fault}\n"))


def beside_brute_force(program, number, seed):
    """Random tiny programs: the outcomes are those of the brute force."""
    rng = random.Random(seed)
    done, of_three, passed_over, told = 0, 0, 0, 0
    while done < number:
        text = schedules.random_program(rng)
        try:
            wanted = schedules.outcomes(text, MOST_STATES)
        except schedules.TooMany:
            passed_over += 1
            continue
        output, status, _ = ran(program, text, "explore")
        found = outcomes_in(output)
        holds(f"program {done} of seed {seed}:\n{text}", status == 0 and set(found) == wanted and len(found) == len(wanted))
        done += 1
        of_three += text.startswith("ulfm-explore 1 3 ")
        told += len(found)
    print(f"random programs: {done}, {of_three} of them of three ranks, with {told} outcomes; {passed_over} others, of over {MOST_STATES} states, were passed over")


def main():
    parser = argparse.ArgumentParser()
    parser.add_argument("program", nargs="?", default=os.path.join(TOP, "crates/ulfm/out/ulfm"))
    parser.add_argument("--keep", action="store_true")
    parser.add_argument("--programs", type=int, default=40)
    parser.add_argument("--seed", type=int, default=1)
    options = parser.parse_args()
    names = sorted(os.path.basename(path)[: -len(".ulfm")] for path in glob.glob(os.path.join(EXAMPLES, "*.ulfm")))
    holds("the examples are known", names == sorted(KNOWN))
    for name in names:
        example(options.program, name, options.keep)
    limits(options.program)
    beside_brute_force(options.program, options.programs, options.seed)
    ends_counted()


if __name__ == "__main__":
    main()
