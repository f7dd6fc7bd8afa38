#!/usr/bin/env python3
"""Runs call scripts through the library in C (out/script), and compares what they print, their faults and statuses.

Each script of examples/ with what stands beside it, and random ones with what `ulfm run` prints, where that program is built. (Whole
scripts are compared: one reply that differs makes those behind it differ too.) --replicas runs them through replicas (out/script_replicas).

    test/scripts.py [--replicas] [--random N] [--seed S] [--program PATH] [FOLDER..]

N is 200; there may be more folders of scripts. The last line is 'N passed, M failed'.
"""
import argparse
import os
import random
import subprocess
import sys
import tempfile

C = os.path.dirname(os.path.dirname(os.path.abspath(__file__)))
TOP = os.path.dirname(C)


def ran(words, script):
    done = subprocess.run(words, input=script, capture_output=True, timeout=120)
    return done.stdout, done.stderr, done.returncode


def read(path, otherwise=b""):
    if not os.path.exists(path):
        return otherwise
    with open(path, "rb") as it:
        return it.read()


def random_script(it):
    """A script of a small world, in which most calls are ones that may be made."""
    ranks, comms, rounds = it.choice((1, 2, 3, 4, 5, 9)), it.choice((1, 2, 3, 6, 40)), it.choice((1, 2, 3, 5, 40))
    lines = [f"ulfm 1 {ranks} {comms} {rounds}"]
    verbs = it.choices(("get", "ack", "agree", "shrink", "barrier", "poll", "revoke", "isrevoked", "free"), (1, 1, 6, 3, 2, 12, 0.2, 1, 1), k=it.choice((20, 100, 400)))
    failing = it.choice((0, 0.01, 0.05))
    for verb in verbs:
        rank, comm = it.randrange(ranks), it.choice((0, 0, 0, 1, it.randrange(comms + 1)))
        if it.random() < 0.01:
            rank = it.choice((ranks, 1023))
        if it.random() < failing:
            lines.append(f"fail {rank}")
        digits = it.choice((8, 16))
        rest = {"ack": f" {it.choice((0, 1, 2, 9999))}", "agree": f" {it.getrandbits(4 * digits):0{digits}x}"}.get(verb, "")
        # all of a communicator's ranks start, now and then, so that rounds are decided
        callers = range(ranks) if verb in ("agree", "shrink", "barrier", "poll") and it.random() < 0.3 else [rank]
        lines += [f"{verb} {caller} {comm}{rest}" for caller in callers]
    return "".join(f"{line}\n" for line in lines).encode()


def main():
    parser = argparse.ArgumentParser()
    parser.add_argument("--replicas", action="store_true")
    parser.add_argument("--random", type=int, default=200)
    parser.add_argument("--seed", type=int, default=1)
    parser.add_argument("--program", default=os.path.join(TOP, "crates/ulfm/out/ulfm"))
    parser.add_argument("folders", nargs="*")
    given = parser.parse_args()
    runner = os.path.join(C, "out/script_replicas" if given.replicas else "out/script")
    passed = failed = 0
    for folder in (os.path.join(TOP, "examples"), *given.folders):
        for name in sorted(it for it in os.listdir(folder) if it.endswith(".ulfm")):
            base = os.path.join(folder, name.removesuffix(".ulfm"))
            wanted = read(f"{base}.out"), read(f"{base}.err"), int(read(f"{base}.status", b"0"))
            found = ran([runner], read(f"{base}.ulfm"))
            passed, failed = passed + (found == wanted), failed + (found != wanted)
            if found != wanted:
                print(f"{folder}/{name}: {found}\nand not {wanted}")
    if not os.path.exists(given.program):
        print(f"random scripts are left out: {given.program} isn't built")
    else:
        chosen = random.Random(given.seed)
        for number in range(given.random):
            script = random_script(chosen)
            found, wanted = ran([runner], script), ran([given.program, "run"], script)
            passed, failed = passed + (found == wanted), failed + (found != wanted)
            if found != wanted:
                kept = os.path.join(tempfile.gettempdir(), f"ulfm_random_{given.seed}_{number}.ulfm")
                with open(kept, "wb") as it:
                    it.write(script)
                print(f"{kept}: differs from {given.program}, of which the statuses are {found[2]} and {wanted[2]}")
    print(f"{passed} passed, {failed} failed")
    return int(failed > 0 or passed == 0)


if __name__ == "__main__":
    sys.exit(main())
