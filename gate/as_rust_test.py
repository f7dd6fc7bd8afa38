#!/usr/bin/env python3
"""Tests gate/as_rust: the judges as plain Rust compile, and say of random logs, and of the traces that explain them, what the built program says.

    gate/as_rust_test.py [--logs N] [--seed S]      needs rustc, and the built program; without rustc nothing is tested

The last line is 'N passed, M failed'.
"""
import argparse
import os
import random
import shutil
import subprocess
import sys
import tempfile

sys.dont_write_bytecode = True
import random_logs  # noqa: E402
from observed_test import TOP, Judges  # noqa: E402


def built(folder):
    """The two judges as programs."""
    subprocess.run([sys.executable, f"{TOP}/gate/as_rust/as_rust.py", folder], check=True)
    for name, root in (("observe", "main.rs"), ("checks", "checks.rs")):
        words = ["rustc", "--edition", "2024", "-C", "opt-level=1", "-C", "overflow-checks=on", "-A", "warnings"]
        subprocess.run([*words, "-o", f"{folder}/{name}", f"{folder}/src/{root}"], check=True)
    return f"{folder}/observe", f"{folder}/checks"


def main():
    words = argparse.ArgumentParser(description=__doc__, formatter_class=argparse.RawDescriptionHelpFormatter)
    words.add_argument("--logs", type=int, default=60)
    words.add_argument("--seed", type=int, default=1)
    asked = words.parse_args()
    if not shutil.which("rustc"):
        print("rustc isn't there: gate/as_rust isn't tested")
        return 0
    rng, logs = random.Random(asked.seed), []
    while len(logs) < asked.logs:
        logs.append(random_logs.small(rng))
    with tempfile.TemporaryDirectory() as folder:
        observe, checks = built(folder)
        plain = Judges(argparse.Namespace(program=None, native=observe, checks=checks))
        proved = Judges(argparse.Namespace(program=f"{TOP}/crates/ulfm/out/ulfm", native=None, checks=None))
        said = plain.answers(logs, True)
        same = [one == other for one, other in zip(said, proved.answers(logs, True))]
        traces = [text.partition("\n")[2] for verdict, text in said if verdict == "explained"]
        # (and traces that aren't legal: without their second lines)
        traces += ["\n".join(it.split("\n")[:1] + it.split("\n")[2:]) for it in traces]
        same += [one == other for one, other in zip(plain.are_legal(traces), proved.are_legal(traces))]
    print(f"{sum(same)} passed, {len(same) - sum(same)} failed")
    return int(not all(same) or not traces)


if __name__ == "__main__":
    sys.exit(main())
