#!/usr/bin/env python3
"""What calls and agrees cost through C. Commands are run in turn, again and again, so that what else the machine does meets all alike; only
ratios of one run can be compared. Where other work keeps processors busy, the least of many runs tells more than the median.

    bench/figures.py [--repeats N] [--rounds K] [--ranks N,N,..] [--native PROGRAM]

PROGRAM is a native race, called as `PROGRAM one c yield N K`, that ends its line on standard error in `us per round 1.234`.
"""
import argparse
import os
import re
import statistics
import subprocess

C = os.path.dirname(os.path.dirname(os.path.abspath(__file__)))


def nanoseconds(words):
    done = subprocess.run(words, capture_output=True, text=True, check=True)
    if words[0].endswith("/agree"):
        return float(done.stdout)
    return 1e3 * float(re.search(r"us per round ([\d.]+)", done.stderr).group(1))


def main():
    parser = argparse.ArgumentParser()
    parser.add_argument("--repeats", type=int, default=21)
    parser.add_argument("--rounds", type=int, default=1000)
    parser.add_argument("--ranks", default="2,4,8")
    parser.add_argument("--native")
    given = parser.parse_args()
    print(subprocess.run([os.path.join(C, "out/calls")], capture_output=True, text=True, check=True).stdout)
    for ranks in given.ranks.split(","):
        rows = {kind: [os.path.join(C, "out/agree"), kind, ranks, str(given.rounds)] for kind in ("threads", "processes")}
        if given.native:
            rows = {"native threads": [given.native, "one", "c", "yield", ranks, str(given.rounds)], **rows}
        times = {name: [] for name in rows}
        for _ in range(given.repeats):
            for name, words in rows.items():
                times[name].append(nanoseconds(words))
        first = next(iter(times.values()))
        for name, all_of_them in times.items():
            found = {"least": min, "median": statistics.median}
            said = [f"{how} {of(all_of_them) / 1e3:8.2f} us a round, ratio {of(all_of_them) / of(first):.2f}" for how, of in found.items()]
            print(f"{ranks} ranks, {name:<15} {'; '.join(said)}", flush=True)


if __name__ == "__main__":
    main()
