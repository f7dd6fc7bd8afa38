#!/usr/bin/env python3
"""What ranks over a log in a store cost: store operations counted, and agrees timed beside the store's own append and delivery, in turn in one run.
Servers are begun for it, on loopback, of those that there are.

    bench/store.py [--rounds K] [--ranks N,N,..] [--repeats R] [--stores file,postgres,etcd]
"""
import argparse
import os
import statistics
import subprocess
import sys
import tempfile

C = os.path.dirname(os.path.dirname(os.path.abspath(__file__)))
sys.dont_write_bytecode = True
sys.path.insert(0, os.path.join(C, "test"))
import servers  # noqa: E402

TIMES = os.path.join(C, "out/store_times")


class File:
    name = "file"

    def __init__(self):
        self.folder = tempfile.TemporaryDirectory(prefix="ulfm-store-")

    def where(self, world):
        return f"file:{self.folder.name}/{world}"

    def close(self):
        self.folder.cleanup()


def begun(name):
    """A store, or None where its server isn't there."""
    if name == "file":
        return File()
    kind = {"postgres": servers.Postgres, "etcd": servers.Etcd}[name]
    if not kind.is_there():
        print(f"the server of {name} isn't there: it is left out")
        return None
    return kind(["max_connections=400"]) if name == "postgres" else kind()


def said(*words):
    return subprocess.run([TIMES, *words], stdout=subprocess.PIPE, text=True, check=True).stdout


def main():
    parser = argparse.ArgumentParser()
    parser.add_argument("--rounds", type=int, default=100)
    parser.add_argument("--ranks", default="4,16,64")
    parser.add_argument("--repeats", type=int, default=5)
    parser.add_argument("--stores", default="file,postgres,etcd")
    given = parser.parse_args()
    for name in given.stores.split(","):
        store = begun(name)
        if store is None:
            continue
        try:
            for dead in (1, 2, 3):
                print(f"{name}, {said(store.where(f'count{dead}'), '--count', '8', str(dead))}", end="", flush=True)
            for ranks in given.ranks.split(","):
                runs = []
                for at in range(given.repeats):
                    words = said(store.where(f"agree{ranks}-{at}"), store.where(f"bare{ranks}-{at}"), ranks, str(given.rounds)).split()
                    runs.append([float(it) for it in words])
                bare, agree = (min(it[column] for it in runs) for column in (1, 2))
                ratio = statistics.median(it[2] / it[1] for it in runs)
                print(f"{name}, {ranks:>2} ranks: append and delivery {bare / 1e3:.2f} ms, agree {agree / 1e3:.2f} ms, ratio {ratio:.2f}; {runs[0][3]:.3f} appends a start", flush=True)
        finally:
            store.close()


if __name__ == "__main__":
    main()
