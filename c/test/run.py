#!/usr/bin/env python3
"""Runs every test of the library in C, once `make` has built the programs in out/. What a machine lacks (clang, rustc, valgrind, the
program `ulfm`) is named and left out.

    make -C c test      the last line is 'N passed, M failed'
"""
import glob
import os
import re
import shutil
import subprocess
import sys
import tempfile

C = os.path.dirname(os.path.dirname(os.path.abspath(__file__)))
TOP = os.path.dirname(C)
WARNINGS = ["-Wall", "-Wextra", "-Wpedantic", "-Werror"]
# how often a program whose threads or processes may be scheduled otherwise is run
OFTEN = 20
CC, CXX, RUSTC = (os.environ.get(name, it) for name, it in (("CC", "cc"), ("CXX", "c++"), ("RUSTC", "rustc")))
results = []


def passed(what, is_right, said=""):
    results.append(is_right)
    if not is_right:
        print(f"failed: {what}\n{said}")


def ran(words, folder=C, **more):
    """A command's status and all that it prints; 'it hangs' where it takes ten minutes."""
    try:
        done = subprocess.run(words, cwd=folder, stdout=subprocess.PIPE, stderr=subprocess.STDOUT, text=True, timeout=600, **more)
    except subprocess.TimeoutExpired:
        return -1, "it hangs"
    return done.returncode, done.stdout


def runs(what, words, wanted=None, **more):
    """Whether a command succeeds, and prints what is wanted."""
    status, said = ran(words, **more)
    passed(what, status == 0 and wanted in (None, said), f"status {status}\n{said}")
    return said


def counts(what, words):
    """A test that counts itself: its last line is 'N passed, M failed'."""
    status, said = ran(words)
    found = re.search(r"(\d+) passed, (\d+) failed\n$", said)
    good, bad = (int(it) for it in found.groups()) if found else (0, 1)
    results.extend([True] * good + [False] * (bad or int(status != 0)))
    print("".join(f"{line}\n" for line in said.splitlines()[:-1]), end="")


def there(tool):
    if shutil.which(tool):
        return True
    print(f"{tool} isn't there: its tests are left out")
    return False


def wanted_of(example):
    with open(os.path.join(C, "examples", f"{example}.out"), encoding="utf-8") as it:
        return it.read()


def header_compiles(folder):
    """By itself, and included twice, in each language and by each compiler that there is, without a warning."""
    for suffix, standard, compilers in (("c", "c11", (CC, "clang")), ("c", "c17", (CC,)), ("cpp", "c++17", (CXX, "clang++")), ("cpp", "c++20", (CXX,))):
        source = os.path.join(folder, f"alone.{suffix}")
        with open(source, "w", encoding="utf-8") as it:
            it.write('#include "ulfm.h"\n#include "ulfm.h"\n')
        for compiler in compilers:
            if there(compiler):
                runs(f"ulfm.h as {standard} by {compiler}", [compiler, f"-std={standard}", *WARNINGS, "-Wconversion", "-Wshadow", "-fsyntax-only", f"-I{C}", source])


def programs_run():
    for name in ("codes", "memory", "shared", "replica", "cxx", "first"):
        runs(name, [f"out/{name}"])
    for name in ("recovery", "recovery_address", "recovery_thread"):
        for _ in range(OFTEN):
            runs(name, [f"out/{name}"], wanted_of("recovery"))
    for _ in range(OFTEN):
        runs("loop", ["out/loop"], wanted_of("loop"))
    for _ in range(OFTEN):
        runs("processes", ["out/processes"], wanted_of("processes"))
    if there(RUSTC):
        runs("the wrapper in Rust", ["make", "-s", "out/recovery_rust"])
        for _ in range(OFTEN):
            runs("recovery in Rust", ["out/recovery_rust"], wanted_of("recovery_rust"))
    if there("valgrind"):
        for name in ("recovery", "loop", "codes", "memory", "shared", "replica"):
            runs(f"valgrind of {name}", ["valgrind", "-q", "--leak-check=full", "--show-leak-kinds=all", "--errors-for-leak-kinds=all", "--error-exitcode=9", f"out/{name}"])


def replicas_run_at_random():
    """And once more with two entries fed in the wrong order, which has to be found."""
    print(runs("random runs of replicas", ["out/random_replicas", os.environ.get("RANDOM_RUNS", "2000"), "1"]), end="")
    status, said = ran(["out/random_replicas", "400", "1", "swapped"])
    passed("swapped entries are found", status == 1 and "with two entries swapped" in said, said)


def random_logs_are_replayed():
    """What the model in C decides of random logs is what the proved program prints of them, where that is built."""
    program = os.path.join(TOP, "crates/ulfm/out/ulfm")
    if not os.path.exists(program):
        print(f"random logs are left out: {program} isn't built")
        return
    with tempfile.TemporaryDirectory(prefix="ulfm-logs-") as folder:
        runs("random runs whose logs are kept", ["out/random_replicas", "200", "50001", folder])
        for kept in sorted(glob.glob(f"{folder}/*.log")):
            with open(kept, "rb") as log, open(f"{kept.removesuffix('log')}said", encoding="utf-8") as said:
                found = subprocess.run([program, "replay"], stdin=log, capture_output=True, text=True).stdout.splitlines()
                passed(f"replay of {os.path.basename(kept)}", [it for it in found if it.startswith(("decided", "entries"))] == said.read().splitlines())


def stores_are_shared():
    """Over a log in a file; servers of stores aren't asked for here."""
    counts("store", ["test/store.py", "short"])


def processes_are_killed():
    said = runs("kill", ["out/kill", "--runs", os.environ.get("KILLS", "160")])
    print(said, end="")


def installs(folder):
    """Installed below a prefix, found by pkg-config alone, and taken away again; the program is the one that docs/C.md shows."""
    prefix = os.path.join(folder, "prefix")
    runs("install", ["make", "-s", "install", f"PREFIX={prefix}"])
    with open(os.path.join(C, "examples/first.c"), encoding="utf-8") as it, open(os.path.join(TOP, "docs/C.md"), encoding="utf-8") as page:
        source, shown = it.read(), page.read()
    passed("docs/C.md shows examples/first.c", source.split("*/\n", 1)[1] in shown)
    shutil.copy(os.path.join(C, "examples/first.c"), os.path.join(folder, "app.c"))
    if there("pkg-config"):
        environment = dict(os.environ, PKG_CONFIG_PATH=os.path.join(prefix, "lib/pkgconfig"))
        command = f"{CC} app.c $(pkg-config --cflags --libs ulfm) -o app && ./app && pkg-config --modversion ulfm"
        runs("a program over the installed library", ["sh", "-ec", command], "success, flag 12\n0.1.0\n", folder=folder, env=environment)
    if there("man"):
        page = os.path.join(prefix, "share/man/man3/ulfm.3")
        said = runs("the man page", ["man", "--warnings", "-l", page], env=dict(os.environ, MANPAGER="cat", MANWIDTH="100", LC_ALL="C.UTF-8"))
        lacks = [name for name in read_exports() if name not in said]
        passed("the man page names each call", not lacks, str(lacks))
    runs("uninstall", ["make", "-s", "uninstall", f"PREFIX={prefix}"])
    left = [it for it in glob.glob(f"{prefix}/**", recursive=True) if os.path.isfile(it)]
    passed("nothing is left", not left, str(left))


def read_exports():
    with open(os.path.join(C, "exports.txt"), encoding="utf-8") as it:
        return it.read().split()


def main():
    # the crate whose exports the header is compared with, where it isn't this repository's
    counts("header", ["test/header.py", *filter(None, [os.environ.get("CRATE")])])
    counts("scripts", ["test/scripts.py"])
    counts("scripts through replicas", ["test/scripts.py", "--replicas"])
    programs_run()
    processes_are_killed()
    replicas_run_at_random()
    random_logs_are_replayed()
    stores_are_shared()
    with tempfile.TemporaryDirectory(prefix="ulfm-c-") as folder:
        header_compiles(folder)
        installs(folder)
    print(f"{results.count(True)} passed, {results.count(False)} failed")
    return int(not all(results))


if __name__ == "__main__":
    sys.exit(main())
