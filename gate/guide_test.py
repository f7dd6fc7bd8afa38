#!/usr/bin/env python3
"""Runs the commands of docs/GUIDE.md on a copy of the repository, and compares what they print.

A block ```sh has commands; the block ```text behind it, if one comes before the next commands, is what they must print. Of the blocks
```rust the first is the program that docs/first_crate takes, and each other stands in the source of a recovery. The copy has the built program,
where there is one, and nothing else that was built. The guide's refusals are those of the model, by number and name, docs/FORMATS.md prints
them as the model does, and docs/MPI.md names each. The guide and docs/LIMITATIONS.md have each greatest limit, and each call on a member, on the
outside or of `vukrasp` that the guide or docs/MPI.md shows is one of the library. The last line is 'N passed, M failed'.
"""

import os
import re
import shutil
import subprocess
import sys
import tempfile

HERE = os.path.dirname(os.path.dirname(os.path.abspath(__file__)))
PROGRAM = "crates/ulfm/out/ulfm"
RECOVERIES = [f"crates/ulfm_{it}_example/src/main.rt" for it in ("recovery", "recovery_loop")]
REFUSED = re.compile(r"^\| (\d+) \| `(\w+)` \|", re.M)
NUMBERED = re.compile(r"Refusal::(\w+) => (\d+),")
PRINTED = re.compile(r"Refusal::(\w+) => \"([a-z-]+)\",")
# those that no script prints
UNPRINTED = ("OutOfMemory", "Twice")
GREATEST = re.compile(r"pub const MAX_\w+: \w+ = ([\d_]+);")
CALLED = re.compile(r"`[^`]*?\b(member|outside|vukrasp)(?:\.|::)(\w+)\([^`]*`")
PUBLIC = re.compile(r"^ *pub fn (\w+)", re.M)
BLOCK = re.compile(r"^```(sh|text|rust)\n(.*?)^```$", re.M | re.S)


def laid_out(folder):
    """Copies the repository, and the program last, so that no source is newer."""
    left_out = shutil.ignore_patterns("out", ".git")
    copy = os.path.join(folder, "copy")
    shutil.copytree(HERE, copy, ignore=left_out)
    if os.path.exists(os.path.join(HERE, PROGRAM)):
        os.makedirs(os.path.dirname(os.path.join(copy, PROGRAM)))
        shutil.copy(os.path.join(HERE, PROGRAM), os.path.join(copy, PROGRAM))
    return copy


def commands_in(text):
    """Gives each block of commands with what it must print, or None where no such block follows."""
    wanted = []
    for kind, body in BLOCK.findall(text):
        if kind == "sh":
            wanted.append((body, None))
        elif kind == "text" and wanted:
            wanted[-1] = (wanted[-1][0], body)
    return wanted


def passes(command, wanted, copy):
    ran = subprocess.run(["bash", "-e", "-o", "pipefail", "-c", command], cwd=copy, capture_output=True, text=True)
    # what is built stays so, whatever the guide's commands do
    is_proved = "UNPROVED" not in ran.stderr or not os.path.exists(os.path.join(copy, PROGRAM))
    if ran.returncode == 0 and wanted in (None, ran.stdout) and is_proved:
        return True
    print(f"failed with status {ran.returncode}:\n{command}printed:\n{ran.stdout}{ran.stderr}")
    return False


def stands_in(source, shown):
    if shown in source:
        return True
    print(f"not in {RECOVERIES}:\n{shown}")
    return False


def has_refusals(guide, source):
    wanted = [(number, name) for name, number in NUMBERED.findall(source)]
    if wanted and REFUSED.findall(guide) == wanted:
        return True
    print(f"the guide's refusals aren't the model's: {sorted(set(REFUSED.findall(guide)) ^ set(wanted))}")
    return False


def prints_refusals(formats, source):
    printed, numbers = dict(PRINTED.findall(source)), dict(NUMBERED.findall(source))
    wanted = {f"{number} {printed[name]}" for name, number in numbers.items() if name not in UNPRINTED}
    found = set(re.findall(r"^\| `refused (\d+ [a-z-]+)` \|", formats, re.M))
    if wanted and found == wanted:
        return True
    print(f"the refusals of docs/FORMATS.md aren't the model's: {sorted(found ^ wanted)}")
    return False


def names_refusals(page, source):
    missing = [name for name, _ in NUMBERED.findall(source) if not re.search(rf"`(?:Refusal::)?{name}`", page)]
    if missing:
        print(f"docs/MPI.md lacks the refusals {missing}")
    return not missing and bool(NUMBERED.search(source))


def has_calls(name, page):
    """Whether each call that a page shows is one of the library."""
    files = {
        "member": ("ulfm_wait/src/member",),
        "outside": ("ulfm_wait/src/outside",),
        "vukrasp": ("vukrasp/src/opening", "ulfm_wait/src/blocking"),
    }
    shown, known = set(CALLED.findall(page)), set()
    for owner, sources in files.items():
        known |= {(owner, call) for it in sources for call in PUBLIC.findall(read(f"crates/{it}.rt"))}
    if shown - known:
        print(f"{name} has calls that the library hasn't: {sorted(shown - known)}")
    return bool(shown) and shown <= known


def has_limits(name, page, source):
    missing = [it for it in GREATEST.findall(source) if f"{int(it):,}" not in page]
    if missing:
        print(f"{name} lacks the limits {missing}")
    return not missing and bool(GREATEST.search(source))


def read(file):
    with open(os.path.join(HERE, file), encoding="utf-8") as it:
        return it.read()


def main():
    guide, recoveries = read("docs/GUIDE.md"), "".join(map(read, RECOVERIES))
    mpi, refusals, limits = read("docs/MPI.md"), read("crates/ulfm_model/src/refusal.rt"), read("crates/ulfm_model/src/limits.rt")
    shown = [body for kind, body in BLOCK.findall(guide) if kind == "rust"][1:]
    results = [stands_in(recoveries, it) for it in shown]
    results += [has_refusals(guide, refusals), prints_refusals(read("docs/FORMATS.md"), refusals), names_refusals(mpi, refusals)]
    results += [has_limits(it, read(it), limits) for it in ("docs/GUIDE.md", "docs/LIMITATIONS.md")]
    results += [has_calls(it, read(it)) for it in ("docs/GUIDE.md", "docs/MPI.md")]
    with tempfile.TemporaryDirectory(prefix="guide-") as folder:
        copy = laid_out(folder)
        results += [passes(command, text, copy) for command, text in commands_in(guide)]
    print(f"{results.count(True)} passed, {results.count(False)} failed")
    return int(not results or not all(results))


if __name__ == "__main__":
    sys.exit(main())
