#!/usr/bin/env python3
"""Tests the gate on small crates: what it must report of proofs and tests, and which edits are refused in a group, which alone, and which it must report."""
import os
import shutil
import subprocess
import sys
import tempfile
import time

HERE = os.path.dirname(os.path.realpath(__file__))
# (of a text that no earlier run on this machine has read, nothing is kept)
LIB = f"""// A crate for the gate's own test, {time.time_ns()}.
""" + """#![tactic(auto)]

ghost use Rattle.std.specs.Prelude.{◌≡◌, ◌+◌};

/// The number after x.
pub fn next(x: u8) -> u16
    ensures { result ≡ x + 1 }
{
    x as u16 + 1
}

/// The number after the next of x.
pub fn after_next(x: u8) -> u16
    ensures { result ≡ x + 2 }
{
    next(x) + 1
}

/// The number two after the next of x, with a proof by hand.
pub fn two_after_next(x: u8) -> u16
    ensures { result ≡ x + 3 }
{
    2 + next(x)
}

/// Whether x is small. Its clause says too little.
pub fn is_small(x: u8) -> bool
    ensures { result ≡ result }
{
    x < 10
}

/// The number 7.
pub fn seven() -> u8
    ensures { result ≡ 7 }
{
    7
}
"""
BY_HAND = """use Rattle.std.proofs.Common.{arith}
use Rattle.NAME.proofs.two_after_next.Goals as goal

pub returns : goal.returns
returns c = omega arith
"""
FAILING = LIB + "\n#[test]\nfn it_fails(rt: HostRuntime) {\n    assert_eq!(rt; seven(), 8);\n}\n"
# What each edit turns, and what the gate must say of it.
EDITS = {
    # (the caller and the called are turned in one group, and each is told by itself)
    "together": {
        "next.adds_two": ("x as u16 + 1", "x as u16 + 2", "refused"),
        "after_next.adds_three": ("next(x) + 1", "next(x) + 2", "refused"),
        "two_after_next.adds_two": ("2 + next(x)", "1 + next(x)", "refused"),
        "seven.is_eight": ("    7", "    8", "refused"),
    },
    # (callers that mean the same as before are blamed on the called, and so aren't refused in its group)
    "blamed": {
        "next.adds_two": ("x as u16 + 1", "x as u16 + 2", "refused"),
        "after_next.adds_the_same": ("next(x) + 1", "1 + next(x)", "NOT REFUSED"),
        "two_after_next.adds_the_same": ("2 + next(x)", "next(x) + 2", "NOT REFUSED"),
    },
    "mixed": {
        "next.adds_two": ("x as u16 + 1", "x as u16 + 2", "refused"),
        "next.adds_nothing": ("x as u16 + 1", "x as u16", "refused"),
        "seven.is_eight": ("    7", "    8", "refused"),
        "is_small.is_never_small": ("x < 10", "x < 0", "NOT REFUSED"),
        "is_small.changes_nothing": ("x < 10", "x  <  10", "BAD EDIT"),
        "next.changes_a_contract": ("result ≡ x + 1", "result ≡ x + 2", "BAD EDIT"),
        "next.stands_twice": ("pub fn", "fn", "BAD EDIT"),
        "next.is_no_code": ("x as u16 + 1", "x as u16 + ", "BAD EDIT"),
    },
}
LISTED = "".join(f"{it}:\n" for it in (*EDITS, "unproved", "failing", "run_tests"))
# How many edits of these crates are tried in how many groups, and how many alone.
COUNTS = ("together: 4 edits, 0 known, 1 groups, 0 alone", "blamed: 3 edits, 0 known, 2 groups, 2 alone")
# A toolchain of which no line on a function can be read.
GARBLED = """#!/usr/bin/env python3
import subprocess, sys
ran = subprocess.run(["{rt}", *sys.argv[1:]], stdout=subprocess.PIPE, stderr=subprocess.STDOUT, text=True)
print(ran.stdout.replace("\\nfn ", "\\nfunction ") if sys.argv[1:2] == ["check"] else ran.stdout, end="")
sys.exit(ran.returncode)
"""


def write(path, text):
    os.makedirs(os.path.dirname(path), exist_ok=True)
    with open(path, "w", encoding="utf-8") as it:
        it.write(text)


def lay(root, name, edits, lib=LIB):
    """A crate with these edits."""
    crate = f"{root}/crates/{name}"
    write(f"{crate}/src/lib.rt", lib)
    write(f"{crate}/specs/Lib.antt", "")
    write(f"{crate}/proofs/Lib.antt", "")
    write(f"{crate}/proofs/two_after_next/Answers.antt", BY_HAND.replace("NAME", name))
    for edit, (old, new, _) in edits.items():
        write(f"{crate}/must-fail/{edit}.edit", f"file: src/lib.rt\nold: {old}\nnew: {new}\n")


def expect(holds, why, printed):
    if not holds:
        sys.exit(f"gate_test: {why}\n{printed}")


def run(root, *words, path=None, **more):
    """Runs a part of the gate at the root. Gives its status and what it printed."""
    surroundings = {**os.environ, "XDG_CACHE_HOME": f"{root}/kept", "PATH": f"{path or HERE}:{os.environ['PATH']}", **more}
    ran = subprocess.run([sys.executable, *words], cwd=root, stdout=subprocess.PIPE, stderr=subprocess.STDOUT, text=True, env=surroundings)
    return ran.returncode, ran.stdout


def expect_edits(edits, printed):
    """Expects what is said of each edit of some crates, and the last line."""
    for crate, wanted_of in edits.items():
        for name, (_, _, wanted) in wanted_of.items():
            line = next((it for it in printed.splitlines() if it.startswith(f"must-fail {crate}/{name}.edit: ")), "")
            expect(f": {wanted}" in line, f"{crate}/{name} is not {wanted}", printed)
    all_wanted = [wanted for it in edits.values() for _, _, wanted in it.values()]
    counts = f"{all_wanted.count('refused')} passed, {len(all_wanted) - all_wanted.count('refused')} failed"
    expect(printed.splitlines()[-1] == counts, f"the last line is not {counts}", printed)


def tests_proofs(root):
    """An unproved function and a failing test are reported by name, whether the test is proved or only run; edits aren't tried."""
    status, printed = run(root, f"{HERE}/proofs.py")
    expect("rt: FAILED: unproved failing (tests)" in printed.splitlines(), "it isn't told which crates failed", printed)
    expect("proofs: FAILED: run_tests" in printed.splitlines(), "a failing test that is only run passes", printed)
    expect("must-fail" not in printed, "edits are tried", printed)
    # (a crate whose test fails is proved all the same, and counts for both)
    expect(status == 1 and printed.splitlines()[-1] == f"{len(EDITS) + 1} passed, 3 failed", "the counts are wrong", printed)
    # (alone, so that this takes no longer than it must)
    write(f"{root}/crates.txt", "run_tests:\n")
    status, printed = run(root, f"{HERE}/proofs.py", "--all")
    expect(status == 1 and "rt: FAILED: run_tests (tests)" in printed.splitlines(), "with --all a failing test isn't proved and run", printed)
    write(f"{root}/crates.txt", LISTED)


def tests_edits(root):
    """Each edit is told as it must be; what was refused is known then; nothing is told of what time doesn't reach, or the disk has no room for."""
    names = list(EDITS)
    status, printed = run(root, f"{HERE}/edits.py", "--minutes", "0.001", "together", "blamed")
    expect(status == 0 and "not reached: " in printed and printed.splitlines()[-1] == "0 passed, 0 failed", "edits are told of that time didn't reach", printed)
    for words, counts in ([], "0 passed, 1 failed"), (["--minutes", "5"], "0 passed, 0 failed"):
        status, printed = run(root, f"{HERE}/edits.py", *words, "together", ULFM_GATE_ROOM=str(10**18))
        expect("edits: the disk was full" in printed.splitlines() and printed.splitlines()[-1] == counts, "it isn't told that the disk was full", printed)
    status, printed = run(root, f"{HERE}/edits.py", *names)
    expect(status == 1, "edits that aren't refused pass", printed)
    expect_edits(EDITS, printed)
    for counts in COUNTS:
        expect(f"edits: {counts}" in printed.splitlines(), f"it isn't said: {counts}", printed)
    status, printed = run(root, f"{HERE}/edits.py", "together")
    expect(status == 0 and "4 edits, 4 of them known" in printed and printed.splitlines()[-1] == "4 passed, 0 failed", "what was refused isn't known", printed)
    status, printed = run(root, f"{HERE}/edits.py", "unproved")
    expect(status == 1 and "unproved could not be proved" in printed, "an edit of a crate that isn't proved passes", printed)


def tests_end(root):
    """A signal ends a run at once, and no room is left."""
    os.mkdir(f"{root}/rooms")
    surroundings = {**os.environ, "XDG_CACHE_HOME": f"{root}/none", "TMPDIR": f"{root}/rooms"}
    how = {"cwd": root, "stdout": subprocess.PIPE, "stderr": subprocess.STDOUT, "text": True, "env": surroundings}
    command = subprocess.Popen([sys.executable, f"{HERE}/edits.py", "together", "mixed"], **how)
    command.stdout.readline()
    time.sleep(3)
    command.terminate()
    printed, _ = command.communicate(timeout=60)
    expect(command.returncode == 130 and "Traceback" not in printed, f"a run that is ended ends with {command.returncode}", printed)
    expect(not os.listdir(f"{root}/rooms"), f"rooms are left: {os.listdir(f'{root}/rooms')}", printed)


def tests_fall_back(root):
    """Where nothing can be read of what is said of functions, each edit is tried by the toolchain's own command."""
    shutil.rmtree(f"{root}/kept")
    write(f"{root}/garbled/rt", GARBLED.format(rt=shutil.which("rt")))
    os.chmod(f"{root}/garbled/rt", 0o755)
    status, printed = run(root, f"{HERE}/edits.py", "blamed", path=f"{root}/garbled")
    expect(status == 1, "edits that aren't refused pass, where the toolchain's lines can't be read", printed)
    expect_edits({"blamed": EDITS["blamed"]}, printed)


def main():
    with tempfile.TemporaryDirectory(prefix="gate-test-") as root:
        write(f"{root}/crates.txt", LISTED)
        write(f"{root}/gate/costs.txt", "run_tests 1 1 run\n")
        write(f"{root}/HANDLES", "Handles allowed: none.\n")
        for name, edits in EDITS.items():
            lay(root, name, edits)
        lay(root, "unproved", {"seven.is_nine": ("    8", "    9", "")}, LIB.replace("    7", "    8"))
        lay(root, "failing", {}, FAILING)
        lay(root, "run_tests", {}, FAILING)
        tests_proofs(root)
        tests_edits(root)
        tests_end(root)
        tests_fall_back(root)
    print("gate_test: ok")


if __name__ == "__main__":
    main()
