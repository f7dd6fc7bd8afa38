#!/usr/bin/env python3
"""Every proof from nothing, every crate's tests, and the programs by both compilers: the toolchain's own gate on a copy without must-fail edits.

The copy has the crates alone, and nothing that was built. Crates of tests that no contract rests on (`run` in gate/costs.txt) aren't in it: their tests
are run beside it, by the toolchain's checked build, and aren't proved. With --all they are in it, too.

    gate/proofs.py [--all]      the last line is 'N passed, M failed'

The programs that were proved and built stay in the repository's out/. The archive for C is proved and built there, with the crates below it.
"""
import filecmp
import os
import shutil
import subprocess
import sys
import tempfile
import threading
import time
from concurrent.futures import ThreadPoolExecutor

sys.dont_write_bytecode = True
import archive
import said
from crates import Crates
from lanes import processors
from rooms import end_all, end_at_a_signal, lay_crate, run

# how many seconds a test may take, on a slow host beside proofs
PATIENCE = 900


class Proofs:
    """A run of the toolchain's gate, with how far it is."""

    def __init__(self, root, proves_all):
        self.crates = Crates(root)
        self.only_run = [it.name for it in self.crates.by_name.values() if it.only_run and not proves_all]
        self.proved = [it for it in self.crates.by_name if it not in self.only_run]
        self.since, self.done, self.lost, self.is_over = time.monotonic(), set(), [], False
        # (as the toolchain's gate has them: each crate's proof, and the proof of its tests where it has some)
        self.costs = {(it, False): self.crates.by_name[it].proof for it in self.proved}
        self.costs.update({(it, True): self.crates.by_name[it].tests for it in self.proved if self.crates.by_name[it].tests})

    def lay(self, copy):
        for name in self.proved:
            lay_crate(self.crates.folder(name), f"{copy}/crates/{name}")
        with open(f"{copy}/crates.txt", "w", encoding="utf-8") as it:
            it.write("".join(f"{self.crates.by_name[name].line}\n" for name in self.proved))
        if os.path.isfile(f"{self.crates.root}/HANDLES"):
            shutil.copy(f"{self.crates.root}/HANDLES", copy)

    def moved(self, copy):
        """The files that the toolchain lays out otherwise, for which its gate would refuse their crate when its turn comes. It lays out the copy, whose files
        are then as they were."""
        with ThreadPoolExecutor(processors()) as pool:
            list(pool.map(lambda name: run(["rt", "fmt"], f"{copy}/crates/{name}"), self.proved))
        found = []
        for name in self.proved:
            for at, _, files in os.walk(f"{copy}/crates/{name}"):
                here = at.replace(f"{copy}/crates", f"{self.crates.root}/crates", 1)
                found += [f"{here}/{it}" for it in files if it.endswith((".rt", ".antt")) and not filecmp.cmp(f"{at}/{it}", f"{here}/{it}", shallow=False)]
        return sorted(os.path.relpath(it, self.crates.root) for it in found)

    def prove(self, copy):
        """Runs the toolchain's gate on the copy, with a line of its own behind each crate that is done. Gives how many passed and failed."""
        how = {"cwd": copy, "stdin": subprocess.DEVNULL, "stdout": subprocess.PIPE, "stderr": subprocess.STDOUT, "text": True, "errors": "replace"}
        how["env"] = {"RT_SECONDS": str(PATIENCE), **os.environ}
        output = []
        with subprocess.Popen(["rt", "ci"], **how) as command:
            for line in command.stdout:
                output.append(line)
                print(line, end="", flush=True)
                self.tell(said.done(line))
        counts = said.counts("".join(output)) or (0, 1)
        return counts if counts[1] or not command.returncode else (counts[0], 1)

    def tell(self, done):
        """Says how many proofs are done, and how long the others take by their costs."""
        if done not in self.costs or done in self.done:
            return
        self.done.add(done)
        left = sum(cost for it, cost in self.costs.items() if it not in self.done)
        minutes = round(left / processors() / 60)
        print(f"proofs: {len(self.done)} of {len(self.costs)} done, {(time.monotonic() - self.since) / 60:.0f} minutes so far, "
              f"about {minutes} minutes left", flush=True)

    def run_tests(self):
        """Runs the tests that aren't proved, one crate after another, where processors idle. Where some don't pass they are run once more with
        more time, since beside proofs, on a slow host, a test may come to the toolchain's limit of a minute."""
        for name in self.only_run:
            status, output = run(["nice", "rt", "try", "--test"], self.crates.folder(name))
            if status and not self.is_over:
                status, output = run(["rt", "try", "--test", "--seconds", str(PATIENCE)], self.crates.folder(name))
            if self.is_over:
                return
            if status:
                self.lost.append(name)
                print(f"== {name}: its tests\n{output}", end="", flush=True)
            print(f"proofs: {name}: its tests, which were only run, {'NOT PASSED' if status else 'passed'}", flush=True)

    def keep_programs(self, copy):
        for name in filter(self.crates.is_program, self.proved):
            made, to = f"{copy}/crates/{name}/out/{name}", f"{self.crates.folder(name)}/out/{name}"
            if os.path.isfile(made):
                os.makedirs(os.path.dirname(to), exist_ok=True)
                shutil.copy(made, f"{to}.new")
                os.replace(f"{to}.new", to)

    def whole(self):
        """Runs all. Gives how many passed and failed."""
        tests = threading.Thread(target=self.run_tests)
        tests.start()
        try:
            with tempfile.TemporaryDirectory(prefix="ulfm-proofs-") as copy:
                self.lay(copy)
                moved = self.moved(copy)
                for file in moved:
                    print(f"proofs: {file} isn't in the layout: run rt fmt in its crate", flush=True)
                passed, failed = (0, len(moved)) if moved else self.prove(copy)
                if not failed:
                    self.keep_programs(copy)
            # (in the repository, where must-fail edits find what was built for it)
            failed += not failed and not archive.make(self.crates)
        except BaseException:
            self.is_over = True
            end_all()
            raise
        tests.join()
        return passed + len(self.only_run) - len(self.lost), failed + len(self.lost)


def main(words):
    if words not in ([], ["--all"]):
        sys.exit("usage: gate/proofs.py [--all]")
    end_at_a_signal()
    proofs = Proofs(os.getcwd(), bool(words))
    try:
        passed, failed = proofs.whole()
    except KeyboardInterrupt:
        sys.exit(130)
    if proofs.lost:
        print(f"proofs: FAILED: {' '.join(proofs.lost)}")
    print(f"{passed} passed, {failed} failed")
    sys.exit(1 if failed else 0)


if __name__ == "__main__":
    main(sys.argv[1:])
