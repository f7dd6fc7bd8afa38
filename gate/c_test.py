#!/usr/bin/env python3
"""Builds the library for programs in C and runs its tests: the archive of crates/ulfm_c, proved and built by the toolchain where gate/proofs.py
hasn't kept it, and then `make -C c test`, in a copy of c/, so that nothing is built in the repository but the crate's own out/.

    gate/c_test.py [ARCHIVE]      ARCHIVE is a libulfm_c.a that is built already; the last line is 'N passed, M failed'
"""
import os
import shutil
import subprocess
import sys
import tempfile

sys.dont_write_bytecode = True
import archive
from crates import Crates

HERE = os.path.dirname(os.path.dirname(os.path.abspath(__file__)))


def made():
    """The archive of this repository's crate, or None."""
    crates = Crates(HERE)
    return archive.path(crates) if archive.make(crates) else None


def main():
    library = os.path.abspath(sys.argv[1]) if sys.argv[1:] else made()
    if library is None:
        print("0 passed, 1 failed")
        return 1
    with tempfile.TemporaryDirectory(prefix="c-test-") as folder:
        # what the tests read beside c/ stands where it is
        top = os.path.join(folder, "top")
        shutil.copytree(os.path.join(HERE, "c"), os.path.join(top, "c"), ignore=shutil.ignore_patterns("out"))
        for name in ("crates", "docs", "examples"):
            os.symlink(os.path.join(HERE, name), os.path.join(top, name))
        return subprocess.run(["make", "-s", "-C", os.path.join(top, "c"), "test", f"ARCHIVE={library}"]).returncode


if __name__ == "__main__":
    sys.exit(main())
