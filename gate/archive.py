#!/usr/bin/env python3
"""The archive for programs in C, `crates/ulfm_c/out/libulfm_c.a`: made by the toolchain's `rt lib`, and kept with a sum of what it was made of.

    gate/archive.py      proves and builds it with the crates below it, as many at once as there are processors
"""
import os
import sys

sys.dont_write_bytecode = True
from build import HERE, Build, say, sum_of
from crates import Crates
from lanes import in_lanes, minutes_left
from rooms import end_at_a_signal

NAME = "ulfm_c"
FILE = f"lib{NAME}.a"


def path(crates):
    return f"{crates.folder(NAME)}/out/{FILE}"


def mark(crates):
    """The file that says of which sources the archive was made."""
    return f"{path(crates)}.made-of"


def is_kept(crates):
    try:
        with open(mark(crates), encoding="utf-8") as it:
            return os.path.isfile(path(crates)) and it.read() == sum_of(crates, NAME)
    except OSError:
        return False


def note(crates):
    with open(mark(crates), "w", encoding="utf-8") as it:
        it.write(sum_of(crates, NAME))


def make(crates):
    """Proves and builds it with the crates below, as many at once as there are processors, and goes on from what was built. Whether it is there, or there
    is no such crate."""
    if NAME not in crates.by_name or is_kept(crates):
        return True
    build = Build(crates, [NAME])
    tasks, told = build.tasks(), []

    def tell(_, running):
        text = f"proving {', '.join(running)}; about {minutes_left(tasks, build.begun)} minutes left"
        if text not in told[-1:]:
            say(text)
        told.append(text)

    lost = in_lanes(tasks, lambda: bool(build.failed), tell)
    for name in build.failed:
        say(f"{name} could not be proved and built: crates/{name}/out/build.log has all that rt said")
    if build.failed or lost or not os.path.isfile(path(crates)):
        return False
    note(crates)
    return True


def main():
    end_at_a_signal()
    crates = Crates(HERE)
    try:
        is_there = make(crates)
    except KeyboardInterrupt:
        return 130
    if is_there:
        print(path(crates))
    return 0 if is_there else 3


if __name__ == "__main__":
    sys.exit(main())
