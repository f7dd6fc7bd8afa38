"""The repository's crates: what each stands on, and what its proof costs."""
import os
from dataclasses import dataclass

# what a crate costs that gate/costs.txt doesn't have, in seconds of one processor
UNKNOWN = 30


@dataclass(frozen=True)
class Crate:
    """A crate: its name, its line of crates.txt, the repository's crates that it names there, and its costs in seconds of one processor."""

    name: str
    line: str
    named: tuple
    proof: float
    tests: float
    only_run: bool


class Crates:
    """All crates of a repository, by name."""

    def __init__(self, root):
        # (the sums of what was read of each crate: another `Crates` reads anew)
        self.root, self.sums = root, {}
        lines = {}
        for line in read(f"{root}/crates.txt").splitlines():
            head, colon, _ = line.partition("#")[0].partition(":")
            if colon and head.split():
                lines[head.split()[0]] = line.partition("#")[0].rstrip()
        costs = read_costs(root)
        self.by_name = {}
        for name, line in lines.items():
            named = tuple(it for it in line.partition(":")[2].split() if it in lines)
            self.by_name[name] = Crate(name, line, named, *costs.get(name, (UNKNOWN, 0, False)))

    def folder(self, name):
        return f"{self.root}/crates/{name}"

    def is_program(self, name):
        return os.path.isfile(f"{self.folder(name)}/src/main.rt")

    def below(self, name):
        """The crates that this one stands on, lowest first."""
        found = {}
        for it in self.by_name[name].named:
            found.update(dict.fromkeys([*self.below(it), it]))
        return list(found)

    def lowest_first(self, names):
        """These crates and those below them, lowest first."""
        found = {}
        for name in names:
            found.update(dict.fromkeys([*self.below(name), name]))
        return sorted(found, key=lambda it: len(self.below(it)))

    def chains(self, names):
        """Of each of these crates the cost of the dearest chain that begins with its proof."""
        chains = {}
        for name in reversed(self.lowest_first(names)):
            above = [chains[it] for it in chains if name in self.by_name[it].named]
            chains[name] = self.by_name[name].proof + max(above, default=0)
        return chains


def read(file):
    with open(file, encoding="utf-8") as it:
        return it.read()


def read_costs(root):
    """The lines `NAME PROOF TESTS [run]` of gate/costs.txt: seconds of one processor, and whether the tests are run and not proved."""
    file, costs = f"{root}/gate/costs.txt", {}
    for line in read(file).splitlines() if os.path.isfile(file) else []:
        words = line.partition("#")[0].split()
        if words:
            costs[words[0]] = float(words[1]), float(words[2]), words[3:] == ["run"]
    return costs
