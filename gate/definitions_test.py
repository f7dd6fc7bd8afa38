#!/usr/bin/env python3
"""Reads the definitions that contracts cite, and the must-fail edits, without a prover: it takes a few seconds.

A definition takes at most seven arguments, those of the modules around it counted, and those in curly brackets not. Its lines have at most 160 columns.
Each must-fail edit can be applied, and changes code.
"""
import glob
import os
import re
import sys

sys.dont_write_bytecode = True
from crates import Crates, read
from turned import edits_of, strays_of

ROOT = os.path.dirname(os.path.dirname(os.path.realpath(__file__)))
MOST = 7
COLUMNS = 160
MODULE = re.compile(r"^ *(?:pub )?module \S+(.*)$")
RECORD = re.compile(r"^ *(?:pub )?record (\w+)(.*)$")
EQUATION = re.compile(r"^ *(?:pub )?([A-Za-z_][\w-]*)((?: .*?)?) =(?: .*)?$")


def parts_of(text):
    """The arguments that stand side by side in a text: words, and what stands in brackets."""
    found, depth, at = [], 0, None
    for i, sign in enumerate(text + " "):
        if depth == 0 and at is None and not sign.isspace():
            at = i
        depth += (sign in "([{") - (sign in ")]}")
        if depth == 0 and at is not None and (sign.isspace() or sign in ")]}"):
            found.append(text[at : i + 1].strip())
            at = None
    return [it for it in found if it]


def bound_by(text):
    """How many variables a head binds, as `(a b : X) (c : Y)`, without those in curly brackets."""
    return sum(len(it[1:].split(":")[0].split()) for it in parts_of(text) if it.startswith("(") and ":" in it)


def heads_of(text):
    """Each line of a text that begins something, with its number, and with the lines that it goes on in where it is a head that ends in `where`."""
    lines = text.split("\n")
    for number, line in enumerate(lines):
        if not line.strip() or line.lstrip().startswith("--"):
            continue
        whole, rest = line, lines[number + 1 :]
        while (MODULE.match(line) or RECORD.match(line)) and "where" not in whole.split() and rest:
            whole += " " + rest.pop(0).strip()
        yield number + 1, line, whole


def counts_of(text):
    """The definitions of a text, each with the number of its line and of its arguments."""
    around = []
    for number, line, whole in heads_of(text):
        depth = len(line) - len(line.lstrip())
        around = [it for it in around if it[0] < depth]
        outer = sum(count for _, count in around)
        if found := MODULE.match(whole):
            around.append((depth, bound_by(found[1].removesuffix("where"))))
        elif found := RECORD.match(whole):
            yield found[1], number, outer + bound_by(found[2].rpartition(" : Type")[0])
        elif (found := EQUATION.match(line)) and not line.lstrip().startswith(("abbrev ", "use ", "pub use ")) and ":" not in parts_of(found[2]):
            yield found[1], number, outer + sum(not it.startswith("{") for it in parts_of(found[2]))


def faults_of(text):
    """What is wrong with the definitions of a file."""
    for name, number, count in counts_of(text):
        if count > MOST:
            yield f"line {number}: {name} takes {count} arguments"
    for number, line in enumerate(text.split("\n")):
        if len(line) > COLUMNS and not line.lstrip().startswith(("use ", "pub use ")):
            yield f"line {number + 1} has {len(line)} columns"


def of_itself():
    """What this reads of definitions that are written for it."""
    text = """
pub record Wide {P : Type 0} (meld : P → P → P) (a b c : ℕ)
    (d e : List (ℕ × ℕ)) (f : (n : ℕ) → ℕ) (g : ℕ) : Type 0 where
  pub one : a ≡ b
-- sentence = text
module _ {P : Type 0} (pack : P → ℕ) (x y : ℕ) where
  abbrev pub within : ℕ → Option ℕ → ℕ
  within a (Some n) = a + n
  within a None = x
abbrev pub least : ℕ → ℕ
least {P} a = a
"""
    counts = {name: count for name, _, count in counts_of(text)}
    if counts != {"Wide": 8, "within": 5, "least": 1}:
        yield f"arguments are counted as {counts}"
    if [it.split(":")[0] for it in faults_of(text + "x" * 161)] != ["line 2", f"line {text.count(chr(10)) + 1} has 161 columns"]:
        yield f"faults are {list(faults_of(text + 'x' * 161))}"


def all_faults():
    yield from of_itself()
    crates = Crates(ROOT)
    for name in crates.by_name:
        folder = crates.folder(name)
        for file in sorted(glob.glob(f"{folder}/specs/**/*.antt", recursive=True)):
            yield from (f"{os.path.relpath(file, ROOT)}: {it}" for it in faults_of(read(file)))
        yield from (f"{name}/must-fail/{it}: its name doesn't end in .edit" for it in strays_of(folder))
        for edit in edits_of(name, folder):
            if edit.fault or not edit.changes_code:
                yield f"{name}/must-fail/{edit.name}: {edit.fault or 'it changes no code'}"


def main():
    faults = list(all_faults())
    for it in faults:
        print(f"definitions_test: {it}")
    sys.exit(1 if faults else 0)


if __name__ == "__main__":
    main()
