#!/usr/bin/env python3
"""Tries which function an edit is said to turn (gate/turned.py), on a module that has a function of each kind."""
import os
import sys
import tempfile

sys.dont_write_bytecode = True
from checks import ends, failures
from turned import Edit, edited

MODULE = """//! Counts.
use std::vec::Vec;

const MOST: u8 = 7;

/// Counts up.
pub fn up(x: u8) -> u8
    ensures { result ≡ up_of x }
{
    let y = x + 1;
    y
}

#[unsafe(no_mangle)]
pub extern "C" fn c_down(x: u8) -> u8
    ensures { result ≡ down_of x }
{
    let less = x - 1;
    less
}

impl<T: Copy> Counter<T> {
    pub fn next(&mut self) -> u8
    where
        T: Copy,
    {
        self.count += 1;
        self.count
    }
}

impl<T: Copy> Meld for Counter<T> {
    fn meld(&self, other: &Self) -> Self {
        Counter { count: self.count + other.count }
    }
}

#[cycle(parity)]
// (one proof with odd)
fn even(x: u8) -> bool {
    x == 0 || odd(x - 1)
}
"""
# the pairs of texts of each edit, and the functions that it turns; None stands for code outside one, and nothing for no code
TURNED = {
    "body": ([("let y = x + 1", "let y = x + 2")], {"c::counts::up"}),
    "export": ([("let less = x - 1", "let less = x - 2")], {"c::counts::c_down"}),
    "method": ([("self.count += 1", "self.count += 2")], {"c::Counter::next"}),
    "method_of_a_trait": ([("self.count + other.count", "self.count")], {"c::CounterMeld::meld"}),
    "two_functions": ([("let y = x + 1", "let y = x"), ("self.count += 1", "self.count += 2")], {"c::counts::up", "c::Counter::next"}),
    "cycle": ([("x == 0 ||", "x == 1 ||")], {None}),
    "constant": ([("MOST: u8 = 7", "MOST: u8 = 8")], {None}),
    "contract": ([("up_of x", "down_of x")], set()),
    "spaces": ([("x + 1", "x  +  1")], set()),
    "use": ([("use std::vec::Vec;", "use std::vec::Vec; use std::mem;")], set()),
    "second_pair_of_the_first": ([("let y = x + 1", "let y = x + 3"), ("x + 3", "x + 4")], {"c::counts::up"}),
}
# what can't be applied, by a word of the reason
FAULTS = {
    "stands_twice": ("file: src/counts.rt\nold: self.count\nnew: 0\n", "3 times"),
    "stands_nowhere": ("file: src/counts.rt\nold: nothing\nnew: 0\n", "0 times"),
    "no_file": ("file: src/other.rt\nold: x\nnew: y\n", "no file src/other.rt"),
    "outside": ("file: ../crates.txt\nold: x\nnew: y\n", "no file ../crates.txt"),
    "no_pair": ("file: src/counts.rt\n", "no 'old:' and 'new:' pair"),
}


def main():
    with tempfile.TemporaryDirectory(prefix="turned-test-") as folder:
        os.makedirs(f"{folder}/src")
        with open(f"{folder}/src/counts.rt", "w", encoding="utf-8") as it:
            it.write(MODULE)
        for name, (pairs, wanted) in TURNED.items():
            text = "file: src/counts.rt\n" + "".join(f"old: {old}\nnew: {new}\n" for old, new in pairs)
            with open(f"{folder}/edit", "w", encoding="utf-8") as it:
                it.write(text)
            edit = Edit("c", folder, f"{folder}/edit")
            alone = next(iter(wanted)) if len(wanted) == 1 else None
            if edit.fault or edit.function != alone or edit.changes_code != bool(wanted):
                failures.append(f"{name} turns {edit.function}, and not {wanted}: {edit.fault}")
        for name, (text, reason) in FAULTS.items():
            made, fault = edited([text], folder)
            if made or reason not in fault:
                failures.append(f"{name} is no fault: {fault}")
        texts, fault = edited([f"file: src/counts.rt\nold: {pairs[0][0]}\nnew: {pairs[0][1]}\n" for pairs, _ in (TURNED["body"], TURNED["method"])], folder)
        if fault or texts != {"src/counts.rt": MODULE.replace("x + 1;", "x + 2;").replace("+= 1", "+= 2")}:
            failures.append(f"two edits don't make their texts together: {fault}")
    ends("turned_test")


if __name__ == "__main__":
    main()
