#!/usr/bin/env python3
"""Tries what the gate reads of the toolchain's output (gate/said.py) on lines that were kept of two versions of it, in gate/kept/."""
import os
import sys

sys.dont_write_bytecode = True
import said
from checks import ends, expect
from crates import read

KEPT = f"{os.path.dirname(os.path.realpath(__file__))}/kept"


def of_two_edits():
    """A check of a crate with two wrong bodies, one of which calls the other: both are lost for their own sake, and all others are proved."""
    output = read(f"{KEPT}/13b_check.txt")
    lines = said.told(output)
    expect(said.is_verdict_on_proofs(output), "a check that fails isn't taken for a verdict")
    expect(len(lines) == 29, "not each function's line is read")
    lost = [function for function, it in lines if said.is_lost(function, it, output)]
    expect(lost == ["ulfm_record::fresh::new_record", "ulfm_record::fresh::new_records"], f"lost are {lost}")
    expect(said.losses(said.said_of("ulfm_record::fresh::new_records", lines), output), "a function that also calls one that is lost isn't lost itself")
    expect(said.is_proved("ulfm_record::held::place_of", lines), "a function with closures isn't proved")
    expect(said.is_proved("ulfm_record::HeldComm::new", lines), "a method isn't found by its type")
    expect(not said.said_of("ulfm_record::fresh::nothing", lines), "something is said of a function that isn't there")
    expect(not said.is_verdict_on_proofs(output.replace("logic=not-proved", "rattle: no verdict")), "a check without an end is taken for a verdict")
    unread = "src/fresh.rt:16:8: error: expected an expression\n"
    expect(not said.is_verdict_on_proofs(unread + output), "code that can't be read is taken for a verdict")
    unread = "src/fresh.rt:16:8: error[unknown-name]: cannot find type `Recrod` in this scope\n"
    expect(said.unread(unread + output) == ["cannot find type `Recrod` in this scope"], "code that can't be read isn't told")
    expect(not said.is_verdict_on_proofs(unread + output), "code that names nothing is taken for a verdict")
    expect(not said.unread(output), "code that is read is told as unread")


def of_callers():
    """A caller that is only blamed on what it calls, and one whose own proof file is refused beside."""
    for kit in ("13b", "13f"):
        output = read(f"{KEPT}/{kit}_callers.txt")
        told = {function.split("::")[-1]: (function, it) for function, it in said.told(output)}
        lost = {name for name, it in told.items() if said.is_lost(*it, output)}
        expect(lost == {"next", "turned_too"}, f"of callers under {kit} lost are {sorted(lost)}")


def of_names():
    """A proof file that names what the edit took away."""
    function, it = "c::m::f", "not proved"
    output = "proofs/m/f/Answers.antt:3:1: error: `returns`: `c.call` has no field `old`\nfn c::m::f: not proved\n"
    expect(said.BY_NAMES in said.loss(function, it, output), "what is refused by names alone isn't told")
    output += "proofs/m/f/Answers.antt:9:1: error: `returns`: the sides differ\n"
    expect(said.BY_NAMES not in said.loss(function, it, output), "what is refused by a goal is told as refused by names")


def of_the_gate():
    """What the toolchain's gate says of crates, of edits and of the whole."""
    expect(said.done("rt: ulfm_laws proved\n") == ("ulfm_laws", False), "a proved crate isn't read")
    expect(said.done("rt: ulfm_laws NOT PROVED\n") == ("ulfm_laws", False), "a crate that isn't proved isn't read")
    expect(said.done("rt: ulfm: its tests are proved\n") == ("ulfm", True), "proved tests aren't read")
    expect(said.done("rt: ok; handles allowed: Threads, Wait\n") is None, "another line is read")
    expect(said.counts("1 passed, 2 failed\nfurther\n31 passed, 0 failed\n") == (31, 0), "the last counts aren't read")
    expect(said.counts("31 passed, 0 failed, 1 skipped\n") is None, "other counts are read")
    edits = read(f"{KEPT}/13b_must_fail.txt")
    expect(said.of_edit("ulfm_devices", "reader.new.fails_at_none.edit", edits)[0], "a refused edit isn't read")
    expect(not said.of_edit("ulfm_devices", "reader.new.fails.edit", edits)[0], "an edit that isn't told of is refused")
    proved = "rt: must-fail c/e.edit: NOT REFUSED: the crate is still proved with this edit\n"
    expect(said.of_edit("c", "e.edit", proved) == (False, "NOT REFUSED: the crate is still proved with this edit"), "an edit that is proved is refused")


def main():
    for it in (of_two_edits, of_callers, of_names, of_the_gate):
        it()
    ends("said_test")


if __name__ == "__main__":
    main()
