#!/usr/bin/env python3
"""Compares the example in the documentation of each public function with the test that runs it.

Of the crates below each public function has one block ``` in its documentation, and of the crates that stand below and beside them those
functions that users meet. The same text stands, between two empty lines, in the test of `ulfm_examples_tests` that is named by the
function's type, or by its file, and by the function: `member_poll` for `Member::poll`, `members_open` for `open` of members.rt. The last line
is 'N passed, M failed'.
"""

import glob
import os
import re
import sys

sys.dont_write_bytecode = True
from crates import read  # noqa: E402

HERE = os.path.dirname(os.path.dirname(os.path.abspath(__file__)))
CRATES = ("ulfm_comm", "ulfm_book", "ulfm_wait", "vukrasp", "ulfm_race")
# of these crates only the functions of these tests
SOME = {
    "ulfm_draw": {"drawing_draw"},
    "ulfm_laws": {"meld_all_meld_all"},
    "ulfm_lines": {"trace_line_read_begin", "trace_line_read_happening", "trace_line_read_look"},
    "ulfm_model": {"limits_check", "limits_size", "refusal_name", "refusal_refusal_number"},
    "ulfm_object": {"object_apply", "object_failed", "object_history", "object_members", "object_open", "object_records"},
    "ulfm_run": {"job_open", "job_pass", "job_rank", "job_apply", "running_run_calls", "running_run_steps"},
    "ulfm_script": {"calls_read_call"},
    "ulfm_trace": {"judged_check"},
    "ulfm_words": {"plain_pass_nth", "plain_words_open", "summaries_read_slot", "summaries_slot_words"},
}
PUBLIC = re.compile(r"^( *)pub fn (\w+)")
TEST = re.compile(r"^fn (\w+)\(rt: HostRuntime\).*?\{\n(.*?)^\}$", re.M | re.S)


def implemented(line):
    """The type of a line that begins an `impl` block, behind its parameters, in lower case with underscores."""
    depth = 0
    for at, letter in enumerate(line):
        depth += {"<": 1, ">": -1}.get(letter, 0)
        if letter in " >" and depth == 0:
            name = re.match(r"\w+", line[at + 1 :].strip())
            if name:
                return re.sub(r"(?<!^)(?=[A-Z])", "_", name[0]).lower()
    return ""


def documented(lines, at):
    """The documentation above line `at`, without its slashes."""
    above = []
    while at > 0 and re.match(r" *(///|#\[)", lines[at - 1]):
        at -= 1
        if "///" in lines[at]:
            above.insert(0, re.sub(r"^ */// ?", "", lines[at]))
    return above


def examples_in(crate):
    """Gives each public function's name as its test has it, its example, or None, and where it stands."""
    for file in sorted(glob.glob(f"{HERE}/crates/{crate}/src/**/*.rt", recursive=True)):
        lines, owner = read(file).split("\n"), ""
        for at, line in enumerate(lines):
            if line.startswith("impl"):
                owner = implemented(line)
            public = PUBLIC.match(line)
            if public:
                within = owner if public[1] else os.path.basename(file)[: -len(".rt")]
                blocks = "\n".join(documented(lines, at)).split("```\n")
                example = re.split(r"\n?```$", blocks[1])[0].rstrip("\n") if len(blocks) > 1 else None
                yield f"{within}_{public[2]}", example, f"{os.path.relpath(file, HERE)}:{at + 1}"


def tests():
    """Gives the text between empty lines of each test, by the test's name."""
    found = {}
    for file in glob.glob(f"{HERE}/crates/ulfm_examples_tests/src/tests/*.rt"):
        for name, body in TEST.findall(read(file)):
            lines = [re.sub(r"^ {4}", "", line) for line in body.split("\n")]
            found[name] = "\n".join(lines).split("\n\n")[1:-1]
    return found


def main():
    ran, passed, failed = tests(), 0, 0
    for crate in (*CRATES, *SOME):
        found = [it for it in examples_in(crate) if crate not in SOME or it[0] in SOME[crate]]
        for name in SOME.get(crate, set()) - {it[0] for it in found}:
            failed += 1
            print(f"{crate} has no public function of the test {name}")
        for name, example, place in found:
            if example is not None and ["\n\n".join(ran.get(name, []))] == [example]:
                passed += 1
                continue
            failed += 1
            print(f"{place}: {'no example' if example is None else f'the example is not that of the test {name}'}")
    print(f"{passed} passed, {failed} failed")
    return int(failed > 0 or passed == 0)


if __name__ == "__main__":
    sys.exit(main())
