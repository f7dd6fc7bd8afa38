"""What the toolchain prints: the one place in which the gate reads it. gate/said_test.py tries it on kept lines.

The lines are those that the toolchain's help names: `fn F: ..` of a check, its last line, what its gate says of a crate, an edit and the
whole. Where a line can't be read, less is known and nothing is taken for passed: an edit is then tried by the toolchain itself.
"""
import re

COUNTS = re.compile(r"^(\d+) passed, (\d+) failed$", re.M)
DONE = re.compile(r"^rt: (\w+)(: its tests are)? (?:NOT )?proved$", re.I | re.M)
FAILED = re.compile(r"^rt: FAILED: (.*)$", re.M)
TOLD = re.compile(r"^fn (\S+): (.*)$", re.M)
# What is said of a function that is not proved for its own sake, whatever else it calls: a text of a proof that is refused, an answer that is missing
# or that the search did not find. One that lacks nothing but the proof of what it calls is told as `no proof: it calls ..`.
LOST = re.compile(r"not proved$|no proof(?!: it (?:calls|waits for)\b)")
# A function whose proof file is refused while what it calls isn't proved either: it is lost for its own sake where an error stands in its own files
# that isn't only about a declaration which was refused elsewhere.
LOST_BESIDE = re.compile(r"not proved; it calls\b")
ELSEWHERE = re.compile(r"was not admitted|which was rejected")
# What is refused only because a proof file names what the edit took away says little of a contract.
BY_NAMES = "only because a proof file names what the edit took away, so this says little of the contract: change a value and keep the names"
NAMES = re.compile(rf"has no field|is not in scope|has no `|{ELSEWHERE.pattern}")
# A text of the code or of a definition that could not be read, or that means nothing.
UNREAD = re.compile(r"^(?:\./)?(?:src|specs)/\S+:\d+:\d+: error(?:\[[\w-]+\])?: (.*)$", re.M)
# An error in code that is no fault of reading: a statement that doesn't hold.
OF_PROOF = re.compile(r"`[^`]*`: (?!.*(?:is not in scope|has no field|is no name|operand is missing|expected the end|cannot continue))")


def counts(output):
    """How many passed and failed, by the last line that says so, or nothing."""
    found = COUNTS.findall(output)
    return (int(found[-1][0]), int(found[-1][1])) if found else None


def failed(output):
    """The names of what the toolchain's gate says failed."""
    found = FAILED.search(output)
    return found[1].split() if found else []


def done(line):
    """The crate that a line of the toolchain's gate says is done, and whether it was its tests, or nothing."""
    found = DONE.match(line)
    return (found[1], bool(found[2])) if found else None


def told(output):
    """What a check says of each function."""
    return TOLD.findall(output)


def said_of(function, lines):
    """What is said of a function and of the closures in it, each by its name, or nothing where none is told of, or two such functions are.
    A method is named by the module of its type, wherever the method stands."""
    crate, _, name = function.partition("::")
    named = [it for it, _ in lines if it.startswith(f"{crate}::") and it.endswith(f"::{name}")]
    return [(it, said) for it, said in lines if it == named[0] or it.startswith(f"{named[0]}::")] if len(named) == 1 else []


def is_proved(function, lines):
    said = said_of(function, lines)
    return bool(said) and all(it == "proved" for _, it in said)


def faults_in(function, output):
    """The errors in a function's own proof files."""
    return re.findall(rf"^(?:\./)?proofs/{'/'.join(function.split('::')[1:])}/\w+\.antt:\d+:\d+: error: (.*)$", output, re.M)


def is_lost(function, said, output):
    """Whether a function is not proved for its own sake, and not only since it calls one that isn't."""
    if LOST_BESIDE.match(said):
        return any(not ELSEWHERE.search(it) for it in faults_in(function, output))
    return bool(LOST.match(said))


def losses(lines, output):
    """Of each of these functions that is lost what to say of it."""
    return [loss(function, said, output) for function, said in lines if is_lost(function, said, output)]


def loss(function, said, output):
    faults = faults_in(function, output)
    by_names = "no proof" not in said and faults and all(NAMES.search(it) for it in faults)
    return f"fn {function}: {said}"[:200] + (f" ({BY_NAMES})" if by_names else "")


def unread(output):
    """Why texts of the code or of a definition couldn't be read, or nothing."""
    return [it for it in UNREAD.findall(output) if not OF_PROOF.match(it)]


def is_verdict_on_proofs(output):
    """Whether a check that failed read all of the crate's code, and says of its proofs that they fail."""
    return not unread(output) and bool(re.search(r"^logic=not-proved", output, re.M)) and bool(told(output))


def of_edit(crate, name, output):
    """What the toolchain says of an edit that it tried: whether it is refused, and its words."""
    found = re.search(rf"^(?:rt: )?must-fail {re.escape(f'{crate}/{name}')}: (.*)$", output, re.M)
    said = found[1] if found else "BAD EDIT: the toolchain says nothing of it"
    return said.startswith("refused"), said
