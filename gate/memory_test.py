#!/usr/bin/env python3
"""Holds the built program to its memory: a line of a gigabyte, an output of a hundred megabytes, and runs whose memory is refused.

A line of 1,000,000,000 letters, in a script of calls, a script of steps and a trace, is found too long within 32 MB in all, with nothing printed but
what the lines before print. A script whose replies list a thousand failed ranks again and again prints more than 32 MB several times over, within 32 MB
in all: what it prints isn't kept. And each allocation of a run is refused in turn, by a `malloc` of this test that is loaded before the C library's:
that one alone, and with all behind it; of scripts, a trace, pictures and a race of threads. Each such run ends within a minute, tells that it is out of memory and
has printed a beginning of its output, of a verdict, a picture or a race nothing; or, where one alone was refused, it had asked for less and prints all. The last
run is one in which none is refused.

    gate/memory_test.py [PROGRAM]      the last line is 'N passed, M failed'
"""
import os
import resource
import subprocess
import sys
import tempfile

HERE = os.path.dirname(os.path.dirname(os.path.abspath(__file__)))
PROGRAM = sys.argv[1] if sys.argv[1:] else os.path.join(HERE, "crates/ulfm/out/ulfm")
LETTERS = 1_000_000_000
MOST = 32 << 20
LONG = (
    ("run", ["run"], b"ulfm 1 3 1 4\n", b"", b"ulfm: line 2: long\n", 1),
    ("run --steps", ["run", "--steps"], b"ulfm-steps 1 3 1 4\n", b"ulfm-trace 1 3 1 4\n", b"ulfm: line 2: long\n", 1),
    ("check", ["check"], b"ulfm-trace 1 3 1 4\n", b"illegal line 2 text\n", b"", 1),
)
LISTED = 1000
LISTS = 30_000
RACE = b"round 0 agreed fffffff8 failed 0 clean\nround 1 agreed fffffff1 failed 0 clean\nshrunk 1 context 1 members 0 1 2\n"
# words of a run, the file that it reads and the one that has its output, and its status
REFUSED = (
    *(
        (["run"], f"examples/{name}.ulfm", f"examples/{name}.out", 0)
        for name in ("one_rank", "shrinks_keep_order", "acknowledgements_count", "refusals_in_order")
    ),
    (["run", "--steps"], "examples/contribution_in_flight.steps", "examples/contribution_in_flight.out", 0),
    (["check"], "examples/trace_judged_a.trace", "examples/trace_judged_a.out", 0),
    *(
        (words, f"docs/pictures/{name}.trace", f"docs/pictures/{name}.{end}", status)
        for name, status in (("recovery_of_three", 0), ("late_arrival", 0), ("illegal_reply", 1))
        for words, end in ((["draw"], "svg"), (["draw", "--text"], "txt"))
    ),
    (["race", "--ranks", "3", "--rounds", "2"], None, None, 0),
)
REFUSING = r"""
#include <errno.h>
#include <stdatomic.h>
#include <stdlib.h>
#include <unistd.h>
extern void *__libc_malloc(size_t), *__libc_calloc(size_t, size_t), *__libc_realloc(void *, size_t), *__libc_memalign(size_t, size_t);
static atomic_long asked;
static long from, to;
static int tell;
__attribute__((constructor)) static void begin(void) {
    from = atol(getenv("REFUSE_FROM")), to = atol(getenv("REFUSE_TO")), tell = atoi(getenv("REFUSE_TELL"));
    atomic_store(&asked, 0);
}
static int refused(void) {
    long number = atomic_fetch_add(&asked, 1) + 1;
    if (from && number == from) (void)!write(tell, "!", 1);
    if (!from || number < from || number > to) return 0;
    errno = ENOMEM;
    return 1;
}
void *malloc(size_t size) { return refused() ? NULL : __libc_malloc(size); }
void *calloc(size_t count, size_t size) { return refused() ? NULL : __libc_calloc(count, size); }
void *realloc(void *block, size_t size) { return refused() ? NULL : __libc_realloc(block, size); }
void *aligned_alloc(size_t align, size_t size) { return refused() ? NULL : __libc_memalign(align, size); }
int posix_memalign(void **block, size_t align, size_t size) { return (*block = refused() ? NULL : __libc_memalign(align, size)) ? 0 : 12; }
"""


def fed(process, header):
    """Writes the header and the long line, as long as the program takes it."""
    piece = b"x" * (1 << 20)
    try:
        process.stdin.write(header)
        for _ in range(LETTERS // len(piece)):
            process.stdin.write(piece)
        process.stdin.write(b"x" * (LETTERS % len(piece)) + b"\n")
        process.stdin.close()
    except BrokenPipeError:
        return False
    return True


def long_line(words, header, output, errors, status):
    """What is wrong with a run on a long line, or None."""
    with tempfile.TemporaryFile() as out, tempfile.TemporaryFile() as err:
        limit = lambda: resource.setrlimit(resource.RLIMIT_DATA, (MOST, MOST))
        process = subprocess.Popen([PROGRAM, *words], stdin=subprocess.PIPE, stdout=out, stderr=err, preexec_fn=limit)
        is_read = fed(process, header)
        _, ended, used = os.wait4(process.pid, 0)
        process.returncode = os.waitstatus_to_exitcode(ended)
        out.seek(0), err.seek(0)
        said = (out.read(), err.read(), process.returncode)
    if said != (output, errors, status):
        return f"ends as {said}"
    if used.ru_maxrss * 1024 > MOST:
        return f"held {used.ru_maxrss} KB"
    return None if is_read else "didn't read its line"


def long_output():
    """What is wrong with a run that prints much, or None."""
    script = f"ulfm 1 {LISTED + 1} 1 1\n" + "".join(f"fail {rank}\n" for rank in range(LISTED)) + f"get {LISTED} 0\n" * LISTS
    lines = [(b"declared\n", LISTED), (f"failed {' '.join(str(rank) for rank in range(LISTED))}\n".encode(), LISTS)]
    with tempfile.TemporaryFile() as text, tempfile.TemporaryFile() as err:
        text.write(script.encode()), text.seek(0)
        limit = lambda: resource.setrlimit(resource.RLIMIT_DATA, (MOST, MOST))
        process = subprocess.Popen([PROGRAM, "run"], stdin=text, stdout=subprocess.PIPE, stderr=err, preexec_fn=limit)
        is_same = all(process.stdout.read(len(line)) == line for line, count in lines for _ in range(count)) and process.stdout.read() == b""
        process.stdout.close()
        _, ended, used = os.wait4(process.pid, 0)
        process.returncode = os.waitstatus_to_exitcode(ended)
        err.seek(0)
        said = (err.read(), process.returncode)
    if said != (b"", 0):
        return f"ends as {said}"
    if used.ru_maxrss * 1024 > MOST:
        return f"held {used.ru_maxrss} KB"
    return None if is_same else "prints something else"


def ran(library, words, text, first, last):
    """A run in which these allocations are refused: how it ended, and whether the first of them was asked for."""
    told, tell = os.pipe()
    environment = {"LD_PRELOAD": library, "REFUSE_FROM": str(first), "REFUSE_TO": str(last), "REFUSE_TELL": str(tell)}
    try:
        done = subprocess.run([PROGRAM, *words], env=environment, pass_fds=[tell], input=text, capture_output=True, timeout=60)
    finally:
        os.close(tell)
        was_asked = os.read(told, 1) != b""
        os.close(told)
    return (done.stdout, done.stderr, done.returncode), was_asked


def is_refused(said, words, output):
    """Whether memory is told, and a beginning of the output was written, of a verdict, a picture or a race nothing."""
    return said[1:] == (b"ulfm: out of memory\n", 3) and output.startswith(said[0]) and not (said[0] and words[0] in ("check", "draw", "race"))


def refused(library, words, read, printed, status):
    """What is wrong with runs whose memory is refused, or None."""
    text, output = b"", RACE
    if read:
        with open(os.path.join(HERE, read), "rb") as it, open(os.path.join(HERE, printed), "rb") as of:
            text, output = it.read(), of.read()
    whole = (output, b"", status)
    for number in range(1, 10000):
        # this one alone, and it with all behind it; how many a race asks for hangs on its schedule, so each run tells for itself
        runs = [(what, *ran(library, words, text, number, last)) for what, last in (("", number), (" and all behind it", 1 << 60))]
        for what, said, was_asked in runs:
            is_right = said == whole and not (what and was_asked) or was_asked and is_refused(said, words, output)
            if not is_right:
                return f"ends with allocation {number}{what} {'refused' if was_asked else 'not asked for'} as {said}"
        if not any(was_asked for _, _, was_asked in runs):
            return None if number > 1 else "asks for no memory"
    return "is refused memory each time"


def refusing_library(folder):
    """The library that refuses, made by the C compiler that there is."""
    source, library = os.path.join(folder, "refusing.c"), os.path.join(folder, "refusing.so")
    with open(source, "w", encoding="utf-8") as it:
        it.write(REFUSING)
    subprocess.run([os.environ.get("CC", "cc"), "-shared", "-fPIC", "-O1", "-o", library, source], check=True)
    return library


def main():
    faults = {f"a long line in {name}": long_line(*row) for name, *row in LONG}
    faults["a long output"] = long_output()
    with tempfile.TemporaryDirectory() as folder:
        library = refusing_library(folder)
        for words, read, printed, status in REFUSED:
            faults[f"memory refused to {' '.join(words)} of {read or 'nothing'}"] = refused(library, words, read, printed, status)
    for name, fault in faults.items():
        if fault:
            print(f"{name}: {fault}")
    failed = sum(fault is not None for fault in faults.values())
    print(f"{len(faults) - failed} passed, {failed} failed")
    return int(failed > 0)


if __name__ == "__main__":
    raise SystemExit(main())
