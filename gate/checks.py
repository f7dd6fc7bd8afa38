"""What the gate's tests share: checks that are counted, and checks of which only those that failed are told; and how a test ends."""
import sys

# how many checks that are counted held, and how many didn't
counts = {True: 0, False: 0}
# what is told at the end of the others
failures = []


def holds(what, found):
    """Counts one check, and names it where it fails."""
    counts[bool(found)] += 1
    if not found:
        print(f"failed: {what}")


def ends_counted():
    """Ends the test with its counts. One that checked nothing has failed, too."""
    print(f"{counts[True]} passed, {counts[False]} failed")
    sys.exit(int(counts[False] > 0 or counts[True] == 0))


def expect(found, what):
    """Notes what is wrong where a check fails."""
    if not found:
        failures.append(what)


def ends(name):
    """Ends the test of this name with what was wrong."""
    for it in failures:
        print(f"{name}: {it}")
    print(f"{name}: {'FAILED' if failures else 'ok'}")
    sys.exit(int(bool(failures)))
