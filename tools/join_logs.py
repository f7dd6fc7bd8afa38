#!/usr/bin/env python3
"""Joins the files that tools/ulfm_log.c wrote into one log of calls and replies (docs/TRACES.md).

    tools/join_logs.py [--order time|ranks] [--lost R].. NAME     NAME.0, NAME.1 and so on are the files; the log goes to standard output

Order `time` sorts the lines by their stamps, which is right where all processes ran on one host. Order `ranks` writes one rank's lines behind another's,
and says nothing of who was first; take it for several hosts. Failures are `any`: no file tells when a process was found failed.

Communicators get numbers in the order in which the first member had them, and the first call of revoke on a communicator is the one that revoked it. A file
that isn't there, or whose last line isn't whole, gives a line `lost R`, and so does --lost R, for a process whose host was lost. The world has one
communicator and two rounds more than were used. What can't be joined is told on standard error, with the file and the line, and the status is 1.
"""
import argparse
import os
import re
import sys

HEAD = re.compile(r"ulfm-process 1 (\d+) (\d+)$")
CALL = re.compile(r"call (\d+) (agree|shrink|ack|get|revoke|isrevoked|barrier|free) (\d+)(?: ([0-9a-f]{8}|\d+))?$")
REPLY = re.compile(r"reply (\d+) (agreed|shrunk|acked|failed|revoked|yes|no|done|proc-failed|is-revoked|freed|other)((?: \S+)*)$")
WORDS = {"proc-failed": "refused 11 proc-failed", "is-revoked": "refused 10 is-revoked"}
MOST_COMMS, MOST_ROUNDS, MOST_WORDS = 256, 4096, 4194304


class Bad(Exception):
    """What is wrong with a file: its name, the line and the reason."""


class Line:
    """A line of a process: when, whose, and what it says."""

    def __init__(self, rank, place, stamp, kind, words, comm=None):
        self.rank, self.place, self.stamp, self.kind, self.words, self.comm = rank, place, stamp, kind, words, comm

    def when(self):
        # a call before a reply of the same time, so that no call is made narrower than it was
        return self.stamp, self.kind == "reply", self.rank, self.place


def lines_of(name, rank):
    """The whole lines of a file, and whether its end was lost."""
    try:
        with open(name, encoding="ascii") as it:
            text = it.read()
    except FileNotFoundError:
        return [], True
    except UnicodeDecodeError:
        raise Bad(f"{name}: it isn't ASCII") from None
    lines = text.split("\n")
    cut = lines.pop()
    return lines, bool(cut)


def read_process(name, rank, ranks):
    """The lines of a process, and whether its end was lost."""
    texts, is_lost = lines_of(name, rank)
    if not texts:
        return [], True
    head = HEAD.match(texts[0])
    if not head or (int(head[1]), int(head[2])) != (rank, ranks):
        raise Bad(f"{name}:1: this isn't the file of rank {rank} of {ranks}")
    lines, open_call = [], None
    for place, text in enumerate(texts[1:], 2):
        call, reply = CALL.match(text), REPLY.match(text)
        where = f"{name}:{place}"
        if call and open_call is None:
            open_call = Line(rank, place, int(call[1]), "call", (call[2], call[4]), int(call[3]))
            lines.append(open_call)
        elif reply and open_call is not None:
            if reply[2] == "other":
                raise Bad(f"{where}: the error class{reply[3]} has no reply in this profile")
            lines.append(Line(rank, place, int(reply[1]), "reply", (reply[2], reply[3].split()), open_call.comm))
            open_call = None
        elif text != "end":
            raise Bad(f"{where}: this line may not stand here: {text}")
    return lines, is_lost


def ranks_of(name):
    """How many ranks there are, by the first file that is there."""
    folder, base = os.path.split(name)
    found = sorted(int(it[len(base) + 1:]) for it in os.listdir(folder or ".") if re.fullmatch(re.escape(base) + r"\.\d+", it))
    for rank in found:
        with open(f"{name}.{rank}", encoding="ascii", errors="replace") as it:
            head = HEAD.match(it.readline().rstrip("\n"))
        if head:
            return int(head[2])
    raise Bad(f"{name}: there is no file {name}.0 or another of a process")


class Join:
    """Numbers for the communicators, and who revoked them."""

    def __init__(self, lines):
        self.own = {}       # (rank, the number it has for a communicator): the log's number
        self.made = {}      # (parent, round): the log's number
        self.revoker = {}   # communicator: the call that revoked it
        self.rounds = 1
        counts = {}
        for line in sorted(lines, key=Line.when):
            comm = self.comm_of(line)
            if line.kind == "call":
                self.count(counts, line, comm)
                if line.words[0] == "revoke":
                    self.revoker.setdefault(comm, (line.rank, line.place))
            elif line.words[0] == "shrunk":
                round_made, number = int(line.words[1][0]), int(line.words[1][1])
                self.own[line.rank, number] = self.made.setdefault((comm, round_made), len(self.made) + 1)

    def comm_of(self, line):
        return 0 if line.comm == 0 else self.own[line.rank, line.comm]

    def count(self, counts, line, comm):
        kind = {"agree": "agreement", "shrink": "agreement", "barrier": "barrier"}.get(line.words[0])
        if kind:
            counts[kind, line.rank, comm] = counts.get((kind, line.rank, comm), 0) + 1
            self.rounds = max(self.rounds, counts[kind, line.rank, comm])

    def text_of(self, line):
        """A line as the log has it."""
        comm = self.comm_of(line)
        if line.kind == "call":
            verb, last = line.words
            self.under_way = line
            return f"call {verb} {line.rank} {comm}" + (f" {last}" if last else "")
        word, rest = line.words
        if word == "agreed":
            words = f"agreed {rest[0]} failed * {rest[1]}"
        elif word == "shrunk":
            words = f"shrunk {self.own[line.rank, int(rest[1])]} context * members {' '.join(rest[2:])}"
        elif word == "revoked":
            words = "revoked" if self.revoker[comm] == (line.rank, line.place - 1) else "already-revoked"
        else:
            words = " ".join([WORDS.get(word, word)] + rest)
        return f"reply {line.rank} {words}"


def joined(name, order, known_lost):
    """The lines of the log."""
    ranks = ranks_of(name)
    lines, lost = [], []
    if any(rank not in range(ranks) for rank in known_lost):
        raise Bad(f"{name}: there are only {ranks} ranks")
    for rank in range(ranks):
        own, is_lost = read_process(f"{name}.{rank}", rank, ranks)
        lines += own
        if is_lost or rank in known_lost:
            lost.append(rank)
    join = Join(lines)
    comms, rounds = len(join.made) + 2, join.rounds + 2
    if comms > MOST_COMMS or rounds > MOST_ROUNDS or ranks + 2 * comms + 2 * comms * rounds * ranks > MOST_WORDS:
        raise Bad(f"{name}: {comms} communicators of {rounds} rounds and {ranks} ranks are more than a log can have")
    lines.sort(key=Line.when if order == "time" else lambda line: (line.rank, line.place))
    yield f"ulfm-observed 1 {ranks} {comms} {rounds} {order} any"
    yield from (join.text_of(line) for line in lines)
    yield from (f"lost {rank}" for rank in lost)


def main():
    options = argparse.ArgumentParser(description="Joins the files that tools/ulfm_log.c wrote into one log.")
    options.add_argument("--order", choices=("time", "ranks"), default="time")
    options.add_argument("--lost", type=int, action="append", default=[], metavar="R", help="the end of rank R's file was lost; may be given again")
    options.add_argument("name", help="what $ULFM_LOG was")
    asked = options.parse_args()
    try:
        lines = list(joined(asked.name, asked.order, asked.lost))
    except (Bad, OSError) as reason:
        sys.exit(f"join_logs: {reason}")
    except KeyError as unknown:
        sys.exit(f"join_logs: {asked.name}: rank {unknown.args[0][0]} names a communicator that it never had")
    print("\n".join(lines))


if __name__ == "__main__":
    main()
