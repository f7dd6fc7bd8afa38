"""MPICH's own tests of these calls (test/mpi/ft of 4.0.2), played by the sequential object, for observed_test: what a right MPI would log of them.

Each is played with as many processes as MPICH's list of tests has for it, and with twice as many. Who exits is declared by a call of `fail`. A
communicator that MPICH's test duplicates first is the world's own here, and a reduction is a barrier.
"""
from slow_judge import ALL, STARTS, State, digits


class Played:
    """The lines of a run that is played call by call, as random_logs.Run has them."""

    def __init__(self, ranks):
        self.state, self.lines = State(ranks, 3, 16), []

    def ask(self, rank, *words):
        """A call, whole."""
        words = tuple(map(str, words))
        words = (words[0], str(rank), *words[1:])
        caller = str(rank)
        self.lines.append(("call", caller, " ".join(words)))
        state = self.state.begin(caller, words).look(caller)
        state = state.act(caller) or state
        told = next(it for it in state.answers(caller) if it != "refused 15 twice")
        self.lines.append(("reply", caller, told))
        self.state = state.fix(caller, told).reply(caller)

    def helped(self):
        """Declared members are left out, and communicators made."""
        for mark in list(self.state.marks()):
            self.state = self.state.mark(*mark)
        for spawn in list(self.state.spawns()):
            self.state = self.state.spawn(*spawn)

    def all(self, ranks, verb, comm, *more):
        """A call of all these ranks; what is started is polled once all have started."""
        for rank in ranks:
            self.ask(rank, verb, comm, *(it(rank) for it in more))
        if verb in STARTS:
            self.helped()
            for rank in ranks:
                self.ask(rank, "poll", comm)

    def exits(self, rank):
        """A process exits: all but that one are left."""
        self.lines += [("call", "-", f"fail {rank}"), ("reply", "-", "declared")]
        self.state = self.state.fail(rank)
        return [r for r in range(self.state.ranks) if r not in self.state.failures]


def zero_of_first(rank):
    return digits(0 if rank == 0 else 1)


def agree(run):
    rest = run.exits(2)
    run.all(rest, "agree", 0, zero_of_first)
    run.all(rest, "ack", 0, lambda rank: 1024)
    run.all(rest, "agree", 0, zero_of_first)


def agree_shrink(run):
    rest = run.exits(2)
    run.all(rest, "agree", 0, lambda rank: digits(1))
    run.all(rest, "shrink", 0)
    run.all(rest, "agree", 1, lambda rank: digits(ALL >> rank))
    run.all(rest, "free", 1)


def shrink(run):
    rest = run.exits(2)
    run.all(rest, "shrink", 0)
    run.all(rest, "barrier", 1)
    run.all(rest, "free", 1)


def revoke_shrink(run):
    for _ in range(3):
        run.all(range(run.state.ranks), "barrier", 0)
    rest = run.exits(1)
    run.all(rest, "revoke", 0)
    run.all(rest, "shrink", 0)
    for _ in range(3):
        run.all(rest, "barrier", 1)
    run.all(rest, "free", 1)


def revoke_nofail(run):
    run.ask(1, "revoke", 0)
    run.all(range(run.state.ranks), "isrevoked", 0)
    run.all(range(run.state.ranks), "barrier", 0)


def failure_ack(run):
    run.exits(1)
    run.ask(0, "ack", 0, 1024)
    run.ask(0, "ack", 0, 0)
    run.exits(2)
    run.ask(0, "ack", 0, 0)
    run.ask(0, "get", 0)


def barrier(run):
    run.all(run.exits(1), "barrier", 0)


PLAYS = ((agree, 4), (agree_shrink, 4), (shrink, 8), (revoke_shrink, 4), (revoke_nofail, 2), (failure_ack, 3), (barrier, 4))


def cases():
    """The runs: each of MPICH's tests, with as many processes as in its list, and with twice as many."""
    for play, ranks in PLAYS:
        for times in (1, 2):
            run = Played(ranks * times)
            play(run)
            yield run


def each_changed(text):
    """A log with each reply changed in turn, to each other reply of the log."""
    lines = text.splitlines()
    replies = [at for at, line in enumerate(lines) if line.startswith("reply ")]
    told = sorted({lines[at].split(" ", 2)[2] for at in replies})
    for at in replies:
        head = lines[at].split(" ", 2)
        for other in told:
            if other != head[2]:
                yield "\n".join(lines[:at] + [" ".join(head[:2] + [other])] + lines[at + 1:]) + "\n"
