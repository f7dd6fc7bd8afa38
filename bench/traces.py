"""Legal traces of any length, for check_bench: ranks agree round after round on a communicator, and shrink it into the next one. Replies tell the
point at which they were so, and stand behind later events."""
SIZE = 4_194_304


class Trace:
    """A trace that grows, as lines of text."""

    def __init__(self, ranks, comms):
        self.rounds = min(4096, (SIZE - ranks - 2 * comms) // (2 * comms * ranks))
        self.lines = [f"ulfm-trace 1 {ranks} {comms} {self.rounds}"]
        self.members, self.failed, self.looked, self.events = list(range(ranks)), [], 0, 0
        self.comm, self.round, self.context, self.last = 0, 0, 0, comms - 1

    def event(self, text):
        self.lines.append("event " + text)
        self.events += 1

    def fail(self):
        """A member is declared, and calls nothing from then on."""
        rank = self.members.pop()
        self.lines.append(f"call fail {rank}")
        self.event(f"- fail {rank}")
        self.lines.append(f"reply - {self.events} declared")
        self.failed.append(rank)
        self.looked += 1

    def ask(self, call, ranks):
        """Ranks begin a call, one after another, and look, one after another."""
        words = call.split(" ", 1)
        self.lines += [f"call {words[0]} {rank} {words[1]}" for rank in ranks]
        self.lines += [f"look {rank} {self.looked}" for rank in ranks]

    def settle(self, rank, offer):
        """A rank's contribution: its point."""
        self.event(f"{rank} settle {self.comm} {self.round} {rank} {offer} known {len(self.failed)} acked 0")
        return self.events

    def start(self, call, offer):
        """All members start a round, each behind the events of all."""
        self.ask(call, self.members)
        points = [self.settle(rank, offer) for rank in self.members]
        self.lines += [f"reply {rank} {point} started" for rank, point in zip(self.members, points)]

    def poll(self, reply, spawns=""):
        """All members poll the round, and the first marks who was declared, and makes what there is to make."""
        self.ask(f"poll {self.comm}", self.members)
        for number, rank in enumerate(self.failed):
            self.event(f"{self.members[0]} mark {self.comm} {self.round} {rank} known {number + 1}")
        if spawns:
            self.event(f"{self.members[0]} {spawns}")
        self.lines += [f"reply {rank} {self.events} {reply}" for rank in self.members]
        self.round += 1

    def agree(self):
        self.start(f"agree {self.comm} ffffff0f", "flag ffffff0f")
        self.poll(f"agreed ffffff0f failed {len(self.failed)} {'raised' if self.failed else 'clean'}")

    def agree_late(self):
        """The same, where all that have contributed poll before each further contribution, and are told that they wait behind it."""
        for count, rank in enumerate(self.members):
            self.ask(f"poll {self.comm}", self.members[:count])
            self.ask(f"agree {self.comm} ffffff0f", [rank])
            before = self.events
            after = self.settle(rank, "flag ffffff0f")
            self.lines += [f"reply {other} {before} pending" for other in self.members[:count]]
            self.lines.append(f"reply {rank} {after} started")
        self.poll(f"agreed ffffff0f failed {len(self.failed)} {'raised' if self.failed else 'clean'}")

    def shrink(self):
        """All members shrink the communicator into the next, and give it back, but for the world's."""
        context = 2 if self.context == 1 else 1
        held = 1 | 1 << self.context
        self.start(f"shrink {self.comm}", f"ctx {(1 << 64) - 1 ^ held:016x}")
        made = self.comm + 1
        self.poll(f"shrunk {made} context {context} members {' '.join(map(str, self.members))}", f"spawn {made} {self.comm} {self.round}")
        if self.comm:
            self.ask(f"free {self.comm}", self.members)
            self.lines += [f"reply {rank} {self.events} freed" for rank in self.members]
        self.comm, self.round, self.context, self.failed = made, 0, context, []


def comms_for(ranks, wanted):
    """As many communicators as there may be, up to so many, with some rounds each."""
    while wanted > 1 and (SIZE - ranks - 2 * wanted) // (2 * wanted * ranks) < 64:
        wanted //= 2
    return wanted


def shrinks(lines, ranks):
    """Ranks agree a few times on each of many communicators, and shrink it; up to an eighth of them is declared, one on each communicator."""
    made = Trace(ranks, comms_for(ranks, 256))
    while len(made.lines) < lines:
        due = len(made.lines) * (made.last + 1) > lines * (made.comm + 1)
        if made.comm < made.last and (due or made.round >= made.rounds - 2):
            made.shrink()
            if len(made.members) > ranks - ranks // 8:
                made.fail()
        else:
            made.agree()
    return made.lines[:lines]


def pending(lines, ranks):
    """Ranks agree, and poll while others are missing: at 64 ranks or more nearly all replies say that they wait, and tell a point in the past."""
    made = Trace(ranks, comms_for(ranks, 128))
    while len(made.lines) < lines:
        if made.round == made.rounds - 1:
            made.shrink()
        else:
            made.agree_late()
    return made.lines[:lines]


KINDS = {"shrinks": shrinks, "pending": pending}
