"""Logs of calls and replies of any length, for observed_bench: what ranks log that agree round after round, while some of them die.

In each phase ranks agree; then one dies, in an agree or before it, its flag counted or not. The others are told so, acknowledge it, agree without an error,
and shrink; the next phase is on the communicator that was made. All calls are in their blocking form.
"""
import random

ALL = 0xFFFFFFFF


class Log:
    """A log that grows: whose line it is, and the line."""

    def __init__(self, ranks, phases, counts):
        self.rng = random.Random(ranks * 1000 + phases)
        self.lines, self.members, self.phases, self.counts = [], list(range(ranks)), phases, counts
        self.comm, self.dead, self.acked = 0, 0, False

    def call(self, rank, words):
        self.lines.append((rank, f"call {words}"))

    def reply(self, rank, words):
        self.lines.append((rank, f"reply {rank} {words}"))

    def all(self, verb, more=""):
        """All members begin a call, in some order."""
        for rank in self.rng.sample(self.members, len(self.members)):
            self.call(rank, f"{verb} {rank} {self.comm}{more}")

    def told(self, words):
        """All members are told something, in some order."""
        for rank in self.rng.sample(self.members, len(self.members)):
            self.reply(rank, words)

    def agree(self, dying=None):
        """A round, in which a rank may contribute and die."""
        value = ALL
        for rank in self.rng.sample(self.members, len(self.members)):
            flag = ALL ^ 1 << self.rng.randrange(32)
            value &= flag
            self.call(rank, f"agree {rank} {self.comm} {flag:08x}")
        if dying is not None:
            flag = ALL ^ 1 << self.rng.randrange(32)
            self.call(dying, f"agree {dying} {self.comm} {flag:08x}")
            value &= flag if self.rng.random() < 0.5 else ALL
        count = self.dead if self.counts else "*"
        self.told(f"agreed {value:08x} failed {count} {'clean' if self.acked or not self.dead else 'raised'}")

    def dies(self):
        """A rank dies, and the others agree until no error is raised."""
        gone = self.members.pop(self.rng.randrange(len(self.members)))
        self.dead, self.acked = self.dead + 1, False
        self.agree(gone if self.rng.random() < 0.7 else None)
        self.all("ack", " 1024")
        self.told(f"acked {self.dead}")
        self.acked = True
        self.agree()

    def shrink(self):
        """The members shrink their communicator, and give it back, but for the world's."""
        self.all("shrink")
        made = self.comm + 1
        self.told(f"shrunk {made} context {'*' if not self.counts else 2 if self.comm and self.comm % 2 else 1} members {' '.join(map(str, self.members))}")
        if self.comm:
            self.all("free")
            self.told("freed")
        self.comm, self.dead, self.acked = made, 0, False


def bursts(lines, ranks, deaths):
    """A log in which several ranks die in one round, with open calls, are acknowledged by some ranks before others, and are never named or left out."""
    made = Log(ranks, deaths, False)
    while made.dead < deaths:
        gone = [made.members.pop(made.rng.randrange(len(made.members))) for _ in range(min(deaths - made.dead, made.rng.randint(1, 8)))]
        value = ALL
        for rank in made.rng.sample(made.members + gone, len(made.members) + len(gone)):
            flag = ALL ^ 1 << made.rng.randrange(32)
            value &= flag if rank in made.members or made.rng.random() < 0.5 else ALL
            made.call(rank, f"agree {rank} 0 {flag:08x}")
        made.told(f"agreed {value:08x} failed * raised")
        for rank in made.rng.sample(made.members, len(made.members) * 3 // 4):
            made.call(rank, f"ack {rank} 0 1024")
            made.reply(rank, f"acked {made.dead + made.rng.randint(1, len(gone))}")
        made.dead += len(gone)
        made.acked = False
        while len(made.lines) * deaths < lines * made.dead:
            made.agree()
    return made


def phased(lines, ranks, counts, shrinks, deaths):
    """A log of about so many lines, in as many phases as ranks die, and one more."""
    made = Log(ranks, deaths, counts)
    for phase in range(deaths + 1):
        made.agree()
        while len(made.lines) * (deaths + 1) < lines * (phase + 1) - len(made.members) * 10:
            made.agree()
        if phase < deaths:
            made.dies()
            if shrinks:
                made.shrink()
    return made


def header(made, ranks, order):
    comms = made.comm + 1
    rounds = max(2, min(4096, (4194304 - ranks - 2 * comms) // (2 * comms * ranks)))
    return f"ulfm-observed 1 {ranks} {comms} {rounds} {order} any"


def text(made, ranks, order):
    lines = made.lines if order == "time" else sorted(made.lines, key=lambda line: line[0])
    return "\n".join([header(made, ranks, order)] + [line for _, line in lines]) + "\n"


def wrong_count(log):
    """A log with one count of failures changed, in the middle."""
    lines = log.splitlines()
    told = [at for at, line in enumerate(lines) if " agreed " in line and " failed 0 " not in line]
    at = told[len(told) // 2]
    words = lines[at].split()
    words[5] = str(int(words[5]) + 1)
    lines[at] = " ".join(words)
    return "\n".join(lines) + "\n"


DEATHS = 5
KINDS = {
    "time": lambda lines, ranks: text(phased(lines, ranks, False, True, DEATHS), ranks, "time"),
    "ranks": lambda lines, ranks: text(phased(lines, ranks, False, True, DEATHS), ranks, "ranks"),
    "counts": lambda lines, ranks: text(phased(lines, ranks, True, True, DEATHS), ranks, "time"),
    "wrong": lambda lines, ranks: wrong_count(text(phased(lines, ranks, True, True, DEATHS), ranks, "time")),
    "bursts": lambda lines, ranks: text(bursts(lines, ranks, ranks * 30 // 64), ranks, "ranks"),
    "unnamed": lambda lines, ranks: text(phased(lines, ranks, True, False, ranks * 30 // 64), ranks, "ranks"),
}
