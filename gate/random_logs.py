"""Random runs of the sequential object, their logs in each form, and changed logs, for observed_test."""
from slow_judge import ALL, ENDING, State, digits, ends, refused

FLAGS = (0xF, 0x3C, 0xFF, 7, 0xFFFFFFFF, 0xF << 60 | 0xF, ALL)
OTHERS = ["get", "ack", "ack", "revoke", "isrevoked", "free", "poll"]
# what a run's ranks call: mostly agrees, mostly barriers, or mostly shrinks
VERBS = (["agree"] * 6 + ["shrink"] * 2 + ["barrier"] + OTHERS, ["barrier"] * 6 + ["agree"] + OTHERS, ["shrink"] * 6 + ["agree", "free"] + OTHERS)
TOLD = ("logged", "any", "stars", "blocking", "lost")


class Run:
    """A random run, and its lines: kind, caller and text. Calls may be open at the end, and a declared rank may stop in one."""

    def __init__(self, rng, ranks, comms, rounds, calls, deaths):
        self.rng, self.state, self.lines = rng, State(ranks, comms, rounds), []
        self.dead, self.deaths = set(), deaths
        self.verbs = rng.choice((VERBS[0],) + VERBS)
        for _ in range(calls * 12):
            self.step()
            if sum(verb == "call" for verb, *_ in self.lines) >= calls:
                break

    def asks(self, rank):
        """A call for a rank."""
        rng, held = self.rng, [c for (r, c) in self.state.held if r == rank] + [0]
        comm = rng.choice(held)
        request = self.state.held.get((rank, comm), (0, 0, 0, None))[3]
        if request and rng.random() < 0.85:
            return "poll", str(rank), str(comm)
        verb = rng.choice(self.verbs)
        if verb in ("revoke", "free") and rng.random() < 0.6:
            verb = "agree"
        more = {"agree": (digits(rng.choice(FLAGS)),), "ack": (str(rng.choice([0, 1, 1, 2, 9, 1024])),)}
        return (verb, str(rank), str(comm), *more.get(verb, ()))

    def helped(self):
        """Members are left out, and communicators made, by nobody's call."""
        for mark in list(self.state.marks()):
            if self.rng.random() < 0.5:
                self.state = self.state.mark(*mark)
        for spawn in list(self.state.spawns()):
            if self.rng.random() < 0.7 and len(self.state.made) < self.state.comms:
                self.state = self.state.spawn(*spawn)

    def step(self):
        rng = self.rng
        if rng.random() < 0.06 and self.deaths > 0:
            self.deaths -= 1
            self.declare(rng.randrange(self.state.ranks))
            return
        self.helped()
        state, rank = self.state, rng.randrange(self.state.ranks)
        if rank in self.dead:
            return
        if str(rank) in state.calls:
            self.go_on(rank)
        elif rank in state.failures and rng.random() < 0.2:
            self.dead.add(rank)
        else:
            words = self.asks(rank)
            self.lines.append(("call", str(rank), " ".join(words)))
            self.state = state.begin(str(rank), words)

    def go_on(self, rank):
        """The next step of a call: its look, its event or its reply."""
        state, rng, caller = self.state, self.rng, str(rank)
        words, look, own, _ = state.calls[caller]
        if look is None and rank not in state.refused:
            self.state = state.look(caller)
            return
        after = None if rank in state.refused else state.act(caller)
        answers = state.answers(caller)
        if after and (rng.random() < 0.97 or not answers):
            self.state = after
        elif answers:
            told = rng.choice(answers)
            self.lines.append(("reply", caller, told))
            self.state = state.fix(caller, told).reply(caller)
        elif rank not in state.failures[:look] and words[0] in ("get", "ack"):
            self.state = state.with_call(caller, words, len(state.failures), own, None)
        if rank in state.failures and rng.random() < 0.2:
            self.dead.add(rank)

    def declare(self, rank):
        """A call of `fail`, whole."""
        state = self.state
        told = "already-failed" if rank in state.failures else "declared"
        self.lines += [("call", "-", f"fail {rank}"), ("reply", "-", told)]
        if rank not in state.failures:
            self.state = state.fail(rank)


def star(text, values):
    """A reply as who doesn't know counts and context ids logs it; with `values`, or values either."""
    words = text.split()
    if words[0] in ("agreed", "shrunk"):
        words[3] = "*"
    if words[0] == "agreed" and values:
        words[1] = "*"
    return " ".join(words)


def blocking(lines):
    """Starts whose polls behind them end are told as one call; pending polls between are left out."""
    gone, by = set(), {}
    for at, (verb, caller, text) in enumerate(lines):
        by.setdefault(caller, []).append((at, verb, text))
    for caller, mine in by.items():
        for i, (at, verb, text) in enumerate(mine):
            if verb == "reply" and text == "started":
                poll, j, cut = f"poll {caller} {mine[i - 1][2].split()[2]}", i + 1, [at]
                while j + 1 < len(mine) and mine[j][2] == poll and mine[j + 1][2] == "pending":
                    cut += [mine[j][0], mine[j + 1][0]]
                    j += 2
                if j + 1 < len(mine) and mine[j][2] == poll and ends(mine[j + 1][2]):
                    gone.update(cut + [mine[j][0]])
    return [line for at, line in enumerate(lines) if at not in gone]


def without_an_end(lines, ranks, rng):
    """The lines without the last of one rank, and the line that says so."""
    rank = rng.randrange(ranks)
    own = [at for at, line in enumerate(lines) if line[1] == str(rank)]
    gone = set(own[rng.randint(0, len(own)):])
    return [line for at, line in enumerate(lines) if at not in gone] + [("lost", str(rank), "")]


def told_as(run, told, rng):
    """The lines of a run's log in a form."""
    lines = [line for line in run.lines if told == "logged" or line[1] != "-"]
    if told in ("stars", "blocking"):
        values = rng.random() < 0.2
        lines = [(verb, by, star(text, values) if verb == "reply" else text) for verb, by, text in lines]
    if told == "blocking" or (told == "lost" and rng.random() < 0.5):
        lines = blocking(lines)
    return without_an_end(lines, run.state.ranks, rng) if told == "lost" else lines


def text_of(line):
    verb, by, text = line
    return f"call {text}" if verb == "call" else f"reply {by} {text}" if verb == "reply" else f"lost {by}"


def forms(run, rng, forms_told=TOLD):
    """The texts of a run's log: failures logged; failures not told; counts and contexts not told either; blocking calls; a lost end. Each in both orders."""
    state = run.state
    for told in forms_told:
        lines = told_as(run, told, rng)
        for order in ("time", "ranks"):
            kept = lines if order == "time" else sorted(lines, key=lambda line: -1 if line[1] == "-" else int(line[1]))
            head = f"ulfm-observed 1 {state.ranks} {state.comms} {state.rounds} {order} {'logged' if told == 'logged' else 'any'}"
            yield "\n".join([head] + [text_of(line) for line in kept]) + "\n"


def another_reply(line, told, rng):
    """A reply in the place of another one: one of the log, one of these, or an agree's with a part changed."""
    text = rng.choice(told)
    if text.startswith("agreed") and rng.random() < 0.5:
        words, place = text.split(), rng.choice([1, 3, 4])
        words[place] = {1: digits(rng.choice([7, 0xC, 0xF, 4, 0xF << 60 | 0xC])), 3: str(rng.randrange(3)), 4: rng.choice(["raised", "clean"])}[place]
        text = " ".join(words)
    return " ".join(line.split()[:2] + [text])


def changed(text, rng):
    """A log with a change: mostly another reply, else a line less, two lines in the place of each other, or another flag of a call."""
    lines = text.splitlines()
    replies = [at for at, line in enumerate(lines) if line.startswith("reply ")]
    agrees = [at for at, line in enumerate(lines) if line.startswith("call agree ")]
    kind = rng.random()
    if kind < 0.1 and len(lines) > 2:
        del lines[rng.randrange(1, len(lines))]
    elif kind < 0.2 and len(lines) > 2:
        at = rng.randrange(1, len(lines) - 1)
        lines[at], lines[at + 1] = lines[at + 1], lines[at]
    elif kind < 0.25 and agrees:
        at = rng.choice(agrees)
        lines[at] = " ".join(lines[at].split()[:4] + [digits(rng.choice(FLAGS))])
    elif replies:
        told = [lines[at].split(" ", 2)[2] for at in replies]
        told += ["pending", "done", "failed none", "failed 1", "acked 1", "acked 0", "already-revoked", "yes", "started", "freed"]
        told += [refused(number) for number in (1, 2, 3, 5, 6, 12, 13, 15)] + sorted(ENDING)
        at = rng.choice(replies)
        lines[at] = another_reply(lines[at], told, rng)
    return "\n".join(lines) + "\n"


def small(rng):
    """A changed log that is small enough for the slow judge, mostly."""
    ranks, told = rng.choice([1, 2, 2, 2, 3]), rng.choice(TOLD)
    calls = [2, 3] if told == "lost" and ranks > 1 else [3, 4, 5] if ranks == 3 else [2, 3, 4, 5, 6]
    run = Run(rng, ranks, rng.choice([1, 2]), rng.choice([2, 3]), rng.choice(calls), rng.choice([0, 1, 1, 2]))
    return changed(rng.choice(list(forms(run, rng, (told,)))), rng)


def large(rng):
    """A run of up to 40 calls of up to 6 ranks."""
    return Run(rng, rng.choice([1, 2, 3, 3, 4, 6]), rng.choice([1, 2, 4]), rng.choice([2, 4, 8]), rng.choice([4, 8, 14, 40]), rng.choice([0, 1, 1, 2, 3]))
