"""A brute force over the schedules of a small program of ranks, for the tests: a second engine, written from docs/PROTOCOL.md and docs/WORDS.md.

A call is a generator that yields its atomic steps, loads and exchanges of words, one by one. A state is the words, and of each rank what it had when
its call began and what the steps of the call gave; the generator is run again from there. So nothing is left out, and nothing is taken as equal but
what is the same.
"""

REFUSALS = {1: "self-failed", 2: "no-such-comm", 3: "busy", 4: "shrink-open", 5: "rounds-used-up", 6: "idle", 7: "mismatch", 8: "no-context", 9: "no-room",
            10: "is-revoked", 11: "proc-failed", 12: "world-kept", 15: "twice"}


class TooMany(Exception):
    """There are more states than wanted."""


def flag_text(value):
    """A flag as it is printed: sixteen digits where its upper half isn't 0."""
    return f"{value:08x}" if value < 1 << 32 else f"{value:016x}"


def refused(number):
    return f"refused {number} {REFUSALS[number]}"


class Rank:
    """What a rank has between its calls."""

    def __init__(self, number):
        self.number, self.at, self.seen, self.current, self.last, self.notes, self.fate = number, 0, (), 0, None, (), "stuck"
        self.held = {0: fresh(0)}

    def copy(self):
        other = Rank(self.number)
        other.__dict__.update(self.__dict__)
        other.held = {comm: dict(held) for comm, held in self.held.items()}
        return other

    def key(self):
        if self.fate != "stuck":
            return (self.fate, self.notes)
        held = tuple(sorted((comm, tuple(sorted(held.items(), key=str))) for comm, held in self.held.items()))
        return (self.at, self.seen, self.current, self.last, self.notes, held)


def fresh(context):
    return {"acked": 0, "agrees": 0, "barriers": 0, "open": None, "round": 0, "context": context}


def members_of(words, ranks, comm):
    """The members of a communicator, as the words say."""
    if comm == 0:
        return tuple(range(ranks))
    parent, round_ = words[("comm", comm)]
    group = members_of(words, ranks, parent)
    count = max(words[("slot", parent, round_, rank)][1] for rank in group)
    failed = [words[("fail", i)] for i in range(ranks) if ("fail", i) in words]
    gone = [rank for rank in failed if rank in group][:count]
    return tuple(rank for rank in group if rank not in gone)


def decided(words, group, comm, round_):
    """What a round's words say together: the kind, the value, the failures known and acknowledged."""
    placed = [words[("slot", comm, round_, rank)] for rank in group]
    given = [word for word in placed if word[0] != "mark"]
    kinds = {word[0] for word in given}
    value = None
    for word in given:
        value = word[3] if value is None else value & word[3]
    return (kinds.pop() if len(kinds) == 1 else "clash", value, max(word[1] for word in placed), min(word[2] for word in given))


def look(me, ranks):
    """Loads of the list of failures up to its end."""
    while len(me.seen) < ranks:
        found = yield ("load", ("fail", len(me.seen)))
        if found is None:
            return
        me.seen += (found,)


def blocks(group):
    """The members of each block of a round."""
    size = 1
    while size * 2 <= len(group):
        size *= 2
    return [group] if size == len(group) else [group[:size], group[-size:]]


def call(world, words, me, verb, comm, value):
    """The steps of a call, and its reply; the rank is changed as the call leaves it. `words` is read where a word is known to be set for good."""
    ranks, comms, rounds = world
    yield from look(me, ranks)
    if me.number in me.seen:
        return refused(1)
    held = me.held.get(comm)
    if held is None:
        return refused(2)
    group = members_of(words, ranks, comm)
    failed = [rank for rank in me.seen if rank in group]
    if verb == "get":
        return "failed " + (" ".join(map(str, failed)) or "none")
    if verb == "ack":
        held["acked"] = max(held["acked"], min(int(value), len(failed)))
        return f"acked {held['acked']}"
    if verb == "revoke":
        before = yield ("set", ("revoked", comm), True)
        return "already-revoked" if before else "revoked"
    if verb == "isrevoked":
        found = yield ("load", ("revoked", comm))
        return "yes" if found else "no"
    if verb == "free":
        if comm == 0:
            return refused(12)
        if held["open"]:
            return refused(3)
        del me.held[comm]
        return "freed"
    if verb in ("agree", "shrink"):
        return (yield from contribute(rounds, me, verb, comm, value, failed))
    if verb == "barrier":
        if held["open"]:
            return refused(3)
        if held["barriers"] >= rounds:
            return refused(5)
        held["open"], held["round"] = "barrier", held["barriers"]
        held["barriers"] += 1
        yield ("set", ("arrived", comm, held["round"], me.number), True)
        return "started"
    if not held["open"]:
        return refused(6)
    if held["open"] == "barrier":
        return (yield from end_barrier(me, comm, group, failed))
    return (yield from end_round(world, words, me, comm, group, failed))


def contribute(rounds, me, verb, comm, value, failed):
    """An agree or a shrink sets the wing of its rank's place, and settles the place."""
    held = me.held[comm]
    if held["open"]:
        return refused(3)
    if verb == "shrink" and any(other["open"] == "shrink" for other in me.held.values()):
        return refused(4)
    if held["agrees"] + (verb == "agree") >= rounds:
        return refused(5)
    if verb == "agree":
        word = ("flag", len(failed), held["acked"], int(value, 16))
    else:
        free = 0xFFFFFFFFFFFFFFFF
        for other in me.held.values():
            free &= ~(1 << other["context"])
        word = ("ctx", len(failed), held["acked"], free)
    place = ("slot", comm, held["agrees"], me.number)
    stood = yield ("set", ("wing",) + place, word[3])
    if stood is not None:
        return refused(15)
    before = yield ("set", place, word)
    if before:
        return refused(1 if before[0] == "mark" else 15)
    held["open"], held["round"] = verb, held["agrees"]
    held["agrees"] += 1
    return "started"


def end_barrier(me, comm, group, failed):
    """A poll of a barrier: those that are known to have failed first."""
    held = me.held[comm]
    reply = "done"
    for rank in failed + [rank for rank in group if rank not in failed]:
        here = yield ("load", ("arrived", comm, held["round"], rank))
        if not here:
            reply = refused(11) if rank in failed else "pending"
            break
    revoked = yield ("load", ("revoked", comm))
    if revoked:
        reply = refused(10)
    if reply != "pending":
        held["open"] = None
    return reply


def end_round(world, words, me, comm, group, failed):
    """A poll of an agree or a shrink."""
    ranks, comms, _ = world
    held = me.held[comm]
    round_ = held["round"]
    known = []
    for number in range(len(blocks(group))):
        place = ("block", comm, round_, number)
        known.append((yield ("load", place)))
        if known[number]:
            yield ("load", ("wing",) + place)
    if not all(known):
        for count, rank in enumerate(failed, 1):
            yield ("set", ("slot", comm, round_, rank), ("mark", count, 0, 0))
        for number, block in enumerate(blocks(group)):
            if known[number]:
                continue
            for rank in block:
                word = yield ("load", ("slot", comm, round_, rank))
                if word is None:
                    return "pending"
                if word[0] != "mark":
                    yield ("load", ("wing", "slot", comm, round_, rank))
            yield ("set", ("wing", "block", comm, round_, number), True)
            yield ("set", ("block", comm, round_, number), True)
    kind, value, count, acked = decided(words, group, comm, round_)
    shrinks = held["open"] == "shrink"
    if kind == "clash":
        held["open"] = None
        return refused(7)
    if not shrinks:
        held["open"] = None
        return f"agreed {flag_text(value)} failed {count} {'raised' if acked < count else 'clean'}"
    if value == 0:
        held["open"] = None
        return refused(8)
    while len([rank for rank in me.seen if rank in group]) < count:
        found = yield ("load", ("fail", len(me.seen)))
        me.seen += (found,)
    if me.number in [rank for rank in me.seen if rank in group]:
        return refused(1)
    for made in range(1, comms):
        found = yield ("load", ("comm", made))
        if found is None:
            before = yield ("set", ("comm", made), (comm, round_))
            found = before or (comm, round_)
        if found == (comm, round_):
            context = (value & -value).bit_length() - 1
            held["open"] = None
            me.held[made] = fresh(context)
            me.current = made
            return f"shrunk {made} context {context} members " + " ".join(map(str, members_of(words, ranks, made)))
    held["open"] = None
    return refused(9)


def matches(text, pattern):
    """Whether words stand together in a text."""
    text = text.split(" ")
    return any(all(p in ("_", t) for p, t in zip(pattern, text[at:])) for at in range(len(text) - len(pattern) + 1))


def read(text):
    """A program: its world, its ranks' lines, and who may be declared."""
    lines = [line.split("#")[0].split() for line in text.splitlines()]
    world = tuple(map(int, lines[0][2:5]))
    may, most, section, source = {}, world[0], [], {rank: [] for rank in range(world[0])}
    for line in filter(None, lines[1:]):
        if line[0] == "may":
            may.update((int(rank), line[1]) for rank in line[2:])
        elif line[0] == "most":
            most = int(line[1])
        elif line[0] == "rank":
            section = range(world[0]) if line[1] == "all" else list(map(int, line[1:]))
        elif line[0] not in ("alike", "ended", "find"):
            for rank in section:
                source[rank].append(line)
    ops = {}
    for rank, found in source.items():
        labels, plain = {}, []
        for line in found:
            if line[0] == "at":
                labels[line[1]] = len(plain)
            else:
                plain.append(line)
        ops[rank] = [[labels[word] if line[0] in ("go", "if") and at == len(line) - 1 else word for at, word in enumerate(line)] for line in plain]
    return world, ops, may, most


def go_on(ops, me):
    """The rank's program goes on to its next call, or to its end."""
    for _ in range(len(ops) + 1):
        if me.at >= len(ops) or ops[me.at][0] == "end":
            me.fate = "ended"
            return
        line = ops[me.at]
        if line[0] == "go":
            me.at = line[1]
        elif line[0] == "if":
            me.at = line[-1] if me.last is not None and matches(me.last, line[1:-2]) else me.at + 1
        elif line[0] == "say":
            me.notes += (" ".join(line),)
            me.at += 1
        else:
            return


class Explorer:
    """All states of a program, and its outcomes."""

    def __init__(self, text, most_states):
        self.world, self.ops, self.may, self.most = read(text)
        self.most_states = most_states
        self.outcomes = set()

    def op(self, me):
        """The call that a rank stands before: whether it is quiet, and its words."""
        ops = self.ops[me.number]
        if me.fate != "stuck" or me.at >= len(ops) or ops[me.at][0] in ("go", "if", "say", "end"):
            return None
        line = ops[me.at]
        return (True, line[1:]) if line[0] == "quiet" else (False, line)

    def machine(self, words, me, line):
        comm = me.current if line[1] == "cur" else int(line[1])
        verb = "poll" if line[0] == "wait" else line[0]
        return call(self.world, words, me, verb, comm, line[2] if len(line) > 2 else None)

    def declared(self, words):
        return [words[("fail", i)] for i in range(self.world[0]) if ("fail", i) in words]

    def answer(self, me, quiet, line, reply):
        """The rank is answered."""
        if line[0] == "wait" and reply == "pending":
            return
        me.at += 1
        if reply != "started":
            me.last = reply
            if not quiet:
                me.notes += (reply,)
            if reply == refused(1):
                me.fate = "out"
                return
        go_on(self.ops[me.number], me)

    def declare(self, words, ranks, whom):
        words = dict(words)
        words[("fail", len(self.declared(words)))] = whom
        ranks = list(ranks)
        if self.may.get(whom) == "die" and ranks[whom][0].fate == "stuck":
            dead = ranks[whom][0].copy()
            dead.fate = "died"
            ranks[whom] = (dead, ())
        return words, ranks

    def standing(self, ranks, number):
        """Where a rank stands, what it was given since its call began, and its next call; none where it has none to make."""
        me, given = ranks[number]
        return me, given, self.op(me)

    def step(self, words, ranks, number):
        """One atomic step of a rank; none where it has none to make."""
        me, given, found = self.standing(ranks, number)
        if found is None:
            return None
        quiet, line = found
        if line[0] == "fail":
            whom = int(line[1])
            reply = "already-failed"
            if whom not in self.declared(words):
                words, ranks = self.declare(words, ranks, whom)
                reply = "declared"
            ranks = list(ranks)
            mine = ranks[number][0].copy()
            if mine.fate == "stuck":
                self.answer(mine, quiet, line, reply)
            ranks[number] = (mine, ())
            return words, ranks
        mine = me.copy()
        words = dict(words)
        machine = self.machine(words, mine, line)
        asked = next(machine)
        for value in given:
            asked = machine.send(value)
        value = words.get(asked[1])
        if asked[0] == "set" and value is None:
            words[asked[1]] = asked[2]
        ranks = list(ranks)
        try:
            machine.send(value)
            ranks[number] = (me, given + (value,))
        except StopIteration as end:
            self.answer(mine, quiet, line, end.value)
            ranks[number] = (mine, ())
        return words, ranks

    def waits(self, words, ranks, number):
        """Whether a rank stands before a wait of which a whole poll would be pending and would set no word."""
        me, given, found = self.standing(ranks, number)
        if found is None:
            return True
        if found[1][0] != "wait" or given:
            return False
        before = dict(words)
        for _ in range(1000):
            words, ranks = self.step(words, ranks, number)
            if not ranks[number][1]:
                after = ranks[number][0]
                return after.at == me.at and after.fate == me.fate and words == before
        return False

    def run(self):
        ranks = []
        for number in range(self.world[0]):
            me = Rank(number)
            go_on(self.ops[number], me)
            ranks.append((me, ()))
        first = ({}, ranks)
        known, left = {self.key(*first)}, [first]
        while left:
            words, ranks = left.pop()
            if all(self.waits(words, ranks, number) for number in range(self.world[0])):
                self.outcomes.add(tuple((me.fate, me.notes) for me, _ in ranks))
            following = [self.step(words, ranks, number) for number in range(self.world[0])]
            gone = self.declared(words)
            if len(gone) < self.most:
                following += [self.declare(words, ranks, whom) for whom in self.may if whom not in gone]
            for state in filter(None, following):
                key = self.key(*state)
                if key not in known:
                    known.add(key)
                    left.append(state)
            if len(known) > self.most_states:
                raise TooMany
        return self.outcomes

    @staticmethod
    def key(words, ranks):
        return (frozenset(words.items()), tuple((me.key(), given) for me, given in ranks))


def outcomes(text, most_states=20000):
    """The outcomes of a program, each as its ranks' fates and notes."""
    return Explorer(text, most_states).run()


def random_program(rng):
    """A tiny program."""
    ranks = rng.choice((2, 2, 2, 3))
    comms, rounds = rng.choice(((1, 2), (2, 3), (2, 2))), None
    comms, rounds = comms
    lines = [f"ulfm-explore 1 {ranks} {comms} {rounds}"]
    who = rng.sample(range(ranks), rng.choice((0, 1, 1, 1)))
    for rank in who:
        lines.append(f"may {rng.choice(('die', 'fail'))} {rank}")
    for rank in range(ranks):
        lines.append(f"rank {rank}")
        count = rng.choice((1, 2)) if ranks == 2 else 1
        for number in range(count):
            quiet = rng.choice(("", "", "quiet "))
            comm = rng.choice(("0", "0", "0", "cur", "1"))
            verb = rng.choice(("agree", "agree", "barrier", "shrink", "get", "revoke", "isrevoked", "ack", "free", "fail"))
            if verb == "agree":
                flag = flag_text(rng.getrandbits(3) << rng.choice((0, 31, 61)))
                lines += [f"{quiet}agree {comm} {flag}", f"{rng.choice(('wait', 'wait', 'poll'))} {comm}"]
            elif verb in ("barrier", "shrink"):
                lines += [f"{verb} {comm}", f"wait {comm}"]
            elif verb == "ack":
                lines.append(f"ack {comm} {rng.randrange(3)}")
            elif verb == "fail":
                lines.append(f"{quiet}fail {rng.randrange(ranks)}")
            else:
                lines.append(f"{quiet}{verb} {comm}")
            if rng.random() < 0.3:
                words = rng.choice(("clean", "done", "failed none", "refused", "agreed _ failed 1", "no"))
                lines += [f"if {words} go past{number}", "say " + rng.choice(("one", "so be it")), f"at past{number}"]
    return "\n".join(lines) + "\n"
