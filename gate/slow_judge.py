"""A second judge of logs of calls and replies, for observed_test: it tries every legal trace, by the definitions as docs/MODEL.md tells them.

A state is what a trace says so far: the failures, what members contributed, the revocations, the communicators, what each rank holds, and the
calls under way. `explained` searches all states that lines of the log and hidden steps reach. It shares no code with the judge of the program,
knows none of its rules, and takes time that grows with the number of states, so it is for logs of a few calls.
"""
ALL = (1 << 64) - 1
NAMES = {1: "self-failed", 2: "no-such-comm", 3: "busy", 4: "shrink-open", 5: "rounds-used-up", 6: "idle", 7: "mismatch", 8: "no-context"}
NAMES.update({9: "no-room", 10: "is-revoked", 11: "proc-failed", 12: "world-kept", 13: "no-such-rank", 15: "twice"})
STARTS = ("agree", "shrink", "barrier")


def refused(number):
    return f"refused {number} {NAMES[number]}"


ENDING = {refused(number) for number in (7, 8, 9, 10, 11)}


def digits(flag):
    """A flag as it is printed."""
    return f"{flag:08x}" if flag < 1 << 32 else f"{flag:016x}"


def fits(seen, answer):
    """Whether an answer is as a log tells it."""
    if seen == answer:
        return True
    one, other = seen.split(), answer.split()
    return len(one) == len(other) and all(a in ("*", b) for a, b in zip(one, other))


def ends(seen):
    """Whether a reply ends a request."""
    return seen.split(" ", 1)[0] in ("agreed", "shrunk", "done") or seen in ENDING


class State:
    """What happened, what each rank holds, and the calls under way. Nothing in it is changed once others see it."""

    __slots__ = ("ranks", "comms", "rounds", "failures", "slots", "arrived", "revoked", "made", "held", "refused", "calls")

    def __init__(self, ranks, comms, rounds):
        self.ranks, self.comms, self.rounds = ranks, comms, rounds
        self.failures = ()          # ranks, in the order of their declarations
        self.slots = {}             # by communicator, round and rank: kind, value, known, acknowledged
        self.arrived = frozenset()  # communicator, barrier round and rank
        self.revoked = frozenset()
        self.made = ((tuple(range(ranks)), 0, None),)  # of each communicator its members, its context id, and the round it was made of
        self.held = {(r, 0): (0, 0, 0, None) for r in range(ranks)}  # acknowledged, next agreement, next barrier, request
        self.refused = frozenset()  # ranks that were told that they have failed
        self.calls = {}             # by caller: words, look, whether it made its own event, answer

    def copy(self):
        other = State.__new__(State)
        for name in State.__slots__:
            setattr(other, name, getattr(self, name))
        return other

    def key(self):
        slots, held, calls = (frozenset(it.items()) for it in (self.slots, self.held, self.calls))
        return self.failures, slots, self.arrived, self.revoked, self.made, held, self.refused, calls

    def with_call(self, caller, *call):
        """The state with a caller's call as it is now."""
        after = self.copy()
        after.calls = {**self.calls, caller: call}
        return after

    def failed(self, comm, count=None):
        """The failed members of a communicator, of the first so many failures."""
        members = self.made[comm][0]
        return tuple(r for r in self.failures[:count] if r in members)

    def decision(self, comm, k):
        """None where the round isn't decided; else kind, value, how many have failed, and whether an error is raised."""
        given, known = [], 0
        for rank in self.made[comm][0]:
            slot = self.slots.get((comm, k, rank))
            if slot is None:
                return None
            known = max(known, slot[2])
            if slot[0] != "mark":
                given.append(slot)
        kinds = {slot[0] for slot in given}
        kind = "clash" if len(kinds) > 1 else (kinds.pop() if kinds else "unit")
        value = ALL
        for slot in given:
            value &= slot[1]
        return kind, value, known, any(slot[3] < known for slot in given)

    # what may be answered

    def refusal(self, words):
        """The refusal of a call by the record alone; 0 where there is none."""
        verb, rank, comm = words[0], int(words[1]), int(words[2])
        if (rank, comm) not in self.held:
            return 2
        _, agreement, barrier, request = self.held[rank, comm]
        if verb == "free" and comm == 0:
            return 12
        if verb in STARTS + ("free",) and request:
            return 3
        if verb == "shrink" and any(r == rank and held[3] and held[3][0] == "shrink" for (r, _), held in self.held.items()):
            return 4
        if verb == "agree" and agreement + 1 >= self.rounds:
            return 5
        if (verb == "shrink" and agreement >= self.rounds) or (verb == "barrier" and barrier >= self.rounds):
            return 5
        return 6 if verb == "poll" and not request else 0

    def answers(self, caller):
        """What may be answered to a caller's call, where its point is now."""
        words, look, own, _ = self.calls[caller]
        verb, rank = words[0], int(words[1])
        if rank >= self.ranks:
            return [refused(13)]
        if verb == "fail":
            if own:
                return ["declared"]
            return ["already-failed"] if rank in self.failures else []
        if rank in self.refused:
            return [refused(1)]
        if look is None:
            return []
        found = [refused(1)] if rank in self.failures and not (own and verb in STARTS) else []
        if rank in self.failures[:look]:
            return found
        number = self.refusal(words)
        return found + ([refused(number)] if number else self.regular(words, look, own))

    def regular(self, words, look, own):
        """The answers to a call that nothing refuses."""
        verb, rank, comm = words[0], int(words[1]), int(words[2])
        acked, _, _, request = self.held[rank, comm]
        if verb in STARTS:
            # the wing of its place may be set at any time, but for a barrier's, which has none
            return ["started"] if own else ([] if verb == "barrier" else [refused(15)])
        if verb in ("get", "ack"):
            failed = self.failed(comm)
            if len(self.failures) != look:
                return []
            if verb == "get":
                return ["failed " + (" ".join(map(str, failed)) or "none")]
            return [f"acked {max(acked, min(int(words[3]), len(failed)))}"]
        if verb == "revoke":
            return ["revoked"] if own else (["already-revoked"] if comm in self.revoked else [])
        if verb == "isrevoked":
            return ["yes" if comm in self.revoked else "no"]
        if verb == "free":
            return ["freed"]
        if request[0] == "barrier":
            return self.barrier(comm, request[1], look)
        return self.poll(rank, comm, request[1], look)

    def barrier(self, comm, k, look):
        """The answers to the poll of a barrier."""
        if comm in self.revoked:
            return [refused(10)]
        absent = [r for r in self.made[comm][0] if (comm, k, r) not in self.arrived]
        if not absent:
            return ["done"]
        return [refused(11)] if any(r in self.failures[:look] for r in absent) else ["pending"]

    def poll(self, rank, comm, k, look):
        """The answers to the poll of an agreement."""
        if any((comm, k, r) not in self.slots and r not in self.failures[:look] for r in self.made[comm][0]):
            return ["pending"]
        decision = self.decision(comm, k)
        if decision is None:
            return []
        kind, value, count, raised = decision
        if kind == "clash":
            return [refused(7)]
        if kind == "flag":
            return [f"agreed {digits(value)} failed {count} {'raised' if raised else 'clean'}"]
        if value == 0:
            return [refused(8)]
        if rank in self.failed(comm)[:count]:
            return []
        for number, (group, context, of) in enumerate(self.made):
            if of == (comm, k):
                return [f"shrunk {number} context {context} members {' '.join(map(str, group))}"]
        return [refused(9)] if len(self.made) == self.comms else []

    # what may happen

    def begin(self, caller, words):
        return self.with_call(caller, words, None, False, None)

    def look(self, caller):
        words, _, own, answer = self.calls[caller]
        return self.with_call(caller, words, len(self.failures), own, answer)

    def fix(self, caller, answer):
        """A call's answer is settled, and its reply may follow."""
        words, look, own, _ = self.calls[caller]
        return self.with_call(caller, words, look, own, answer)

    def act(self, caller):
        """The state after a caller's own event, if it may make one."""
        words, look, own, answer = self.calls[caller]
        verb, rank = words[0], int(words[1])
        if own or answer is not None or look is None or rank in self.failures[:look] or self.refusal(words):
            return None
        comm = int(words[2])
        after = self.with_call(caller, words, look, True, None)
        acked, agreement, barrier, _ = self.held[rank, comm]
        if verb in ("agree", "shrink") and (comm, agreement, rank) not in self.slots:
            body = ("flag", int(words[3], 16)) if verb == "agree" else ("ctx", self.free_ids(rank))
            after.slots = {**self.slots, (comm, agreement, rank): (*body, len(self.failed(comm, look)), acked)}
        elif verb == "barrier" and (comm, barrier, rank) not in self.arrived:
            after.arrived = self.arrived | {(comm, barrier, rank)}
        elif verb == "revoke" and comm not in self.revoked:
            after.revoked = self.revoked | {comm}
        else:
            return None
        return after

    def free_ids(self, rank):
        """The context ids that a rank doesn't hold."""
        taken = 0
        for r, comm in self.held:
            taken |= (1 << self.made[comm][1]) if r == rank else 0
        return ALL & ~taken

    def fail(self, rank):
        """A declaration; it is the own event of the outside's call that asks for it."""
        after = self.copy()
        after.failures = self.failures + (rank,)
        words, look, _, answer = self.calls.get("-", ((), None, False, None))
        return after.with_call("-", words, look, True, answer) if words == ("fail", str(rank)) and answer is None else after

    def mark(self, comm, k, rank):
        after = self.copy()
        after.slots = {**self.slots, (comm, k, rank): ("mark", 0, self.failed(comm).index(rank) + 1, 0)}
        return after

    def spawn(self, comm, k):
        after = self.copy()
        _, mask, count, _ = self.decision(comm, k)
        out = self.failed(comm)[:count]
        members = tuple(r for r in self.made[comm][0] if r not in out)
        after.made = self.made + ((members, (mask & -mask).bit_length() - 1, (comm, k)),)
        return after

    def marks(self):
        """The declared members that may be left out of a round in which somebody is settled."""
        for comm, k in {(c, k) for c, k, _ in self.slots}:
            for rank in self.made[comm][0]:
                if rank in self.failures and (comm, k, rank) not in self.slots:
                    yield comm, k, rank

    def spawns(self):
        """The rounds of which a communicator may be made."""
        if len(self.made) < self.comms:
            for comm, k in {(c, k) for c, k, _ in self.slots}:
                decision = self.decision(comm, k)
                if decision and decision[0] == "ctx" and decision[1] and all(of != (comm, k) for _, _, of in self.made):
                    yield comm, k

    def reply(self, caller):
        """The state after the reply that is settled."""
        words, _, _, answer = self.calls[caller]
        after = self.copy()
        after.calls = {by: call for by, call in self.calls.items() if by != caller}
        verb, rank = words[0], int(words[1])
        if verb == "fail" or rank >= self.ranks:
            return after
        if answer == refused(1):
            after.refused = self.refused | {rank}
            return after
        place = rank, int(words[2])
        if place in self.held:
            after.held = self.left(place, verb, answer.split())
        return after

    def left(self, place, verb, told):
        """What ranks hold after an answer to a call on a communicator that is held."""
        acked, agreement, barrier, request = self.held[place]
        if told[0] == "started" and verb == "barrier":
            return {**self.held, place: (acked, agreement, barrier + 1, (verb, barrier))}
        if told[0] == "started":
            return {**self.held, place: (acked, agreement + 1, barrier, (verb, agreement))}
        if told[0] == "acked":
            return {**self.held, place: (int(told[1]), agreement, barrier, request)}
        if told[0] == "freed":
            return {key: held for key, held in self.held.items() if key != place}
        if verb == "poll" and ends(" ".join(told)):
            made = {(place[0], int(told[1])): (0, 0, 0, None)} if told[0] == "shrunk" else {}
            return {**self.held, place: (acked, agreement, barrier, None), **made}
        return self.held


class Slow:
    """A log, and the search for a legal trace that explains it."""

    def __init__(self, text, most=60000):
        lines = text.splitlines()
        words = lines[0].split()
        self.ranks, self.comms, self.rounds = map(int, words[2:5])
        self.timed, self.logged = words[5] == "time", words[6] == "logged"
        self.most = most
        self.lines = [line.split(" ", 1) for line in lines[1:] if not line.startswith("lost ")]
        self.lost = sorted({int(line.split()[1]) for line in lines[1:] if line.startswith("lost ")})
        # what a lost rank may have contributed: it matters only where the AND is told, and there any flag does no more than that value
        self.flags = sorted({line.split()[3] for line in lines if line.startswith("reply ") and " agreed " in line} - {"*"} | {digits(ALL)})
        self.callers, self.own = [], {}
        for at, (verb, rest) in enumerate(self.lines):
            first = rest.split()
            caller = first[0] if verb == "reply" else ("-" if first[0] == "fail" else first[1])
            self.callers.append(caller)
            self.own.setdefault(caller, []).append(at)

    def next_of(self, caller, done):
        """A caller's next line, and None behind the last."""
        return next((at for at in self.own.get(caller, ()) if not done >> at & 1), None)

    def seen(self, at):
        """The reply in a line; None where it is none."""
        return self.lines[at][1].split(" ", 1)[1] if at is not None and self.lines[at][0] == "reply" else None

    def next_lines(self, done):
        """The lines that may come next."""
        lines = [at for at in (self.next_of(caller, done) for caller in self.own) if at is not None]
        return [min(lines)] if self.timed and lines else lines

    def take(self, state, done, hidden, at):
        """What comes of a line, where it may come now."""
        verb, rest = self.lines[at]
        caller = self.callers[at]
        if verb == "call" and caller not in state.calls:
            return state.begin(caller, tuple(rest.split())), done | 1 << at, hidden
        if verb == "reply" and caller in state.calls and state.calls[caller][3] is not None:
            return state.reply(caller), done | 1 << at, hidden - {caller}
        return None

    def answer(self, state, done, hidden, caller):
        """What comes of an answer that the log has, or of `started` before a poll that it lacks; None where there is no such answer now."""
        words, _, _, answer = state.calls[caller]
        seen = self.seen(self.next_of(caller, done))
        if answer is not None or seen is None:
            return None
        for told in state.answers(caller):
            if fits(seen, told) and (caller not in hidden or ends(seen)):
                return state.fix(caller, told), done, hidden
            if told == "started" and ends(seen):
                poll = state.fix(caller, told).reply(caller).begin(caller, ("poll", words[1], words[2]))
                return poll, done, hidden | {caller}
        return None

    def moves(self, state, done, hidden):
        """All that may come next: state, lines that are done, and starts of which the log lacks `started`."""
        # what can't be wrong to do at once: a rank's call begins, a settled reply comes, and an answer is settled, as nothing else rests on it.
        # A revocation may still be made where the call's answer is that its rank has failed, and what is declared within a call of `fail` is its own.
        for at in self.next_lines(done):
            after = self.take(state, done, hidden, at)
            if after and (self.lines[at][0] == "reply" or self.callers[at] != "-"):
                return [after]
        found = []
        for caller, call in state.calls.items():
            after = self.answer(state, done, hidden, caller)
            if after and call[0][0] not in ("revoke", "fail"):
                return [after]
            found += [after] if after else []
        return found + list(self.steps(state, done, hidden))

    def steps(self, state, done, hidden):
        """The further moves: calls of `fail`, looks, events, and calls that were lost."""
        for at in self.next_lines(done):
            after = self.take(state, done, hidden, at)
            if after:
                yield after
        for caller, (words, look, _, answer) in state.calls.items():
            rank = int(words[1])
            if caller == "-" or answer is not None or rank >= self.ranks or rank in state.refused or not self.matters(caller, words[0], done):
                continue
            after = state.look(caller) if look is None else state.act(caller)
            if after:
                yield after, done, hidden
        asked, _, _, answer = state.calls.get("-", ((), None, False, None))
        for rank in set(range(self.ranks)) - set(state.failures):
            if not self.logged or (asked == ("fail", str(rank)) and answer is None):
                yield state.fail(rank), done, hidden
        for after in [state.mark(*it) for it in state.marks()] + [state.spawn(*it) for it in state.spawns()]:
            yield after, done, hidden
        for rank in self.lost:
            if self.next_of(str(rank), done) is None:
                yield from ((after, done, hidden) for after in self.lost_moves(state, rank))

    def matters(self, caller, verb, done):
        """Whether steps of a call matter: its reply is logged, or others can see what it does."""
        return verb in STARTS or verb == "revoke" or self.next_of(caller, done) is not None or int(caller) in self.lost

    def lost_moves(self, state, rank):
        """What a rank may do behind its last line, where the end of its lines was lost."""
        caller = str(rank)
        if caller not in state.calls:
            for r, comm in state.held:
                if r == rank and rank not in state.refused:
                    words = [(verb, caller, str(comm)) for verb in ("shrink", "barrier", "poll", "revoke", "free")]
                    words += [("agree", caller, str(comm), flag) for flag in self.flags]
                    words += [("ack", caller, str(comm), str(count)) for count in range(1, self.ranks)]
                    yield from (state.begin(caller, it) for it in words if not state.refusal(it))
        elif state.calls[caller][3] is None:
            for told in state.answers(caller):
                yield state.fix(caller, told).reply(caller)

    def explained(self):
        """Whether some legal trace explains the log; None where there are too many states."""
        everything = (1 << len(self.lines)) - 1
        stack, seen = [(State(self.ranks, self.comms, self.rounds), 0, frozenset())], set()
        while stack:
            state, done, hidden = stack.pop()
            if done == everything:
                return True
            for after in reversed(self.moves(state, done, hidden)):
                key = (after[0].key(), after[1], after[2])
                if key not in seen:
                    if len(seen) > self.most:
                        return None
                    seen.add(key)
                    stack.append(after)
        return False
