"""The text form of a trace by the rules of docs/FORMATS.md, made by this module alone: what `ulfm draw --text` is compared with.

A row for each line: its number in 5 places, that of its event in 7, two spaces, and so many places for each lane. The events settle rounds, and where the
last member of one is settled, a line below the row says what it decides. The traces are legal up to their bad line, if they have one.
"""
# the signs that are explained, in two lines
LEGEND = (
    (("+", "call"), ("o", "look"), ("C", "contribution"), ("X", "left out"), ("F", "declared"), ("A", "arrival"), ("R", "revocation"), ("N", "new communicator")),
    (("*", "answered"), ("?", "pending"), ("!", "refused"), ("|", "under way"), (":", "declared before"), ("=", "decided, or all arrived")),
)
# the box characters of the signs, and the colours of some: numbers of a terminal's
BOXES = dict(zip("+*|:.-=~#CXFARNo<>?! ", "┌└│┊·─═╌▒●⊗◆▲■⬢├◁▷?! "))
COLOURS = {"F": 31, "!": 31, ":": 31, "#": 31, "C": 36, "=": 36, "X": 33, "?": 33, "*": 32, "R": 35}


class Rounds:
    """The events so far, and what rounds decide by them."""

    def __init__(self, ranks):
        self.members, self.failures, self.settled, self.arrived = {0: list(range(ranks))}, [], {}, {}

    def failed(self, comm):
        return [rank for rank in self.failures if rank in self.members[comm]]

    def decision(self, comm, number):
        """The offers, the group that is left out, and whether an error is raised."""
        given = [self.settled[comm, number][rank] for rank in self.members[comm]]
        failed = self.failed(comm)
        left_out = [rank for rank in failed if any(rank in failed[: it["known"]] for it in given)]
        offers = [it for it in given if "kind" in it]
        raised = any(rank not in failed[: it["acked"]] for rank in left_out for it in offers)
        return offers, left_out, raised

    def words(self, comm, number):
        """What a round decides, in words."""
        offers, left_out, raised = self.decision(comm, number)
        kinds, bits = {it["kind"] for it in offers}, (1 << 64) - 1
        for it in offers:
            bits &= it["bits"]
        digits = f"{bits:08x}" if bits < 1 << 32 else f"{bits:016x}"
        body = "mismatch" if len(kinds) > 1 else f"{'agreed' if 'flag' in kinds else 'ids'} {digits}" if kinds else "nobody"
        return f"round {number} of {comm}: {body} failed {len(left_out)} {'raised' if raised else 'clean'}"

    def happen(self, words):
        """Takes in an event; the communicator and the words that stand below its row, if some do."""
        verb, numbers = words[2], [int(word) if word.isdigit() else word for word in words[3:]]
        if verb == "fail":
            self.failures.append(numbers[0])
        elif verb == "spawn":
            made, parent, number = numbers[:3]
            self.members[made] = [rank for rank in self.members[parent] if rank not in self.decision(parent, number)[1]]
        elif verb in ("settle", "mark"):
            comm, number, rank = numbers[:3]
            rest = dict(zip(words[6::2], words[7::2]))
            given = {name: int(rest[name]) for name in ("known", "acked") if name in rest}
            if verb == "settle":
                given |= {"kind": words[6], "bits": int(words[7], 16)}
            self.settled.setdefault((comm, number), {})[rank] = given
            if len(self.settled[comm, number]) == len(self.members[comm]):
                return comm, self.words(comm, number)
        elif verb == "arrive":
            comm, number, rank = numbers[:3]
            self.arrived.setdefault((comm, number), set()).add(rank)
            if len(self.arrived[comm, number]) == len(self.members[comm]):
                return comm, f"barrier {number} of {comm}: all have arrived"
        return None


class Sheet:
    """The rows so far, each a pair: its cells where they stand in it, and a text with a place for them."""

    def __init__(self, lines):
        ranks = int(lines[0].split()[2])
        named = [self.by(line.split()) for line in lines[1:]]
        self.lanes = (["-"] if "-" in named else []) + [str(rank) for rank in range(ranks)]
        self.step = 2 if len(self.lanes) > 17 else 3
        self.rounds, self.under_way, self.declared, self.events, self.rows = Rounds(ranks), set(), set(), 0, []

    @staticmethod
    def by(words):
        """Whose line it is."""
        if words[0] == "call":
            return "-" if words[1] == "fail" else words[2]
        return words[1]

    def put(self, number, event, cells, rest):
        self.rows.append((f"{number:>5}{event:>7}  ", "".join(cells), rest))

    def place(self, lane):
        return self.lanes.index(str(lane)) * self.step

    def ground(self):
        """The cells of a row without a sign."""
        signs = ["|" if lane in self.under_way else ":" if lane in self.declared else "." for lane in self.lanes]
        return list("".join(sign + " " * (self.step - 1) for sign in signs))

    def join(self, cells, by, rank, sign):
        """Whom an event declares or leaves out, joined to who does."""
        at, to = self.place(by), self.place(rank)
        for place in range(min(at, to), max(at, to)):
            cells[place] = "-" if cells[place] == " " else cells[place]
        if at != to:
            cells[at] = ">" if at < to else "<"
        cells[to] = sign

    def line(self, number, line):
        """The row of a line, and what stands below it."""
        words = line.split()
        by, cells, event, note = self.by(words), self.ground(), "", None
        at = self.place(by)
        if words[0] == "call":
            cells[at] = "+"
            self.under_way.add(by)
        elif words[0] == "look":
            cells[at] = "o"
        elif words[0] == "reply":
            cells[at] = {"pending": "?", "refused": "!"}.get(words[3], "*")
            self.under_way.discard(by)
        else:
            self.events += 1
            event = self.events
            if words[2] in ("fail", "mark"):
                rank = words[3] if words[2] == "fail" else words[5]
                self.join(cells, by, rank, "F" if words[2] == "fail" else "X")
                if words[2] == "fail":
                    self.declared.add(rank)
            else:
                if words[2] == "revoke":
                    cells = ["~" if cell == " " else cell for cell in cells]
                cells[at] = {"settle": "C", "arrive": "A", "revoke": "R", "spawn": "N"}[words[2]]
            note = self.rounds.happen(words)
        self.put(number, event, cells, "\t" + line)
        if note:
            members = self.rounds.members[note[0]]
            first, last = self.place(members[0]), self.place(members[-1])
            across = ["=" if first <= place <= last else " " for place in range(len(cells))]
            self.put("", "", across, " " + note[1])

    def names(self):
        self.rows.append((" line  event  " + "".join(lane.ljust(self.step) for lane in self.lanes), "", ""))


def shown(cells, looks):
    """Cells as they look: `ascii`, `boxes` or `colours`."""
    if looks == "ascii":
        return cells
    if looks == "boxes":
        return "".join(BOXES[cell] for cell in cells)
    return "".join(f"\x1b[{COLOURS[cell]}m{BOXES[cell]}\x1b[0m" if cell in COLOURS else BOXES[cell] for cell in cells)


def drawn(text, verdict, looks):
    """The text form of a trace of at most ten ranks, with this verdict's line."""
    lines = text.decode().split("\n")[:-1]
    bad = int(verdict.split()[2]) if verdict.startswith("illegal") else None
    sheet = Sheet(lines)
    width = len(sheet.lanes) * sheet.step
    sheet.put(1, "", " " * width, "\t" + lines[0])
    for number, line in enumerate(lines[1 : bad - 1 if bad else None], 2):
        if number % 40 == 2:
            sheet.names()
        sheet.line(number, line)
    if bad:
        sheet.put(bad, "", "#" * width, f" {lines[bad - 1]}   {verdict}".rstrip("\n").replace("\n", ""))
    rows = [before + shown(cells, looks) + rest for before, cells, rest in sheet.rows]
    legend = ["  ".join(f"{shown(sign, looks)} {meaning}" for sign, meaning in signs) for signs in LEGEND]
    return ("\n".join([*rows, "", *legend]) + "\n" + verdict).encode()
