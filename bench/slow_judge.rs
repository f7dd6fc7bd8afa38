//! gate/slow_judge.py once more, as a native program: for more logs than Python tries in a day. It reads logs, each with a line `=` behind it, and
//! prints `explained`, `not explained` or `too large` for each; the states that it may see are its argument. bench/observed_many runs both.
use std::collections::{BTreeMap, BTreeSet, HashSet};
use std::io::Read;

type Comm = usize;
type Round = usize;
type Rank = usize;
const OUTSIDE: usize = usize::MAX;
const NAMES: [&str; 16] = ["", "self-failed", "no-such-comm", "busy", "shrink-open", "rounds-used-up", "idle", "mismatch", "no-context", "no-room",
    "is-revoked", "proc-failed", "world-kept", "no-such-rank", "out-of-memory", "twice"];

fn refused(number: usize) -> String {
    format!("refused {number} {}", NAMES[number])
}

fn digits(flag: u64) -> String {
    if flag < 1 << 32 { format!("{flag:08x}") } else { format!("{flag:016x}") }
}

/// Whether an answer is as a log tells it.
fn fits(seen: &str, answer: &str) -> bool {
    let (one, other): (Vec<&str>, Vec<&str>) = (seen.split(' ').collect(), answer.split(' ').collect());
    seen == answer || (one.len() == other.len() && one.iter().zip(&other).all(|(a, b)| *a == "*" || a == b))
}

/// Whether a reply ends a request.
fn ends(seen: &str) -> bool {
    let first = seen.split(' ').next().unwrap();
    ["agreed", "shrunk", "done"].contains(&first) || (7..=11).any(|number| seen == refused(number))
}

#[derive(Clone, Copy, PartialEq, Eq, Hash, PartialOrd, Ord, Debug)]
enum Verb { Fail, Get, Ack, Agree, Shrink, Barrier, Poll, Revoke, IsRevoked, Free }
use Verb::*;

impl Verb {
    fn of(word: &str) -> Verb {
        match word {
            "fail" => Fail, "get" => Get, "ack" => Ack, "agree" => Agree, "shrink" => Shrink, "barrier" => Barrier, "poll" => Poll,
            "revoke" => Revoke, "isrevoked" => IsRevoked, "free" => Free, _ => panic!("verb {word}"),
        }
    }

    fn starts(self) -> bool {
        matches!(self, Agree | Shrink | Barrier)
    }
}

/// A call's words: its number is a flag or a count.
#[derive(Clone, Copy, PartialEq, Eq, Hash)]
struct Asked { verb: Verb, rank: Rank, comm: Comm, number: u64 }

impl Asked {
    fn by(self) -> usize {
        if self.verb == Fail { OUTSIDE } else { self.rank }
    }
}

#[derive(Clone, PartialEq, Eq, Hash)]
struct Call { asked: Asked, look: Option<usize>, own: bool, answer: Option<String> }

#[derive(Clone, Copy, PartialEq, Eq, Hash)]
enum Kind { Mark, Flag, Ctx }

#[derive(Clone, Copy, PartialEq, Eq, Hash)]
struct Slot { kind: Kind, value: u64, known: usize, acked: usize }

#[derive(Clone, Copy, PartialEq, Eq, Hash)]
struct Held { acked: usize, agreement: Round, barrier: Round, request: Option<(Verb, Round)> }

#[derive(Clone, PartialEq, Eq, Hash)]
struct Made { members: Vec<Rank>, context: u32, of: Option<(Comm, Round)> }

struct Decision { kind: Option<Kind>, clash: bool, value: u64, known: usize, raised: bool }

const NEW: Held = Held { acked: 0, agreement: 0, barrier: 0, request: None };

/// What happened, what each rank holds, and the calls under way.
#[derive(Clone, PartialEq, Eq, Hash)]
struct State {
    failures: Vec<Rank>,
    slots: BTreeMap<(Comm, Round, Rank), Slot>,
    arrived: BTreeSet<(Comm, Round, Rank)>,
    revoked: BTreeSet<Comm>,
    made: Vec<Made>,
    held: BTreeMap<(Rank, Comm), Held>,
    refused: BTreeSet<Rank>,
    calls: BTreeMap<usize, Call>,
}

struct World { ranks: usize, comms: usize, rounds: usize }

impl State {
    fn failed(&self, comm: Comm, count: usize) -> Vec<Rank> {
        self.failures[..count].iter().copied().filter(|r| self.made[comm].members.contains(r)).collect()
    }

    fn has_failed(&self, rank: Rank, count: usize) -> bool {
        self.failures[..count].contains(&rank)
    }

    fn decision(&self, comm: Comm, k: Round) -> Option<Decision> {
        let mut all = Decision { kind: None, clash: false, value: u64::MAX, known: 0, raised: false };
        let slots: Option<Vec<Slot>> = self.made[comm].members.iter().map(|r| self.slots.get(&(comm, k, *r)).copied()).collect();
        let slots = slots?;
        all.known = slots.iter().map(|slot| slot.known).max().unwrap_or(0);
        for slot in slots.iter().filter(|slot| slot.kind != Kind::Mark) {
            all.clash |= all.kind.is_some_and(|kind| kind != slot.kind);
            all.kind = Some(slot.kind);
            all.value &= slot.value;
            all.raised |= slot.acked < all.known;
        }
        Some(all)
    }

    /// The refusal of a call by the record alone.
    fn refusal(&self, world: &World, asked: Asked) -> Option<usize> {
        let Some(held) = self.held.get(&(asked.rank, asked.comm)) else { return Some(2) };
        let open = held.request.is_some();
        let shrinks = self.held.iter().any(|((r, _), it)| *r == asked.rank && it.request.is_some_and(|(verb, _)| verb == Shrink));
        match asked.verb {
            Free if asked.comm == 0 => Some(12),
            Agree | Shrink | Barrier | Free if open => Some(3),
            Shrink if shrinks => Some(4),
            Agree if held.agreement + 1 >= world.rounds => Some(5),
            Shrink if held.agreement >= world.rounds => Some(5),
            Barrier if held.barrier >= world.rounds => Some(5),
            Poll if !open => Some(6),
            _ => None,
        }
    }

    /// What may be answered to a caller's call, where its point is now.
    fn answers(&self, world: &World, caller: usize) -> Vec<String> {
        let call = &self.calls[&caller];
        let rank = call.asked.rank;
        if rank >= world.ranks {
            return vec![refused(13)];
        }
        let failed = self.failures.contains(&rank);
        if call.asked.verb == Fail {
            return if call.own { vec!["declared".into()] } else if failed { vec!["already-failed".into()] } else { vec![] };
        }
        if self.refused.contains(&rank) {
            return vec![refused(1)];
        }
        let Some(look) = call.look else { return vec![] };
        let mut found = if failed && !(call.own && call.asked.verb.starts()) { vec![refused(1)] } else { vec![] };
        if self.has_failed(rank, look) {
            return found;
        }
        match self.refusal(world, call.asked) {
            Some(number) => found.push(refused(number)),
            None => found.extend(self.regular(world, call, look)),
        }
        found
    }

    /// The answers to a call that nothing refuses.
    fn regular(&self, world: &World, call: &Call, look: usize) -> Vec<String> {
        let Asked { verb, rank, comm, number } = call.asked;
        let held = &self.held[&(rank, comm)];
        let now = self.failures.len() == look;
        let failed = self.failed(comm, self.failures.len());
        let told = match verb {
            _ if verb.starts() && call.own => "started".into(),
            Agree | Shrink => refused(15),
            Get if now && failed.is_empty() => "failed none".into(),
            Get if now => format!("failed {}", listed(&failed)),
            Ack if now => format!("acked {}", held.acked.max(failed.len().min(number as usize))),
            Revoke if call.own => "revoked".into(),
            Revoke if self.revoked.contains(&comm) => "already-revoked".into(),
            IsRevoked => if self.revoked.contains(&comm) { "yes" } else { "no" }.into(),
            Free => "freed".into(),
            Poll => match held.request.unwrap() {
                (Barrier, k) => self.barrier(comm, k, look),
                (_, k) => return self.poll(world, rank, comm, k, look),
            },
            _ => return vec![],
        };
        vec![told]
    }

    fn barrier(&self, comm: Comm, k: Round, look: usize) -> String {
        let absent: Vec<Rank> = self.made[comm].members.iter().copied().filter(|r| !self.arrived.contains(&(comm, k, *r))).collect();
        if self.revoked.contains(&comm) {
            refused(10)
        } else if absent.is_empty() {
            "done".into()
        } else if absent.iter().any(|r| self.has_failed(*r, look)) {
            refused(11)
        } else {
            "pending".into()
        }
    }

    fn poll(&self, world: &World, rank: Rank, comm: Comm, k: Round, look: usize) -> Vec<String> {
        if self.made[comm].members.iter().any(|r| !self.slots.contains_key(&(comm, k, *r)) && !self.has_failed(*r, look)) {
            return vec!["pending".into()];
        }
        let Some(all) = self.decision(comm, k) else { return vec![] };
        if all.clash {
            return vec![refused(7)];
        }
        if all.kind == Some(Kind::Flag) {
            return vec![format!("agreed {} failed {} {}", digits(all.value), all.known, if all.raised { "raised" } else { "clean" })];
        }
        if all.value == 0 {
            return vec![refused(8)];
        }
        if self.out_of(comm, all.known).contains(&rank) {
            return vec![];
        }
        for (number, made) in self.made.iter().enumerate() {
            if made.of == Some((comm, k)) {
                return vec![format!("shrunk {number} context {} members {}", made.context, listed(&made.members))];
            }
        }
        if self.made.len() == world.comms { vec![refused(9)] } else { vec![] }
    }

    /// The first so many failed members of a communicator.
    fn out_of(&self, comm: Comm, count: usize) -> Vec<Rank> {
        self.failed(comm, self.failures.len()).into_iter().take(count).collect()
    }

    fn begin(&self, asked: Asked) -> State {
        self.with(asked.by(), Call { asked, look: None, own: false, answer: None })
    }

    fn with(&self, caller: usize, call: Call) -> State {
        let mut after = self.clone();
        after.calls.insert(caller, call);
        after
    }

    fn fix(&self, caller: usize, answer: String) -> State {
        self.with(caller, Call { answer: Some(answer), ..self.calls[&caller].clone() })
    }

    fn look(&self, caller: usize) -> State {
        self.with(caller, Call { look: Some(self.failures.len()), ..self.calls[&caller].clone() })
    }

    /// The state after a caller's own event, if it may make one.
    fn act(&self, world: &World, caller: usize) -> Option<State> {
        let call = &self.calls[&caller];
        let Asked { verb, rank, comm, number } = call.asked;
        let look = call.look?;
        if call.own || call.answer.is_some() || self.has_failed(rank, look) || self.refusal(world, call.asked).is_some() {
            return None;
        }
        let held = self.held[&(rank, comm)];
        let mut after = self.with(caller, Call { own: true, ..call.clone() });
        let place = (comm, held.agreement, rank);
        let is_new = match verb {
            Agree | Shrink if self.slots.contains_key(&place) => false,
            Agree | Shrink => {
                let (kind, value) = if verb == Agree { (Kind::Flag, number) } else { (Kind::Ctx, self.free_ids(rank)) };
                after.slots.insert(place, Slot { kind, value, known: self.failed(comm, look).len(), acked: held.acked });
                true
            }
            Barrier => after.arrived.insert((comm, held.barrier, rank)),
            Revoke => after.revoked.insert(comm),
            _ => false,
        };
        is_new.then_some(after)
    }

    fn free_ids(&self, rank: Rank) -> u64 {
        !self.held.keys().filter(|(r, _)| *r == rank).fold(0, |ids, (_, comm)| ids | 1 << self.made[*comm].context)
    }

    fn fail(&self, rank: Rank) -> State {
        let mut after = self.clone();
        after.failures.push(rank);
        if let Some(call) = after.calls.get_mut(&OUTSIDE) {
            call.own |= call.asked.rank == rank && call.answer.is_none();
        }
        after
    }

    fn rounds(&self) -> BTreeSet<(Comm, Round)> {
        self.slots.keys().map(|(comm, k, _)| (*comm, *k)).collect()
    }

    /// The states after a declared member is left out of a round, or a communicator is made.
    fn helped(&self, world: &World) -> Vec<State> {
        let mut found = vec![];
        for (comm, k) in self.rounds() {
            let failed = self.failed(comm, self.failures.len());
            for (i, rank) in failed.iter().enumerate().filter(|(_, rank)| !self.slots.contains_key(&(comm, k, **rank))) {
                let mut after = self.clone();
                after.slots.insert((comm, k, *rank), Slot { kind: Kind::Mark, value: 0, known: i + 1, acked: 0 });
                found.push(after);
            }
            if self.made.len() < world.comms && self.made.iter().all(|made| made.of != Some((comm, k))) {
                found.extend(self.spawned(comm, k));
            }
        }
        found
    }

    fn spawned(&self, comm: Comm, k: Round) -> Option<State> {
        let all = self.decision(comm, k)?;
        if all.clash || all.kind != Some(Kind::Ctx) || all.value == 0 {
            return None;
        }
        let out = self.out_of(comm, all.known);
        let members = self.made[comm].members.iter().copied().filter(|r| !out.contains(r)).collect();
        let mut after = self.clone();
        after.made.push(Made { members, context: all.value.trailing_zeros(), of: Some((comm, k)) });
        Some(after)
    }

    /// The state after the reply that is settled.
    fn reply(&self, world: &World, caller: usize) -> State {
        let mut after = self.clone();
        let call = after.calls.remove(&caller).unwrap();
        let Asked { verb, rank, comm, .. } = call.asked;
        let answer = call.answer.unwrap();
        if verb == Fail || rank >= world.ranks {
            return after;
        }
        if answer == refused(1) {
            after.refused.insert(rank);
            return after;
        }
        let Some(held) = after.held.get_mut(&(rank, comm)) else { return after };
        let told: Vec<&str> = answer.split(' ').collect();
        match told[0] {
            "started" if verb == Barrier => {
                held.request = Some((verb, held.barrier));
                held.barrier += 1;
            }
            "started" => {
                held.request = Some((verb, held.agreement));
                held.agreement += 1;
            }
            "acked" => held.acked = told[1].parse().unwrap(),
            "freed" => drop(after.held.remove(&(rank, comm))),
            _ if verb == Poll && ends(&answer) => {
                held.request = None;
                if told[0] == "shrunk" {
                    after.held.insert((rank, told[1].parse().unwrap()), NEW);
                }
            }
            _ => {}
        }
        after
    }
}

fn listed(ranks: &[Rank]) -> String {
    ranks.iter().map(|r| r.to_string()).collect::<Vec<_>>().join(" ")
}

enum Line { Called(Asked), Replied(usize, String) }

/// A state, the lines of the log that are done, and the callers whose start lacks `started` in the log.
type Node = (State, u64, BTreeSet<usize>);

struct Slow { world: World, timed: bool, logged: bool, lines: Vec<Line>, own: BTreeMap<usize, Vec<usize>>, lost: BTreeSet<Rank>, flags: BTreeSet<u64> }

impl Slow {
    fn read(text: &str) -> Slow {
        let mut lines = text.lines();
        let head: Vec<&str> = lines.next().unwrap().split(' ').collect();
        let [ranks, comms, rounds] = [2, 3, 4].map(|i| head[i].parse().unwrap());
        let mut slow = Slow {
            world: World { ranks, comms, rounds }, timed: head[5] == "time", logged: head[6] == "logged",
            lines: vec![], own: BTreeMap::new(), lost: BTreeSet::new(), flags: BTreeSet::from([u64::MAX]),
        };
        for line in lines {
            slow.add(line);
        }
        slow
    }

    fn add(&mut self, line: &str) {
        let words: Vec<&str> = line.split(' ').collect();
        if words[0] == "lost" {
            self.lost.insert(words[1].parse().unwrap());
            return;
        }
        let line = if words[0] == "call" {
            let verb = Verb::of(words[1]);
            let number = words.get(4).map_or(0, |it| u64::from_str_radix(it, if verb == Agree { 16 } else { 10 }).unwrap());
            Line::Called(Asked { verb, rank: words[2].parse().unwrap(), comm: words.get(3).map_or(0, |it| it.parse().unwrap()), number })
        } else {
            if words[2] == "agreed" && words[3] != "*" {
                self.flags.insert(u64::from_str_radix(words[3], 16).unwrap());
            }
            Line::Replied(if words[1] == "-" { OUTSIDE } else { words[1].parse().unwrap() }, words[2..].join(" "))
        };
        let caller = caller_of(&line);
        self.own.entry(caller).or_default().push(self.lines.len());
        self.lines.push(line);
    }

    fn next_of(&self, caller: usize, done: u64) -> Option<usize> {
        self.own.get(&caller)?.iter().copied().find(|at| done >> at & 1 == 0)
    }

    fn next_lines(&self, done: u64) -> Vec<usize> {
        let all: Vec<usize> = self.own.keys().filter_map(|caller| self.next_of(*caller, done)).collect();
        if self.timed { all.into_iter().min().into_iter().collect() } else { all }
    }

    /// What comes of a line, where it may come now.
    fn take(&self, (state, done, hidden): &Node, at: usize) -> Option<Node> {
        let caller = caller_of(&self.lines[at]);
        let call = state.calls.get(&caller);
        match self.lines[at] {
            Line::Called(asked) if call.is_none() => Some((state.begin(asked), done | 1 << at, hidden.clone())),
            Line::Replied(..) if call.is_some_and(|call| call.answer.is_some()) => {
                let mut hidden = hidden.clone();
                hidden.remove(&caller);
                Some((state.reply(&self.world, caller), done | 1 << at, hidden))
            }
            _ => None,
        }
    }

    /// What comes of an answer that the log has, or of `started` before a poll that it lacks.
    fn answer(&self, (state, done, hidden): &Node, caller: usize) -> Option<Node> {
        let call = &state.calls[&caller];
        let Line::Replied(_, seen) = &self.lines[self.next_of(caller, *done)?] else { return None };
        if call.answer.is_some() {
            return None;
        }
        for told in state.answers(&self.world, caller) {
            if fits(seen, &told) && (!hidden.contains(&caller) || ends(seen)) {
                return Some((state.fix(caller, told), *done, hidden.clone()));
            }
            if told == "started" && ends(seen) {
                let mut hidden = hidden.clone();
                hidden.insert(caller);
                let poll = Asked { verb: Poll, number: 0, ..call.asked };
                return Some((state.fix(caller, told).reply(&self.world, caller).begin(poll), *done, hidden));
            }
        }
        None
    }

    /// All that may come next. What can't be wrong to do at once is done alone: a rank's call, a settled reply, and an answer that fits.
    fn moves(&self, node: &Node) -> Vec<Node> {
        let (state, done, hidden) = node;
        let mut found = vec![];
        for at in self.next_lines(*done) {
            if let Some(after) = self.take(node, at) {
                if matches!(self.lines[at], Line::Replied(..)) || caller_of(&self.lines[at]) != OUTSIDE {
                    return vec![after];
                }
                found.push(after);
            }
        }
        for (caller, call) in &state.calls {
            if let Some(after) = self.answer(node, *caller) {
                if !matches!(call.asked.verb, Revoke | Fail) {
                    return vec![after];
                }
                found.push(after);
            }
        }
        for (caller, call) in &state.calls {
            let matters = call.asked.verb.starts() || call.asked.verb == Revoke || self.lost.contains(caller) || self.next_of(*caller, *done).is_some();
            let rank = call.asked.rank;
            if *caller != OUTSIDE && call.answer.is_none() && rank < self.world.ranks && !state.refused.contains(&rank) && matters {
                let after = if call.look.is_none() { Some(state.look(*caller)) } else { state.act(&self.world, *caller) };
                found.extend(after.map(|it| (it, *done, hidden.clone())));
            }
        }
        let asked = state.calls.get(&OUTSIDE).filter(|call| call.answer.is_none()).map(|call| call.asked.rank);
        let fails = (0..self.world.ranks).filter(|r| !state.failures.contains(r) && (!self.logged || asked == Some(*r))).map(|r| state.fail(r));
        let lost = self.lost.iter().filter(|r| self.next_of(**r, *done).is_none()).flat_map(|r| self.lost_moves(state, *r));
        found.extend(fails.chain(state.helped(&self.world)).chain(lost).map(|it| (it, *done, hidden.clone())));
        found
    }

    /// What a rank may do behind its last line, where the end of its lines was lost.
    fn lost_moves(&self, state: &State, rank: Rank) -> Vec<State> {
        if let Some(call) = state.calls.get(&rank) {
            let answers = if call.answer.is_none() { state.answers(&self.world, rank) } else { vec![] };
            return answers.into_iter().map(|told| state.fix(rank, told).reply(&self.world, rank)).collect();
        }
        let mut asked = vec![];
        for (_, comm) in state.held.keys().filter(|(r, _)| *r == rank && !state.refused.contains(&rank)) {
            let add = |verb: Verb, number: u64| Asked { verb, rank, comm: *comm, number };
            asked.extend([Shrink, Barrier, Poll, Revoke, Free].map(|verb| add(verb, 0)));
            asked.extend(self.flags.iter().map(|flag| add(Agree, *flag)));
            asked.extend((1..self.world.ranks).map(|count| add(Ack, count as u64)));
        }
        asked.into_iter().filter(|it| state.refusal(&self.world, *it).is_none()).map(|it| state.begin(it)).collect()
    }

    fn explained(&self, most: usize) -> Option<bool> {
        let everything = (1 << self.lines.len()) - 1;
        let all = 0..self.world.ranks;
        let first = State {
            failures: vec![], slots: BTreeMap::new(), arrived: BTreeSet::new(), revoked: BTreeSet::new(),
            made: vec![Made { members: all.clone().collect(), context: 0, of: None }], held: all.map(|r| ((r, 0), NEW)).collect(),
            refused: BTreeSet::new(), calls: BTreeMap::new(),
        };
        let (mut stack, mut seen) = (vec![(first, 0, BTreeSet::new())], HashSet::new());
        while let Some(node) = stack.pop() {
            if node.1 == everything {
                return Some(true);
            }
            for after in self.moves(&node).into_iter().rev() {
                if !seen.contains(&after) {
                    if seen.len() > most {
                        return None;
                    }
                    seen.insert(after.clone());
                    stack.push(after);
                }
            }
        }
        Some(false)
    }
}

fn caller_of(line: &Line) -> usize {
    match line {
        Line::Called(asked) => asked.by(),
        Line::Replied(by, _) => *by,
    }
}

fn main() {
    let most = std::env::args().nth(1).map_or(60000, |it| it.parse().unwrap());
    let mut text = String::new();
    std::io::stdin().read_to_string(&mut text).unwrap();
    for log in text.split_terminator("=\n") {
        println!("{}", match Slow::read(log).explained(most) { Some(true) => "explained", Some(false) => "not explained", None => "too large" });
    }
}
