//! A native race of agrees, without contracts, over three layouts of the words: no wings (flags of 32 bits), each wing right behind its word, and
//! wings in a row of their own. It measures what wings cost where threads meet, and what it is worth that a wing shares its word's cache line.
//!
//!     rustc -O --edition 2021 bench/wings.rs -o wings && ./wings [REPEATS] [ROUNDS]
use std::sync::atomic::{AtomicU64, Ordering::SeqCst};
use std::sync::Barrier;
use std::thread;
use std::time::Instant;

#[derive(Clone, Copy)]
enum Layout {
    Without,
    Beside,
    TwoRows,
}

/// Words, each perhaps with its wing.
struct Row {
    layout: Layout,
    length: usize,
    words: Vec<AtomicU64>,
}

impl Row {
    fn open(layout: Layout, length: usize) -> Row {
        let words = if let Layout::Without = layout { length } else { 2 * length };
        Row { layout, length, words: (0..words).map(|_| AtomicU64::new(0)).collect() }
    }

    fn word(&self, at: usize) -> &AtomicU64 {
        &self.words[if let Layout::Beside = self.layout { 2 * at } else { at }]
    }

    fn wing(&self, at: usize) -> Option<&AtomicU64> {
        match self.layout {
            Layout::Without => None,
            Layout::Beside => Some(&self.words[2 * at + 1]),
            Layout::TwoRows => Some(&self.words[self.length + at]),
        }
    }

    /// Sets a word, behind its wing.
    fn set(&self, at: usize, value: u64) {
        if let Some(wing) = self.wing(at) {
            let _ = wing.compare_exchange(0, value >> 31 | 1, SeqCst, SeqCst);
        }
        let _ = self.word(at).compare_exchange(0, value << 1 | 1, SeqCst, SeqCst);
    }

    /// A word that is set, with its wing.
    fn load(&self, at: usize) -> Option<u64> {
        match self.word(at).load(SeqCst) {
            0 => None,
            word => Some(word >> 1 & 0xffff_ffff | self.wing(at).map_or(0, |wing| wing.load(SeqCst) >> 1 << 32)),
        }
    }
}

/// The words of a world of ranks that agree so many times, of which nobody fails.
struct World {
    ranks: usize,
    failures: AtomicU64,
    slots: Row,
    blocks: Row,
}

impl World {
    fn poll(&self, round: usize) -> Option<u64> {
        self.failures.load(SeqCst);
        if let Some(kept) = self.blocks.load(round) {
            return Some(kept);
        }
        let first = round * self.ranks;
        let all = (first..first + self.ranks).try_fold(!0, |all, at| Some(all & self.slots.load(at)?))?;
        self.blocks.set(round, all);
        Some(all)
    }

    fn agree(&self, rank: usize, round: usize) {
        self.failures.load(SeqCst);
        self.slots.set(round * self.ranks + rank, !(1 << ((rank + round) % 32)) & 0xffff_ffff);
        while self.poll(round).is_none() {
            thread::yield_now();
        }
    }
}

/// Nanoseconds of a round.
fn race(layout: Layout, ranks: usize, rounds: usize) -> f64 {
    let slots = Row::open(layout, ranks * rounds);
    let world = World { ranks, failures: AtomicU64::new(0), slots, blocks: Row::open(layout, rounds) };
    let start = Barrier::new(ranks);
    let run = |rank| {
        start.wait();
        let begin = Instant::now();
        (0..rounds).for_each(|round| world.agree(rank, round));
        (begin, Instant::now())
    };
    let run = &run;
    let times: Vec<(Instant, Instant)> = thread::scope(|scope| {
        let threads: Vec<_> = (0..ranks).map(|rank| scope.spawn(move || run(rank))).collect();
        threads.into_iter().map(|it| it.join().unwrap()).collect()
    });
    let begin = times.iter().map(|it| it.0).min().unwrap();
    let end = times.iter().map(|it| it.1).max().unwrap();
    (end - begin).as_nanos() as f64 / rounds as f64
}

fn main() {
    let mut words = std::env::args().skip(1).map(|it| it.parse().expect("a number"));
    let (repeats, rounds) = (words.next().unwrap_or(101), words.next().unwrap_or(2000));
    for ranks in [2, 4, 8] {
        let mut times = [const { Vec::new() }; 3];
        for _ in 0..repeats {
            for (layout, of) in [Layout::Without, Layout::Beside, Layout::TwoRows].into_iter().zip(&mut times) {
                of.push(race(layout, ranks, rounds));
            }
        }
        for (name, of) in ["no wings", "wings beside", "two rows"].into_iter().zip(&mut times) {
            of.sort_by(f64::total_cmp);
            println!("{ranks} threads, {name}: median {:.0} ns a round, least {:.0}", of[of.len() / 2], of[0]);
        }
    }
}
