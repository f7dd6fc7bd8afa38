//! The recovery of recovery.c in Rust: four ranks work, rank 3 dies, and the others recover, each in a thread of its own.
mod ulfm;
use std::thread;
use ulfm::{Agreed, Code, Rank};

const WORLD: u16 = 0;
const DIES: u16 = 3;

/// What a survivor saw: the agree that met the failure, who has failed, the agree behind the acknowledgement, the new
/// communicator with its size, and an agree on it.
type Seen = (Agreed, Vec<u16>, Agreed, (u16, u16), Agreed);

fn recover(rank: &mut Rank, flag: u64) -> Result<Seen, Code> {
    let met = rank.agree(WORLD, flag)?;
    let failed = rank.failed(WORLD)?;
    rank.acknowledge(WORLD, failed.len() as u16)?;
    let settled = rank.agree(WORLD, flag)?;
    rank.revoke(WORLD)?;
    let made = rank.shrink(WORLD)?;
    rank.barrier(made.0)?;
    let last = rank.agree(made.0, flag)?;
    rank.free(made.0)?;
    Ok((met, failed, settled, made, last))
}

/// A rank's work; rank 3 stops behind its first agree.
fn work(rank: &mut Rank, number: u16) -> Result<Option<Seen>, Code> {
    let flag = 15 & !(1 << number);
    rank.agree(WORLD, flag)?;
    if number == DIES { Ok(None) } else { recover(rank, flag).map(Some) }
}

fn main() -> Result<(), Code> {
    let (mut outside, ranks) = ulfm::open(4, 2, 4)?;
    let threads: Vec<_> = (0..).zip(ranks).map(|(number, mut rank)| thread::spawn(move || work(&mut rank, number))).collect();
    // The detector: it waits for the ends of threads, the last rank's first, and declares those that didn't finish.
    let mut ends = Vec::new();
    for (number, thread) in (0u16..).zip(threads).collect::<Vec<_>>().into_iter().rev() {
        let end = thread.join().unwrap_or(Ok(None));
        if end == Ok(None) {
            println!("rank {number} is declared: {}", outside.fail(number)?);
        }
        ends.push((number, end));
    }
    for (number, end) in ends.into_iter().rev() {
        match end {
            Ok(Some((met, failed, settled, made, last))) => {
                println!("rank {number}: {met:?}, failed {failed:?}, {settled:?}, shrunk to {made:?}, {last:?}")
            }
            Ok(None) => println!("rank {number} died"),
            Err(code) => println!("rank {number}: {code}"),
        }
    }
    Ok(())
}
