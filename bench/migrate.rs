// A native program of the work of `ulfm migrate`: it reads a call script of version 1 line by line, tests each line by the same grammar, and writes the
// script of version 2. Built by bench/migrate_bench.
use std::io::{self, BufRead, BufReader, BufWriter, Read, Write};

const LONGEST: usize = 64;
const LAST_LINE: u32 = 100_000;

/// A number of at most four digits, without leading zeros.
fn number(word: &[u8]) -> Option<u16> {
    if word.is_empty() || word.len() > 4 || word.len() > 1 && word[0] == b'0' {
        return None;
    }
    word.iter().try_fold(0u16, |n, digit| digit.is_ascii_digit().then(|| n * 10 + u16::from(digit - b'0')))
}

/// The words of a line behind its verb, split at single spaces.
fn words<const N: usize>(rest: Option<&[u8]>) -> Option<[&[u8]; N]> {
    let mut found = [&[][..]; N];
    let mut all = rest?.split(|&byte| byte == b' ');
    for word in &mut found {
        *word = all.next()?;
    }
    all.next().is_none().then_some(found)
}

fn rank(word: &[u8]) -> Result<u16, &'static str> {
    number(word).filter(|&n| n < 1024).ok_or("number")
}

fn comm(word: &[u8]) -> Result<u16, &'static str> {
    number(word).filter(|&n| n < 256).ok_or("number")
}

fn is_flag(word: &[u8]) -> bool {
    (word.len() == 8 || word.len() == 16) && word.iter().all(|byte| matches!(byte, b'0'..=b'9' | b'a'..=b'f'))
}

/// Writes what comes of one line.
fn migrate(line: &[u8], out: &mut impl Write) -> Result<(), &'static str> {
    let (verb, rest) = match memchr(b' ', line) {
        Some(at) => (&line[..at], Some(&line[at + 1..])),
        None => (line, None),
    };
    match verb {
        b"fail" => {
            let [r] = words(rest).ok_or("words")?;
            rank(r)?;
        }
        b"ack" => {
            let [r, c, n] = words(rest).ok_or("words")?;
            rank(r)?;
            comm(c)?;
            if number(n).ok_or("number")? >= 1024 {
                out.write_all(b"failure_ack ").and_then(|_| out.write_all(r)).and_then(|_| out.write_all(b" ")).map_err(|_| "write")?;
                return out.write_all(c).and_then(|_| out.write_all(b"\n")).map_err(|_| "write");
            }
        }
        b"agree" => {
            let [r, c, f] = words(rest).ok_or("words")?;
            rank(r)?;
            comm(c)?;
            if !is_flag(f) {
                return Err("flag");
            }
            if f.len() == 8 {
                out.write_all(&line[..line.len() - 8]).and_then(|_| out.write_all(b"00000000")).map_err(|_| "write")?;
                return out.write_all(f).and_then(|_| out.write_all(b"\n")).map_err(|_| "write");
            }
        }
        b"get" | b"shrink" | b"barrier" | b"poll" | b"revoke" | b"isrevoked" | b"free" => {
            let [r, c] = words(rest).ok_or("words")?;
            rank(r)?;
            comm(c)?;
        }
        _ => return Err("verb"),
    }
    out.write_all(line).and_then(|_| out.write_all(b"\n")).map_err(|_| "write")
}

fn memchr(byte: u8, line: &[u8]) -> Option<usize> {
    line.iter().position(|&it| it == byte)
}

fn header(line: &[u8], out: &mut impl Write) -> Result<(), &'static str> {
    let rest = line.strip_prefix(b"ulfm ").ok_or("header")?;
    let [version, ranks, comms, rounds] = words(Some(rest)).ok_or("header")?;
    let (ranks, comms, rounds) = (number(ranks).ok_or("header")?, number(comms).ok_or("header")?, number(rounds).ok_or("header")?);
    if version != b"1" {
        return Err("header");
    }
    let size = u32::from(ranks) + 2 * u32::from(comms) + 2 * u32::from(comms) * u32::from(rounds) * u32::from(ranks);
    if !(1..=1024).contains(&ranks) || !(1..=256).contains(&comms) || !(1..=4096).contains(&rounds) || size > 4_194_304 {
        return Err("limits");
    }
    writeln!(out, "ulfm 2 {ranks} {comms} {rounds}").map_err(|_| "write")
}

fn main() {
    let mut input = BufReader::with_capacity(8192, io::stdin().lock());
    let mut out = BufWriter::with_capacity(8192, io::stdout().lock());
    let mut line = Vec::with_capacity(LONGEST + 2);
    for at in 1u32.. {
        line.clear();
        let read = (&mut input).take(LONGEST as u64 + 2).read_until(b'\n', &mut line).unwrap_or(0);
        if read == 0 && at > 1 {
            break;
        }
        let fault = if line.last() != Some(&b'\n') {
            Err(if line.is_empty() { "header" } else if line.len() > LONGEST { "long" } else { "cut" })
        } else if line.len() > LONGEST + 1 {
            Err("long")
        } else if at > LAST_LINE {
            Err("lines")
        } else {
            line.pop();
            if at == 1 { header(&line, &mut out) } else { migrate(&line, &mut out) }
        };
        if let Err(kind) = fault {
            out.flush().ok();
            eprintln!("ulfm: line {at}: {kind}");
            std::process::exit(1);
        }
    }
    out.flush().ok();
}
