#!/usr/bin/env python3
"""Writes a native program with flags and context ids of 64 bits, from a source whose have 32: the judge of traces, its generator, or the race.

    bench/widen.py SOURCE.rs TARGET.rs      SOURCE is check_baseline.rs, gen.rs or race_baseline.rs

The words of a race of 64 bits have wings, as those of worlds have: each right behind its word, set before it and loaded after it.

Each text that is replaced must stand as often as is said here, so that another source isn't taken for one of these.
"""
import os
import sys

FLAG = """    #[inline] fn flag(&mut self, padded: bool) -> Option<u64> {
        let b = self.b;
        let n = b.iter().position(|&c| c == b' ').unwrap_or(b.len());
        if (n != 8 && n != 16) || b.len() == n + 1 { return None }
        let mut v = 0u64;
        for &c in &b[..n] { v = v << 4 | match c { b'0'..=b'9' => c - b'0', b'a'..=b'f' => c - b'a' + 10, _ => return None } as u64 }
        if n == 16 && !padded && v >> 32 == 0 { return None }
        self.b = &b[if b.len() == n { n } else { n + 1 }..];
        Some(v)
    }
"""
RACE_WINGS = """
    #[inline] fn slot_wing(&self, k: usize, r: usize) -> &AtomicU64 { &self.slot[2 * (k * self.n + r) * self.pad + 1] }
    #[inline] fn block_wing(&self, k: usize, i: usize) -> &AtomicU64 { &self.block[k * 4 + 2 * i + 1] }
    #[inline] fn set_wing(&self, wing: &AtomicU64, pay: u64) { let _ = wing.compare_exchange(0, 1 | pay >> 32 << 1, SeqCst, SeqCst); }
    #[inline] fn upper(&self, x: u64, k: usize, m: usize) -> u64 { if x >> 1 & 3 == 0 { 1 } else { self.slot_wing(k, m).load(SeqCst) } }
    #[inline] fn both(&self, k: usize, alone: bool, f: u64, g: u64) -> Sum {
        let s = meld(UNIT, f, self.block_wing(k, 0).load(SeqCst));
        if alone { s } else { meld(s, g, self.block_wing(k, 1).load(SeqCst)) }
    }"""
RACE_JOIN = """#[inline] fn join(a: Sum, b: Sum) -> Sum {
    meld(a, pack(b), 1 | b.pay >> 32 << 1)
}
"""
# Of each source: how often a text stands there, the text, and what is written in its place. What a flag is read by is cut out between two lines.
CHANGES = r"""
check_baseline.rs
  1 Flag(u32), Ctx(u32) ==> Flag(u64), Ctx(u64)
  1 arg: u32 ==> arg: u64
  1 free: Vec<u32> ==> free: Vec<u64>
  1 Ack => t.num(4, 9999)?, Agree => t.flag()? ==> Ack => t.num(4, 9999)? as u64, Agree => t.flag(true)?
  3 t.flag()? ==> t.flag(false)?
  1 Agreed(u32, u16, bool) ==> Agreed(u64, u16, bool)
  1 t.num(2, 31)? ==> t.num(2, 63)?
  1 n.min(cl.arg) as u16 ==> (n as u64).min(cl.arg) as u16
gen.rs
  1 tag: u8, pay: u32 ==> tag: u8, pay: u64
  1 vec![0u32; ranks] ==> vec![0u64; ranks]
  1 pay[r] = !(1u32 << g.below(32)); ==> pay[r] = !(1u32 << g.below(32)) as u64;
  1 u32::MAX << (c + 1) ==> u64::MAX << (c + 1)
race_baseline.rs
  1 payload: u32) -> u64 ==> payload: u64) -> u64
  1 (payload as u64) << 25 ==> (payload & 0xffff_ffff) << 25
  1 pay: u32 } ==> pay: u64 }
  1 fn meld(a: Sum, w: u64) -> Sum ==> fn meld(a: Sum, w: u64, wing: u64) -> Sum
  1 let pay = (w >> 25) as u32; ==> let pay = w >> 25 & 0xffff_ffff | wing >> 1 << 32;
  1 slot: zeroed(2 * rounds * n * pad), block: zeroed(4 * rounds) ==> slot: zeroed(4 * rounds * n * pad), block: zeroed(8 * rounds)
  1 &self.slot[(k * self.n + r) * self.pad] } ==> &self.slot[2 * (k * self.n + r) * self.pad] }<WINGS>
  1 &self.block[k * 2 + i] } ==> &self.block[k * 4 + 2 * i] }
  1 tag: u64, pay: u32) -> bool ==> tag: u64, pay: u64) -> bool
  1         w.slot(k, self.r).compare_exchange(0, contrib( ==>         w.set_wing(w.slot_wing(k, self.r), pay);\n        w.slot(k, self.r).compare_exchange(0, contrib(
  2 s = meld(s, x); ==> s = meld(s, x, w.upper(x, k, m));
  1 *acc = meld(*acc, x); ==> *acc = meld(*acc, x, w.upper(x, k, *at));
  1 return Some(Some(meld(meld(UNIT, f), g))) ==> return Some(Some(w.both(k, b == n, f, g)))
  1 let mut out = [f, g]; ==> let mut sums = [UNIT; 2];\n        let mut out = [f, g];
  1 if out[i] != 0 { continue } ==> if out[i] != 0 { sums[i] = meld(UNIT, out[i], w.block_wing(k, i).load(SeqCst)); continue }
  1             out[i] = pack(s);\n ==>             out[i] = pack(s);\n            sums[i] = s;\n            w.set_wing(w.block_wing(k, i), s.pay);\n
  1         if b == n { out[1] = out[0] }\n        Some(Some(meld(meld(UNIT, out[0]), out[1]))) ==>         Some(Some(if b == n { sums[0] } else { join(sums[0], sums[1]) }))
  1 #[inline] fn pack(s: Sum) -> u64 {\n ==> <JOIN>#[inline] fn pack(s: Sum) -> u64 {\n
  1 mx: Vec<Mutex<u32>> ==> mx: Vec<Mutex<u64>>
  1 (2, 0xffff_fffe) } else { (1, !(1u32 << ((r + round) % 32))) } ==> (2, !1) } else { (1, !(1u32 << ((r + round) % 32)) as u64) }
  1 fetch_and(pay as u64, Relaxed) ==> fetch_and(pay, Relaxed)
  2 pay: v as u32 } ==> pay: v & 0xffff_ffff }
  1 stamp | pay as u64 ==> stamp | pay & 0xffff_ffff
  1 acc &= d as u32; break ==> acc &= d & 0xffff_ffff; break
  1 (cur as u32 & pay) as u64 ==> (cur as u32 as u64 & pay)
  1 fold(!0u32, |a, r| a & !(1u32 << ((r + round) % 32))) ==> fold(!0u32, |a, r| a & !(1u32 << ((r + round) % 32))) as u64
  1 rec.contribute(&w, round, 1, !(1u32 << ((r + round) % 32))) ==> rec.contribute(&w, round, 1, !(1u32 << ((r + round) % 32)) as u64)
  1 wrapping_add(s.unwrap().unwrap().pay) ==> wrapping_add(s.unwrap().unwrap().pay as u32)
"""
BEGIN, END = "    #[inline] fn flag(&mut self) -> Option<u32> {\n", "    #[inline] fn lit("


def changes_of(name):
    """What is changed in a source of this name."""
    found, of = [], ""
    for line in CHANGES.strip().splitlines():
        if not line.startswith("  "):
            of = line
        elif of == name:
            count, texts = line.strip("\n")[2:].split(" ", 1)
            old, new = (it.replace("\\n", "\n") for it in texts.split(" ==> "))
            found.append((int(count), old, new.replace("<WINGS>", RACE_WINGS).replace("<JOIN>", RACE_JOIN)))
    return found


def widened(source):
    """The text of a source, with 64 bits."""
    name = os.path.basename(source)
    with open(source, encoding="utf-8") as it:
        text = it.read()
    changes = changes_of(name)
    if not changes:
        sys.exit(f"widen: there are no changes for {name}")
    for count, old, new in changes:
        if text.count(old) != count:
            sys.exit(f"widen: {name} has {text.count(old)} times, and not {count} times: {old}")
        text = text.replace(old, new)
    if BEGIN in text:
        before, _, rest = text.partition(BEGIN)
        text = before + FLAG + END + rest.partition(END)[2]
    return text


def widen(source, target):
    with open(target, "w", encoding="utf-8") as it:
        it.write(widened(source))
    return target


if __name__ == "__main__":
    if len(sys.argv) != 3:
        sys.exit("usage: bench/widen.py SOURCE.rs TARGET.rs")
    widen(*sys.argv[1:])
