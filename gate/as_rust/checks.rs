//! Judges traces, each with a line `=` behind it, by the judge of traces: a line for each.
#![allow(warnings)]
mod rstd;
mod ulfm_laws; mod ulfm_model; mod ulfm_numbers; mod ulfm_judge; mod ulfm_script; mod ulfm_lines; mod ulfm_observed; mod ulfm_graph; mod ulfm_study; mod ulfm_search;
use std::io::Read;
use rstd::alloc::Global;
fn verdict(text: &[u8]) -> String {
    use ulfm_script::{HeaderKind, read_header};
    let mut lines = text.split(|b| *b == b'\n');
    let Some(first) = lines.next() else { return "illegal line 1 text".into() };
    let Ok(limits) = read_header(HeaderKind::Trace, first) else { return "illegal line 1 text".into() };
    let mut judge: ulfm_judge::Judge<ulfm_laws::FlagAnd, Global> = ulfm_judge::Judge::open(Global, limits).unwrap();
    let mut group = rstd::Vec::new(Global);
    let rest: std::vec::Vec<&[u8]> = lines.collect();
    for (i, line) in rest.iter().enumerate() {
        if i + 1 == rest.len() { return if line.is_empty() { "legal".into() } else { format!("illegal line {} text", i + 2) }; }
        match ulfm_lines::read_line(line, &mut group).unwrap() {
            Some(told) => if let Some(why) = judge.take(&told, &group).unwrap() { return format!("illegal line {} {:?}", i + 2, why) },
            None => return format!("illegal line {} text", i + 2),
        }
    }
    "illegal".into()
}
fn main() {
    let mut text = std::vec::Vec::new();
    std::io::stdin().read_to_end(&mut text).unwrap();
    let text = String::from_utf8(text).unwrap();
    for one in text.split_terminator("=\n") { println!("{}", verdict(one.as_bytes())); }
}
