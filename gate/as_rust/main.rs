#![allow(warnings)]
mod rstd;
mod ulfm_laws; mod ulfm_model; mod ulfm_numbers; mod ulfm_judge; mod ulfm_script; mod ulfm_lines; mod ulfm_observed; mod ulfm_graph; mod ulfm_study; mod ulfm_search;
use std::io::Read;
use ulfm_script::{LastGroup, RunFault};
use ulfm_search::{Answer, BUDGET, explain};
use rstd::alloc::Global;
fn main() {
    let mut text = std::vec::Vec::new();
    std::io::stdin().read_to_end(&mut text).unwrap();
    let text = String::from_utf8(text).unwrap();
    let witness = std::env::args().count() > 1;
    for one in text.split_terminator("=\n") {
        let got = std::panic::catch_unwind(|| {
            match explain(Global, one.as_bytes(), BUDGET) {
                Ok(Answer::Explained { limits, steps }) => {
                    println!("explained");
                    if witness {
                        let mut out = rstd::Vec::new(Global);
                        let mut last = LastGroup::new(Global);
                        ulfm_observed::print_witness(&mut out, &mut last, limits, &steps).unwrap();
                        print!("{}", String::from_utf8_lossy(&out));
                    }
                }
                Ok(Answer::Nothing { why, .. }) => print!("{}", String::from_utf8_lossy(&why)),
                Ok(Answer::Unknown) => print!("unknown: the search was given up\n"),
                Err(RunFault::Line { number, kind }) => println!("line {number} {kind}"),
                Err(_) => println!("memory"),
            }
        });
        if got.is_err() { println!("PANIC"); }
        println!("=");
    }
}
