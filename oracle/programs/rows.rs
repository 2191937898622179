//! One joint's rows: document 01's cases, and the comparison of the oracle with the Rattle library
//! and with the second rendering.
//!
//!   rows cases                     document 01's cases
//!   rows catalogue                 the catalogue of joints, printed by the unchanged Rust
//!   rows catalogue-compare         one handed over on standard input, line by line against the Rust
//!   rows compare SEED COUNT        against the Rattle library (built with RATTLE_LIB)
//!   rows rendering SEED COUNT      against the second rendering
//!   rows fault NUMBER SEED COUNT   against the second rendering with one fault
//!   rows faults SEED COUNT         each fault in turn: how many studies show it
//!   rows momentum SEED COUNT       how far a step moves the exact momentum sum, beside R-13's bound

mod bits;
mod call;
mod cases;
mod catalogue;
mod draw;
mod fenced;
mod library;
mod momentum;
#[path = "../rendering.rs"]
mod rendering;
mod run;
mod studies;
mod tame;
mod wide;

use library::Library;
use std::process::exit;

#[cfg(rattle)]
const RATTLE: Option<Library> = Some(library::rattle);
#[cfg(not(rattle))]
const RATTLE: Option<Library> = None;

fn main() {
    let arguments: Vec<String> = std::env::args().skip(1).collect();
    let number = |i: usize, default: u64| match arguments.get(i) {
        None => default,
        Some(text) => text.parse().unwrap_or_else(|_| {
            eprintln!("rows: {text} is not a number");
            exit(2)
        }),
    };
    let count = 100_000;
    match arguments.first().map(String::as_str) {
        Some("cases") => cases::cases(),
        Some("catalogue") => catalogue::print(),
        Some("catalogue-compare") => catalogue::compare(),
        Some("compare") => match RATTLE {
            Some(rattle) => run::compare(rattle, number(1, 1), number(2, count)),
            None => {
                println!("built without RATTLE_LIB: nothing to compare with");
                exit(2)
            }
        },
        Some("rendering") => run::compare(library::rendered, number(1, 1), number(2, count)),
        Some("fault") => {
            let fault = number(1, 0);
            if fault > rendering::FAULTS.len() as u64 {
                eprintln!("rows: there are {} faults", rendering::FAULTS.len());
                exit(2)
            }
            rendering::carry(fault as u32);
            run::compare(library::rendered, number(2, 1), number(3, count))
        }
        Some("faults") => run::faults(number(1, 1), number(2, count)),
        Some("momentum") => momentum::measure(RATTLE, number(1, 1), number(2, 1_000_000)),
        _ => {
            eprintln!(
                "rows: cases | catalogue | catalogue-compare | compare SEED COUNT | rendering SEED COUNT | \
                 fault NUMBER SEED COUNT | faults SEED COUNT | momentum SEED COUNT"
            );
            exit(2)
        }
    }
}
