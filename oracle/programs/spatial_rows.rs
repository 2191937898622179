//! One joint's rows in space (request R-14): its cases, and the comparison of the oracle with the Rattle library and with the second rendering.
//!
//!   spatial_rows cases                     the cases, by the oracle and by the second rendering
//!   spatial_rows catalogue                 the rows of all legal mask choices, printed by the unchanged Rust
//!   spatial_rows compare SEED COUNT        against the Rattle library (built with one)
//!   spatial_rows has-library               whether it was built with one: the exit status
//!   spatial_rows rendering SEED COUNT      against the second rendering
//!   spatial_rows derivative SEED COUNT     against the Rust with its own body of the derivative: how much differs
//!   spatial_rows fault NUMBER SEED COUNT   against the second rendering with one fault
//!   spatial_rows faults SEED COUNT         each fault in turn: how many studies show it

mod bits;
mod call;
#[path = "spatial/cases.rs"]
mod cases;
mod draw;
#[cfg(rattle)]
mod fenced;
#[path = "spatial/library.rs"]
mod library;
#[path = "spatial/run.rs"]
mod run;
#[path = "../spatial_rendering.rs"]
mod spatial_rendering;
#[path = "spatial/studies.rs"]
mod studies;
mod tame;

use library::Library;
use std::process::exit;

#[cfg(rattle)]
const RATTLE: Option<Library> = Some(library::rattle);
#[cfg(not(rattle))]
const RATTLE: Option<Library> = None;

fn main() {
    let arguments: Vec<String> = std::env::args().skip(1).collect();
    let number = |i: usize, default: u64| match arguments.get(i) {
        None => default,
        Some(text) => text.parse().unwrap_or_else(|_| {
            eprintln!("spatial_rows: {text} is not a number");
            exit(2)
        }),
    };
    let count = 100_000;
    match arguments.first().map(String::as_str) {
        Some("cases") => cases::cases(RATTLE),
        Some("catalogue") => cases::catalogue(),
        Some("compare") => match RATTLE {
            Some(rattle) => run::compare(rattle, number(1, 1), number(2, count)),
            None => {
                println!(
                    "built without a library that has the rows in space: nothing to compare with"
                );
                exit(2)
            }
        },
        Some("has-library") => exit(RATTLE.is_none() as i32),
        Some("rendering") => run::compare(library::rendered, number(1, 1), number(2, count)),
        Some("derivative") => run::own_derivative(number(1, 1), number(2, count)),
        Some("fault") => {
            let fault = number(1, 0);
            if fault > spatial_rendering::FAULTS.len() as u64 {
                eprintln!(
                    "spatial_rows: there are {} faults",
                    spatial_rendering::FAULTS.len()
                );
                exit(2)
            }
            spatial_rendering::carry(fault as u32);
            run::compare(library::rendered, number(2, 1), number(3, count))
        }
        Some("faults") => run::faults(number(1, 1), number(2, count)),
        _ => {
            eprintln!(
                "spatial_rows: cases | catalogue | compare SEED COUNT | has-library | rendering SEED COUNT | derivative SEED COUNT | \
                 fault NUMBER SEED COUNT | faults SEED COUNT"
            );
            exit(2)
        }
    }
}
