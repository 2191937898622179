//! The model of several joints in space (request R-14): its cases, and the comparison of the model over the published Rust with the Rattle library and
//! with the second rendering.
//!
//!   spatial_model cases                     the cases, by every side that is there
//!   spatial_model compare SEED CALLS        against the Rattle library (built with one)
//!   spatial_model has-library               whether it was built with one: the exit status
//!   spatial_model pairs SEED COUNT          two studies side by side, by the Rattle library or, without it, by the oracle
//!   spatial_model answers                   a fixed list of calls with the oracle's answers
//!   spatial_model replay < ANSWERS          the answers again, by each side that is there
//!   spatial_model bench                     the same work by the Rust and by the Rattle library, timed
//!   spatial_model rendering SEED CALLS      against the second rendering
//!   spatial_model fault NUMBER SEED CALLS   against the second rendering with one fault
//!   spatial_model faults SEED CALLS PAIRS   each fault in turn: how many calls show it, how many pairs

#[path = "spatial_model/answers.rs"]
mod answers;
#[cfg(rattle)]
#[path = "spatial_model/bench.rs"]
mod bench;
mod bits;
#[path = "spatial_model/cases.rs"]
mod cases;
mod draw;
#[cfg(rattle)]
mod fenced;
#[path = "spatial_model/generator.rs"]
mod generator;
#[path = "spatial_model/library.rs"]
mod library;
#[path = "spatial_model/pairs.rs"]
mod pairs;
#[path = "spatial_model/run.rs"]
mod run;
#[path = "../spatial_model.rs"]
mod spatial_model;
#[path = "../spatial_model_rendering.rs"]
mod spatial_model_rendering;
#[path = "../spatial_rendering.rs"]
mod spatial_rendering;
#[path = "spatial/studies.rs"]
mod studies;
mod tame;

use std::process::exit;

fn main() {
    let arguments: Vec<String> = std::env::args().skip(1).collect();
    let number = |i: usize, default: u64| match arguments.get(i) {
        None => default,
        Some(text) => text.parse().unwrap_or_else(|_| {
            eprintln!("spatial_model: {text} is not a number");
            exit(2)
        }),
    };
    let calls = 100_000;
    let (side, by) = match library::RATTLE {
        Some(rattle) => (rattle, "the Rattle library"),
        None => (library::ORACLE, "the oracle"),
    };
    match arguments.first().map(String::as_str) {
        Some("cases") => cases::cases(),
        Some("compare") => match library::RATTLE {
            Some(rattle) => run::compare(rattle, number(1, 1), number(2, calls)),
            None => {
                println!(
                    "built without a library that has the model in space: nothing to compare with"
                );
                exit(2)
            }
        },
        Some("has-library") => exit(library::RATTLE.is_none() as i32),
        Some("pairs") => pairs::pairs(side, by, number(1, 1), number(2, 10_000)),
        Some("answers") => answers::answers(),
        #[cfg(rattle)]
        Some("bench") => bench::bench(),
        Some("replay") => {
            let text = std::io::read_to_string(std::io::stdin()).unwrap();
            for (name, side) in library::sides() {
                let (agree, difference) = answers::replay(side, &text);
                if let Some(what) = difference {
                    println!("{what}, by {name}");
                    exit(1)
                }
                println!("{agree} lines in space agree by {name}");
            }
        }
        Some("rendering") => run::compare(library::RENDERING, number(1, 1), number(2, calls)),
        Some("fault") => {
            let fault = number(1, 0);
            if fault > spatial_model_rendering::FAULTS.len() as u64 {
                eprintln!(
                    "spatial_model: there are {} faults",
                    spatial_model_rendering::FAULTS.len()
                );
                exit(2)
            }
            spatial_model_rendering::carry(fault as u32);
            run::compare(library::RENDERING, number(2, 1), number(3, calls))
        }
        Some("faults") => run::faults(number(1, 1), number(2, calls), number(3, 1_000)),
        _ => {
            eprintln!(
                "spatial_model: cases | compare SEED CALLS | has-library | pairs SEED COUNT | answers | replay | bench | rendering SEED CALLS | \
                 fault NUMBER SEED CALLS | faults SEED CALLS PAIRS"
            );
            exit(2)
        }
    }
}
