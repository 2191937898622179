//! The model of several joints: document 01's cases, and the comparison of the model over the
//! published Rust with the Rattle library and with the second rendering.
//!
//!   model cases                     document 01's cases
//!   model compare SEED CALLS        against the Rattle library (built with RATTLE_LIB)
//!   model pairs SEED COUNT          two studies side by side, by the Rattle library or, without
//!                                   it, by the oracle
//!   model frames SEED COUNT         frames against the lists of calls that they are, by the same side
//!   model reactions SEED COUNT      how far bodies' momenta are from their joints' reactions
//!   model momentum SEED COUNT       how far a sweep moves the exact momentum sum, beside R-13's bound
//!   model seeded SEED COUNT         models drawn from seeds, by the library and by a second rendering, and a step on each
//!   model answers                   a fixed list of calls with the oracle's answers
//!   model replay < ANSWERS          the answers again, by each side that is there
//!   model leg                       what the leg in C, Rust and Python must print (examples/leg.expected), by the oracle
//!   model study PROGRAM FILE...     what the program study prints for each file, against the second reading of it
//!   model reading FILE...           what the second reading prints, the rules by their numbers alone
//!   model damaged PROGRAM SEED COUNT FILE...   the same for damaged copies of the files
//!   model bench [SEED...]           the same work by the Rust and by the Rattle library, timed
//!   model rendering SEED CALLS      against the second rendering
//!   model fault NUMBER SEED CALLS   against the second rendering with one fault
//!   model faults SEED CALLS PAIRS   each fault in turn: how many calls show it, how many pairs

#[path = "model/answers.rs"]
mod answers;
#[cfg(rattle)]
#[path = "model/bench.rs"]
mod bench;
mod bits;
#[path = "model/cases.rs"]
mod cases;
mod draw;
mod fenced;
#[path = "model/frames.rs"]
mod frames;
#[path = "model/generator.rs"]
mod generator;
#[path = "model/leg.rs"]
mod leg;
#[path = "model/library.rs"]
mod library;
#[path = "../model.rs"]
mod model;
#[path = "../model_rendering.rs"]
mod model_rendering;
#[path = "../motor_table_rendering.rs"]
mod motor_table_rendering;
#[path = "model/momentum.rs"]
mod momentum;
#[path = "model/pairs.rs"]
mod pairs;
#[path = "model/reactions.rs"]
mod reactions;
#[path = "../rendering.rs"]
mod rendering;
#[cfg(rattle)]
#[path = "model/seeded.rs"]
mod seeded;
#[cfg(rattle)]
#[path = "../seeded_rendering.rs"]
mod seeded_rendering;
#[path = "../sines.rs"]
mod sines;
#[path = "model/run.rs"]
mod run;
mod studies;
mod tame;
#[path = "model/study.rs"]
mod study;
#[path = "model/study_runs.rs"]
mod study_runs;
mod wide;

use std::process::exit;

fn main() {
    let arguments: Vec<String> = std::env::args().skip(1).collect();
    let number = |i: usize, default: u64| match arguments.get(i) {
        None => default,
        Some(text) => text.parse().unwrap_or_else(|_| {
            eprintln!("model: {text} is not a number");
            exit(2)
        }),
    };
    let calls = 100_000;
    let (side, by) = match library::RATTLE {
        Some(rattle) => (rattle, "the Rattle library"),
        None => (library::ORACLE, "the oracle"),
    };
    match arguments.first().map(String::as_str) {
        Some("cases") => cases::cases(),
        Some("compare") => match library::RATTLE {
            Some(rattle) => run::compare(rattle, number(1, 1), number(2, calls)),
            None => {
                println!("built without RATTLE_LIB: nothing to compare with");
                exit(2)
            }
        },
        Some("pairs") => pairs::pairs(side, by, number(1, 1), number(2, 10_000)),
        Some("frames") => frames::by_hands(side, by, number(1, 1), number(2, 10_000)),
        Some("reactions") => reactions::measure(number(1, 1), number(2, calls)),
        Some("momentum") => momentum::measure(number(1, 1), number(2, calls)),
        #[cfg(rattle)]
        Some("seeded") => seeded::compare(number(1, 1), number(2, calls)),
        Some("answers") => answers::answers(),
        Some("replay") => {
            let text = std::io::read_to_string(std::io::stdin()).unwrap();
            for (name, side) in library::sides() {
                let (agree, difference) = answers::replay(side, &text);
                if let Some(what) = difference {
                    println!("{what}, by {name}");
                    exit(1)
                }
                println!("{agree} lines agree by {name}");
            }
        }
        Some("leg") => leg::print(),
        Some("study") => study_runs::compare(&arguments[1..]),
        Some("reading") => study_runs::reading(&arguments[1..]),
        Some("damaged") => study_runs::damaged(
            &arguments[1],
            number(2, 1),
            number(3, 1000),
            &arguments[4..],
        ),
        #[cfg(rattle)]
        Some("bench") => {
            let seeds: Vec<u32> = (1..arguments.len())
                .map(|i| {
                    number(i, 0).try_into().unwrap_or_else(|_| {
                        eprintln!("model: a seed is at most 4294967295");
                        exit(2)
                    })
                })
                .collect();
            bench::bench(&seeds)
        }
        Some("rendering") => run::compare(library::RENDERING, number(1, 1), number(2, calls)),
        Some("fault") => {
            let fault = number(1, 0);
            if fault > model_rendering::FAULTS.len() as u64 {
                eprintln!("model: there are {} faults", model_rendering::FAULTS.len());
                exit(2)
            }
            model_rendering::carry(fault as u32);
            run::compare(library::RENDERING, number(2, 1), number(3, calls))
        }
        Some("faults") => run::faults(number(1, 1), number(2, calls), number(3, 1_000)),
        _ => {
            eprintln!(
                "model: cases | compare SEED CALLS | pairs SEED COUNT | frames SEED COUNT | reactions SEED COUNT | momentum SEED COUNT | seeded SEED COUNT | answers | replay | leg | bench [SEED...] | study PROGRAM FILE... | reading FILE... | damaged PROGRAM SEED COUNT FILE... | \
                 rendering SEED CALLS | fault NUMBER SEED CALLS | faults SEED CALLS PAIRS"
            );
            exit(2)
        }
    }
}
