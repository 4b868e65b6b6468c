//! The benchmark: the proved library beside this crate's version, in one process and on the same inputs.
//!
//! measure [ROUNDS [LINES]]: prints the tables of docs/BENCHMARKS.md. Each figure is the best of ROUNDS rounds (100 if not given); in
//! each round all sides are timed, one after the other. LINES is the length of the scripts, a million if not given; they have a
//! twentieth of the rounds.
//!
//! What is timed is a block of calls between two readings of the clock. Before each block the record is put back to what it was,
//! outside the timed part. Before anything is timed the calls run once on both sides, and answers and records are compared.

#![forbid(unsafe_code)]

mod events;
mod packets;
mod points;
mod scripts;
mod timing;

use std::process::ExitCode;

fn main() -> ExitCode {
    let words: Vec<String> = std::env::args().skip(1).collect();
    let number = |at: usize, usual: usize| {
        words
            .get(at)
            .map_or(Some(usual), |word| word.parse().ok())
            .filter(|&number| number > 0)
    };
    let (Some(rounds), Some(lines), true) =
        (number(0, 100), number(1, 1_000_000), words.len() <= 2)
    else {
        eprintln!("usage: measure [ROUNDS [LINES]]");
        return ExitCode::from(2);
    };
    packets::measure(rounds);
    points::measure(rounds);
    events::measure(rounds);
    match scripts::measure(rounds, lines) {
        Ok(()) => ExitCode::SUCCESS,
        Err(error) => {
            eprintln!("measure: {error}");
            ExitCode::FAILURE
        }
    }
}
