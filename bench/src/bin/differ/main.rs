//! The differential test: the proved library against this crate's version of document 01, on random inputs.
//!
//! differ [SEED [FACTOR]]: four parts, packets, lists of events on a lent floor, lists of calls on one lent AP, and scripts. The
//! same SEED gives the same inputs, FACTOR multiplies how many there are; both are 1 if not given. After each call the whole
//! result, the whole record and the whole buffer are compared. The first difference of a part is printed with the seed and the
//! shortest list found that still shows it. At the end stands what was met: how often each answer, and the marks that the
//! inputs were to reach. Ends with 1 if there was a difference or if a part never met an answer or a mark that it is to meet.

#![forbid(unsafe_code)]

mod edits;
mod floors;
mod packets;
mod points;
mod scripts;
mod shortest;
mod stations;
mod tally;

use std::process::ExitCode;
use std::time::Instant;

use floor::xorshift::Xorshift;
use tally::Tally;

/// The random numbers of one list: by the seed of the run, the part and the list's number.
fn numbers(seed: u64, part: u64, list: u64) -> Xorshift {
    Xorshift::new(
        seed.wrapping_mul(0x2545_f491_4f6c_dd1d)
            .wrapping_add(part << 56)
            .wrapping_add(list),
    )
}

fn main() -> ExitCode {
    let words: Vec<String> = std::env::args().skip(1).collect();
    let number = |at: usize| words.get(at).map_or(Some(1), |word| word.parse().ok());
    let (Some(seed), Some(factor), true) = (number(0), number(1), words.len() <= 2) else {
        eprintln!("usage: differ [SEED [FACTOR]]");
        return ExitCode::from(2);
    };
    let began = Instant::now();
    println!("seed {seed}, factor {factor}");
    let parts: [fn(u64, u64) -> Tally; 5] = [
        packets::read,
        packets::write,
        floors::compare,
        points::compare,
        scripts::compare,
    ];
    let mut good = true;
    for part in parts {
        let began = Instant::now();
        let tally = part(seed, factor);
        good &= tally.report(began.elapsed());
    }
    println!("{:.1} s in all", began.elapsed().as_secs_f64());
    if good {
        println!("no difference");
        ExitCode::SUCCESS
    } else {
        println!("NOT GOOD: see above");
        ExitCode::FAILURE
    }
}
