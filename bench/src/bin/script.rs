//! Writes a long mixed script, the same for the same seed: script LINES [SEED]

#![forbid(unsafe_code)]

use std::io::{self, BufWriter, Write};
use std::process::ExitCode;

use floor::generator;

fn write_script(lines: usize, seed: u64) -> io::Result<()> {
    let mut out = BufWriter::with_capacity(1 << 16, io::stdout().lock());
    generator::write_script(&mut out, lines, seed)?;
    out.flush()
}

fn main() -> ExitCode {
    let words: Vec<String> = std::env::args().skip(1).collect();
    let lines = words.first().and_then(|word| word.parse().ok());
    let seed = words.get(1).map_or(Some(1), |word| word.parse().ok());
    let (Some(lines), Some(seed), true) = (lines, seed, words.len() <= 2) else {
        eprintln!("usage: script LINES [SEED]");
        return ExitCode::from(2);
    };
    match write_script(lines, seed) {
        Ok(()) => ExitCode::SUCCESS,
        Err(error) => {
            eprintln!("script: {error}");
            ExitCode::FAILURE
        }
    }
}
