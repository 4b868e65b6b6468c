//! Spoils a script in a way that its seed says: spoil SEED < SCRIPT

#![forbid(unsafe_code)]

use std::io::{self, Read, Write};
use std::process::ExitCode;

use floor::spoiler::spoil;
use floor::xorshift::Xorshift;

fn main() -> ExitCode {
    let seed = std::env::args().nth(1).and_then(|word| word.parse().ok());
    let Some(seed) = seed else {
        eprintln!("usage: spoil SEED < SCRIPT");
        return ExitCode::from(2);
    };
    let mut script = Vec::new();
    let result = io::stdin().lock().read_to_end(&mut script).and_then(|_| {
        if script.len() > 100 {
            spoil(&mut script, &mut Xorshift::new(seed));
        }
        io::stdout().lock().write_all(&script)
    });
    match result {
        Ok(()) => ExitCode::SUCCESS,
        Err(error) => {
            eprintln!("spoil: {error}");
            ExitCode::FAILURE
        }
    }
}
